<?php
// A cycle by mysqli; prints what `test_clients` expects.
mysqli_report(MYSQLI_REPORT_ERROR | MYSQLI_REPORT_STRICT);
$db = new mysqli("127.0.0.1", "root", "", "db", (int) $argv[1]);
$db->set_charset("utf8mb4");
$xid = "X'6700','b',7";
$db->query("XA START $xid");
$db->query("PUT 'k','" . $db->real_escape_string("\0\n'\xff\\") . "'");
foreach (["END", "PREPARE"] as $verb) {
    $db->query("XA $verb $xid");
}
$row = $db->query("XA RECOVER")->fetch_row();
echo "listed $row[0] $row[1] $row[2] ", bin2hex($row[3]), "\n";
$db->query("XA COMMIT $xid");
echo "value ", bin2hex($db->query("GET 'k'")->fetch_row()[0]), "\n";
foreach (["XA END 'none'", "NONSENSE"] as $text) {
    try {
        $db->query($text);
    } catch (mysqli_sql_exception $refused) {
        echo "refused ", $refused->getCode(), "\n";
    }
}
$db->begin_transaction(MYSQLI_TRANS_START_READ_WRITE);
$db->query("PUT 'l','local'");
$db->commit();
echo "local ", bin2hex($db->query("GET 'l'")->fetch_row()[0]), "\n";
$put = $db->prepare("PUT ?,?");
[$key, $value] = ["p", "p\n'"];
$put->bind_param("ss", $key, $value);
$put->execute();
$get = $db->prepare("GET ?");
$get->bind_param("s", $key);
$get->execute();
echo "prepared ", bin2hex($get->get_result()->fetch_row()[0]), "\n";
$db->change_user("root", "", "db");
$db->close();
for ($number = 0; $number < 30; $number++) {
    $pool[] = new mysqli("127.0.0.1", "root", "", "db", (int) $argv[1]);
    foreach (["XA START 'p$number'", "PUT 'row $number','$number'", "XA END 'p$number'",
            "XA PREPARE 'p$number'"] as $text) {
        $pool[$number]->query($text);
    }
}
echo "thirty ", $pool[0]->query("XA RECOVER")->num_rows, "\n";
foreach ($pool as $number => $each) {
    $each->query("XA COMMIT 'p" . (29 - $number) . "'");
}
