<?php
// A cycle by PDO, with statements that the server prepares; prints what `test_clients` expects.
$db = new PDO("mysql:host=127.0.0.1;port=$argv[1];dbname=db;charset=utf8mb4", "root", "",
    [PDO::ATTR_ERRMODE => PDO::ERRMODE_EXCEPTION]);
$xid = "X'6700','b',7";
$db->exec("XA START $xid");
$db->exec("PUT 'k'," . $db->quote("\0\n'\xff\\"));
foreach (["END", "PREPARE"] as $verb) {
    $db->exec("XA $verb $xid");
}
$row = $db->query("XA RECOVER")->fetch(PDO::FETCH_NUM);
echo "listed $row[0] $row[1] $row[2] ", bin2hex($row[3]), "\n";
$db->exec("XA COMMIT $xid");
echo "value ", bin2hex($db->query("GET 'k'")->fetchColumn()), "\n";
foreach (["XA END 'none'", "NONSENSE"] as $text) {
    try {
        $db->exec($text);
    } catch (PDOException $refused) {
        echo "refused ", $refused->errorInfo[1], "\n";
    }
}
$db->beginTransaction();
$db->exec("PUT 'l','local'");
$db->commit();
echo "local ", bin2hex($db->query("GET 'l'")->fetchColumn()), "\n";
$db->setAttribute(PDO::ATTR_EMULATE_PREPARES, false);
$db->prepare("PUT ?,?")->execute(["p", "p\n'"]);
$get = $db->prepare("GET ?");
$get->execute(["p"]);
echo "prepared ", bin2hex($get->fetchColumn()), "\n";
for ($number = 0; $number < 30; $number++) {
    $pool[] = new PDO("mysql:host=127.0.0.1;port=$argv[1];dbname=db", "root", "",
        [PDO::ATTR_ERRMODE => PDO::ERRMODE_EXCEPTION]);
    foreach (["XA START 'p$number'", "PUT 'row $number','$number'", "XA END 'p$number'",
            "XA PREPARE 'p$number'"] as $text) {
        $pool[$number]->exec($text);
    }
}
echo "thirty ", count($pool[0]->query("XA RECOVER")->fetchAll()), "\n";
foreach ($pool as $number => $each) {
    $each->exec("XA COMMIT 'p" . (29 - $number) . "'");
}
