<?php
// compressed.php DRIVER PORT: connects with compression, and prints why that is refused.
[, $driver, $port] = $argv;
try {
    if ($driver === "pdo") {
        new PDO("mysql:host=127.0.0.1;port=$port;dbname=any", "root", "", [PDO::MYSQL_ATTR_COMPRESS => true]);
    } else {
        mysqli_init()->real_connect("127.0.0.1", "root", "", "any", (int) $port, null, MYSQLI_CLIENT_COMPRESS);
    }
    print "connected\n";
} catch (PDOException $refused) {
    print preg_replace('/.*\[(\d+)\]/', '$1', $refused->getMessage()) . "\n";
} catch (mysqli_sql_exception $refused) {
    print $refused->getCode() . " " . $refused->getMessage() . "\n";
}
