# A cycle by DBD::mysql or DBD::MariaDB; prints what `test_clients` expects.
use strict;
use warnings;
use DBI;

my ($driver, $port) = @ARGV;
my $address = $driver eq "mysql" ? "DBI:mysql:database=db;host=127.0.0.1;port=$port"
    : "DBI:MariaDB:database=db;host=127.0.0.1;port=$port";
my $db = DBI->connect($address, "root", "", { RaiseError => 1, PrintError => 0, AutoCommit => 1 });
my $xid = "X'6700','b',7";
$db->do("XA START $xid");
$db->do("PUT 'k',X'000a27ff5c'");
$db->do("XA $_ $xid") for qw(END PREPARE);
my ($number, $gtrid, $bqual, $data) = $db->selectrow_array("XA RECOVER");
print "listed $number $gtrid $bqual ", unpack("H*", $data), "\n";
$db->do("XA COMMIT $xid");
my ($value) = $db->selectrow_array("GET 'k'");
print "value ", unpack("H*", $value), "\n";
for my $text ("XA END 'none'", "NONSENSE") {
    eval { $db->do($text); 1 } or print "refused ", $db->err, "\n";
}
$db->begin_work;
$db->do("PUT 'l','local'");
$db->commit;
($value) = $db->selectrow_array("GET 'l'");
print "local ", unpack("H*", $value), "\n";
my $put = $db->prepare("PUT ?,?", $driver eq "mysql" ? { mysql_server_prepare => 1 } : { mariadb_server_prepare => 1 });
$put->execute("p", "p\n'");
my $get = $db->prepare("GET ?", $driver eq "mysql" ? { mysql_server_prepare => 1 } : { mariadb_server_prepare => 1 });
$get->execute("p");
($value) = $get->fetchrow_array;
print "prepared ", unpack("H*", $value), "\n";
$get->finish;
my @pool = map { DBI->connect($address, "root", "", { RaiseError => 1, PrintError => 0, AutoCommit => 1 }) } 1 .. 30;
for my $number (0 .. 29) {
    $pool[$number]->do($_)
        for "XA START 'p$number'", "PUT 'row $number','$number'", "XA END 'p$number'", "XA PREPARE 'p$number'";
}
print "thirty ", scalar @{ $pool[0]->selectall_arrayref("XA RECOVER") }, "\n";
$pool[$_]->do("XA COMMIT 'p" . (29 - $_) . "'") for 0 .. 29;
$_->disconnect for @pool;
$db->disconnect;
