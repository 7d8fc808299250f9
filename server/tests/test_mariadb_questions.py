"""What clients ask beside rows and branches, asked of a store and of a MariaDB: constants, variables, settings, SHOW,
information_schema, names of any bytes, and how many parameters a text has."""
import re
import struct
import subprocess
import unittest

from mariadb import mariadb
from support import HERE, PATIENCE, Case, wait_for
from test_java import CLASSPATH, compiled
from wire import CAN, Client

MULTI = 0x10000
# The same answer, whole: columns with their types, rows, numbers, and texts of refusals.
SAME = """
SELECT 1
SELECT 'a', NULL, 1.50, -7, TRUE, 2147483648 AS great, 'x' 'y'
SELECT 1 + 1, 2 * 3, 7 - 9, 1 = 1, 'a' = 'A ', NULL = 1, NULL IS NULL, NOT 1, 1 AND 0, 1 OR NULL
SELECT IF(1, 2, 3), IF(0, 'a', 2), CONCAT('a', 1), UPPER('x'), LOWER('X'), LENGTH('abc'), COALESCE(NULL, 1)
SELECT SUBSTRING('hello', 2, 3), LOCATE('l', 'hello'), LEAST(2, 1), GREATEST('a', 'b'), NULLIF(1, 1) IS NULL
SELECT 'a' LIKE 'A%', 1 IN (1, 2), 1 NOT IN (2, 3), 2 BETWEEN 1 AND 2, 'ab' NOT LIKE 'a'
SELECT CASE 1 WHEN 1 THEN 'one' ELSE 'two' END x, CASE WHEN 1 = 2 THEN 1 END
SELECT 'a' b UNION SELECT 'a' UNION SELECT 'c'
SELECT 1 AS ` a`, 2 AS 'b c', 3 `d``e`
SELECT 1 FROM DUAL WHERE 1 = 0
SELECT 1 LIMIT 0
SELECT COUNT(*)
SELECT DATABASE(), SCHEMA()
SELECT @a
SET @a = 1
SELECT @a, @A, @`a`, @'a'
SET @a = 2, @b = @a, @c := 'text', @d = 1.5, @e = NULL
SELECT @a, @b, @c, @d, @e
SELECT @@autocommit, @@session.autocommit
SET innodb_lock_wait_timeout = 3
SELECT @@innodb_lock_wait_timeout, @@session.innodb_lock_wait_timeout
SHOW VARIABLES LIKE 'innodb_lock_wait%'
SET SESSION wait_timeout = 77, net_read_timeout = DEFAULT
SHOW VARIABLES WHERE Variable_name = 'wait_timeout' OR Variable_name = 'net_read_timeout'
SELECT @@wait_timeout
SET sql_mode = 'STRICT_TRANS_TABLES'
SET sql_mode = CONCAT(@@sql_mode, ',STRICT_TRANS_TABLES')
SELECT @@sql_mode
SET sql_mode = (SELECT CONCAT(@@sql_mode, ',NO_ENGINE_SUBSTITUTION'))
SELECT @@sql_mode
SET foreign_key_checks = OFF
SHOW VARIABLES LIKE 'foreign_key_checks'
SET foreign_key_checks = 'ON'
SHOW VARIABLES LIKE 'autocommit'
SET SESSION TRANSACTION ISOLATION LEVEL READ COMMITTED
SELECT @@tx_isolation
SET NAMES latin1
SET NAMES utf8mb4
SELECT @@character_set_client, @@character_set_results, @@collation_connection
SET none = 1
SELECT @@none
SELECT @@session.none
SET version = 'x'
SET wait_timeout = 'abc'
SET wait_timeout = 1.5
SET autocommit = 2
SET autocommit = 'x'
DO 1
DO 1, 'a', @a
DO none
SELECT none
SELECT 1 FROM DUAL WHERE none = 1
SELECT 1 ORDER BY 2
SELECT COUNT(*) FROM information_schema.none
SELECT none FROM information_schema.tables
SELECT x.table_name FROM information_schema.tables t
CREATE TABLE m (k VARCHAR(9) PRIMARY KEY, n INT NOT NULL DEFAULT 7, d DECIMAL(8,2), b VARBINARY(9), s SMALLINT UNSIGNED)
SELECT TABLE_NAME tn, TABLE_TYPE FROM information_schema.tables t WHERE t.TABLE_SCHEMA = 'any'
select column_name, data_type, is_nullable from information_schema.COLUMNS where table_schema = 'any' order by 1
SELECT COLUMN_NAME, COLUMN_DEFAULT, ORDINAL_POSITION, CHARACTER_MAXIMUM_LENGTH, NUMERIC_SCALE, COLUMN_TYPE, COLUMN_KEY \
FROM information_schema.COLUMNS WHERE TABLE_NAME = 'm' AND TABLE_SCHEMA = DATABASE() \
ORDER BY ORDINAL_POSITION DESC LIMIT 3
SELECT COUNT(*), COUNT(COLUMN_DEFAULT) FROM information_schema.columns WHERE table_name = 'm' AND table_schema = 'any'
SELECT A.COLUMN_NAME, B.INDEX_NAME FROM information_schema.COLUMNS A, information_schema.STATISTICS B \
WHERE A.TABLE_SCHEMA = 'any' AND B.TABLE_SCHEMA = 'any' AND A.TABLE_NAME = B.TABLE_NAME AND \
A.COLUMN_NAME = B.COLUMN_NAME
SELECT CONSTRAINT_NAME, COLUMN_NAME, REFERENCED_TABLE_NAME FROM information_schema.KEY_COLUMN_USAGE \
WHERE TABLE_SCHEMA = 'any' AND TABLE_NAME = 'm'
SELECT TABLE_NAME, VIEW_DEFINITION FROM information_schema.VIEWS WHERE TABLE_SCHEMA = 'any'
SHOW DATABASES LIKE 'any'
SHOW DATABASES WHERE `Database` = 'any'
SHOW TABLES
SHOW FULL TABLES FROM `any` LIKE 'm%'
SHOW COLUMNS FROM m
SHOW COLUMNS FROM m FROM `any` LIKE 'n'
SHOW FULL COLUMNS FROM m WHERE Field = 'b'
SHOW INDEX FROM m
SHOW KEYS FROM m FROM `any`
SHOW INDEX FROM none
SHOW COLLATION LIKE 'utf8mb4_general_ci'
SHOW CHARACTER SET LIKE 'utf8mb4'
SHOW WARNINGS
KILL 999999999
KILL QUERY 999999999
KILL 'a'
KILL CONNECTION 999999999
DROP TABLE m
"""
# Of these MariaDB has more columns or rows, or others: only what kind of answer it is, and a refusal's number.
ALIKE = """
SHOW PROCESSLIST
SHOW DATABASES
SHOW VARIABLES
SHOW STATUS
SHOW GLOBAL STATUS LIKE 'Uptime'
SHOW ENGINES
SHOW PLUGINS
SHOW TABLE STATUS FROM `any`
SHOW MASTER STATUS
SELECT VERSION(), USER(), CONNECTION_ID(), @@version_comment, LAST_INSERT_ID()
SELECT SCHEMA_NAME FROM information_schema.SCHEMATA ORDER BY 1
SELECT ID, INFO FROM information_schema.PROCESSLIST
SELECT VERSION(), @@sql_mode, @@default_storage_engine, @@sql_auto_is_null, @@lower_case_table_names, \
CONVERT_TZ('2001-01-01 01:00:00', 'UTC', 'UTC') IS NOT NULL
SELECT @@max_allowed_packet, @@system_time_zone, @@time_zone, @@auto_increment_increment
"""
PREPARED = ("SHOW TABLES FROM `any` WHERE Tables_in_any = ?", "SHOW VARIABLES WHERE Variable_name = ?", "DO ?",
            "SELECT ?", "SET @a = ?", "KILL ?", "SELECT @a, ?", "SELECT 1 FROM DUAL WHERE 1 = ?", "SET autocommit = ?",
            "SELECT 1", "BEGIN", "SELECT DATABASE()", "COMMIT", "XA RECOVER",
            "SELECT COUNT(*) FROM information_schema.tables WHERE table_name = ? AND table_schema = ?")
# Names, in backquotes: of a table, a column, a savepoint, and of what is asked for.
NAMES = ("a b", "a'b", 'a"b', "a``b", "a.b", "a\\b", "ä", "日本", "a ", "a\t", " a", "x" * 40, "x" * 65, "1", "1a", "",
         "-", "%", "select", "\U0001f600", "A", "a;b", "a--b", "?", "@a", b"a\xff")
NAMED = ("CREATE TABLE `{}` (k INT PRIMARY KEY, v VARCHAR(5))", "INSERT INTO `{}` VALUES (1, 'x')",
         "SELECT * FROM `{}`", "SELECT `{}`.v AS x FROM `{}`", "CREATE TABLE `{}` (k INT PRIMARY KEY)",
         "SHOW COLUMNS FROM `{}`", "DROP TABLE `{}`", "CREATE TABLE other (`{}` INT PRIMARY KEY, v VARCHAR(5))",
         "INSERT INTO other (`{}`, v) VALUES (1, 'x')", "SELECT `{}` FROM other", "SELECT v AS `{}` FROM other",
         "UPDATE other SET v = 'y' WHERE `{}` = 1", "DROP TABLE IF EXISTS other", "SAVEPOINT `{}`",
         "ROLLBACK TO `{}`", "SELECT 1 AS `{}`", "DROP TABLE IF EXISTS `{}`")


def lines(text):
    return [line for line in text.replace("\\\n", "").split("\n") if line]


def described(answer):
    if answer.kind == "error":
        return answer.number, answer.sqlstate, answer.text if answer.number != 1064 else ""
    return answer.kind, answer.affected, answer.columns, answer.rows


class Questions(Case):
    def setUp(self):
        super().setUp()
        self.server = self.serve()
        self.port = self.ends.enter_context(mariadb())
        with Client(self.port) as client:
            self.ok(client, "CREATE DATABASE `any` CHARACTER SET utf8mb4")
        self.pair = [self.ends.enter_context(Client(port)) for port in (self.server.port, self.port)]
        for client in self.pair:
            self.ok(client, "USE `any`")

    def test_the_same(self):
        for text in lines(SAME):
            with self.subTest(text):
                ours, theirs = [described(client.ask(text)) for client in self.pair]
                self.assertEqual(ours, theirs)

    def test_alike(self):
        for text in lines(ALIKE):
            with self.subTest(text):
                ours, theirs = [client.ask(text) for client in self.pair]
                self.assertEqual((ours.kind, ours.number), (theirs.kind, theirs.number), (ours, theirs))
                # What the server says of itself is text: of names that both have, the types are the same.
                types = [{name: kinds for name, *kinds in it.columns} for it in (ours, theirs)]
                shared = set(types[0]) & set(types[1])
                self.assertTrue(shared)
                self.assertEqual(*[{name: it[name] for name in shared} for it in types])

    def test_names(self):
        for name in NAMES:
            for form in NAMED:
                text = form.encode().replace(b"{}", name if isinstance(name, bytes) else name.encode())
                with self.subTest(text):
                    ours, theirs = [described(client.ask(text)) for client in self.pair]
                    self.assertEqual(ours, theirs)

    def test_prepared(self):
        for text in PREPARED:
            with self.subTest(text):
                ours, theirs = [client.prepare(text) for client in self.pair]
                self.assertEqual(ours[1:], theirs[1:])
        for text in ("USE ?", "SAVEPOINT ?", "SET NAMES ?"):
            self.assertEqual([client.prepare(text).kind for client in self.pair], ["error"] * 2, text)
        for text, values in (("SELECT ?", (b"it's",)), ("SET @a = ?", (b"bound",)), ("SELECT @a", ()), ("DO ?", (7,)),
                             ("SHOW VARIABLES WHERE Variable_name = ?", (b"autocommit",))):
            answers = [client.execute(client.prepare(text)[0], *values) for client in self.pair]
            self.assertEqual(*[(it.kind, it.rows) for it in answers], text)

    def test_metadata(self):
        """The questions of java.sql.DatabaseMetaData by MariaDB's connector."""
        classes = f"{CLASSPATH}:{compiled()}"
        said = []
        for port in (self.server.port, self.port):
            ran = subprocess.run(["java", "-cp", classes, "Metadata", str(port)], stdout=subprocess.PIPE,
                                 stderr=subprocess.STDOUT, text=True, timeout=300)
            self.assertEqual(ran.returncode, 0, ran.stdout)
            said.append(ran.stdout)
        self.assertEqual(*said)
        self.assertIn("any | null | account | id | 1 | PRIMARY |", said[0])


class Connections(Case):
    """Other connections, several statements in one text, and clients that compress."""

    def setUp(self):
        super().setUp()
        self.server = self.serve()
        self.one, self.two = self.client(self.server), self.client(self.server)

    def number(self, client):
        return int(client.ask("SELECT CONNECTION_ID()").rows[0][0])

    def test_processes(self):
        self.ok(self.two, "USE db")
        number = self.number(self.two)

        def shown():
            row = next(row for row in self.one.ask("SHOW PROCESSLIST").rows if int(row[0]) == number)
            return row[1], row[3], row[4], row[7]

        # A client may have its answer before the server has noted that the command is over.
        wait_for(lambda: shown() == (b"root", b"db", b"Sleep", None), "a client that sleeps")
        own = next(row for row in self.one.ask("SHOW FULL PROCESSLIST").rows if int(row[0]) == self.number(self.one))
        self.assertEqual((own[4], own[7]), (b"Query", b"SHOW FULL PROCESSLIST"))
        answer = self.one.command(b"\x0a")
        self.assertEqual((answer.kind, len(answer.rows)), ("table", 2))

    def test_kill(self):
        """Whoever is killed is gone, with its branch; who kills itself hears so first."""
        self.ok(self.two, "XA START 'a'", "PUT 'k','v'")
        self.refused(self.one, "PUT 'k','w'", 3572, "HY000")
        self.ok(self.one, f"KILL QUERY {self.number(self.two)}", "DO 1")
        self.ok(self.two, "PUT 'k','x'")
        self.ok(self.one, f"KILL {self.number(self.two)}")
        self.assertTrue(self.two.is_closed())
        wait_for(lambda: self.one.ask("PUT 'k','w'").kind == "ok", "the branch's end")
        with self.server.client() as three:
            number = self.number(three)
            self.assertEqual(self.one.command(b"\x0c" + struct.pack("<I", number)).kind, "ok")
            self.assertTrue(three.is_closed())
        # (it is listed until its thread has seen its end)
        wait_for(lambda: self.one.ask(f"KILL {number}").number == 1094, "the end of a connection")
        self.refused(self.one, "KILL CONNECTION_ID()", 1317, "70100")
        self.assertTrue(self.one.is_closed())
        self.assertEqual(self.server.verdicts(), ["LEGAL"])

    def with_account(self):
        """A server whose clients log in with a password, and the file that has it."""
        secret = self.server.folder / "secret"
        secret.write_text("secret\n")
        return self.serve("--user", "root", "--password-file", secret)

    def test_shutdown(self):
        """Only a client with a password ends a server."""
        self.refused(self.one, "SHUTDOWN", 1227, "42000")
        self.assertEqual(self.one.command(b"\x08\0").number, 1227)
        server = self.with_account()
        one, two = (self.ends.enter_context(Client(server.port, b"root", b"secret")) for _ in range(2))
        self.ok(two, "XA START 'a'", "PUT 'k','v'")
        self.ok(one, "SHUTDOWN")
        self.assertEqual(server.ended(), 0)
        self.assertEqual(server.verdicts(), ["LEGAL"])

    def several(self, client, text):
        """The answers to the statements of one text."""
        client.send(b"\x03" + text.encode())
        answers = [client.read(client.packet())]
        while answers[-1].kind != "error" and answers[-1].status & 8:
            answers.append(client.read(client.packet()))
        return [it.number or it.rows or it.kind for it in answers]

    def test_several_statements(self):
        text = "PUT 'k','a;b'; /* ; */ GET 'k' ; SELECT ';' -- ;\n; XA START 'a'; XA END 'a';XA ROLLBACK 'a';"
        self.refused(self.one, text, 1064, "42000")
        client = self.ends.enter_context(Client(self.server.port, log_in=False))
        client.scramble = client.greeted()
        packet = client.login_packet(b"root", b"", b"mysql_native_password")
        client.send(struct.pack("<I", CAN | MULTI) + packet[4:], 1)
        client.read(client.packet())
        self.assertEqual(self.several(client, text), ["ok", [(b"a;b",)], [(b";",)], "ok", "ok", "ok"])
        self.assertEqual(self.several(client, "PUT 'k','b'; NONSENSE; PUT 'k','c'"), ["ok", 1064])
        self.assertEqual(self.several(client, "GET 'k'"), [[(b"b",)]])
        client.send(b"\x1b\x01\0")
        self.assertEqual(client.packet()[0], 0xFE)
        self.refused(client, "GET 'k'; GET 'k'", 1064, "42000")
        self.assertEqual(self.server.verdicts(), ["LEGAL"])

    def test_compression(self):
        """Who would compress is refused at its login, and doesn't hang."""
        for driver in ("pdo", "mysqli"):
            ran = subprocess.run(["php", HERE / "clients" / "compressed.php", driver, str(self.server.port)],
                                 stdout=subprocess.PIPE, stderr=subprocess.STDOUT, text=True, timeout=PATIENCE)
            self.assertRegex(ran.stdout, "^1043 .*takes no compression")

    def test_values_as_texts(self):
        for words, charset in (((), 63), (("--text-values",), 45)):
            client = self.client(self.serve(*words))
            self.ok(client, "PUT 'k','v'")
            self.assertEqual(client.ask("GET 'k'").columns, [("value", 253, charset)])

    def test_administration(self):
        """mariadb-admin's questions, and those of a client's status."""
        server = self.with_account()
        for words, said in ((["ping"], "is alive"), (["processlist"], "show processlist"), (["status"], "Uptime"),
                            (["kill", "99"], "Unknown thread id: 99"), (["shutdown"], "")):
            ran = subprocess.run(["mariadb-admin", "--no-defaults", "--host=127.0.0.1", f"--port={server.port}",
                                  "--user=root", "--password=secret", *words], stdout=subprocess.PIPE,
                                 stderr=subprocess.STDOUT, text=True, timeout=PATIENCE)
            self.assertIn(said, ran.stdout)
        self.assertEqual(server.ended(), 0)

    def test_status_of_a_client(self):
        """What mycli's status reads of SHOW STATUS and SHOW VARIABLES."""
        status = dict(self.one.ask("SHOW GLOBAL STATUS;").rows)
        variables = dict(self.one.ask("SHOW GLOBAL VARIABLES;").rows)
        for name in (b"Uptime", b"Threads_connected", b"Queries", b"Slow_queries", b"Opened_tables", b"Flush_commands",
                     b"Open_tables"):
            self.assertRegex(status[name], rb"\A\d+\Z")
        self.assertEqual((variables[b"protocol_version"], variables[b"autocommit"]), (b"10", b"ON"))
        self.assertTrue(re.match(rb"\d+\.\d+", variables[b"version"]))


if __name__ == "__main__":
    unittest.main()
