"""Tables of SQL: a MariaDB is asked the same, and has to answer the same; locks, threads, and texts that nobody
means."""
import random
import threading
import unittest

from mariadb import mariadb
from support import LONG, SEED, Case, wait_for
from wire import Client

# The forms that tools send, literally, in an order in which they work.
SENT = """
CREATE TABLE sat ( k VARCHAR(64) NOT NULL, v VARCHAR(64), PRIMARY KEY (k) )
create table kv (k varchar(64) not null, v varchar(64), primary key (k)) ENGINE=InnoDB
CREATE TABLE IF NOT EXISTS `pwkv` (`k` VARCHAR(64) NOT NULL PRIMARY KEY, `v` VARCHAR(64))
CREATE TABLE IF NOT EXISTS `pwkv` (`k` VARCHAR(64) NOT NULL PRIMARY KEY, `v` VARCHAR(64))
CREATE TABLE account (id VARCHAR(20) PRIMARY KEY, balance INT NOT NULL)
create table kv (k varchar(64) not null, v varchar(64), primary key (k)) ENGINE=InnoDB
INSERT INTO sat (k, v) VALUES ('a', '1'),('b', '1')
INSERT INTO sat (k, v) VALUES ('c', '1'),('b', '1')
insert into kv (v, k) values ('1', 'a')
INSERT INTO kv (k, v) VALUES ('b','3') ON DUPLICATE KEY UPDATE `v`=VALUES(`v`)
INSERT INTO `kv` (`k`, `v`) VALUES ('a','3') ON DUPLICATE KEY UPDATE `v`=VALUES(`v`)
INSERT INTO `kv` (`k`, `v`) VALUES ('a','3') ON DUPLICATE KEY UPDATE `v`=VALUES(`v`)
REPLACE INTO `pwkv` (`k`, `v`) VALUES ('a', '3')
REPLACE INTO `pwkv` (`k`, `v`) VALUES ('a', '3')
REPLACE INTO `pwkv` (`k`, `v`) VALUES ('a', '4'), ('b', '4')
INSERT IGNORE INTO `pwkv` (`k`, `v`) VALUES ('a', '5'), ('c', '5')
SELECT sat.k AS sat_k, sat.v AS sat_v FROM sat WHERE sat.k = 'a' FOR UPDATE
SELECT sat.k AS sat_k, sat.v AS sat_v FROM sat WHERE sat.k = 'a'
select kv0_.k as k0_0_, kv0_.v as v0_0_ from kv kv0_ where kv0_.k='a'
select kv0_.k as k0_0_, kv0_.v as v0_0_ from kv kv0_ where kv0_.k='a' for update
SELECT K, V FROM kv WHERE (K = 'a')
SELECT K, V FROM kv WHERE (K = 'a') FOR UPDATE
SELECT t0.v FROM kv t0 WHERE t0.k = 'a'
SELECT t0.v FROM kv t0 WHERE t0.k = 'none'
SELECT `kv`.`k`, `kv`.`v` FROM `kv` WHERE `kv`.`k` = 'a' LIMIT 21
SELECT (1) AS `a` FROM `kv` WHERE `kv`.`k` = 'a' LIMIT 1
SELECT NULL AS `nil` FROM `kv` LIMIT 1
select null, k FROM kv
SELECT 9223372036854775807, 9223372036854775808, 18446744073709551615, 18446744073709551616, -9223372036854775808
SELECT * FROM `kv` WHERE (k = 'a') ORDER BY `kv`.`k` ASC LIMIT 1
SELECT me.k, me.v FROM kv me WHERE ( me.k = 'a' )
SELECT * FROM kv LOCK IN SHARE MODE
SELECT * FROM kv ORDER BY k DESC
SELECT * FROM kv ORDER BY k LIMIT 1 OFFSET 1
UPDATE sat SET v='2' WHERE sat.k = 'a'
UPDATE sat SET v='2' WHERE sat.k = 'a'
update kv set v='9' where k='a'
INSERT INTO account (id, balance) VALUES ('alice', 100), ('bob', 0)
UPDATE account SET balance = balance - 10 WHERE id = 'alice'
UPDATE account SET balance = balance + 10 WHERE id = 'bob'
UPDATE account SET balance = balance - 10 WHERE id = 'bob' AND balance >= 20
UPDATE account SET balance = balance - 10 WHERE id = 'alice' AND balance >= 10
SELECT SUM(balance) FROM account
select count(kv0_.k) as c from kv kv0_ limit 2
SELECT COUNT(*) FROM kv
SELECT COUNT(K) FROM kv
SELECT count(*) AS count_1 FROM (SELECT kv.k AS kv_k FROM kv WHERE kv.k = 'a') AS anon_1
SELECT COUNT(1) FROM (SELECT 1 FROM `kv` AS `t1`) AS `_wrapped`
SELECT COUNT(*) FROM (SELECT k FROM kv LIMIT 1) x
DELETE FROM kv WHERE (K = 'b')
DELETE FROM kv WHERE k IN ('b')
DELETE FROM kv WHERE k IN ('a','b')
DELETE t0 FROM pwkv t0
DELETE FROM sat
SELECT COUNT(*) FROM sat
SELECT SUM(balance) FROM account WHERE id = 'nobody'
SELECT COUNT(*) FROM information_schema.tables WHERE table_schema = 'any' AND table_name = 'sat'
SELECT COUNT(*) FROM information_schema.tables WHERE table_schema = 'any' AND table_name = 'none'
SELECT column_name, ordinal_position, column_default, is_nullable, data_type, column_type, column_key, extra FROM \
information_schema.columns WHERE table_schema = 'any' AND table_name = 'account'
SHOW TABLES LIKE 'k%'
SHOW TABLES FROM `any` WHERE `Tables_in_any` = 'kv'
SHOW FULL TABLES
SHOW TABLES
DESCRIBE kv
SHOW COLUMNS FROM account
START TRANSACTION
SAVEPOINT x
INSERT INTO kv (k, v) VALUES ('s', '1')
SAVEPOINT y
UPDATE kv SET v = '2' WHERE k = 's'
ROLLBACK TO SAVEPOINT y
SELECT * FROM kv
RELEASE SAVEPOINT y
ROLLBACK TO SAVEPOINT y
ROLLBACK TO x
SELECT * FROM kv
RELEASE SAVEPOINT none
COMMIT
SAVEPOINT x
ROLLBACK TO SAVEPOINT x
TRUNCATE TABLE account
SELECT * FROM account
DROP TABLE kv
drop table if exists kv
DROP TABLE kv
DROP TABLE sat
DROP TABLE pwkv
SHOW TABLES
DROP TABLE account
"""
# What is refused, each by MariaDB's number and text, and what a refused statement leaves.
REFUSED = """
CREATE TABLE u (id INT PRIMARY KEY, v VARCHAR(5) NOT NULL, b VARBINARY(8), t TEXT, bt TINYINT(1), ui INT UNSIGNED \
DEFAULT 0, bg BIGINT, c CHAR(4), UNIQUES INT, more INT)
CREATE TABLE u (id INT PRIMARY KEY, v VARCHAR(5) NOT NULL, b VARBINARY(8), t TEXT, bt TINYINT(1), ui INT UNSIGNED \
DEFAULT 0, bg BIGINT, c CHAR(4))
CREATE TABLE m (k VARCHAR(10) PRIMARY KEY, d DECIMAL(6,2), s SMALLINT DEFAULT 7, n VARCHAR(4) DEFAULT 'x', f BINARY(3))
SELECT id,v,b,t,bt,ui,bg,c,1,(1) AS a FROM u
SELECT * FROM m
INSERT INTO u (id) VALUES (1)
INSERT INTO u (id,v) VALUES (1)
INSERT INTO u VALUES (1, 2)
INSERT INTO u (id,v) VALUES ('1','x'),(2,NULL)
INSERT INTO u (id,v,ui) VALUES (1,'abcde   ',-1)
INSERT INTO u (id,v,ui) VALUES (1,'abcde   ','1.5')
INSERT INTO u (id,v,bg) VALUES (2,'abcdef',1)
INSERT INTO u (id,v,b,c) VALUES (2,'x',0xff00, 'a  ')
INSERT INTO u (id,v,bg) VALUES (3,'x',9223372036854775807)
INSERT INTO u (id,v,bg) VALUES (4,'x',9223372036854775808)
INSERT INTO u (id,v,bg) VALUES (4,'x','abc')
INSERT INTO u (id,v,bg) VALUES (4,'x','12abc')
INSERT INTO u (id,v,bg) VALUES (4,'x',''), (5, 'toolong', 1)
INSERT INTO u (id,v,bt) VALUES (4,'x',TRUE), (5,'y',FALSE)
INSERT INTO u (id,v,bt) VALUES (6,'x',128)
INSERT INTO u (id,v,id) VALUES (6,'x',128)
INSERT INTO u (id,v,zz) VALUES (6,'x',128)
INSERT INTO zz (id,v) VALUES (6,'x')
INSERT INTO u (v) VALUES ('x')
INSERT INTO u (id,v) VALUES (NULL,'x')
INSERT INTO u (id,v) VALUES (DEFAULT,'x')
INSERT INTO u (id,v,ui) VALUES (7,'x',DEFAULT)
INSERT INTO u (id,v) VALUES (3,'q') ON DUPLICATE KEY UPDATE zz=1
INSERT INTO u (id,v) VALUES (3,'q') ON DUPLICATE KEY UPDATE v=VALUES(zz)
INSERT INTO u (id,v) VALUES (3,'q') ON DUPLICATE KEY UPDATE v='toolong'
INSERT INTO u (id,v) VALUES (3,'q') ON DUPLICATE KEY UPDATE ui=ui+5, v=VALUES(v)
UPDATE u SET bg=bg+1 WHERE id=3
UPDATE u SET bg=bg-1, ui=ui+1 WHERE id=3
UPDATE u SET bg=bg-1, ui=bg+0 WHERE id=3
UPDATE u SET v=NULL WHERE id=3
UPDATE u SET v='xxxxxxx'
UPDATE u SET zz=1
UPDATE u SET v='a' WHERE zz=1
UPDATE u SET ui=zz+1
UPDATE zz SET v=1
UPDATE u SET ui=ui-50 WHERE id=3
UPDATE u SET bt=bt+1
UPDATE u SET bt=bt+127
UPDATE u SET c='y  ' WHERE id>=3
UPDATE u SET t=NULL
SELECT * FROM u
SELECT * FROM u WHERE id='2'
SELECT * FROM u WHERE id=2.0
SELECT * FROM u WHERE id=2.5
SELECT * FROM u WHERE id=NULL
SELECT * FROM u WHERE id IS NULL
SELECT id FROM u WHERE b IS NOT NULL
SELECT id FROM u WHERE v = 'X '
SELECT id FROM u WHERE v <> 'x' AND (id > 1)
SELECT id FROM u WHERE id IN (1, 3, 3, NULL) AND v != 'y' ORDER BY id DESC
SELECT id FROM u WHERE id <= 4 AND id >= 2 AND id < 4
SELECT SUM(bg), SUM(ui), sum( id ), COUNT(b), count(1) AS c FROM u
SELECT SUM(bg) FROM u WHERE id = 99
SELECT zz FROM u
SELECT x.id FROM u
SELECT u.id FROM u x
SELECT x.* FROM u
SELECT x.*, x.id AS other FROM u x LIMIT 1
SELECT * FROM u WHERE zz=1
SELECT * FROM u WHERE x.id=1
SELECT * FROM u ORDER BY zz
SELECT * FROM zz
SELECT id FROM u LIMIT 0
SELECT id FROM u LIMIT 1, 2
SELECT COUNT(*) FROM u LIMIT 0
SELECT id, v AS t FROM u ORDER BY t DESC, id
SELECT id, c FROM u ORDER BY c, ui DESC, u.id DESC
SELECT id, bg FROM u x ORDER BY x.bg DESC, x.id LIMIT 3
SELECT id FROM u ORDER BY v, b, id DESC LIMIT 1 OFFSET 1
SELECT id FROM u ORDER BY u.zz
SELECT COUNT(*) FROM u ORDER BY v
DELETE FROM u WHERE zz=1
DELETE FROM zz
DELETE t0 FROM u t0 WHERE t0.id=2
DELETE FROM u WHERE id=77
DESCRIBE zz
DESCRIBE u
DESCRIBE m
DROP TABLE zz
TRUNCATE zz
CREATE TABLE bad (a TEXT PRIMARY KEY)
CREATE TABLE bad (a INT, PRIMARY KEY (b))
CREATE TABLE bad (a INT, a INT, PRIMARY KEY (a))
CREATE TABLE bad (a INT PRIMARY KEY, b INT NOT NULL DEFAULT NULL)
CREATE TABLE bad (a INT PRIMARY KEY, b INT DEFAULT 'x')
CREATE TABLE bad (a DECIMAL(5,6) PRIMARY KEY)
CREATE TABLE bad (a INT PRIMARY KEY, b INT, PRIMARY KEY (b))
INSERT INTO m (k) VALUES ('a')
INSERT INTO m VALUES ('b', 1.005, 32767, NULL, 'ab'), ('B', 1, 1, 1, 1)
INSERT INTO m VALUES ('b', 1.005, 32767, NULL, 'ab'), ('c', -1.5, -32768, 12.5, 'abc')
INSERT INTO m (k, d) VALUES ('d', 10000)
INSERT INTO m (k, d) VALUES ('d', '9999.995')
INSERT INTO m (k, d) VALUES ('d', 'x')
INSERT INTO m (k, s) VALUES ('d', 32768)
INSERT INTO m (k, f) VALUES ('d', 'abcd')
UPDATE m SET d = d + 0.1, s = s - 1
UPDATE m SET d = d + 0.10 WHERE k = 'B'
UPDATE m SET d = d - '0.25' WHERE k = 'b'
SELECT * FROM m
SELECT * FROM m WHERE d > 1 AND d <= '1.2'
SELECT SUM(d), SUM(s) FROM m
INSERT INTO m (k) VALUES ('A')
INSERT INTO m (k) VALUES ('a  ')
INSERT INTO m (k) VALUES ('_'), ('Zz'), ('z')
SELECT k FROM m ORDER BY k
UPDATE m SET n = 'NEW' WHERE k = 'ZZ'
SELECT * FROM m WHERE k = 'zZ'
SET SESSION TRANSACTION READ ONLY
INSERT INTO m (k) VALUES ('r')
CREATE TABLE r (a INT PRIMARY KEY)
SET SESSION TRANSACTION READ WRITE
XA START 'a'
INSERT INTO m (k) VALUES ('in')
SAVEPOINT s
INSERT INTO m (k) VALUES ('in2'), ('a')
INSERT INTO m (k) VALUES ('in3')
SELECT k FROM m
ROLLBACK TO s
SELECT k FROM m
CREATE TABLE r (a INT PRIMARY KEY)
DROP TABLE m
TRUNCATE m
XA END 'a'
SELECT k FROM m
INSERT INTO m (k) VALUES ('in4')
SELECT k FROM zz
SAVEPOINT s
XA ROLLBACK 'a'
SELECT k FROM m
SET autocommit=0
SAVEPOINT a
INSERT INTO m (k) VALUES ('30')
SAVEPOINT b
INSERT INTO m (k) VALUES ('31')
ROLLBACK TO a
SELECT k FROM m
ROLLBACK TO b
RELEASE SAVEPOINT a
RELEASE SAVEPOINT a
INSERT INTO m (k) VALUES ('32')
SAVEPOINT `A b`
ROLLBACK TO `a B`
CREATE TABLE IF NOT EXISTS u (a INT PRIMARY KEY)
ROLLBACK
SELECT k FROM m
SET autocommit=1
DROP TABLE u
DROP TABLE m
"""
# Rows that are given numbers, and tables without a primary key.
NUMBERED = """
CREATE TABLE bad (id VARCHAR(9) AUTO_INCREMENT PRIMARY KEY)
CREATE TABLE bad (id DECIMAL(9,2) AUTO_INCREMENT PRIMARY KEY)
CREATE TABLE bad (id INT AUTO_INCREMENT, v INT PRIMARY KEY)
CREATE TABLE bad (id INT AUTO_INCREMENT PRIMARY KEY, v INT AUTO_INCREMENT)
CREATE TABLE bad (id INT AUTO_INCREMENT)
CREATE TABLE bad (id INT DEFAULT 3 AUTO_INCREMENT PRIMARY KEY)
CREATE TABLE n (`id` int(11) NOT NULL AUTO_INCREMENT, v VARCHAR(9) DEFAULT 'x', PRIMARY KEY (`id`)) \
ENGINE=InnoDB AUTO_INCREMENT=7 DEFAULT CHARSET=utf8mb4
SELECT LAST_INSERT_ID()
INSERT INTO n (v) VALUES ('a'), ('b'), ('c')
SELECT LAST_INSERT_ID()
INSERT INTO n () VALUES ()
INSERT INTO n VALUES (), ()
INSERT INTO n VALUES (NULL, 'd'), (0, 'e'), ('0', 'f'), (DEFAULT, 'g')
SELECT LAST_INSERT_ID() AS id
INSERT INTO n VALUES (100, 'h'), (NULL, 'i'), (50, 'j'), (NULL, 'k')
SELECT * FROM n
SELECT last_insert_id() + 1, LAST_INSERT_ID() = 101
INSERT INTO n VALUES (200, 'l'), (300, 'm')
SELECT LAST_INSERT_ID()
INSERT INTO n VALUES (NULL, 'too long for it')
INSERT INTO n VALUES (NULL, 'ok'), (7, 'twice')
SELECT LAST_INSERT_ID()
SHOW CREATE TABLE n
INSERT IGNORE INTO n VALUES (7, 'p'), (NULL, 'q')
INSERT IGNORE INTO n VALUES (7, 'p')
INSERT INTO n VALUES (7, 'r') ON DUPLICATE KEY UPDATE v = 'r'
INSERT INTO n VALUES (NULL, 's') ON DUPLICATE KEY UPDATE v = 's'
REPLACE INTO n VALUES (7, 't'), (NULL, 'u')
REPLACE INTO n (v) VALUES ('v')
SELECT LAST_INSERT_ID()
BEGIN
INSERT INTO n (v) VALUES ('gone')
ROLLBACK
INSERT INTO n (v) VALUES ('w')
INSERT INTO n VALUES (-5, 'x')
SELECT * FROM n
SELECT id, v FROM n WHERE id = 7
DESCRIBE n
SHOW FULL COLUMNS FROM n
SHOW CREATE TABLE n
DELETE FROM n
INSERT INTO n (v) VALUES ('y')
TRUNCATE n
SHOW CREATE TABLE n
INSERT INTO n (v) VALUES ('z')
SELECT * FROM n
SET sql_mode = 'STRICT_TRANS_TABLES,NO_AUTO_VALUE_ON_ZERO'
INSERT INTO n VALUES (0, 'zero')
SET sql_mode = 'STRICT_TRANS_TABLES'
SELECT * FROM n
CREATE TABLE small (id TINYINT KEY AUTO_INCREMENT)
INSERT INTO small VALUES (126)
INSERT INTO small VALUES (), ()
INSERT INTO small VALUES ()
SHOW CREATE TABLE small
DELETE FROM small
INSERT INTO small VALUES (127), (NULL)
INSERT INTO small VALUES (127)
INSERT INTO small VALUES (NULL)
SELECT * FROM small
CREATE TABLE big (id BIGINT AUTO_INCREMENT PRIMARY KEY, v INT)
INSERT INTO big (v) VALUES (1)
INSERT INTO big VALUES (4294967296, 2)
INSERT INTO big (v) VALUES (3)
SELECT * FROM big
CREATE TABLE h (a INT, b VARCHAR(9) NOT NULL DEFAULT 'x', c INT, d INT, e INT, f INT, g INT, h VARCHAR(5))
INSERT INTO h (a) VALUES (3), (1), (1)
INSERT INTO h VALUES (NULL, 'b', NULL, NULL, NULL, NULL, NULL, NULL)
INSERT INTO h (a, a) VALUES (1, 1)
INSERT INTO h VALUES (1)
INSERT INTO h (a, h) VALUES (9, 'toolong')
INSERT INTO h () VALUES ()
SELECT LAST_INSERT_ID()
SELECT * FROM h
SELECT a, h.b FROM h WHERE a = 1
SELECT `` FROM h
SELECT COUNT(*), SUM(a) FROM h
UPDATE h SET a = a + 1 WHERE a = 1
UPDATE h SET h = 'last' WHERE b = 'b'
DELETE FROM h WHERE a = 2
REPLACE INTO h (a) VALUES (3)
INSERT IGNORE INTO h (a) VALUES (3)
INSERT INTO h (a) VALUES (3) ON DUPLICATE KEY UPDATE a = 5
SELECT * FROM h
SELECT * FROM h LIMIT 2 OFFSET 1
DESCRIBE h
SHOW CREATE TABLE h
SHOW INDEX FROM h
SELECT COUNT(*) FROM information_schema.columns WHERE table_name = 'h'
SELECT COUNT(*) FROM information_schema.key_column_usage WHERE table_name = 'h'
SELECT COUNT(*) FROM information_schema.table_constraints WHERE table_name = 'h'
SELECT COUNT(*) FROM information_schema.statistics WHERE table_name = 'h'
SELECT column_name, extra, column_key FROM information_schema.columns WHERE table_name = 'n'
TRUNCATE h
SELECT * FROM h
DROP TABLE h
DROP TABLE big
DROP TABLE small
DROP TABLE n
"""
# Questions and settings, whose words random texts are made of, too.
ASKED = """
SELECT CASE a WHEN 1 THEN IF ( 1 , 'x' , NULL ) ELSE SUBSTRING ( 'abc' , -2 , 9 ) END , @a , @@sql_mode FROM DUAL
SELECT COUNT( * ) , TABLE_NAME x FROM information_schema.TABLES A , information_schema.COLUMNS B WHERE A.TABLE_NAME = \
B.TABLE_NAME AND ( 1 OR NOT NULL ) ORDER BY x DESC , 2 LIMIT 3
SELECT 1 UNION ALL SELECT 2 UNION SELECT LEAST( 1 , 2.5 ) * 9223372036854775807
SELECT a LIKE '%' , 2 BETWEEN 1 AND 3 , 1 NOT IN ( 2 , 3 ) , CAST( 'x' AS SIGNED ) , CONVERT( 1 , UNSIGNED )
SHOW FULL COLUMNS FROM kv FROM `any` WHERE Field = 'k'
SHOW INDEX FROM kv
SHOW GLOBAL VARIABLES LIKE 'a%'
SHOW PROCESSLIST
SET @a = 1 + 1 , SESSION wait_timeout = DEFAULT , NAMES utf8 COLLATE utf8_bin
SET SESSION TRANSACTION ISOLATION LEVEL SERIALIZABLE , READ WRITE
DO 1 , @a
PUT 'k' , 'v'
GET 'k'
XA START 'x' , 'y' , 1
XA END 'x' , 'y' , 1
XA ROLLBACK 'x' , 'y' , 1
XA RECOVER FORMAT = 'SQL'
"""
# Not of these: MariaDB has one more column, or more to say of a state.
OURS = ("CREATE TABLE u (id INT PRIMARY KEY, v VARCHAR(5) NOT NULL, b VARBINARY(8), t TEXT, bt TINYINT(1), ui INT "
        "UNSIGNED DEFAULT 0, bg BIGINT, c CHAR(4), UNIQUES INT, more INT)")


def lines(text):
    return [line for line in text.replace("\\\n", "").split("\n") if line]


def described(answer, with_text=True):
    """What the two have to have in common of an answer; a state is described in other words."""
    if answer.kind == "error":
        return answer.number, answer.sqlstate, answer.text if with_text and answer.number != 1399 else ""
    return answer.kind, answer.affected, answer.given, answer.columns, answer.rows


class Agreement(Case):
    """Both servers, with the same tables."""

    def setUp(self):
        super().setUp()
        self.server = self.serve(record=False)
        self.port = self.ends.enter_context(mariadb())
        with Client(self.port) as client:
            self.ok(client, "CREATE DATABASE `any` CHARACTER SET utf8mb4")

    def pair(self):
        """A client of each, in the same mood."""
        pair = [self.ends.enter_context(Client(port)) for port in (self.server.port, self.port)]
        for client in pair:
            self.ok(client, "USE `any`", "SET SESSION TRANSACTION ISOLATION LEVEL SERIALIZABLE")
        return pair

    def same(self, pair, text, note=""):
        ours, theirs = [client.ask(text) for client in pair]
        self.assertEqual(described(ours), described(theirs), f"{note}{text}\nours: {ours}\ntheirs: {theirs}")
        return theirs

    def test_what_tools_send(self):
        pair = self.pair()
        for text in lines(SENT):
            with self.subTest(text):
                self.same(pair, text)

    def test_what_is_refused(self):
        pair = self.pair()
        for text in lines(REFUSED):
            if text == OURS:
                self.refused(pair[0], text, 1235, "42000")
                continue
            with self.subTest(text):
                self.same(pair, text)

    def test_numbers_and_tables_without_a_key(self):
        pair = self.pair()
        for text in lines(NUMBERED):
            with self.subTest(text):
                self.same(pair, text)

    def test_random_numbers(self):
        """INSERTs of rows with numbers, without, and with some, drawn from a seed: which each row has, and what is
        told of them."""
        draw = random.Random(SEED)
        for program in range(30 if LONG else 6):
            pair = self.pair()
            kind = draw.choice(("SMALLINT", "SMALLINT UNSIGNED", "INT", "BIGINT"))
            first = draw.choice(("", " AUTO_INCREMENT=3", " AUTO_INCREMENT = 90"))
            self.same(pair, "DROP TABLE IF EXISTS n")
            self.same(pair, f"CREATE TABLE n (id {kind} AUTO_INCREMENT PRIMARY KEY, v INT NOT NULL){first}")
            for step in range(40):
                note = f"program {program}, step {step}, {kind}: "
                ids = [draw.choice(("NULL", "0", "DEFAULT", "NULL", str(draw.randint(1, 120))))
                       for _ in range(draw.randint(1, 5))]
                values = ", ".join(f"({one}, {draw.randint(0, 3)})" for one in ids)
                word, end = draw.choice((("INSERT", ""), ("INSERT", ""), ("REPLACE", ""), ("INSERT IGNORE", ""),
                                         ("INSERT", " ON DUPLICATE KEY UPDATE v = v + 1"),
                                         ("INSERT", " ON DUPLICATE KEY UPDATE v = VALUES(v)")))
                for text in (f"{word} INTO n VALUES {values}{end}", "SELECT LAST_INSERT_ID()", "SELECT * FROM n",
                             "SHOW CREATE TABLE n"):
                    self.same(pair, text, note)
                if draw.random() < 0.2:
                    self.same(pair, f"DELETE FROM n WHERE id > {draw.randint(0, 60)}", note)
            for client in pair:
                client.quit()

    def test_prepared(self):
        """The same numbers of parameters and columns, and the same values in binary rows."""
        pair = self.pair()
        self.same(pair, "CREATE TABLE p (id INT PRIMARY KEY, v VARCHAR(20), b BIGINT, s SMALLINT, t TINYINT, "
                        "d DECIMAL(8,2), x VARBINARY(9))")
        for text, runs in (
                ("INSERT INTO p VALUES (?, ?, ?, ?, ?, ?, ?)",
                 [(1, b"one", 2**40, -5, 7, b"1.5", b"\xff\x00"), (2, None, None, None, None, None, None),
                  (3, b"drei", -1, 300, -128, 12, b""), (3, b"vier", 0, 0, 0, 0, b"")]),
                ("SELECT * FROM p", [()]),
                ("SELECT COUNT(*), SUM(b), SUM(d), COUNT(v) FROM p", [()]),
                ("SELECT v, s AS other FROM p WHERE id = ?", [(1,), (2,), (b"3",), (9,)]),
                ("UPDATE p SET b = b + ?, v = ? WHERE id = ? AND b >= ?", [(5, b"neu", 1, 0), (5, b"neu", 3, 0)]),
                ("SELECT id, b, v FROM p ORDER BY id LIMIT ?", [(2,), (0,)]),
                ("DELETE FROM p WHERE id IN (?, ?)", [(1, 5)]),
                ("SELECT id FROM p FOR UPDATE", [()])):
            numbers = [client.prepare(text) for client in pair]
            self.assertEqual(numbers[0][1:], numbers[1][1:], text)
            for values in runs:
                answers = [client.execute(it[0], *values) for client, it in zip(pair, numbers)]
                self.assertEqual(*map(described, answers), (text, values))
        for text in ("SELECT zz FROM p WHERE id = ?", "SELECT * FROM zz WHERE id = ?", "INSERT INTO zz VALUES (?)"):
            ours, theirs = [client.prepare(text) for client in pair]
            self.assertEqual((ours.number, ours.sqlstate), (theirs.number, theirs.sqlstate), text)

    def test_found_rows(self):
        """A client may ask that an UPDATE counts what it finds."""
        pair = self.pair()
        self.same(pair, "CREATE TABLE f (k INT PRIMARY KEY, v INT)")
        self.same(pair, "INSERT INTO f VALUES (1, 1), (2, 1)")
        finders = []
        for port in (self.server.port, self.port):
            client = self.ends.enter_context(Client(port, log_in=False))
            client.scramble = client.greeted()
            packet = client.login_packet(b"root", b"", b"mysql_native_password")
            client.send(bytes((packet[0] | 2,)) + packet[1:], 1)
            client.read(client.packet())
            self.ok(client, "USE `any`")
            finders.append(client)
        for text in ("UPDATE f SET v = 1", "UPDATE f SET v = 2 WHERE k = 1", "UPDATE f SET v = 2", "UPDATE f SET v = 2 "
                     "WHERE k = 9", "INSERT INTO f VALUES (1, 2) ON DUPLICATE KEY UPDATE v = 2",
                     "INSERT INTO f VALUES (1, 2) ON DUPLICATE KEY UPDATE v = 3"):
            self.same(finders, text)

    def test_random_programs(self):
        """Programs of statements drawn from a seed, in and out of transactions and branches, and a second client that
        reads what is committed."""
        for number in range(200 if LONG else 40):
            program = Program(SEED * 1_000 + number)
            first, second = self.pair(), self.pair()
            for text in program.tables:
                self.same(first, text)
            for step in range(60):
                text = program.statement()
                self.same(first, text, f"program {program.seed}, step {step}: ")
                if step % 5 == 0:
                    self.same(second, program.question(), f"program {program.seed}, step {step}, the second: ")
            for text in program.end():
                self.same(first, text, f"program {program.seed}, its end: ")
            for client in first + second:
                client.quit()


class Program:
    """Draws statements that both servers take."""

    NAMES = ("a", "b", "A", "c", "Cd", "cd ", "e f", "_", "z", "it''s", "\u65e5\u672c")
    TABLES = {"t1": {"k": "VARCHAR(20)", "v": "VARCHAR(6)"},
              "t2": {"id": "INT", "balance": "INT NOT NULL DEFAULT 5", "name": "VARCHAR(4)"},
              "t3": {"id": "BIGINT", "d": "DECIMAL(6,2) DEFAULT 1.5", "n": "SMALLINT UNSIGNED", "c": "CHAR(3)"}}

    def __init__(self, seed):
        self.seed, self.random = seed, random.Random(seed)
        self.mode, self.names = None, 0
        self.tables = [text for name, columns in self.TABLES.items()
                       for text in (f"DROP TABLE IF EXISTS {name}", f"CREATE TABLE {name} ("
                                    + ", ".join(f"{column} {kind}{' PRIMARY KEY' if not index else ''}"
                                                for index, (column, kind) in enumerate(columns.items())) + ")")]

    def pick(self, *choices):
        return self.random.choice(choices)

    def table(self):
        name = self.pick(*self.TABLES)
        return name, list(self.TABLES[name].items())

    def value(self, kind):
        """A literal for a column, now and then one that is refused."""
        if self.random.random() < 0.08:
            return self.pick("NULL", "DEFAULT")
        return self.plain(kind)

    def plain(self, kind):
        if "CHAR" in kind:
            return f"'{self.pick(*self.NAMES)}'" if self.random.random() < 0.9 else "'much too long for it'"
        if self.random.random() < 0.06:
            return self.pick("99999999999999999999", "'abc'", "'7x'", "-1", "70000")
        number = self.random.randint(0, 7)
        return self.pick(str(number), f"'{number}'", f"{number}.5" if "DECIMAL" in kind else str(number))

    def compared(self, kind):
        return f"'{self.pick(*self.NAMES)}'" if "CHAR" in kind else str(self.random.randint(-1, 8))

    def where(self, columns):
        key, key_kind = columns[0]
        found = [self.pick(f"{key} = {self.compared(key_kind)}", f"{key} = {self.compared(key_kind)}",
                           f"{key} IN ({self.compared(key_kind)}, {self.compared(key_kind)})",
                           f"{key} >= {self.compared(key_kind)}")]
        if self.random.random() < 0.3:
            column, kind = self.pick(*columns)
            found.append(self.pick(f"{column} {self.pick('=', '<', '>=', '<>')} {self.compared(kind)}",
                                   f"{column} IS NOT NULL", f"{column} IS NULL"))
        return "" if self.random.random() < 0.15 else " WHERE " + " AND ".join(found)

    def question(self):
        name, columns = self.table()
        shown = self.pick("*", "*", "COUNT(*)", columns[1][0], f"{columns[0][0]} AS it, 1", f"COUNT({columns[-1][0]})",
                          f"SUM({columns[1][0]})" if "CHAR" not in columns[1][1] else "COUNT(*)")
        order = "" if "(" in shown else self.pick("", "", f" ORDER BY {columns[0][0]} DESC LIMIT 2", " LIMIT 3")
        return f"SELECT {shown} FROM {name}{self.where(columns)}{order}"

    def insert(self):
        name, columns = self.table()
        chosen = columns if self.random.random() < 0.7 else self.random.sample(columns, len(columns) - 1)
        rows = ", ".join("(" + ", ".join(self.value(kind) for _, kind in chosen) + ")"
                         for _ in range(self.pick(1, 1, 2, 3)))
        names = ", ".join(column for column, _ in chosen)
        column, kind = columns[-1]
        other, other_kind = columns[1]
        behind = self.pick("", "", f" ON DUPLICATE KEY UPDATE {column} = VALUES({column})",
                           f" ON DUPLICATE KEY UPDATE {column} = {self.plain(kind)}",
                           # (MariaDB counts a DECIMAL that was NULL and is set to NULL)
                           f" ON DUPLICATE KEY UPDATE {other} = {other} + 1" if other_kind.startswith("INT") else "")
        verb = "INSERT" if behind else self.pick("INSERT", "INSERT", "REPLACE")
        return f"{verb} INTO {name} ({names}) VALUES {rows}{behind}"

    def update(self):
        name, columns = self.table()
        sets = []
        for column, kind in self.random.sample(columns[1:], self.pick(1, 1, len(columns) - 1)):
            sets.append(f"{column} = {self.value(kind)}" if "CHAR" in kind or self.random.random() < 0.4 else
                        f"{column} = {column} {self.pick('+', '-')} {self.random.randint(0, 9)}")
        return f"UPDATE {name} SET {', '.join(sets)}{self.where(columns)}"

    def statement(self):
        if self.mode == "prepared":
            return self.close()
        draw = self.random.random()
        if draw < 0.30:
            return self.insert()
        if draw < 0.50:
            return self.update()
        if draw < 0.60:
            name, columns = self.table()
            return f"DELETE FROM {name}{self.where(columns)}"
        if draw < 0.80:
            return self.question() + ("" if self.random.random() < 0.7 else " FOR UPDATE")
        return self.turn()

    def turn(self):
        """A step of transactions; a branch is prepared and ended at once."""
        if self.mode is None:
            self.mode = self.pick("local", "branch")
            self.names += 1
            return "START TRANSACTION" if self.mode == "local" else f"XA START '{self.seed} {self.names}'"
        if self.random.random() < 0.6:
            name = self.pick("x", "y", "Z")
            return self.pick(f"SAVEPOINT {name}", f"ROLLBACK TO SAVEPOINT {name}", f"SAVEPOINT {name}",
                             f"RELEASE SAVEPOINT {name}", f"ROLLBACK TO {name}")
        return self.close()

    def close(self):
        if self.mode == "local":
            self.mode = None
            return self.pick("COMMIT", "ROLLBACK")
        if self.mode == "branch":
            self.mode = "idle"
            return f"XA END '{self.seed} {self.names}'"
        if self.mode == "idle":
            word = self.pick("ROLLBACK", "ONE PHASE", "PREPARE")
            self.mode = "prepared" if word == "PREPARE" else None
            name = f"'{self.seed} {self.names}'"
            return f"XA COMMIT {name} ONE PHASE" if word == "ONE PHASE" else f"XA {word} {name}"
        self.mode = None
        return f"XA {self.pick('COMMIT', 'COMMIT', 'ROLLBACK')} '{self.seed} {self.names}'"

    def end(self):
        """What closes whatever is open, and shows all rows."""
        found = []
        while self.mode is not None:
            found.append(self.close())
        return found + [f"SELECT * FROM {name}" for name in self.TABLES]


# Who waits for rows: test_waiting
NO_WAIT = "SET innodb_lock_wait_timeout = 0"


class Own(Case):
    """A server with a table, and two clients. Its record is judged, unless it has too many calls at once for that."""
    RECORDS = True

    def setUp(self):
        super().setUp()
        self.server = self.serve(record=self.RECORDS)
        self.one, self.two = self.client(self.server), self.client(self.server)
        for client in (self.one, self.two):
            self.ok(client, NO_WAIT)
        self.ok(self.one, "CREATE TABLE t (k VARCHAR(40) PRIMARY KEY, n INT NOT NULL, v VARCHAR(60))",
                "INSERT INTO t VALUES ('a', 1, 'x'), ('b', 2, 'y'), ('C', 3, NULL)")

    def rows(self, client, text="SELECT * FROM t"):
        answer = client.ask(text)
        self.assertEqual(answer.kind, "table", f"{text}: {answer}")
        return answer.rows

    def busy(self, client, *texts):
        for text in texts:
            self.refused(client, text, 1205, "HY000")

    def tearDown(self):
        if self.RECORDS:
            self.assertEqual(self.server.verdicts(), ["LEGAL"])

    def crowd(self, threads, turns):
        """Transfers by several threads: whoever reads the whole table sees the same sum, or is refused."""
        self.ok(self.one, "CREATE TABLE account (id INT PRIMARY KEY, balance INT NOT NULL)",
                "INSERT INTO account VALUES " + ", ".join(f"({number}, 100)" for number in range(8)))
        done, sums, faults = [], [], []

        def transfer(number):
            draw = random.Random(number)
            with self.server.client() as client:
                self.ok(client, NO_WAIT)
                for turn in range(turns):
                    one, two = draw.sample(range(8), 2)
                    texts = ("START TRANSACTION", f"UPDATE account SET balance = balance - 1 WHERE id = {one}",
                             f"UPDATE account SET balance = balance + 1 WHERE id = {two}")
                    answers = [client.ask(text) for text in texts]
                    is_ok = all(answer.kind == "ok" for answer in answers)
                    faults.extend(it for it in answers if it.kind != "ok" and it.number != 1205)
                    done.append(client.ask("COMMIT" if is_ok else "ROLLBACK").kind == "ok" and is_ok)
                    if turn % 4 == 0:
                        answer = client.ask("SELECT SUM(balance) FROM account")
                        sums.append(str(answer.rows if answer.kind == "table" else answer.number))
                        client.ask(f"INSERT INTO account VALUES ({100 + number}, 0)")
                        client.ask(f"DELETE FROM account WHERE id = {100 + number}")

        workers = [threading.Thread(target=transfer, args=(number,)) for number in range(threads)]
        for worker in workers:
            worker.start()
        for worker in workers:
            worker.join()
        self.assertEqual(faults, [])
        self.assertLessEqual(set(sums), {"[(b'800',)]", "1205"})
        self.assertEqual(len(done), threads * turns)
        self.assertEqual(self.rows(self.one, "SELECT SUM(balance) FROM account"), [(b"800",)])


class Tables(Own):
    """Locks, savepoints, and definitions that branches are in the way of."""

    def test_a_small_crowd(self):
        self.crowd(3, 5)

    def test_rows_are_rows_of_the_store(self):
        """A key is the table's name and the primary key, in small letters."""
        self.assertEqual(self.value(self.one, "t/a"), b"\0\x02x")
        self.assertEqual(self.value(self.one, "t/c"), b"\x82\x01C\x06")
        self.ok(self.one, "PUT 't/a', X'00'")
        self.assertEqual(self.refused(self.one, "SELECT * FROM t", 1034, "HY000").text,
                         "The value at the key 't/..' isn't a row of the table: a PUT has written it")
        self.ok(self.one, "DEL 't/a'")
        self.assertEqual(self.rows(self.one), [(b"b", b"2", b"y"), (b"C", b"3", None)])

    def test_what_a_branch_locks(self):
        """Rows that a branch has read are shared, rows that it has changed are held, also when it is prepared."""
        one, two = self.one, self.two
        self.ok(one, "XA START 'g'")
        self.rows(one, "SELECT n FROM t WHERE k = 'a'")
        self.rows(one, "SELECT n FROM t WHERE k = 'none'")
        self.ok(one, "UPDATE t SET n = n + 1 WHERE k = 'b'", "DELETE FROM t WHERE k = 'C'")
        self.assertEqual(len(self.rows(two)), 3)
        self.ok(two, "INSERT INTO t VALUES ('d', 4, '')")
        self.busy(two, "UPDATE t SET n = 0 WHERE k = 'a'", "UPDATE t SET n = 0 WHERE k = 'b'", "DELETE FROM t",
                  "INSERT INTO t VALUES ('none', 1, '')", "INSERT INTO t VALUES ('c', 1, '')", "DROP TABLE t",
                  "TRUNCATE t", "SELECT * FROM t WHERE k = 'a' FOR UPDATE", "SELECT * FROM t LOCK IN SHARE MODE")
        self.ok(one, "XA END 'g'", "XA PREPARE 'g'")
        one.close()
        self.busy(two, "UPDATE t SET n = 0 WHERE k = 'b'", "DROP TABLE t", "TRUNCATE t",
                  "REPLACE INTO t VALUES ('b',1,'')")
        self.assertEqual([row[1] for row in self.rows(two)], [b"1", b"2", b"3", b"4"])
        self.ok(two, "START TRANSACTION")
        self.busy(two, "SELECT * FROM t")
        self.rows(two, "SELECT * FROM t WHERE k = 'd'")
        self.ok(two, "COMMIT", "XA COMMIT 'g'")
        self.assertEqual([row[1] for row in self.rows(two)], [b"1", b"3", b"4"])
        self.ok(two, "DROP TABLE t")
        self.refused(two, "SELECT * FROM t", 1146, "42S02")
        self.ok(two, "CREATE TABLE t (id INT PRIMARY KEY)")
        self.assertEqual(self.rows(two), [])

    def test_no_phantoms(self):
        """Who has read a whole table in a branch keeps others from adding keys to it, and from taking them away."""
        one, two = self.one, self.two
        for text in ("SELECT COUNT(*) FROM t", "SELECT SUM(n) FROM t", "SELECT k FROM t WHERE n > 100",
                     "UPDATE t SET n = 0 WHERE n > 100", "DELETE FROM t WHERE n > 100"):
            self.ok(one, "START TRANSACTION")
            one.ask(text)
            self.busy(two, *(f"INSERT INTO t VALUES ('new {number}', 200, '')" for number in range(20)),
                      "DELETE FROM t WHERE k = 'a'", "UPDATE t SET n = 200 WHERE k = 'b'")
            self.assertEqual(len(self.rows(two)), 3)
            self.ok(one, "ROLLBACK")
        self.ok(two, "INSERT INTO t VALUES ('new', 200, '')")
        self.ok(two, "START TRANSACTION", "INSERT INTO t VALUES ('newer', 200, '')")
        self.ok(one, "START TRANSACTION")
        self.busy(one, "SELECT COUNT(*) FROM t")
        self.assertEqual(self.rows(one, "SELECT COUNT(*) FROM t WHERE k = 'a'"), [(b"1",)])
        self.ok(one, "ROLLBACK")
        self.ok(two, "COMMIT")

    def test_a_refused_statement_changes_nothing(self):
        """Of a statement over several rows none is changed if one is refused, in a branch too."""
        one, two = self.one, self.two
        before = self.rows(one)
        self.ok(two, "XA START 'g'")
        self.ok(two, "UPDATE t SET n = 9 WHERE k = 'C'")
        for begin, end in ((), ()), (("START TRANSACTION",), ("COMMIT",)), (
                ("XA START 'h'",), ("XA END 'h'", "XA COMMIT 'h' ONE PHASE")):
            for text in begin:
                self.ok(one, text)
            self.busy(one, "DELETE FROM t WHERE k IN ('a', 'b', 'C')", "UPDATE t SET n = n + 1 WHERE k IN ('a', 'c')")
            self.refused(one, "INSERT INTO t VALUES ('e', 1, ''), ('f', 1, ''), ('A', 1, '')", 1062, "23000")
            self.refused(one, f"REPLACE INTO t VALUES ('a', 7, ''), ('f', 1, '{'x' * 60}'), ('{'k' * 40}', 1, "
                         f"'{'y' * 61}')", 1406, "22001")
            self.refused(one, "UPDATE t SET n = n + 2147483646 WHERE k IN ('a', 'b')", 1264, "22003")
            for text in end:
                self.ok(one, text)
            self.assertEqual(self.rows(one), before)
        self.ok(two, "XA END 'g'", "XA ROLLBACK 'g'")
        self.assertEqual(self.rows(one), before)

    def test_savepoints_and_puts(self):
        """What came behind a savepoint is undone, also a PUT and a DEL."""
        one = self.one
        self.ok(one, "PUT 'p', 'old'", "XA START 'g'", "PUT 'p', 'new'", "SAVEPOINT s", "PUT 'p', 'newer'",
                "PUT 'q', 'q'", "DEL 't/a'", "UPDATE t SET n = 7 WHERE k = 'b'", "INSERT INTO t VALUES ('z', 26, '')")
        self.assertEqual(len(self.rows(one)), 3)
        self.ok(one, "ROLLBACK TO s")
        self.assertEqual([row[1] for row in self.rows(one)], [b"1", b"2", b"3"])
        self.ok(one, "XA END 'g'", "XA COMMIT 'g' ONE PHASE")
        self.assertEqual((self.value(one, "p"), self.value(one, "q")), (b"new", None))
        self.assertEqual(len(self.rows(one)), 3)

    def test_what_does_not_fit(self):
        """A row's key and value have 64 bytes each; the column is named that doesn't fit."""
        one = self.one
        name = "n" * 40
        self.ok(one, f"CREATE TABLE {name} (k VARCHAR(30) PRIMARY KEY, v VARCHAR(99))")
        self.refused(one, f"CREATE TABLE {name}n (k VARCHAR(30) PRIMARY KEY)", 1059, "42000")
        self.refused(one, "CREATE TABLE `a/b` (k VARCHAR(30) PRIMARY KEY)", 1103, "42000")
        self.ok(one, f"INSERT INTO {name} VALUES ('{'k' * 23}', '{'v' * 63}')")
        for key, value, column in (("k" * 24, "", "k"), ("k", "v" * 64, "v"), ("K", "v" * 62, "v"),
                                   ("k", "v" * 100, "v")):
            said = self.refused(one, f"INSERT INTO {name} VALUES ('{key}', '{value}')", 1406, "22001").text
            self.assertEqual(said, f"Data too long for column '{column}' at row 1")
        self.refused(one, f"UPDATE {name} SET v = '{'v' * 64}'", 1406, "22001")
        self.assertEqual(self.rows(one, f"SELECT * FROM {name}"), [(b"k" * 23, b"v" * 63)])

    def test_what_is_not_taken(self):
        """The refusal quotes the text from where it isn't taken, and says what is; nothing is changed."""
        before = self.rows(self.one)
        for text, where, taken in (
                ("SELECT * FROM t JOIN u", "near 'JOIN u'", "FROM one table"),
                ("SELECT MAX(n) FROM t", "near '(n) FROM t'", "COUNT(..)"),
                ("UPDATE t SET n = n * 2", "near '* 2'", "column + number"),
                ("DELETE FROM t WHERE n = 1 OR n = 2", "near 'OR n = 2'", "WHERE column = value AND .."),
                ("CREATE TABLE x (a DATETIME PRIMARY KEY)", "near 'DATETIME", "DECIMAL"),
                ("CREATE TABLE x (a INT, b INT, PRIMARY KEY (a, b))", "several columns", "one of one column"),
                ("INSERT INTO t SELECT * FROM t", "near 'SELECT * FROM t'", "VALUES (values)"),
                ("SELECT k, COUNT(*) FROM t", "a column beside COUNT", "either"),
                ("UPDATE t SET k = 'z'", "the primary key", "the other columns"),
                ("SELECT * FROM t WHERE k = 1", "a text compared with a number", "quotes"),
                ("ALTER TABLE t ADD x INT", "near 'ALTER TABLE t", "the forms"),
                ("EXPLAIN SELECT 1 FROM t", "near 'EXPLAIN", "the forms")):
            said = self.refused(self.one, text, 1235, "42000").text
            self.assertIn(where, said)
            self.assertIn(taken, said)
        self.assertEqual(self.rows(self.one), before)


class Crowds(Own):
    """Many calls at once, or many texts."""
    RECORDS = False

    def test_many_clients(self):
        self.crowd(6, 40)

    def test_definitions_and_rows_race(self):
        """A table is dropped and made anew while others write to it: each table begins empty, and no row stays."""
        stop, faults = threading.Event(), []

        def write(number):
            with self.server.client() as client:
                turn = 0
                while not stop.is_set():
                    turn += 1
                    answer = client.ask(f"INSERT INTO r VALUES ({number * 100_000 + turn}, 'x')")
                    if answer.kind == "error" and answer.number not in (1146, 1205):
                        faults.append(answer)

        threads = [threading.Thread(target=write, args=(number,)) for number in range(3)]
        for thread in threads:
            thread.start()
        try:
            for turn in range(60):
                self.ok(self.one, f"CREATE TABLE r (id INT PRIMARY KEY, {'v' if turn % 2 else 'w'} VARCHAR(9))")
                wait_for(lambda: self.one.ask("DROP TABLE r").kind == "ok", "the end of a table")
        finally:
            stop.set()
            for thread in threads:
                thread.join()
        self.assertEqual(faults, [])
        self.ok(self.one, "CREATE TABLE r (id INT PRIMARY KEY)")
        self.assertEqual(self.rows(self.one, "SELECT * FROM r"), [])

    def all_rows(self):
        """What the second client sees in all tables, in its transaction if it has one."""
        names = [name.decode() for name, in self.rows(self.two, "SHOW TABLES")]
        return [(name, str(self.two.ask(f"SELECT * FROM `{name}`").rows)) for name in names]

    def test_random_texts(self):
        """Texts of the grammar's words: each is answered, none that is refused changes anything, and no thread of the
        server is aborted."""
        draw = random.Random(SEED)
        texts = lines(SENT) + lines(REFUSED) + lines(NUMBERED) + lines(ASKED)
        words = sorted({word for text in texts for word in text.split(" ")})
        forms = [text.split(" ") for text in texts]
        for number in range(100_000 if LONG else 10_000):
            text = list(draw.choice(forms)) if draw.random() < 0.7 else []
            for _ in range(draw.randint(1, 4 if text else 12)):
                at = draw.randint(0, len(text))
                if draw.random() < 0.6 or not text:
                    text.insert(at, draw.choice(words))
                else:
                    del text[draw.randrange(len(text))]
            text = " ".join(text)
            before = self.all_rows() if number % 10 == 0 else None
            answer = self.two.ask(text)
            self.assertIn(answer.kind, ("ok", "error", "table"), text)
            if before is not None and answer.kind == "error":
                self.assertEqual(self.all_rows(), before, text)
        self.two.ask("ROLLBACK")
        self.assertEqual(self.client(self.server).ask("SELECT 1").rows, [(b"1",)])
        self.assertFalse(self.server.logged("panicked"), self.server.log)


if __name__ == "__main__":
    unittest.main()
