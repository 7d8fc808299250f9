"""Random programs over three connections, asked of a store and of a MariaDB: rows, tables, transactions, branches. All
that they answer is the same: numbers, affected rows, columns, values, flags.

    NIGBARU_PROGRAMS=5000 server/test SERVER PROGRAM random_programs

Differences that docs/LIMITS.md has aren't drawn: who has prepared a branch does nothing before its end, branches that
are prepared have written, and hold rows exclusively. Each connection has keys of its own, between rows that nobody
deletes, so that MariaDB's locks of gaps are in nobody's way. While others have something open it names one key at a
time, since for several MariaDB may read the whole table. The rows of SHARED are locked by all. Nothing waits.

Two differences end a program early. If two branches insert different keys, here the second one is refused in one of 16
cases. And MariaDB may lock a gap, or a row beside, which leaves it to chance whether it refuses a key that nobody else
names."""
import os
import random
import unittest

from mariadb import mariadb
from support import LONG, SEED, Case, wait_for
from wire import Client

PROGRAMS = int(os.environ.get("NIGBARU_PROGRAMS", "1000" if LONG else "300"))
STEPS = 40
CONNECTIONS = 3
OWN, SHARED = 5, 3
TABLES = ("CREATE TABLE t (k VARCHAR(8) PRIMARY KEY, n INT NOT NULL DEFAULT 3, v VARCHAR(6))",
          "CREATE TABLE u (id INT PRIMARY KEY, d DECIMAL(6,2), s SMALLINT UNSIGNED DEFAULT 1, c CHAR(3) DEFAULT 'x', "
          "b VARBINARY(4), g BIGINT)")
# One that comes and goes. Only the first connection writes to it, since it has no rows between those of others.
LAST = ("CREATE TABLE x (a INT PRIMARY KEY, b VARCHAR(3))", "CREATE TABLE IF NOT EXISTS x (a INT PRIMARY KEY)",
        "DROP TABLE x", "DROP TABLE IF EXISTS x", "TRUNCATE TABLE x", "TRUNCATE x", "SHOW TABLES", "DESCRIBE x")
FREE, LOCAL, ACTIVE, IDLE, PREPARED = "free", "local", "active", "idle", "prepared"


def fences():
    """Keys that nobody deletes: between those of the connections, and the shared ones."""
    letters = [chr(ord("a") + 2 * number) for number in range(CONNECTIONS + 1)]
    return letters + [f"w{number}" for number in range(SHARED)] + ["z"]


def number_of(key):
    """The key of the table u that stands for one of t."""
    return 100 * (ord(key[0]) - ord("a")) + int(key[1:] or 0)


class Connection:
    def __init__(self, program, number):
        self.program, self.random, self.number = program, program.random, number
        self.own = [f"{chr(ord('b') + 2 * number)}{it}" for it in range(OWN)]
        self.state, self.autocommit, self.branches, self.has_written = FREE, True, 0, False

    # what is drawn

    def pick(self, *choices):
        return self.random.choice(choices)

    def is_open(self):
        return self.state != FREE

    @property
    def xid(self):
        return f"'p{self.program.seed} {self.number}','{self.branches}',{self.branches + 1}"

    def draw(self):
        if self.state == PREPARED:
            return self.pick(f"XA COMMIT {self.xid}", f"XA ROLLBACK {self.xid}", "LEAVE", "XA RECOVER")
        draw = self.random.random()
        if draw < 0.2:
            return self.turn()
        if draw < 0.27:
            return self.wrong()
        if draw < 0.33:
            name = self.pick("x", "y", "X")
            return self.pick(f"SAVEPOINT {name}", f"ROLLBACK TO {name}", f"RELEASE SAVEPOINT {name}",
                             f"ROLLBACK TO SAVEPOINT {name}")
        if draw < 0.36:
            return self.pick("XA RECOVER", "SELECT 1", "SELECT 'a', NULL, 1 + 1", "SELECT @@autocommit", "DO 1")
        return self.row() if draw < 0.55 else self.sql()

    def turn(self):
        """A step of a transaction or branch."""
        if self.state == FREE:
            self.has_written = False
            if self.random.random() < 0.3:
                return f"SET autocommit={self.random.randint(0, 1)}"
            if self.random.random() < 0.5:
                return self.pick("BEGIN", "START TRANSACTION", "COMMIT", "ROLLBACK")
            self.branches += 1
            return f"XA {self.pick('START', 'BEGIN')} {self.xid}"
        if self.state == LOCAL:
            return self.pick("COMMIT", "ROLLBACK", "COMMIT", "BEGIN", "SET autocommit=1")
        if self.state == ACTIVE:
            return f"XA END {self.xid}"
        ends = [f"XA COMMIT {self.xid} ONE PHASE", f"XA ROLLBACK {self.xid}"]
        return self.pick(*ends, *[f"XA PREPARE {self.xid}"] * 3 * self.has_written)

    def wrong(self):
        """A statement that the state may refuse."""
        if self.state == FREE:
            ends = [] if self.branches else ["XA COMMIT 'none'", "XA ROLLBACK 'none'"]
            return self.pick("XA END 'none'", "XA PREPARE 'none'", "XA START 'none' JOIN", "XA END 'none' SUSPEND",
                             "SET TRANSACTION READ WRITE", "SAVEPOINT s", *ends)
        if self.state == LOCAL:
            return self.pick("XA START 'none'", "XA END 'none'", "XA PREPARE 'none'", "XA COMMIT 'none'",
                             "XA ROLLBACK 'none'", "SET TRANSACTION READ ONLY")
        return self.pick("COMMIT", "ROLLBACK", "BEGIN", "XA START 'none'", "XA END 'none'", "XA PREPARE 'none'",
                         f"XA COMMIT {self.xid}", "SET autocommit=0", "XA START 'none' JOIN")

    def key(self):
        return self.random.choice(self.own)

    def shares(self):
        """A row that others lock, too. A branch that is prepared isn't to have it in share."""
        return f"w{self.random.randrange(SHARED)}"

    def row(self):
        value = self.pick("'v'", "''", "X'00ff27'", "'it''s'", f"'{self.random.randrange(99)}'")
        if self.random.random() < 0.2:
            return f"PUT '{self.shares()}',{value}" if self.state != LOCAL else f"GET '{self.shares()}'"
        key = self.key()
        return self.pick(f"PUT '{key}',{value}", f"PUT '{key}',{value}", f"GET '{key}'", f"DEL '{key}'")

    def sql(self):
        draw = self.random.random()
        if draw < 0.3:
            return self.insert()
        if draw < 0.55:
            return self.update()
        if draw < 0.65:
            table, key = self.place()
            return f"DELETE FROM {table} WHERE {key}"
        if draw < 0.72:
            return self.bad()
        if draw < 0.80:
            return self.program.whole(self)
        return self.question()

    def place(self):
        """A table, and a condition on keys of its own, or now and then on a row that others lock."""
        keys = [self.key() for _ in range(self.pick(1, 1, 2) if self.program.is_alone(self) else 1)]
        table = self.pick("t", "u")
        column, literals = ("k", [f"'{key}'" for key in keys]) if table == "t" else ("id", map(number_of, keys))
        literals = [str(it) for it in literals]
        where = f"{column} = {literals[0]}" if len(keys) == 1 else f"{column} IN ({', '.join(literals)})"
        more = {"t": ["n > 3", "v IS NULL", "v <> 'B'", "n IN (1, 3)"],
                "u": ["d >= 1.5", "s < 3", "c = 'X'", "b IS NOT NULL", "g <> 0"]}[table]
        return table, where + (f" AND {self.random.choice(more)}" if self.random.random() < 0.25 else "")

    def value(self, column):
        plain = {"n": ["0", "1", "5", "'7'", "2147483647"], "v": ["'a'", "'B'", "''", "'z y'", "NULL"],
                 "d": ["1.5", "0", "'2.25'", "NULL", "9999.99", "1.005"], "s": ["0", "3", "65535", "NULL"],
                 "c": ["'x'", "'xyz'", "'y  '", "NULL"], "b": ["X'00ff'", "'ab'", "NULL"],
                 "g": ["0", "-1", "9223372036854775807", "NULL"]}
        bad = {"n": ["NULL", "'x'", "2147483648"], "v": ["'much too long'"], "d": ["10000", "'d'"],
               "s": ["-1", "65536"], "c": ["'wxyz'"], "b": ["'abcde'"], "g": ["9223372036854775808", "'7x'"]}
        return self.random.choice(plain[column] + ["DEFAULT"] if self.random.random() < 0.93 else bad[column])

    def columns(self, table):
        return ["n", "v"] if table == "t" else ["d", "s", "c", "b", "g"]

    def insert(self):
        table = self.pick("t", "u")
        chosen = self.random.sample(self.columns(table), self.random.randint(1, len(self.columns(table))))
        rows = []
        for _ in range(self.pick(1, 1, 2)):
            key = self.key()
            literal = f"'{key}'" if table == "t" else str(number_of(key))
            rows.append(f"({', '.join([literal, *map(self.value, chosen)])})")
        names = ", ".join(["k" if table == "t" else "id", *chosen])
        last = chosen[-1]
        verb, behind = self.pick(("INSERT", ""), ("REPLACE", ""), ("INSERT", ""), (
            "INSERT", f" ON DUPLICATE KEY UPDATE {last} = VALUES({last})"), (
                "INSERT", f" ON DUPLICATE KEY UPDATE {last} = {self.value(last)}"))
        if "d" in chosen and "DUPLICATE" in behind:
            behind = ""  # (MariaDB counts a DECIMAL that was NULL and is set to NULL)
        return f"{verb} INTO {table} ({names}) VALUES {', '.join(rows)}{behind}"

    def update(self):
        table, where = self.place()
        sets = []
        for column in self.random.sample(self.columns(table), self.pick(1, 1, 2)):
            is_sum = column in "nsdg" and self.random.random() < 0.5
            sets.append(f"{column} = {column} {self.pick('+', '-')} {self.random.randint(0, 4)}" if is_sum
                        else f"{column} = {self.value(column)}")
        if self.random.random() < 0.2:
            table, where, sets = "t", f"k = '{self.shares()}'", ["n = n + 1"]
        return f"UPDATE {table} SET {', '.join(sets)} WHERE {where}"

    def question(self):
        table, where = self.place()
        shown = self.pick("*", "*", "COUNT(*)", ", ".join(self.columns(table)), f"{self.columns(table)[0]} AS it, 1")
        if self.random.random() < 0.15:
            return f"SELECT * FROM t WHERE k = '{self.shares()}' FOR UPDATE"
        lock = self.pick("", "", " FOR UPDATE", " LOCK IN SHARE MODE")
        return f"SELECT {shown} FROM {table} WHERE {where}{lock}"

    def bad(self):
        key = self.key()
        return self.pick(
            "SELECT * FROM none", "SELECT none FROM t", f"SELECT * FROM t WHERE none = 1 AND k = '{key}'",
            f"UPDATE t SET none = 1 WHERE k = '{key}'", f"INSERT INTO t (k, none) VALUES ('{key}', 1)",
            f"INSERT INTO t (k) VALUES ('{key}', 1)", f"INSERT INTO t (k, k) VALUES ('{key}', '{key}')",
            "INSERT INTO t (n) VALUES (1)", f"INSERT INTO none VALUES ('{key}')", "DELETE FROM none",
            "INSERT INTO t (k) VALUES (NULL)", "SELECT t.k FROM t x", "INSERT INTO t (k) VALUES ('far too long')",
            f"UPDATE u SET s = s - 70000 WHERE id = {number_of(key)}", "DESCRIBE none", "SELECT SUM(none) FROM t",
            "CREATE TABLE none (a INT PRIMARY KEY, a INT)" if not self.is_open() else "SELECT * FROM none")

    # what is heard

    def heard(self, text, answer):
        """What its state is after an answer."""
        words = text.split()
        is_ok, verb = answer.kind != "error", " ".join(words[:2])
        begins = {"BEGIN": LOCAL, "START TRANSACTION": LOCAL, "XA START": ACTIVE, "XA BEGIN": ACTIVE, "XA END": IDLE,
                  "XA PREPARE": PREPARED, "XA COMMIT": FREE, "XA ROLLBACK": FREE, "COMMIT": FREE, "ROLLBACK": FREE}
        if is_ok and verb in begins:
            self.state = begins[verb]
        elif verb.startswith("SET autocommit") and is_ok:
            is_switched_on = text.endswith("1") and not self.autocommit
            self.autocommit = text.endswith("1")
            if is_switched_on and self.state == LOCAL:
                self.state = FREE
        elif words[0] in ("CREATE", "DROP", "TRUNCATE") and self.state == LOCAL:
            self.state = FREE
        elif self.state == FREE and answer.status is not None and answer.status & 1:
            self.state = LOCAL
        if words[0] in ("PUT", "DEL", "INSERT", "REPLACE", "UPDATE", "DELETE") and is_ok and answer.affected:
            self.has_written = True


class Cut(Exception):
    """A lock of more than a row: here of a sixteenth of a table's keys, in MariaDB of a gap."""


class Program:
    def __init__(self, seed):
        self.seed, self.random = seed, random.Random(seed)
        self.connections = [Connection(self, number) for number in range(CONNECTIONS)]

    def is_alone(self, asker):
        """Whether all others have nothing open."""
        return not any(it.is_open() for it in self.connections if it is not asker)

    def whole(self, asker):
        """A statement about a whole table. In a transaction it is in the way of all others, so these have none."""
        reads = ["SELECT * FROM t", "SELECT COUNT(*), SUM(n) FROM t", "SELECT * FROM u WHERE s > 1",
                 "SELECT k, n FROM t WHERE n > 3 ORDER BY k DESC LIMIT 3", "SELECT COUNT(v) FROM t",
                 "SELECT SUM(d), SUM(g), COUNT(s) FROM u", "SELECT id FROM u ORDER BY id LIMIT 2 OFFSET 1"]
        if asker.state == FREE and asker.autocommit:
            text = self.random.choice(reads)
            if self.random.random() < 0.7:
                return text
        if not self.is_alone(asker):
            return asker.question()
        return self.random.choice(reads + [
            "UPDATE t SET n = n + 1 WHERE n < 100", "UPDATE u SET s = 2", "DELETE FROM t WHERE v = 'a'",
            "DELETE FROM u WHERE id > 101 AND c = 'xyz'", "SELECT * FROM t FOR UPDATE", "SHOW TABLES",
            "UPDATE t SET v = 'toolong'", "DESCRIBE u", "SHOW TABLES LIKE 't%'"])

    def step(self):
        asker = self.random.choice(self.connections)
        if self.random.random() < 0.06 and asker.state != PREPARED:
            number = self.random.randrange(9)
            writes = (f"INSERT INTO x (a) VALUES ({number})",) * 4 if asker.number == 0 else ()
            return asker, self.random.choice(LAST + writes)
        return asker, asker.draw()


class Side:
    """One of the two servers."""

    def __init__(self, name, port):
        self.name, self.port = name, port
        self.clients = [self.client() for _ in range(CONNECTIONS)]

    def client(self):
        client = Client(self.port)
        for text in ("USE `any`", "SET SESSION TRANSACTION ISOLATION LEVEL SERIALIZABLE",
                     "SET innodb_lock_wait_timeout=0, lock_wait_timeout=0"):
            answer = client.ask(text)
            assert answer.kind == "ok", (text, answer)
        return client

    def text(self, text):
        """What the server is sent; PUT, GET and DEL are statements about the table other.kv of MariaDB."""
        if self.name == "nigbaru" or text[:4] not in ("PUT ", "GET ", "DEL "):
            return text
        verb, rest = text[:3], text[4:]
        return {"PUT": f"REPLACE INTO other.kv VALUES ({rest})",
                "GET": f"SELECT v AS value FROM other.kv WHERE k = {rest}",
                "DEL": f"DELETE FROM other.kv WHERE k = {rest}"}[verb]

    def ask(self, number, text):
        return self.clients[number].ask(self.text(text))

    def leave(self, number):
        """A client goes, and another comes in its place when the server has seen it."""
        self.clients[number].quit()
        self.clients[number] = self.client()
        wait_for(lambda: len(self.clients[number].ask("SHOW PROCESSLIST").rows) == CONNECTIONS, "the end of a client")

    def begin(self):
        """Tables with the rows that nobody deletes. Other rows stay as the program before has left them."""
        texts = ["DROP TABLE IF EXISTS x", "DELETE FROM t", "DELETE FROM u"]
        texts += ["INSERT INTO t (k) VALUES " + ", ".join(f"('{key}')" for key in fences()),
                  "INSERT INTO u (id, d) VALUES " + ", ".join(f"({number_of(key)}, 1)" for key in fences())]
        self.done(texts)

    def done(self, texts):
        for text in texts:
            answer = self.ask(0, text)
            assert answer.kind == "ok", (self.name, text, answer)


def described(text, answer, flags):
    """What the two have to have in common."""
    is_row = text[:4] in ("PUT ", "GET ", "DEL ")
    if answer.kind == "error":
        number = 1205 if answer.number == 3572 else answer.number
        has_text = not is_row and not text.startswith("XA") and number < 1390
        return (number, answer.sqlstate, answer.text) if has_text else (number, answer.sqlstate)
    rows = sorted(answer.rows) if text == "XA RECOVER" else answer.rows
    return answer.kind, None if is_row else answer.affected, answer.columns, rows, answer.status & flags


class Programs(Case):
    def setUp(self):
        super().setUp()
        port = self.ends.enter_context(mariadb())
        with Client(port) as client:
            self.ok(client, "CREATE DATABASE `any` CHARACTER SET utf8mb4",
                    "CREATE DATABASE other", "CREATE TABLE other.kv (k VARBINARY(64) PRIMARY KEY, v VARBINARY(64))")
        self.sides = [Side("nigbaru", self.serve(record=False).port), Side("mariadb", port)]
        for side in self.sides:
            self.addCleanup(lambda side=side: [client.close() for client in side.clients])
            side.done([*TABLES, *(f"PUT '{key}','fence'" for key in fences())])

    def test_random_programs(self):
        cut = 0
        for number in range(PROGRAMS):
            program = Program(SEED * 100_000 + number)
            for side in self.sides:
                side.begin()
            try:
                self.whole_program(program, [])
            except Cut:
                cut += 1
                self.give_up(program)
        self.assertLessEqual(cut, PROGRAMS // 10 + 1)

    def whole_program(self, program, told):
        for _ in range(STEPS):
            self.take(program, *program.step(), told)
        self.end(program, told)

    def give_up(self, program):
        """All is rolled back that is open, whatever that is."""
        for side in self.sides:
            for asker in program.connections:
                for text in (f"XA END {asker.xid}", f"XA ROLLBACK {asker.xid}", "ROLLBACK", "SET autocommit=1"):
                    side.ask(asker.number, text)
            side.done([f"DEL '{key}'" for asker in program.connections for key in asker.own])

    def take(self, program, asker, text, told):
        """One step: both are asked, and say the same."""
        told.append(f"{asker.number + 1} {text}")
        if text == "LEAVE":
            xid, asker.state, asker.autocommit = asker.xid, FREE, True
            for side in self.sides:
                side.leave(asker.number)
            return self.take(program, asker, f"XA {program.random.choice(('COMMIT', 'ROLLBACK'))} {xid}", told)
        # (who has prepared a branch is within it in MariaDB, and free here)
        flags = 2 if asker.state == PREPARED or text.startswith("XA PREPARE") else 3
        answers = [side.ask(asker.number, text) for side in self.sides]
        ours, theirs = [described(text, answer, flags) for answer in answers]
        is_own = not program.is_alone(asker) and "'w" not in text
        if is_own and text.startswith(("INSERT", "REPLACE")) and ours[0] == 1205:
            raise Cut
        if is_own and theirs[0] == 1205 and ours[0] in ("ok", "table"):
            raise Cut
        self.assertEqual(ours, theirs, f"program {program.seed}:\n" + "\n".join(told) + f"\n{answers}")
        asker.heard(text, answers[1])
        # (a refused statement may begin a transaction in MariaDB where autocommit is off, and never does here)
        if answers[1].kind == "error" and asker.state == FREE and not asker.autocommit:
            self.take(program, asker, "ROLLBACK", told)

    def end(self, program, told):
        """All is ended that is open, and both have the same rows."""
        for asker in program.connections:
            texts = {LOCAL: ["COMMIT"], ACTIVE: [f"XA END {asker.xid}", f"XA ROLLBACK {asker.xid}"],
                     IDLE: [f"XA COMMIT {asker.xid} ONE PHASE"], PREPARED: [f"XA COMMIT {asker.xid}"], FREE: []}
            for text in [*texts[asker.state], "SET autocommit=1", "XA RECOVER"]:
                self.take(program, asker, text, told)
        first = program.connections[0]
        keys = [key for it in program.connections for key in it.own] + fences()
        rows = [f"GET '{key}'" for key in program.random.sample(keys, 4)]
        for text in ["SELECT * FROM t", "SELECT * FROM u", *rows]:
            self.take(program, first, text, told)


if __name__ == "__main__":
    unittest.main()
