"""Waiting for rows: who has them next, time-outs, deadlocks, and what ends a wait; some of it beside MariaDB."""
import contextlib
import re
import threading
import time
import unittest

from mariadb import mariadb
from pieces import pieces_of, verdicts
from support import Case, quick, wait_for
from wire import Client, Closed

LATE = (1205, "HY000", "Lock wait timeout exceeded; try restarting transaction")
DEADLOCK = (1213, "40001", "Deadlock found when trying to get lock; try restarting transaction")
TABLE = ("CREATE TABLE t (k VARCHAR(9) PRIMARY KEY, n INT NOT NULL)",
         "INSERT INTO t VALUES ('a', 1), ('b', 2), ('c', 3), ('d', 4)")


class Later:
    """A statement that was sent, and whose answer comes later."""

    def __init__(self, client, text):
        self.client, self.text, self.began = client, text, time.monotonic()
        client.send(b"\x03" + text.encode())

    def waits(self):
        return not self.client.has_answer()

    def answer(self):
        return self.client.read(self.client.packet())


def add(key, number=1):
    return f"UPDATE t SET n = n + {number} WHERE k = '{key}'"


def told(answer):
    """What a program sees of an answer."""
    return (answer.number, answer.sqlstate, answer.text) if answer.kind == "error" else (
        answer.rows if answer.kind == "table" else answer.kind)


class Waits(Case):
    """Tables, in a store whose record is judged."""
    WORDS: tuple[str, ...] = ()

    def setUp(self):
        super().setUp()
        self.start()

    def start(self):
        self.server = self.serve(*self.WORDS)
        self.one, self.two, self.three, self.watcher = (self.client(self.server) for _ in range(4))
        self.ok(self.one, *TABLE)

    def tearDown(self):
        self.assertEqual(self.server.verdicts(), ["LEGAL"])

    def numbers(self, client=None):
        return {row[0].decode(): int(row[1]) for row in (client or self.watcher).ask("SELECT * FROM t").rows}

    def waiting(self):
        return [row for row in self.watcher.ask("SHOW NIGBARU STATUS").rows if row[0] == b"waits"]

    def later(self, client, text):
        """Sends a statement, which is seen to wait."""
        before = len(self.waiting())
        later = Later(client, text)
        wait_for(lambda: len(self.waiting()) > before or not later.waits(), f"{text} waits")
        self.assertTrue(later.waits(), text)
        return later

    def done(self, later):
        answer = later.answer()
        self.assertIn(answer.kind, ("ok", "table"), f"{later.text}: {answer}")
        return answer

    def late(self, client, text, seconds):
        """A statement waits for so long, and is refused."""
        began = time.monotonic()
        self.assertEqual(told(client.ask(text)), LATE, text)
        took = time.monotonic() - began
        self.assertTrue(seconds <= took < seconds + 40, f"{text}: {took}")


class Rows(Waits):
    def test_until_the_branch_ends(self):
        """Committed, rolled back, in one phase, prepared and then ended by another, or left by its client."""
        for begin, ends in ((["BEGIN"], ["COMMIT"]), (["BEGIN"], ["ROLLBACK"]),
                            (["XA START 'g'"], ["XA END 'g'", "XA COMMIT 'g' ONE PHASE"]),
                            (["XA START 'g'"], ["XA END 'g'", "XA ROLLBACK 'g'"]),
                            (["XA START 'g'"], ["XA END 'g'", "XA PREPARE 'g'", "XA COMMIT 'g'"]),
                            (["XA START 'g'"], ["XA END 'g'", "XA PREPARE 'g'", "XA ROLLBACK 'g'"])):
            before = self.numbers()["a"]
            self.ok(self.one, *begin, add("a", 10))
            for within in (False, True):
                self.ok(self.two, *(["BEGIN"] if within else []))
                later = self.later(self.two, add("a"))
                for text in ends[:-1]:
                    self.ok(self.one, text)
                    self.assertTrue(later.waits(), text)
                self.ok(self.one, ends[-1])
                self.assertEqual(self.done(later).affected, 1)
                self.ok(self.two, "COMMIT")
                if not within:
                    self.ok(self.one, *begin, add("a", 10))
            is_kept = "ROLLBACK" not in ends[-1]
            self.assertEqual(self.numbers()["a"], before + 2 + (20 if is_kept else 0), ends)
        self.ok(self.one, "XA START 'g'", add("a", 10))
        later = self.later(self.two, add("a"))
        self.one.close()
        self.done(later)

    def test_readers_and_writers(self):
        """Readers of a transaction wait for a writer, together, and a writer for all readers."""
        self.ok(self.one, "BEGIN", add("a"))
        self.ok(self.two, "BEGIN")
        self.ok(self.three, "BEGIN")
        readers = [self.later(client, "SELECT n FROM t WHERE k = 'a'") for client in (self.two, self.three)]
        self.assertEqual(self.numbers()["a"], 1)
        self.ok(self.one, "COMMIT")
        self.assertEqual([self.done(later).rows for later in readers], [[(b"2",)]] * 2)
        writer = self.later(self.one, add("a"))
        self.ok(self.two, "COMMIT")
        self.assertTrue(writer.waits())
        self.ok(self.three, "COMMIT")
        self.done(writer)

    def test_who_came_first_has_it_first(self):
        """Of several that wait, and of one that comes when the row is free but others wait for it."""
        self.ok(self.one, "BEGIN", add("a"))
        waiting = []
        for number in range(6):
            client = self.client(self.server)
            self.ok(client, *([["BEGIN"], ["XA START 'x%d'" % number], []][number % 3]))
            waiting.append(self.later(client, f"UPDATE t SET n = {100 + number} WHERE k = 'a'"))
        self.ok(self.one, "COMMIT")
        for number, later in enumerate(waiting):
            self.done(later)
            self.assertTrue(all(other.waits() for other in waiting[number + (1 if number % 3 != 2 else 2):]), number)
            if number % 3 == 0:
                self.ok(later.client, "COMMIT")
            elif number % 3 == 1:
                self.ok(later.client, f"XA END 'x{number}'", f"XA COMMIT 'x{number}' ONE PHASE")
        self.assertEqual(self.numbers()["a"], 105)

    def test_a_reader_does_not_pass_a_writer(self):
        self.ok(self.one, "BEGIN")
        self.one.ask("SELECT * FROM t WHERE k = 'a'")
        writer = self.later(self.two, add("a"))
        self.ok(self.three, "BEGIN")
        reader = self.later(self.three, "SELECT n FROM t WHERE k = 'a'")
        # whoever has the row reads it again
        self.assertEqual(self.one.ask("SELECT n FROM t WHERE k = 'a'").rows, [(b"1",)])
        self.ok(self.one, "COMMIT")
        self.done(writer)
        self.assertEqual(self.done(reader).rows, [(b"2",)])

    def test_who_shares_a_row_writes_it_before_those_who_wait(self):
        self.ok(self.one, "BEGIN")
        self.one.ask("SELECT * FROM t WHERE k = 'a'")
        writer = self.later(self.two, add("a", 10))
        self.ok(self.one, add("a"), "COMMIT")
        self.done(writer)
        self.assertEqual(self.numbers()["a"], 12)

    def test_keys_that_are_new(self):
        """An INSERT of a key waits for another of the same, and is then a duplicate, or not."""
        for end, number in (("ROLLBACK", None), ("COMMIT", 1062)):
            self.ok(self.one, "BEGIN", "INSERT INTO t VALUES ('new', 1)")
            later = self.later(self.two, "INSERT INTO t VALUES ('new', 2)")
            self.ok(self.one, end)
            self.assertEqual(later.answer().number, number)
            self.ok(self.two, "DELETE FROM t WHERE k = 'new'")

    def test_whole_tables(self):
        self.ok(self.one, "BEGIN", add("d"))
        later = self.later(self.two, "UPDATE t SET n = n + 10")
        counts = self.later(self.three, "SELECT COUNT(*) FROM t FOR UPDATE")
        self.ok(self.one, "COMMIT")
        self.assertEqual(self.done(later).affected, 4)
        self.assertEqual(self.done(counts).rows, [(b"4",)])
        self.assertEqual(self.numbers(), {"a": 11, "b": 12, "c": 13, "d": 15})
        self.ok(self.one, "BEGIN", add("d"))
        later = self.later(self.two, "DROP TABLE t")
        self.ok(self.one, "ROLLBACK")
        self.done(later)
        self.refused(self.one, "SELECT * FROM t", 1146, "42S02")

    def test_one_hot_row(self):
        """Twenty clients, alone, in local transactions and in branches: each has its turn."""
        faults, turns = [], 4

        def work(number):
            begin, end = [((), ()), (("BEGIN",), ("COMMIT",)),
                          (("XA START 'w%d'" % number,), ("XA END 'w%d'" % number, "XA PREPARE 'w%d'" % number,
                                                          "XA COMMIT 'w%d'" % number))][number % 3]
            with self.server.client() as client:
                for _ in range(turns):
                    for text in (*begin, add("a", -1), *end):
                        answer = client.ask(text)
                        if answer.kind != "ok":
                            faults.append((text, answer))

        threads = [threading.Thread(target=work, args=(number,)) for number in range(20)]
        for thread in threads:
            thread.start()
        for thread in threads:
            thread.join()
        self.assertEqual(faults, [])
        self.assertEqual(self.numbers()["a"], 1 - 20 * turns)

    def test_what_is_seen_of_it(self):
        self.ok(self.one, "XA START 'g'", add("a"))
        later = self.later(self.two, add("a"))
        (_, who, what), = self.waiting()
        self.assertEqual(who, b"connection 2")
        self.assertRegex(what.decode(), r"^for 't/a', held by 'g','',1 \(ACTIVE, connection 1\), \d+\.\d s$")
        self.ok(self.one, "XA END 'g'", "XA ROLLBACK 'g'")
        self.done(later)
        self.assertEqual(self.waiting(), [])


class Ends(Waits):
    """What ends a wait but the row."""

    def test_a_setting_of_the_session(self):
        self.ok(self.one, "BEGIN", add("a"))
        self.assertEqual(self.two.ask("SELECT @@innodb_lock_wait_timeout").rows, [(b"50",)])
        self.ok(self.two, "SET SESSION innodb_lock_wait_timeout = 1", "BEGIN", add("b", 10))
        self.late(self.two, "UPDATE t SET n = n + 1 WHERE k IN ('a', 'c')", 1)
        self.assertEqual(self.two.ask("SELECT n FROM t WHERE k = 'b'").rows, [(b"12",)])
        self.ok(self.two, "COMMIT")
        self.late(self.two, add("a"), 1)
        self.late(self.two, "SELECT * FROM t WHERE k = 'a' FOR UPDATE", 1)
        self.ok(self.two, "SET innodb_lock_wait_timeout = 0")
        self.late(self.two, add("a"), 0)
        self.ok(self.two, "SET innodb_lock_wait_timeout = 300")
        self.late(self.two, "SELECT * FROM t WHERE k = 'a' FOR UPDATE NOWAIT", 0)
        self.late(self.two, "SELECT * FROM t WHERE k = 'a' LOCK IN SHARE MODE WAIT 0", 0)
        self.late(self.two, "SELECT * FROM t WHERE k = 'a' FOR UPDATE WAIT 1", 1)
        self.two.command(b"\x1f")
        self.assertEqual(self.two.ask("SHOW VARIABLES LIKE 'innodb_lock_wait%'").rows,
                         [(b"innodb_lock_wait_timeout", b"50")])
        self.ok(self.one, "ROLLBACK")
        self.assertEqual(self.numbers(), {"a": 1, "b": 12, "c": 3, "d": 4})

    def test_a_statement_in_its_middle_is_undone(self):
        """Alone, and within a transaction, whose other changes stay."""
        self.ok(self.one, "BEGIN", add("b"))
        self.ok(self.two, "SET innodb_lock_wait_timeout = 1")
        for begin in ((), ("BEGIN", add("d", 5))):
            self.ok(self.two, *begin)
            self.late(self.two, "UPDATE t SET n = 0 WHERE k IN ('a', 'b', 'c')", 1)
            self.ok(self.two, "COMMIT")
        self.ok(self.one, "ROLLBACK")
        self.assertEqual(self.numbers(), {"a": 1, "b": 2, "c": 3, "d": 9})

    def test_a_client_that_leaves(self):
        """Its statement is never carried out, its branch is rolled back, and who came after it has its turn."""
        self.ok(self.one, "BEGIN", add("a"))
        for texts in ((), ("BEGIN",), ("BEGIN", add("b", 10)), ("XA START 'g'", add("b", 10))):
            for goodbye in (b"", b"\x01"):
                leaving = self.client(self.server)
                self.ok(leaving, *texts)
                self.later(leaving, add("a", 100))
                behind = self.later(self.two, add("a", 1000))
                if goodbye:
                    leaving.sequence = 0
                    leaving.send(goodbye)
                leaving.close()
                wait_for(lambda: len(self.waiting()) == 1, "it waits no longer")
                self.ok(self.three, add("b"))
                self.ok(self.one, "ROLLBACK")
                self.done(behind)
                self.ok(self.one, "BEGIN", add("a"))
        self.ok(self.one, "ROLLBACK")
        self.assertEqual(self.numbers(), {"a": 8001, "b": 10, "c": 3, "d": 4})
        wait_for(lambda: self.server.logged("while it waited for a row"), "it is told")

    def test_the_end_of_the_server(self):
        """Who waits has no answer, and isn't cut off after ten seconds, as a statement is that goes on; what isn't
        prepared is gone."""
        self.assertTrue(quick(8, self.end_while_two_wait))

    def end_while_two_wait(self):
        self.start()
        self.ok(self.one, "XA START 'g'", add("a"))
        laters = [self.later(self.two, add("a")), self.later(self.three, "SELECT * FROM t FOR UPDATE")]
        began = time.monotonic()
        self.assertEqual(self.server.end(), 0)
        took = time.monotonic() - began
        for later in laters:
            with self.assertRaises((Closed, ConnectionError)):
                later.answer()
        return took

    def test_an_outage(self):
        self.end_by_an_outage(*self.begin_an_outage())

    def begin_an_outage(self):
        (self.server.folder / "faults").write_text("")
        server = self.serve("--fault", self.server.folder / "faults")
        one, two, three = (self.client(server) for _ in range(3))
        self.ok(one, *TABLE, "XA START 'g'", add("a", 10), "XA END 'g'", "XA PREPARE 'g'")
        return server, Later(two, add("a")), Later(three, "SELECT * FROM t FOR UPDATE")

    def end_by_an_outage(self, server, *laters):
        with server.client() as client:
            wait_for(lambda: sum(row[0] == b"waits" for row in client.ask("SHOW NIGBARU STATUS").rows) == 2, "two wait")
        (server.folder / "next").write_text("NOW outage 0.5\n")
        (server.folder / "next").rename(self.server.folder / "faults")
        for later in laters:
            with self.assertRaises((Closed, ConnectionError)):
                later.answer()
        wait_for(lambda: server.logged("store 1 is back"), "it is back")
        with server.client() as client:
            self.ok(client, "XA COMMIT 'g'")
            self.assertEqual(self.numbers(client)["a"], 11)
        self.assertEqual(server.verdicts(), ["LEGAL"])

    def test_a_prepared_branch_and_many_that_wait(self):
        """Forty wait, alone, in local transactions and in as many branches as there may be; another commits what they
        wait for."""
        for round, ways in enumerate((["XA START 'x%d'"] * 15 + [None] * 25, ["BEGIN", None] * 20)):
            self.ok(self.one, "XA START 'g'", add("a"), "XA END 'g'", "XA PREPARE 'g'")
            laters = []
            for number, way in enumerate(ways):
                client = self.client(self.server)
                self.ok(client, *([way.replace("%d", str(number))] if way else []))
                laters.append(self.later(client, add("a")))
            began = time.monotonic()
            self.ok(self.two, "XA COMMIT 'g'")
            self.assertLess(time.monotonic() - began, 40, "nobody's time is over by then")
            for number, (way, later) in enumerate(zip(ways, laters)):
                self.done(later)
                self.ok(later.client, *([f"XA END 'x{number}'", f"XA COMMIT 'x{number}' ONE PHASE"]
                                        if way and way != "BEGIN" else ["COMMIT"]))
            self.assertEqual(self.numbers()["a"], 1 + 41 * (round + 1))

    def test_all_sessions_wait(self):
        """If branches that wait have all sessions, nobody could commit what they wait for: the last one gives up."""
        self.ok(self.one, "XA START 'g'", add("a"), "XA END 'g'", "XA PREPARE 'g'")
        clients = [self.client(self.server) for _ in range(16)]
        for number, client in enumerate(clients):
            self.ok(client, f"XA START 'x{number}'")
        laters = [Later(client, add("a")) for client in clients]
        wait_for(lambda: sum(later.waits() for later in laters) == 15, "one has given up")
        given_up = next(later for later in laters if not later.waits())
        self.assertEqual(told(given_up.answer()), DEADLOCK)
        laters.remove(given_up)
        self.ok(self.two, "XA COMMIT 'g'")
        while laters:
            wait_for(lambda: any(not later.waits() for later in laters), "the next one has it")
            later = next(later for later in laters if not later.waits())
            laters.remove(later)
            self.done(later)
            name = f"'x{clients.index(later.client)}'"
            self.ok(later.client, f"XA END {name}", f"XA COMMIT {name} ONE PHASE")
        self.assertEqual(self.numbers()["a"], 17)


class Deadlocks(Waits):
    def begin(self, *pairs):
        """Local transactions, each of which has written its rows."""
        for client, keys in pairs:
            self.ok(client, "BEGIN", *map(add, keys))

    def test_of_two_and_three(self):
        self.begin((self.one, "a"), (self.two, "b"))
        later = self.later(self.one, add("b"))
        self.assertEqual(told(self.two.ask(add("a"))), DEADLOCK)
        self.done(later)
        self.ok(self.one, "COMMIT")
        self.begin((self.one, "a"), (self.two, "b"), (self.three, "c"))
        laters = [self.later(self.one, add("b")), self.later(self.two, add("c"))]
        self.assertEqual(told(self.three.ask(add("a"))), DEADLOCK)
        self.done(laters[1])
        self.ok(self.two, "COMMIT")
        self.done(laters[0])
        self.ok(self.one, "COMMIT")
        self.assertEqual(self.numbers(), {"a": 3, "b": 5, "c": 4, "d": 4})
        self.assertEqual(self.waiting(), [])

    def test_whoever_has_fewer_rows_gives_up(self):
        self.begin((self.one, "a"), (self.two, "bcd"))
        later = self.later(self.one, add("b"))
        last = Later(self.two, add("a"))
        self.assertEqual(told(later.answer()), DEADLOCK)
        self.done(last)
        self.ok(self.two, "COMMIT")
        self.assertEqual(self.numbers(), {"a": 2, "b": 3, "c": 4, "d": 5})

    def test_two_that_share_a_row_and_want_to_write_it(self):
        for client in (self.one, self.two):
            self.ok(client, "BEGIN")
            client.ask("SELECT * FROM t WHERE k = 'a'")
        later = self.later(self.one, add("a"))
        self.assertEqual(told(self.two.ask(add("a"))), DEADLOCK)
        self.done(later)
        self.ok(self.one, "COMMIT")

    def test_behind_one_that_waits(self):
        """A circle that there is only because a reader doesn't pass a writer."""
        self.ok(self.one, "BEGIN", add("b"))
        self.one.ask("SELECT * FROM t WHERE k = 'a'")
        self.ok(self.two, "BEGIN", add("c"))
        writer = self.later(self.three, add("a", 10))
        reader = self.later(self.two, "SELECT * FROM t WHERE k = 'a'")
        last = Later(self.one, add("c"))
        self.assertEqual(told(reader.answer()), DEADLOCK)
        self.done(last)
        self.ok(self.one, "COMMIT")
        self.done(writer)
        self.assertEqual(self.numbers(), {"a": 11, "b": 3, "c": 4, "d": 4})

    def test_a_crowd(self):
        """Transfers in any order: some are rolled back, and those that aren't keep the sum."""
        done, faults = [], []

        def work(number):
            with self.server.client() as client:
                for turn in range(8):
                    one, two = ("abcd"[(number + turn) % 4], "abcd"[(number + turn * 3 + 1 + turn % 2) % 4])
                    texts = iter(("BEGIN", add(one, -1), add(two, 1), "COMMIT"))
                    refused = next((it for it in map(client.ask, texts) if it.kind != "ok"), None)
                    if refused and told(refused) != DEADLOCK:
                        faults.append(refused)
                    done.append(not refused)

        threads = [threading.Thread(target=work, args=(number,)) for number in range(8)]
        for thread in threads:
            thread.start()
        for thread in threads:
            thread.join()
        self.assertEqual(faults, [])
        self.assertGreater(sum(done), 8)
        self.assertEqual(sum(self.numbers().values()), 10)


class Plain(Waits):
    """GET, PUT and DEL, if the server is told so."""
    WORDS = ("--lock-wait", "1")

    def test_they_wait(self):
        self.prepare(self.one, "'g'", "k", "v")
        for begin in ([], ["BEGIN"], ["XA START 'h'"], ["BEGIN", "SAVEPOINT s"]):
            for text in ("PUT 'k','w'", "DEL 'k'", "GET 'k'"):
                if text[0] == "G" and not begin:
                    self.assertIsNone(self.value(self.two, "k"))
                    continue
                self.ok(self.two, *begin)
                self.late(self.two, text, 1)
                self.ok(self.two, *(["XA END 'h'", "XA ROLLBACK 'h'"] if begin == ["XA START 'h'"] else ["ROLLBACK"]))
        later = self.later(self.two, "PUT 'k','w'")
        self.ok(self.three, "XA COMMIT 'g'")
        self.assertEqual(self.done(later).affected, 1)
        self.assertEqual(self.value(self.two, "k"), b"w")

    def test_a_deadlock(self):
        for client, key in ((self.one, "a"), (self.two, "b")):
            self.ok(client, f"XA START '{key}'", f"PUT '{key}','v'")
        later = self.later(self.one, "PUT 'b','w'")
        self.assertEqual(told(self.two.ask("PUT 'a','w'")), DEADLOCK)
        self.done(later)
        self.refused(self.two, "GET 'c'", 1399, "XAE07")
        self.ok(self.two, "XA ROLLBACK 'b'")

    def test_without_it_they_are_refused_at_once(self):
        server = self.serve()
        one, two = self.client(server), self.client(server)
        self.ok(one, "XA START 'g'", "PUT 'k','v'")
        began = time.monotonic()
        said = self.refused(two, "PUT 'k','w'", 3572, "HY000").text
        self.assertLess(time.monotonic() - began, 40)
        self.assertEqual(said, "row locked by another branch: 'k' is held by 'g','',1 (ACTIVE, connection 1); "
                         "roll back, or send it again when that has ended")


GET_A, STRIPE = "GET 0x742f61", re.compile("DEL 0x2f742f..$")


def calls(path, about):
    """Of each call in a record that a pattern finds, what it has returned: `<` or `?` and the words behind; None if it
    is open."""
    found, session_of = [], {}
    for line in path.read_text().splitlines():
        session, sign, words = line.split(" ", 2)
        if sign == ">" and re.search(about, words):
            session_of[session] = len(found)
            found.append(None)
        elif sign in "<?" and session in session_of:
            found[session_of.pop(session)] = f"{sign} {words}"
        elif sign == ">":
            session_of.pop(session, None)
    return found


class Recorded(Waits):
    """A wait in the record."""

    def setUp(self):
        super().setUp()
        self.ok(self.one, "XA START 'g'", add("a"))
        self.before = len(calls(self.server.record, GET_A))

    def waits_of(self, about=GET_A):
        return calls(self.server.record, about)[self.before if about == GET_A else 0:]

    def comes(self, *expected, since=0, about=GET_A):
        """A statement that waits is listed before its call is written."""
        wait_for(lambda: self.waits_of(about)[since:] == list(expected), f"{expected} in {self.waits_of(about)}", 20)

    def commit(self):
        self.ok(self.one, "XA END 'g'", "XA COMMIT 'g' ONE PHASE")

    def test_a_wait_is_one_call(self):
        """From the statement to its answer, also of one that waits behind another, and isn't asked before."""
        self.ok(self.two, "XA START 'h'")
        self.ok(self.three, "BEGIN", add("b"))
        laters = [self.later(self.two, add("a")), self.later(self.three, add("a"))]
        self.comes(None, None)
        self.commit()
        self.done(laters[0])
        first, second = self.waits_of()
        self.assertRegex(first, "^< VALUE")
        self.assertIsNone(second)
        self.ok(self.two, "XA END 'h'", "XA ROLLBACK 'h'")
        self.done(laters[1])
        self.assertRegex(self.waits_of()[1], "^< VALUE")
        self.assertEqual(len(self.waits_of()), 2)

    def test_a_row_that_is_shared_already(self):
        """Its writer asks no more for what it has: neither for its value, nor for the key's place."""
        self.commit()
        self.ok(self.one, "BEGIN")
        self.one.ask("SELECT * FROM t WHERE k = 'a'")
        self.ok(self.two, "BEGIN", add("b"))
        later = self.later(self.two, add("a"))
        self.comes("< OK", "< OK", None, about="PUT 0x742f61")
        self.ok(self.one, "COMMIT")
        self.done(later)
        self.assertEqual(len(self.waits_of()), 2)
        self.assertEqual(self.waits_of("PUT 0x742f61"), ["< OK"] * 3)
        self.ok(self.one, "BEGIN")
        self.one.ask("SELECT * FROM t WHERE k = 'none'")
        later = self.later(self.two, "INSERT INTO t VALUES ('none', 1)")
        self.ok(self.one, "COMMIT")
        places = self.waits_of(STRIPE)
        self.done(later)
        self.assertEqual(self.waits_of(STRIPE), places)
        self.assertEqual(calls(self.server.record, "PUT 0x742f6e6f6e65"), ["< OK"])

    def test_a_place_for_a_new_key(self):
        self.commit()
        self.ok(self.two, "BEGIN", "PUT 'own','x'")
        self.ok(self.three, "BEGIN")
        self.three.ask("SELECT COUNT(*) FROM t")
        before = len(self.waits_of(STRIPE))
        later = self.later(self.two, "INSERT INTO t VALUES ('new', 1)")
        self.comes(None, since=before, about=STRIPE)
        self.ok(self.three, "COMMIT")
        self.done(later)
        self.assertEqual(self.waits_of(STRIPE)[before:], ["< OK"])
        self.assertEqual(calls(self.server.record, "GET 0x742f6e6577"), ["< NONE"])

    def test_one_that_ends_without_its_row(self):
        """Is returned as the store has answered it; one that had no turn is returned without an answer."""
        self.ok(self.two, "SET innodb_lock_wait_timeout = 1", "XA START 'h'")
        self.late(self.two, add("a"), 1)
        self.assertEqual(self.waits_of(), ["< ERROR 3572"])
        self.ok(self.three, "XA START 'i'")
        later = self.later(self.three, add("a"))
        self.late(self.two, add("a"), 1)
        self.comes(None, "? ERROR it had no turn", since=1)
        self.commit()
        self.done(later)

    def test_one_that_gives_its_session_back(self):
        """It is refused and given up with its branch, and begins anew when it has its turn."""
        for text in ((), ("BEGIN",)):
            before = len(self.waits_of())
            self.ok(self.two, *text)
            later = self.later(self.two, add("a"))
            self.comes("< ERROR 3572", since=before)
            self.commit()
            self.done(later)
            self.assertRegex(self.waits_of()[-1], "^< VALUE")
            self.assertEqual(len(self.waits_of()), before + 2)
            self.ok(self.two, "COMMIT")
            self.ok(self.one, "XA START 'g'", add("a"))
        self.commit()

    def test_one_that_has_shared_its_row(self):
        """It gives its share up with its branch, and sleeps: that it does so is no reason to try again."""
        self.commit()
        self.ok(self.one, "BEGIN")
        self.one.ask("SELECT * FROM t WHERE k = 'a'")
        later = self.later(self.two, add("a"))
        for _ in range(100):
            self.ok(self.watcher, "PUT 'other','x'")
        self.assertLess(len(self.waits_of()), 8)
        self.ok(self.one, "COMMIT")
        self.done(later)

    def test_many_calls_at_once(self):
        """Of branches that wait for one row, which each of them changes."""
        self.ok(self.one, "XA END 'g'", "XA PREPARE 'g'")
        clients = [self.client(self.server) for _ in range(14)]
        for number, client in enumerate(clients):
            self.ok(client, f"XA START 'x{number}'")
        laters = [self.later(client, add("a")) for client in clients]
        self.comes(*[None] * 14)
        self.ok(self.watcher, "XA COMMIT 'g'")
        for number, later in enumerate(laters):
            self.done(later)
            self.ok(later.client, f"XA END 'x{number}'", f"XA COMMIT 'x{number}' ONE PHASE")
        self.assertEqual(len(self.waits_of()), 14)


class RecordedRows(Waits):
    WORDS = ("--lock-wait", "600")

    def test_behind_a_savepoint_a_wait_is_one_call(self):
        """What undoes the change is read once, by a call that waits."""
        self.ok(self.one, "XA START 'g'", "PUT 'k','v'")
        self.ok(self.two, "XA START 'h'", "PUT 'j','w'", "SAVEPOINT s")
        later = self.later(self.two, "PUT 'k','w'")
        self.ok(self.watcher, "KILL QUERY 2")
        self.assertEqual(later.answer().number, 1317)
        self.ok(self.two, "PUT 'l','w'")
        later = self.later(self.two, "PUT 'k','w'")
        self.assertEqual(calls(self.server.record, "GET 0x6b$"), ["< ERROR 3572", None])
        self.ok(self.one, "XA END 'g'", "XA COMMIT 'g' ONE PHASE")
        self.done(later)
        self.assertEqual(calls(self.server.record, "GET 0x6b$"), ["< ERROR 3572", "< VALUE 0x76"])
        self.assertEqual(calls(self.server.record, "PUT 0x6b,"), ["< OK", "< OK"])
        self.ok(self.two, "ROLLBACK TO s", "XA END 'h'", "XA COMMIT 'h' ONE PHASE")
        self.assertEqual([self.value(self.one, key) for key in "jkl"], [b"w", b"v", None])


class PiecesOfWaits(Waits):
    WORDS = ("--record-size", "4096")

    def test_a_piece_ends_while_statements_wait(self):
        """Each is returned in it, and is a new call in the piece in which the store is asked again."""
        self.ok(self.one, "XA START 'g'", add("a"))
        self.ok(self.two, "XA START 'h'")
        self.ok(self.three, "XA START 'i'")
        laters = [self.later(self.two, add("a")), self.later(self.three, add("a"))]
        begun = len(pieces_of(self.server.record))
        path = pieces_of(self.server.record)[-1] if begun else self.server.record
        wait_for(lambda: calls(path, GET_A)[-2:] == [None, None], "both calls are written", 20)
        while len(pieces_of(self.server.record)) < begun + 3:
            self.ok(self.watcher, "PUT 'fill','x'")
        self.assertEqual(calls(path, GET_A)[-2:], ["< ERROR 3572", "? ERROR it had no turn"])
        for piece in pieces_of(self.server.record)[begun:]:
            self.assertEqual(calls(piece, GET_A), [])
        self.ok(self.one, "XA END 'g'", "XA COMMIT 'g' ONE PHASE")
        self.done(laters[0])
        self.ok(self.two, "XA END 'h'", "XA COMMIT 'h' ONE PHASE")
        self.done(laters[1])
        self.ok(self.three, "XA END 'i'", "XA COMMIT 'i' ONE PHASE")
        self.assertEqual(self.numbers()["a"], 4)

    def tearDown(self):
        self.assertEqual(set(verdicts(self.server.record)), {"LEGAL"})


# Conversations of two clients: `1` and `2` name who speaks, `1>` sends what waits, and `1<` reads its answer.
READ, READ_D = "SELECT n FROM t WHERE k = 'a'", "SELECT n FROM t WHERE k = 'd'"
CIRCLE = ["1 " + add("a"), "2 " + add("b"), "1> " + add("b"), "2 " + add("a"), "1<"]
CONVERSATIONS = {
    "a deadlock": ["1 BEGIN", "2 BEGIN", "2 SAVEPOINT s", *CIRCLE, "2 ROLLBACK TO s", "2 SELECT 1", f"2 {READ_D}",
                   "2 COMMIT", "1 COMMIT", "2 SELECT n FROM t"],
    "without autocommit": ["1 SET autocommit = 0", "2 SET autocommit = 0", *CIRCLE, "2 SELECT 1", f"2 {READ_D}",
                           "2 ROLLBACK", "1 ROLLBACK"],
    "two that share a row": ["1 BEGIN", "2 BEGIN", f"1 {READ}", f"2 {READ}", "1> " + add("a"), "2 " + add("a"), "1<",
                             "1 COMMIT", f"2 {READ}"],
    "time-outs": ["1 BEGIN", "1 " + add("a"), "2 SET innodb_lock_wait_timeout = 1", "2 BEGIN", "2 " + add("b"),
                  "2 " + add("a"), f"2 {READ}", "2 SELECT n FROM t WHERE k = 'b'", "2 COMMIT", "2 " + add("a"),
                  f"2 {READ} FOR UPDATE", f"2 {READ} FOR UPDATE NOWAIT", f"2 {READ} LOCK IN SHARE MODE WAIT 0",
                  "2 SET innodb_lock_wait_timeout = 0", "2 " + add("a"), "2 SELECT 1", f"2 {READ}", "1 COMMIT"],
    "time-outs of a branch": ["1 BEGIN", "1 " + add("a"), "2 SET innodb_lock_wait_timeout = 1", "2 XA START 'y'",
                              "2 " + add("b"), "2 " + add("a"), "2 " + add("b"), "2 XA END 'y'",
                              "2 XA COMMIT 'y' ONE PHASE", "1 COMMIT", "2 SELECT n FROM t"],
    "settings": ["1 SET innodb_lock_wait_timeout = 7", "1 SELECT @@innodb_lock_wait_timeout",
                 "1 SET SESSION innodb_lock_wait_timeout = -1", "1 SELECT @@session.innodb_lock_wait_timeout",
                 "1 SET @@innodb_lock_wait_timeout = 99999999999, autocommit = 1",
                 "1 SHOW VARIABLES LIKE 'innodb_lock_wait%'", "1 SET @@session.innodb_lock_wait_timeout = DEFAULT",
                 "1 SHOW SESSION VARIABLES LIKE 'innodb_lock_wait_timeout'", "2 SELECT @@innodb_lock_wait_timeout"],
}
# What the client of a branch asks that was rolled back in a deadlock.
AFTERWARDS = (("XA END 'y'", "XA PREPARE 'y'", "XA ROLLBACK 'y'", READ_D),
              (READ_D, add("d"), "SELECT 1", "SAVEPOINT s", "ROLLBACK TO s", "COMMIT", "ROLLBACK", "BEGIN",
               "XA RECOVER", "SET autocommit = 0", "SET autocommit = 1", "XA START 'z'", "XA PREPARE 'y'",
               "XA COMMIT 'y' ONE PHASE"),
              ("XA END 'y'", "XA COMMIT 'y' ONE PHASE", "XA ROLLBACK 'y'", "SELECT 1"),
              ("XA COMMIT 'y'", "XA ROLLBACK 'y'", "XA START 'y'", "XA END 'y'", "XA ROLLBACK 'y'"),
              ("XA ROLLBACK 'y'", "XA START 'y'", "XA END 'y'", "XA ROLLBACK 'y'"))
IN_TRANSACTION, AUTOCOMMIT = 1, 2


def seen(answer):
    """Texts are compared of refusals that are about waiting."""
    if answer.kind == "error":
        return answer.number, answer.sqlstate, answer.text if answer.number in (1205, 1213, 1614) else None
    return told(answer), answer.status & (IN_TRANSACTION | AUTOCOMMIT)


class BesideMariaDB(Case):
    """The same conversations with both, whose answers are the same."""
    # What each is asked for whether somebody waits.
    ASKS = "SHOW GLOBAL STATUS LIKE 'Innodb_row_lock_current_waits'", "SHOW NIGBARU STATUS"

    def setUp(self):
        super().setUp()
        self.server = self.serve()
        self.ports = [self.ends.enter_context(mariadb()), self.server.port]
        with Client(self.ports[0]) as client:
            self.ok(client, "CREATE DATABASE any")

    def tearDown(self):
        self.assertEqual(self.server.verdicts(), ["LEGAL"])

    def later(self, port, client, text):
        """Sends a statement, which is seen to wait."""
        later = Later(client, text)
        with Client(port) as watcher:
            asks = self.ASKS[self.ports.index(port)]
            wait_for(lambda: any(row[0] == b"waits" or row[1:] == (b"1",) for row in watcher.ask(asks).rows)
                     or not later.waits(), text)
        self.assertTrue(later.waits(), text)
        return later

    def both(self, name, lines):
        one, other = (self.answers(port, lines) for port in self.ports)
        self.assertEqual(one, other, name)

    def answers(self, port, lines):
        with contextlib.ExitStack() as ends:
            clients = {str(number): ends.enter_context(Client(port)) for number in (1, 2, 3)}
            for client in clients.values():
                self.ok(client, "USE any", "SET SESSION TRANSACTION ISOLATION LEVEL SERIALIZABLE")
            self.ok(clients["1"], "DROP TABLE IF EXISTS t", *TABLE)
            said, later = [], None
            for line in lines:
                who, text = line[0], line[2:].strip()
                if line[1:2] == ">":
                    later = self.later(port, clients[who], text)
                else:
                    said.append((line, seen(later.answer() if line[1:2] == "<" else clients[who].ask(text))))
            return said

    def test_conversations(self):
        for name, lines in CONVERSATIONS.items():
            self.both(name, lines)

    def test_kill(self):
        """KILL QUERY undoes what waits, and KILL its transaction."""
        said = []
        for port in self.ports:
            with Client(port) as one, Client(port) as two, Client(port) as three:
                for client in (one, two, three):
                    self.ok(client, "USE any")
                self.ok(one, "DROP TABLE IF EXISTS t", *TABLE, "BEGIN", add("a"))
                self.ok(two, "BEGIN", add("b", 10))
                number = int(two.ask("SELECT CONNECTION_ID()").rows[0][0])
                later = self.later(port, two, add("a"))
                self.ok(three, f"KILL QUERY {number}")
                answer = later.answer()
                said.append([(answer.number, answer.sqlstate), told(two.ask("SELECT n FROM t WHERE k = 'b'"))])
                later = self.later(port, two, add("a"))
                self.ok(three, f"KILL {number}")
                with self.assertRaises((Closed, ConnectionError)):
                    later.answer()
                self.ok(three, add("b"))
                self.ok(one, "COMMIT")
                said[-1].append(told(three.ask("SELECT * FROM t WHERE k IN ('a', 'b')")))
        self.assertEqual(*said)

    def test_what_becomes_of_a_branch(self):
        begin = ["1 XA START 'x'", "2 XA START 'y'", *CIRCLE, "3 XA START 'y'", "1 XA END 'x'", "1 XA ROLLBACK 'x'"]
        for texts in AFTERWARDS:
            self.both(texts[0], [*begin, *(f"2 {text}" for text in texts)])


if __name__ == "__main__":
    unittest.main()
