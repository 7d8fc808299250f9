"""What the recorder writes for answers, refusals, closed connections and late answers, by a driver that stands in for
PyMySQL. It needs no server."""
import os
import sys
import tempfile
import types
import unittest
from pathlib import Path
from unittest import mock

sys.dont_write_bytecode = True
sys.path.insert(0, str(Path(__file__).resolve().parent.parent))

import record as recorder  # noqa: E402
import sessions  # noqa: E402
from databases import mysql  # noqa: E402
from faults import Gone  # noqa: E402


class MySQLError(Exception):
    pass


class Clock:
    """The time, which goes on where a driver waits, and nowhere else."""
    now = 0.0

    def monotonic(self):
        return self.now


CLOCK = Clock()


class Cursor:
    def __init__(self, connection):
        self.connection = connection

    def __enter__(self):
        return self

    def __exit__(self, *_):
        pass

    def execute(self, text):
        told = self.connection.tells(text)
        if isinstance(told, float):
            CLOCK.now += told
        if isinstance(told, tuple):
            raise MySQLError(*told)

    def fetchall(self):
        return ()


class Connection:
    def __init__(self, told):
        self.told, self.is_broken = told, False

    def tells(self, text):
        return self.told.get(text)

    def thread_id(self):
        return 7

    def cursor(self):
        return Cursor(self)

    def _force_close(self):
        self.is_broken = True


class Recorded(unittest.TestCase):
    """A session whose driver tells for each statement an error, or for how long its answer is waited for."""

    def session(self, told, timeout=None):
        self.addCleanup(setattr, mysql, "pymysql", mysql.pymysql)
        mysql.pymysql = types.SimpleNamespace(MySQLError=MySQLError)
        options = types.SimpleNamespace(cut={}, lose={}, timeout=timeout)
        database = types.SimpleNamespace(is_mariadb=True, is_killed=False)
        found = sessions.Session(3, options, sessions.Record(), database, {})
        found.client = mysql.Client(database, Connection(told))
        return found

    def lines(self, told, *statements, timeout=None):
        session = self.session(told, timeout)
        with mock.patch.object(sessions, "time", CLOCK):
            for statement in statements:
                session.give(statement)
        return session, session.record.lines

    def test_an_answer_and_a_refusal_are_returns(self):
        session, lines = self.lines({b"XA END 'a'": (1399, "wrong state")}, b"XA START 'a'", b"XA END 'a'")
        self.assertEqual(lines, [b"3 > XA START 'a'", b"3 < OK", b"3 > XA END 'a'", b"3 < ERROR 1399 wrong state"])
        self.assertFalse(session.lost)

    def test_a_connection_that_the_server_closed_is_gone(self):
        for number in (2006, 2013, 1927, 0):
            with self.subTest(number=number):
                session, lines = self.lines({b"XA END 'a'": (number, "closed")}, b"XA END 'a'")
                self.assertEqual(lines, [b"3 > XA END 'a'", b"3 ! GONE"])
                self.assertTrue(session.lost and session.client.connection.is_broken)

    def test_an_answer_that_the_driver_cannot_read_is_a_loss(self):
        session, lines = self.lines({b"XA END 'a'": ("bad packet",)}, b"XA END 'a'")
        self.assertEqual(lines, [b"3 > XA END 'a'", b"3 ! LOST"])
        self.assertTrue(session.lost)

    def test_a_late_answer_is_not_looked_at_and_the_session_goes_on(self):
        for told in (5.5, 5.0, None):
            with self.subTest(told=told):
                session, lines = self.lines({b"XA END 'a'": told}, b"XA END 'a'", b"XA PREPARE 'a'", timeout=5)
                answer = b"3 ? ERROR no answer within 5 seconds" if told == 5.5 else b"3 < OK"
                self.assertEqual(lines, [b"3 > XA END 'a'", answer, b"3 > XA PREPARE 'a'", b"3 < OK"])
                self.assertFalse(session.lost)

    def test_a_late_answer_is_looked_at_without_a_time_out(self):
        self.assertEqual(self.lines({b"XA END 'a'": 600.0}, b"XA END 'a'")[1], [b"3 > XA END 'a'", b"3 < OK"])


class Noticing:
    """A server that lists a connection as open for some questions more, and is gone then if it is asked to be."""
    is_mariadb, is_killed = True, False

    def __init__(self, questions, then_gone=False):
        self.questions, self.then_gone = questions, then_gone

    def ask(self, _):
        self.questions -= 1
        if self.questions < 0 and self.then_gone:
            raise Gone
        return [(1,)] if self.questions >= 0 else []


class Losses(unittest.TestCase):
    """What a lost client left is over before anything else is sent."""

    def sessions(self, database):
        self.addCleanup(setattr, mysql, "pymysql", mysql.pymysql)
        mysql.pymysql = types.SimpleNamespace(MySQLError=MySQLError)
        self.seen = []
        found = {}
        for number in (1, 2):
            options = types.SimpleNamespace(cut={}, lose={1: 1}, timeout=None)
            found[number] = sessions.Session(number, options, sessions.Record(), database, {})
            found[number].client = mysql.Client(database, Connection({}))
            found[number].client.connection.tells = lambda text: self.seen.append((text, database.questions))
        return found

    def test_in_turn_the_next_statement_waits_for_it(self):
        for then_gone in (False, True):
            with self.subTest(then_gone=then_gone):
                database = Noticing(3, then_gone)
                given = self.sessions(database)
                sessions.run_in_turn(given, [(1, 1, b"XA START 'a'"), (2, 1, b"XA END 'a'"), (3, 2, b"XA START 'b'")])
                self.assertEqual([text for text, _ in self.seen], [b"XA START 'a'", b"XA START 'b'"])
                self.assertEqual(self.seen[0][1], 3)
                self.assertLess(self.seen[1][1], 0, "the server has ended the first one")
                self.assertEqual(given[1].record.lines, [b"1 > XA START 'a'", b"1 < OK", b"1 ! LOST"])

    def test_a_record_ends_with_it(self):
        for then_gone in (False, True):
            with self.subTest(then_gone=then_gone):
                database = Noticing(3, then_gone)
                given = self.sessions(database)
                given[1].give(b"XA START 'a'")
                given[2].client = None
                self.assertEqual(database.questions, 3, "nobody has waited for it")
                sessions.end(given)
                self.assertLess(database.questions, 0)


class Scripts(unittest.TestCase):
    """What is said of a script, by a recorder without a server."""

    def said(self, text, any_text=False, program=os.environ["XA_SCRIPT"]):
        self.addCleanup(setattr, mysql, "pymysql", mysql.pymysql)
        mysql.pymysql = types.SimpleNamespace(MySQLError=MySQLError)
        with tempfile.TemporaryDirectory() as folder, mock.patch.dict(os.environ, NIGBARU_PROGRAM=str(program)), \
                mock.patch.object(mysql, "connect", side_effect=MySQLError("none")):
            script = Path(folder) / "script"
            script.write_text(text)
            options = types.SimpleNamespace(script=script, any_text=any_text, lose=[], cut=[], database="d", socket="s",
                                            postgresql=False)
            with self.assertRaises(recorder.Fault) as raised:
                recorder.record_of(options)
            return str(raised.exception).replace(folder, "")

    def test_a_line_that_is_no_statement_is_named(self):
        for text in ("SELECT * FROM t", "XA START 'abc", "", "PUT 'k'"):
            self.assertEqual(
                self.said(f"# two sessions\n1 XA START 'a'\n\n2 {text}\n1 nothing\n"),
                "/script, line 4: not a statement; mend it, or send it as it is by --any-text",
            )

    def test_all_other_lines_are_sent(self):
        right, wrong, sent = "1 XA START 'a' RESUME\n16 xa recover;\n", "1 SELECT 1\n", "no server answers at s: none"
        for text, more in ((right, {}), (wrong, {"any_text": True}), (wrong, {"program": "/nowhere"})):
            self.assertEqual(self.said(text, **more), sent)


if __name__ == "__main__":
    unittest.main()
