"""What the recorder writes of a PostgreSQL, which is started here, and what the judge says of it. Without Debian's
postgresql and python3-psycopg2 it is skipped."""
import importlib.util
import re
import subprocess
import sys
import tempfile
import unittest
from pathlib import Path
from types import SimpleNamespace
from unittest import mock

from forwarded import forwarded
from support import ROOT, says

sys.path.insert(0, str(ROOT / "drivers/record"))

import servers  # noqa: E402
import survey  # noqa: E402
from databases import postgresql  # noqa: E402
from faults import Fault  # noqa: E402
from loads import Load  # noqa: E402

RECORD = [sys.executable, ROOT / "drivers/record/record.py"]
EXAMPLES = ROOT / "examples/records"
ALLOW = EXAMPLES / "postgresql.allow"
# the script and the options of an example, in its first line
MADE = re.compile(r"# Recorded by drivers/record/record.py (.*) from PostgreSQL 15\.\d+; the script is (\S+)\.\n")
# of each example the verdict, without and with the allowances
VERDICTS = {
    "changed_since": ("LEGAL", "LEGAL"), "crossed": ("ILLEGAL line 13", "LEGAL"), "goes_on": ("LEGAL", "LEGAL"),
    "killed": ("LEGAL", "LEGAL"), "no_such_branch": ("ILLEGAL line 4", "LEGAL"), "only_read": ("LEGAL", "LEGAL"),
    "refused_reads": ("LEGAL", "LEGAL"), "shares": ("LEGAL", "LEGAL"), "stays": ("LEGAL", "LEGAL"),
    "taken_name": ("ILLEGAL line 12", "ILLEGAL line 12"),
}  # fmt: skip
# A client prepares a branch that has read one row and written another, and is at work in the next one when the server
# is killed. Then another client comes.
KILLED = Load(
    phases=[
        [(0, 1, it) for it in (b"XA START 'a'", b"GET 'l'", b"PUT 'k','v'", b"XA END 'a'", b"XA PREPARE 'a'",
                               b"XA START 'b'", b"PUT 'm','w'")],
        [(0, 2, it) for it in (b"PUT 'm','x'", b"XA RECOVER", b"PUT 'l','x'", b"XA COMMIT 'a'", b"GET 'k'",
                               b"PUT 'l','x'")],
    ],
    killed_after=7,
)  # fmt: skip
OUTLIVES = """1 > XA START 'a'
1 < OK
1 > GET 'l'
1 < NONE
1 > PUT 'k','v'
1 < OK
1 > XA END 'a'
1 < OK
1 > XA PREPARE 'a'
1 < OK
1 > XA START 'b'
1 < OK
1 > PUT 'm','w'
1 < OK
1 ! GONE
2 > PUT 'm','x'
2 < OK
2 > XA RECOVER
2 < ROWS 1
1 1 0 0x61
2 > PUT 'l','x'
2 < ERROR 3572
2 > XA COMMIT 'a'
2 < OK
2 > GET 'k'
2 < VALUE X'76'
2 > PUT 'l','x'
2 < OK
""".splitlines()


def numbers(text):
    """The lines of a record without comments, and without what follows an error's number."""
    return [re.sub(r"( ERROR \d+).*", r"\1", line) for line in text.splitlines() if not line.startswith("#")]


@unittest.skipUnless(importlib.util.find_spec("psycopg2") and Path("/usr/lib/postgresql").exists(),
                     "PostgreSQL isn't tried: Debian's postgresql and python3-psycopg2 aren't there")
class PostgreSql(unittest.TestCase):
    @classmethod
    def setUpClass(cls):
        cls.room = tempfile.TemporaryDirectory()
        with mock.patch.dict("os.environ", PGPORT="5477"):  # another server's port, which isn't this one's
            cls.server = servers.PostgreSql(cls.room.name)

    @classmethod
    def tearDownClass(cls):
        cls.server.stop()
        cls.room.cleanup()

    def record(self, text, *words):
        """The lines of the record of a script."""
        with tempfile.NamedTemporaryFile("w", suffix=".script") as script:
            script.write(text)
            script.flush()
            return self.recorded(script.name, *words)

    def recorded(self, script, *words):
        ran = subprocess.run([*RECORD, "--postgresql", "--socket", self.server.socket, *words, script],
                             stdout=subprocess.PIPE, stderr=subprocess.PIPE, text=True, timeout=600)
        self.assertEqual((ran.stderr, ran.returncode), ("", 0))
        return numbers(ran.stdout)

    def verdict(self, lines, *words):
        return says("judge", "".join(f"{line}\n" for line in lines).encode(), *words)[0].decode().splitlines()[0]

    def database(self):
        options = SimpleNamespace(socket=self.server.socket, user=None, password="", database="judged", isolation=None,
                                  wait=0)
        found = postgresql.Database(options)
        self.addCleanup(found.close)
        return found

    def test_examples_are_what_it_does(self):
        """Each that was recorded in turn is recorded once more."""
        found = [(path, MADE.match(path.read_text())) for path in sorted(EXAMPLES.glob("postgresql_*.record"))]
        made = [(path, it) for path, it in found if it and "--in-turn" in it[1]]
        self.assertEqual(len(made), 8)
        for path, it in made:
            with self.subTest(path.stem):
                words = [word for word in it[1].split() if word != "--postgresql"]
                self.assertEqual(self.recorded(ROOT / it[2], *words), numbers(path.read_text()))

    def test_an_address(self):
        """A server that listens on the network is recorded as one that has a socket."""
        with forwarded(self.server.socket) as address:
            ran = subprocess.run([*RECORD, "--postgresql", "--address", address, "--in-turn",
                                  ROOT / "drivers/record/scripts/in_turn/stays.script"], stdout=subprocess.PIPE,
                                 stderr=subprocess.PIPE, text=True, timeout=600)
        self.assertEqual((ran.stderr, ran.returncode), ("", 0))
        self.assertEqual(numbers(ran.stdout), numbers((EXAMPLES / "postgresql_stays.record").read_text()))

    def test_a_prepared_branch_outlives_a_killed_server(self):
        """With what it has read and written; and the judge says so if it doesn't."""
        lines = numbers(b"\n".join(survey.record_load(KILLED, "1", self.server, self.database())).decode())
        self.assertEqual(lines, OUTLIVES)
        self.assertEqual(self.verdict(lines), "LEGAL")
        place = lines.index("2 < ROWS 1")
        self.assertEqual(self.verdict([*lines[:place], "2 < ROWS 0"]), f"ILLEGAL line {place + 1}")

    def test_drawn_loads(self):
        """Of two to sixteen clients, some lost and some servers killed: the judge takes them, as they are."""
        with tempfile.TemporaryDirectory() as folder:
            chosen = SimpleNamespace(database="postgresql", folder=Path(folder), numbers=range(1, 5), seed="test",
                                     allow=ALLOW, seconds=20)
            survey.record_all(chosen, chosen.numbers, self.server)
            for number in chosen.numbers:
                word, about = survey.verdict_of(survey.path_of(chosen, number), chosen)
                self.assertIn(word, ("LEGAL", "UNDECIDED", "longer than 20 seconds"), about)

    def test_a_lock_that_is_waited_for(self):
        """The row is given back while the other client waits."""
        text = "1 XA START 'a'\n1 PUT 'k','1'\n2 PUT 'k','2'\n1 XA END 'a'\n1 XA COMMIT 'a' ONE PHASE\n2 GET 'k'\n"
        lines = self.record(text, "--first", "2", "--wait", "100000")
        self.assertEqual([line for line in lines if line[0] == "2"],
                         ["2 > PUT 'k','2'", "2 < OK", "2 > GET 'k'", "2 < VALUE X'32'"])
        self.assertEqual(self.verdict(lines), "LEGAL")

    def test_a_deadlock_is_refused_as_a_lock_that_is_held(self):
        lines = self.recorded(ROOT / "drivers/record/scripts/crossed.script", "--first", "4", "--wait", "100000")
        self.assertEqual(sum(line.endswith("< ERROR 1213") for line in lines), 1)
        self.assertRegex(self.verdict(lines), "ILLEGAL")
        self.assertEqual(self.verdict(lines, "--allow", ALLOW), "LEGAL")

    def test_clients_that_are_lost(self):
        """Behind an answer, and behind a statement that was sent, which may have been carried out or not."""
        text = "1 XA START 'a'\n1 PUT 'k','1'\n2 GET 'k'\n2 PUT 'l','2'\n2 GET 'k'\n"
        for flag, answer in ("--lose", ["1 < OK"]), ("--cut", []):
            lines = self.record(text, flag, "1:2", "--in-turn")
            self.assertEqual(lines[:4 + len(answer)], ["1 > XA START 'a'", "1 < OK", "1 > PUT 'k','1'", *answer,
                                                       "1 ! LOST"])
            self.assertEqual(self.verdict(lines), "LEGAL")

    def test_a_connection_that_the_server_closed_is_gone(self):
        database = self.database()
        record, sessions = survey.sessions_of([(0, 1, b"PUT 'k','1'")], SimpleNamespace(lose={}, cut={}, timeout=None),
                                              database)
        sessions[1].give(b"XA START 'a'")
        database.ask(f"SELECT pg_terminate_backend({sessions[1].client.process})")
        sessions[1].give(b"PUT 'k','1'")
        self.assertEqual(record.lines, [b"1 > XA START 'a'", b"1 < OK", b"1 > PUT 'k','1'", b"1 ! GONE"])

    def test_identifiers_of_every_length_are_names(self):
        """The longest name is shorter than 200 bytes, which PostgreSQL cuts off."""
        for xid in (2**64 - 1, b"g" * 64, b"\xff" * 64), (0, b"", b""), (1, b"_'\\", b"\0"):
            self.assertLess(len(postgresql.name_of(xid)), 200)
            self.assertEqual(postgresql.xid_named(postgresql.name_of(xid)), xid)

    def test_a_server_that_prepares_nothing(self):
        """It is refused before a database is made there."""
        options = self.database().options
        cause = "max_prepared_transactions is 0, so it prepares nothing; start it with 100"
        with mock.patch.object(postgresql.Database, "ask", return_value=[("0",)]) as ask, \
                self.assertRaisesRegex(Fault, cause):
            postgresql.Database(options)
        ask.assert_called_once_with("SHOW max_prepared_transactions")

    def test_a_branch_that_there_is_no_room_to_prepare_is_rolled_back(self):
        """The server has prepared as many as it may."""
        database = self.database()
        record, sessions = survey.sessions_of([(0, 1, b"PUT 'k','1'"), (0, 2, b"GET 'k'")],
                                              SimpleNamespace(lose={}, cut={}, timeout=None), database)
        for text in b"XA START 'a'", b"PUT 'k','1'", b"XA END 'a'":
            sessions[1].give(text)
        [(room,)] = database.ask("SHOW max_prepared_transactions")
        for number in range(int(room)):
            database.ask("BEGIN")
            database.ask(f"PREPARE TRANSACTION '{number}'")
        sessions[1].give(b"XA PREPARE 'a'")
        sessions[2].give(b"GET 'k'")
        survey.end(sessions)
        lines = [line.decode() for line in record.lines]
        self.assertEqual(lines[-4:], ["1 > XA PREPARE 'a'", "1 ! GONE", "2 > GET 'k'", "2 < NONE"])
        self.assertEqual(self.verdict(lines), "LEGAL")

    def test_busy_is_left_open(self):
        """Many sessions end one branch at once: one does, and all others are refused. The branch may still be listed
        after it was busy, so the rules have no number for that."""
        database = self.database()
        for _ in range(10):
            lines = [(0, session, b"XA COMMIT 'a'") for session in range(2, 10)]
            options = SimpleNamespace(lose={}, cut={}, timeout=None, pauses=None)
            record, sessions = survey.sessions_of([(0, 1, b"PUT 'k','1'"), *lines], options, database)
            for text in b"XA START 'a'", b"PUT 'k','1'", b"XA END 'a'", b"XA PREPARE 'a'":
                sessions[1].give(text)
            survey.run_together(sessions, lines, options)
            survey.end(sessions)
            answers = [line.split(b" ", 1)[1] for line in record.lines[8:] if b" > " not in line]
            self.assertEqual(answers.count(b"< OK"), 1, record.lines)
            self.assertTrue(all(re.match(rb"< OK$|< ERROR 1397 42704 |\? ERROR 1399 55000 ", it) for it in answers),
                            answers)
            self.assertEqual(self.verdict([line.decode() for line in record.lines]), "LEGAL")


class Examples(unittest.TestCase):
    def test_verdicts(self):
        records = {path.stem[len("postgresql_"):]: path.read_bytes() for path in EXAMPLES.glob("postgresql_*.record")}
        self.assertEqual(set(records), set(VERDICTS))
        for name, text in records.items():
            with self.subTest(name):
                self.assertEqual(tuple(says("judge", text, *words)[0].decode().splitlines()[0]
                                       for words in ([], ["--allow", ALLOW])), VERDICTS[name])


class CommandLine(unittest.TestCase):
    def test_addresses(self):
        for word in ("127.0.0.1", ":5432", "host:", "host:0", "host:65536", "host:port"):
            self.assertEqual(self.said("--address", word, "script"),
                             (f"record.py: error: argument --address: not HOST:PORT: {word!r}", 2))
        self.assertEqual(self.said("--postgresql", "script"),
                         ("record.py: error: one of the arguments --socket --address is required", 2))
        self.assertEqual(self.said("--postgresql", "--socket", "s", "--address", "host:1", "script"),
                         ("record.py: error: argument --address: not allowed with argument --socket", 2))

    def said(self, *words):
        ran = subprocess.run([*RECORD, *words], stdout=subprocess.PIPE, stderr=subprocess.PIPE, text=True, timeout=600)
        return ran.stderr.splitlines()[-1], ran.returncode

    def test_options_of_one_database(self):
        for words in (["--isolation", "serializable"], ["--wait", "5"]):
            self.assertEqual(self.said("--socket", "s", *words, "script"),
                             ("record.py: error: --isolation and --wait go with --postgresql only", 2))


if __name__ == "__main__":
    unittest.main()
