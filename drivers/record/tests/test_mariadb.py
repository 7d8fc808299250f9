"""What the recorder writes of a MariaDB, which is started here: the examples once more. Without Debian's mariadb-server
and python3-pymysql it is skipped."""
import importlib.util
import re
import shutil
import subprocess
import sys
import tempfile
import unittest
from types import SimpleNamespace

from forwarded import forwarded
from support import ROOT

sys.path.insert(0, str(ROOT / "drivers/record"))

import servers  # noqa: E402
import survey  # noqa: E402
from databases import mysql  # noqa: E402
from loads import Load  # noqa: E402

RECORD = [sys.executable, ROOT / "drivers/record/record.py"]
EXAMPLES = ROOT / "examples/records"
# the options and the script of an example, in its first line
MADE = re.compile(r"# Recorded by drivers/record/record.py (.*) from MariaDB .*; the script is (\S+?)(?: with (.*))?\.\n")
# A prepared branch is rolled back, and then the server is killed.
KILLED = Load(
    phases=[
        [(0, 1, it) for it in (b"XA START 'a'", b"PUT 'k','v'", b"XA END 'a'", b"XA PREPARE 'a'", b"XA ROLLBACK 'a'")],
        [(0, 2, it) for it in (b"XA RECOVER", b"GET 'k'", b"PUT 'k','w'")],
    ],
    killed_after=5,
)


def numbers(text):
    """The lines of a record without comments, and without what follows an error's number."""
    return [re.sub(r"( ERROR \d+).*", r"\1", line) for line in text.splitlines() if not line.startswith("#")]


@unittest.skipUnless(importlib.util.find_spec("pymysql") and shutil.which("mariadb-install-db"),
                     "MariaDB isn't tried: Debian's mariadb-server and python3-pymysql aren't there")
class MariaDb(unittest.TestCase):
    @classmethod
    def setUpClass(cls):
        cls.room = tempfile.TemporaryDirectory()
        cls.server = servers.MariaDb(cls.room.name)

    @classmethod
    def tearDownClass(cls):
        cls.server.stop()
        cls.room.cleanup()

    def test_examples_are_what_it_does(self):
        found = [(path, MADE.match(path.read_text())) for path in sorted(EXAMPLES.glob("mariadb_*.record"))]
        self.assertEqual(len([it for it in found if it[1]]), 11)
        for path, made in found:
            if made:
                with self.subTest(path.stem):
                    ran = subprocess.run([*RECORD, "--socket", self.server.socket, *made[1].split(),
                                          *(made[3] or "").split(), ROOT / made[2]], stdout=subprocess.PIPE,
                                         stderr=subprocess.PIPE, text=True, timeout=600)
                    self.assertEqual((ran.stderr, ran.returncode), ("", 0))
                    self.assertEqual(numbers(ran.stdout), numbers(path.read_text()))

    def test_an_address(self):
        """A server that listens on the network is recorded as one that has a socket."""
        with forwarded(self.server.socket) as address:
            ran = subprocess.run([*RECORD, "--address", address, "--in-turn",
                                  ROOT / "drivers/record/scripts/in_turn/formats.script"], stdout=subprocess.PIPE,
                                 stderr=subprocess.PIPE, text=True, timeout=600)
        self.assertEqual((ran.stderr, ran.returncode), ("", 0))
        self.assertEqual(numbers(ran.stdout), numbers((EXAMPLES / "mariadb_formats.record").read_text()))

    def test_a_branch_that_was_rolled_back_before_the_server_is_killed(self):
        options = SimpleNamespace(socket=self.server.socket, user=None, password="", database="judged")
        database = mysql.Database(options)
        lines = survey.record_load(KILLED, "1", self.server, database)
        database.close()
        seen, example = numbers(b"\n".join(lines).decode()), numbers((EXAMPLES / "mariadb_killed.record").read_text())
        place = example.index("2 < ROWS 1")
        # (a second later it has written by itself what it rolled back, which a slow machine may take)
        written = [*example[:place], "2 < ROWS 0", *example[place + 2:-1], "2 < OK"]
        self.assertIn(seen, (example, written))


if __name__ == "__main__":
    unittest.main()
