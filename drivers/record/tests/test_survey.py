"""The loads that a survey draws, and the table that it prints. No database is needed."""
import subprocess
import sys
import tempfile
import unittest
from pathlib import Path

from support import ROOT

sys.path.insert(0, str(ROOT / "drivers/record"))

from loads import Traits, load_of  # noqa: E402
from statements import first_stranger  # noqa: E402

SURVEY = [sys.executable, ROOT / "drivers/record/survey.py"]
LEGAL = "1 > XA START 'a'\n1 < OK\n1 > PUT 'k','1'\n1 < OK\n2 > GET 'k'\n2 < NONE\n"
# what another one's branch has written, and not committed
DIRTY = LEGAL.replace("2 < NONE", "2 < VALUE '1'")


class Loads(unittest.TestCase):
    def test_a_seed_is_a_load(self):
        self.assertEqual(load_of("1 1", Traits()), load_of("1 1", Traits()))
        self.assertNotEqual(load_of("1 1", Traits()), load_of("1 2", Traits()))

    def test_clients_and_statements(self):
        """Two to sixteen clients, whose statements are some; a killed server's second phase has others."""
        counts, killed = set(), 0
        for number in range(200):
            load = load_of(f"1 {number}", Traits())
            first, second = ({session for _, session, _ in lines} for lines in load.phases)
            counts.add(len(first | second))
            self.assertLessEqual(first | second, set(range(1, 17)))
            self.assertTrue(first and second)
            if load.killed_after:
                killed += 1
                self.assertFalse(first & second)
                self.assertLessEqual(load.killed_after, len(load.phases[0]))
            for session, count in {**load.lose, **load.cut}.items():
                self.assertLessEqual(count, sum(one == session for _, one, _ in load.phases[0]))
        self.assertEqual(counts, set(range(2, 17)))
        self.assertTrue(20 <= killed <= 60, killed)

    def test_each_line_is_a_statement(self):
        lines = [statement for number in range(20) for lines in load_of(f"2 {number}", Traits()).phases
                 for _, _, statement in lines]
        self.assertIsNone(first_stranger(lines))

    def test_what_mariadb_is_known_for_is_left_out(self):
        """A branch that is prepared begins with a write of a row of its own, reads nothing, and is ended by its session
        before its next one, or its session leaves."""
        for number in range(50):
            load = load_of(f"3 {number}", Traits(is_free_once_prepared=False, keeps_all_locks=False))
            for lines in load.phases:
                for session in {session for _, session, _ in lines}:
                    own = [statement for _, one, statement in lines if one == session]
                    for place, text in enumerate(own):
                        if text.startswith(b"XA PREPARE") and own[place - 1].startswith(b"XA END"):
                            begun = own.index(text.replace(b"PREPARE", b"START"))
                            self.assertRegex(own[begun + 1], b"PUT 'own ")
                            self.assertFalse([it for it in own[begun + 2:place - 2] if it.startswith((b"GET", b"DEL"))])
                            after = [it for it in own[place + 1:place + 3] if it != b"XA RECOVER"][0]
                            self.assertRegex(after, b"DISCONNECT|XA (COMMIT|ROLLBACK) " + text[11:])


class Table(unittest.TestCase):
    def test_verdicts_are_counted_and_smaller_records_kept(self):
        """Records that are there aren't recorded again."""
        with tempfile.TemporaryDirectory() as folder:
            for number, text in enumerate((LEGAL, DIRTY, DIRTY), 1):
                Path(folder, f"{number}.record").write_text(f"# MariaDB 10.11, load {number} of seed 1\n{text}")
            ran = subprocess.run([*SURVEY, "mariadb", "--count", "3", folder], stdout=subprocess.PIPE,
                                 stderr=subprocess.PIPE, text=True, timeout=600)
            self.assertEqual((ran.stdout, ran.stderr, ran.returncode), (
                "MariaDB 10.11: 3 records\n     2 ILLEGAL\n     2    GET: VALUE, could be NONE: 2 3\n     1 LEGAL\n",
                "", 0))
            self.assertIn("RECORD\n1 > XA START 'a'\n", Path(folder, "2.shrunk").read_text())

    def test_a_server_that_is_not_there(self):
        ran = subprocess.run([*SURVEY, "mysql", "/nowhere"], stdout=subprocess.PIPE, stderr=subprocess.PIPE, text=True,
                             timeout=600)
        self.assertEqual((ran.stderr.splitlines()[-1], ran.returncode),
                         ("survey.py: error: name a server by --socket or --address", 2))


if __name__ == "__main__":
    unittest.main()
