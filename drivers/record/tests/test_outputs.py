"""A full disk, or a pipe that nobody reads, ends what writes records or draws with one line and a status."""
import os
import subprocess
import sys
import tempfile
import unittest
from pathlib import Path

from support import COMMAND, PROGRAM, ROOT, history

READS = history((0, "invoke", "read", None), (0, "ok", "read", None))
# The recorder over a server that gave these lines.
RECORDER = """
import sys
sys.path.insert(0, sys.argv.pop(1))
import record
record.record_of = lambda options: [b"1 > GET 'k'", b"1 < NONE"]
record.main()
"""


class Outputs(unittest.TestCase):
    def assert_one_line(self, command, status, name, given=None, what="record"):
        """Also where the standard output is closed."""
        reader, writer = os.pipe()
        os.close(reader)
        try:
            with open("/dev/full", "wb") as full:
                for target, why in ((full, "No space left on device"), (writer, "Broken pipe")):
                    ran = subprocess.run(
                        command, input=given, stdout=target, stderr=subprocess.PIPE, text=True, timeout=600
                    )
                    self.assertEqual(
                        (ran.returncode, ran.stderr), (status, f"{name}: the {what} can't be written: {why}\n")
                    )
        finally:
            os.close(writer)
        ran = subprocess.run(
            ["sh", "-c", 'exec "$@" >&-', "sh", *command], input=given, stderr=subprocess.PIPE, text=True, timeout=600
        )
        self.assertEqual(
            (ran.returncode, ran.stderr), (status, f"{name}: the {what} can't be written: Bad file descriptor\n")
        )

    def test_from_history(self):
        self.assert_one_line(COMMAND, 2, "from_history", READS)

    def test_the_recorder(self):
        self.assert_one_line(
            [sys.executable, "-c", RECORDER, ROOT / "drivers/record", "--socket", "x", "y"], 1, "record"
        )

    def test_serve_record(self):
        self.assert_one_line([ROOT / "scripts/serve_record", "1", "20", "2", PROGRAM], 1, "serve_record")

    def test_race_record(self):
        with tempfile.TemporaryDirectory() as folder:
            script, race = Path(folder) / "script", Path(folder) / "race"
            script.write_text("1 PUT 'k','v'\n2 GET 'k'\n")
            race.write_bytes(
                subprocess.run([PROGRAM, "race"], input=script.read_bytes(), stdout=subprocess.PIPE, check=True).stdout
            )
            self.assert_one_line([ROOT / "scripts/race_record", script, race], 1, "race_record")

    def test_drawings(self):
        page = ROOT / "drivers/page"
        for name, what, file in (
            ("picture", "picture", "records/dirty_read.record"),
            ("sequence", "diagram", "scenarios/01_all_yes.calls"),
        ):
            self.assert_one_line([page / name, "--program", PROGRAM, page / file], 1, name, what=what)

    def test_a_server_that_is_not_there_or_ends(self):
        for program, why in (
            ("/nowhere", "/nowhere: No such file or directory"),
            ("/bin/true", "the server gave up before all were answered"),
        ):
            ran = subprocess.run(
                [ROOT / "scripts/serve_record", "1", "20", "2", program], capture_output=True, text=True, timeout=600
            )
            self.assertEqual((ran.returncode, ran.stdout, ran.stderr), (1, "", f"serve_record: {why}\n"))


if __name__ == "__main__":
    unittest.main()
