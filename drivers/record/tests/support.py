"""What the tests of histories share: the command, the judge, and histories as text."""
import json
import os
import subprocess
import sys
import unittest
from pathlib import Path

ROOT = Path(__file__).resolve().parents[3]
PROGRAM = Path(os.environ["XA_SCRIPT"])
COMMAND = [sys.executable, ROOT / "drivers/record/from_history.py"]
NO_SESSION = (
    ", and a record has 16: here each is of a process that goes on, that may have a branch, "
    "or whose call is unknown and may still be seen; "
    "run fewer processes at a time, or split the history"
)


def says(job, text, *words):
    """What the program writes for an input, and its status."""
    ran = subprocess.run(
        [PROGRAM, job, *words], input=text, stdout=subprocess.PIPE, stderr=subprocess.DEVNULL, timeout=600
    )
    return ran.stdout, ran.returncode


def converted(text, *words):
    ran = subprocess.run(
        [*COMMAND, *words], input=text.encode("utf-8", "surrogateescape"), capture_output=True, timeout=600
    )
    return ran.stdout.decode(), ran.stderr.decode(), ran.returncode


def history(*operations):
    """Lines of JSON: process, type, f, value and, maybe, what else they have."""
    lines = []
    for process, kind, name, value, *more in operations:
        lines.append(
            json.dumps(
                {
                    "process": process,
                    "type": kind,
                    "f": name,
                    "value": value,
                    "time": len(lines),
                    **(more[0] if more else {}),
                }
            )
        )
    return "\n".join(lines) + "\n"


class Converted(unittest.TestCase):
    def record(self, text, *words):
        """The record, without its comments."""
        record, said, status = converted(text, *words)
        self.assertEqual((said, status), ("", 0))
        return [line for line in record.splitlines() if not line.startswith("#")]

    def refused(self, text, cause):
        record, said, status = converted(text)
        self.assertEqual((record, status), ("", 2))
        self.assertEqual(said, f"from_history: {cause}\n")

    def judged(self, lines, verdict):
        """The first line of what the judge says of these lines of a record."""
        self.assertEqual(
            says("judge", "".join(f"{line}\n" for line in lines).encode())[0].decode().splitlines()[0], verdict
        )
