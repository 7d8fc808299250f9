"""A program that judges as it is asked to, and passes all other jobs on to the built one: so each form of a verdict can
be looked at."""
import stat
from pathlib import Path

from support import PROGRAM

WORDS = """#!/bin/sh
case "$1" in
judge) cat > '{folder}/record'; echo "$@" > '{folder}/words'; cat '{folder}/verdict'; exit "$(cat '{folder}/status')" ;;
--help) '{program}' --help; echo '  judge  Judges' ;;
*) exec '{program}' "$@" ;;
esac
"""


class Judging:
    def __init__(self, folder):
        self.folder = Path(folder)
        self.program = self.folder / "program"
        self.program.write_text(WORDS.format(folder=folder, program=PROGRAM))
        self.program.chmod(self.program.stat().st_mode | stat.S_IXUSR)
        self.gives(b"", 0)

    def gives(self, verdict, status):
        (self.folder / "verdict").write_bytes(verdict)
        (self.folder / "status").write_text(str(status))

    def was_given(self):
        return (self.folder / "record").read_bytes(), (self.folder / "words").read_text().split()
