"""Which texts are statements, as the program says."""
import re
import subprocess
import sys
from pathlib import Path

sys.path.append(str(Path(__file__).resolve().parent.parent / "page"))

from classroom.program import is_executable, usual_program  # noqa: E402

__all__ = ["first_stranger", "is_executable", "usual_program"]
NO_STATEMENT = re.compile(rb"^LINE ([0-9]+): not a statement$", re.M)


def first_stranger(texts):
    """The place of the first text that isn't a statement; None if there is none, or no program that says it."""
    # each is a call of its own; the last line is faulty for sure, so the program searches no order
    record = b"".join(b"1 > %s\n1 ? ERROR\n" % text for text in texts) + b"2 < OK\n"
    try:
        ran = subprocess.run([usual_program(), "judge", "--strict-calls", "--quiet"], input=record,
                             stdout=subprocess.PIPE, stderr=subprocess.DEVNULL)
    except OSError:
        return None
    found = NO_STATEMENT.search(ran.stdout)
    return (int(found[1]) - 1) // 2 if found else None
