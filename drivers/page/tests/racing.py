"""A program whose races come out as a test says, and that passes all other jobs on to the built one: which session's
thread is faster depends on the machine. Each session puts values into a row of its own, so every order of the lines can
come."""
import stat
from pathlib import Path

from support import PROGRAM

WORDS = """#!/bin/sh
for seed; do :; done
case "$1" in
race) exec cat "{folder}/$seed" ;;
*) exec '{program}' "$@" ;;
esac
"""


def script_of(order):
    """The lines of the sessions that go in this order."""
    return "\n".join(f"{session} PUT '{session}','{value}'" for session in sorted(set(order))
                     for value in range(1, 1 + order.count(session)))


def came(order):
    """What a race prints in which the sessions went in this order."""
    values, entries, answers = dict.fromkeys(order, 0), [], {session: [] for session in sorted(set(order))}
    for place, session in enumerate(order):
        values[session] += 1
        entries.append(f"{place} {session} PUT 0x{str(session).encode().hex()},0x{str(values[session]).encode().hex()}")
        answers[session].append(f"{session} {place} OK")
    return "".join(f"{line}\n" for line in [f"HISTORY {len(order)}", *entries, *sum(answers.values(), [])])


class Racing:
    def __init__(self, folder):
        self.folder = Path(folder)
        self.program = self.folder / "program"
        self.program.write_text(WORDS.format(folder=folder, program=PROGRAM))
        self.program.chmod(self.program.stat().st_mode | stat.S_IXUSR)

    def gives(self, orders):
        """The races of the seeds 1, 2 and so on have these orders."""
        for seed, order in enumerate(orders, 1):
            (self.folder / str(seed)).write_text(came(order))
