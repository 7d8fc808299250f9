#!/usr/bin/env python3
"""Transaction managers that are wrong on purpose: each is the reference with one line changed or moved.

    wrong.py NAME run VALUE | recover
"""
import sys
from contextlib import suppress
from pathlib import Path

VOTES = "        votes = [vote(connections[number], gtrid, number) for number in STORES]\n"
DECIDES = "    if is_yes:\n        decide(gtrid)\n"
ENDS = '    ended = [finish("COMMIT" if is_yes else "ROLLBACK", gtrid, number) for number in STORES]\n'

# What each does, the line of the reference, and what stands there instead.
WRONG = {
    "commits-before-all-votes": ("commits each branch as soon as it has voted", VOTES,
                                 '        votes = [vote(connections[number], gtrid, number) and finish("COMMIT", '
                                 'gtrid, number) for number in STORES]\n'),
    "never-decides": ("doesn't keep its decision", DECIDES, "    if is_yes:\n        pass\n"),
    "decides-late": ("keeps its decision after the commits", ENDS, ENDS + DECIDES),
    "goes-on-without-a-vote": ("forgets a branch whose vote it didn't hear, and commits the others",
                               "    is_yes = all(votes)\n", "    is_yes = any(votes)\n"),
    "recovery-commits-all": ("commits in recovery what it has no decision for", 'finish("COMMIT" if gtrid in decided '
                             'else "ROLLBACK", gtrid, number)', 'finish("COMMIT", gtrid, number)'),
    "recovery-rolls-back-all": ("rolls back in recovery what was decided", 'finish("COMMIT" if gtrid in decided else '
                                '"ROLLBACK", gtrid, number)', 'finish("ROLLBACK", gtrid, number)'),
    "nota-is-a-failure":
        ("takes XAER_NOTA at a commit for a failure, and rolls the others back",
         '                return verb == "ROLLBACK" or (gtrid, number) in ASKED\n',
         '                return verb == "ROLLBACK" or not [finish("ROLLBACK", gtrid, other) for other in STORES]\n'),
    "one-phase": ("commits two branches in one phase each",
                  '        ask(connection, "XA PREPARE %s,%s", gtrid, number)\n',
                  '        ask(connection, "XA COMMIT %s,%s ONE PHASE", gtrid, number); ASKED.add((gtrid, number))\n'),
    "first-page": ("recovers only the first two branches that a store lists", 'in ask(connect(number), "XA RECOVER"):',
                   'in ask(connect(number), "XA RECOVER")[:2]:'),
    "drops-a-refused-row":
        ("commits without a row that was refused", """            ask(connections[number], "PUT 'row',%s", value)\n""",
         """            with suppress(pymysql.Error): ask(connections[number], "PUT 'row',%s", value)\n"""),
    "foreign": ("recovers branches of other managers", "            if gtrid.startswith(MANAGER):\n",
                "            if gtrid:\n"),
}


def text_of(name: str) -> str:
    """The manager of this name as a program."""
    _, old, new = WRONG[name]
    text = (Path(__file__).resolve().parent / "reference.py").read_text()
    if name == "decides-late":
        text = text.replace(DECIDES, "", 1)
    if text.count(old) != 1:
        raise ValueError(f"the reference has not once: {old}")
    return text.replace(old, new)


if __name__ == "__main__":
    code = text_of(sys.argv.pop(1))
    exec(compile(code, "wrong", "exec"), {**globals(), "suppress": suppress})
