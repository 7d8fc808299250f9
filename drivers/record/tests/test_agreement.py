"""Small histories by a generator: the verdict on the record is that of trying every order of the operations."""
import random
import sys
import unittest

from support import ROOT, history, says

sys.dont_write_bytecode = True
sys.path.insert(0, str(ROOT / "drivers/record"))

from histories import seats  # noqa: E402
from histories.fault import Fault  # noqa: E402
from histories.history import History  # noqa: E402

ROWS, VALUES = ("a", "b"), (1, 2)
TRIES = 1000


def value_of(draw, name):
    if name == "read":
        return [draw.choice(ROWS)]
    if name == "write":
        return [draw.choice(ROWS), draw.choice(VALUES)]
    if name == "cas":
        return [draw.choice(ROWS), [draw.choice((None, *VALUES)), draw.choice(VALUES)]]
    steps = [
        ("r", row, None) if draw.random() < 0.5 else ("w", row, draw.choice(VALUES))
        for row in draw.choices(ROWS, k=draw.randint(1, 3))
    ]
    return [list(step) for step in steps]


def does(rows, name, value):
    """The rows after an operation, and the value that it returns with ok; None where a cas finds another value."""
    after = dict(rows)
    if name == "read":
        return after, [value[0], rows.get(value[0])]
    if name == "write":
        after[value[0]] = value[1]
        return after, value
    if name == "cas":
        key, (old, new) = value
        after[key] = new
        return (after, value) if rows.get(key) == old else None
    seen = []
    for kind, key, said in value:
        if kind == "w":
            after[key] = said
        seen.append([kind, key, said if kind == "w" else after.get(key)])
    return after, seen


def other(draw, name, seen):
    """What an operation returns; now and then another value than it read."""
    if name == "read":
        return [seen[0], draw.choice((None, *VALUES)) if draw.random() < 0.2 else seen[1]]
    if name == "txn":
        return [
            [kind, key, draw.choice((None, *VALUES)) if kind == "r" and draw.random() < 0.1 else said]
            for kind, key, said in seen
        ]
    return seen


def operations_of(draw, processes, count):
    """Operations that take effect at some moment between their begin and their end, and some that don't."""
    lines, open_calls, rows = [], {}, {}
    while count or open_calls:
        if count and (not open_calls or draw.random() < 0.45):
            process = draw.choice([it for it in range(processes) if it not in open_calls] or [None])
            if process is not None:
                name = draw.choice(("read", "write", "cas", "cas", "txn"))
                open_calls[process] = [name, value_of(draw, name), None]
                lines.append((process, "invoke", name, open_calls[process][1]))
                count -= 1
                continue
        process = draw.choice(sorted(open_calls))
        name, value, done = open_calls[process]
        if done is None:
            done = does(rows, name, value)
            if done and draw.random() < 0.85:
                rows = done[0]
            open_calls[process][2] = (rows, other(draw, name, done[1])) if done else (rows, None)
        elif draw.random() < 0.2:
            lines.append((process, "info", name, value))
            del open_calls[process]
        else:
            lines.append((process, "fail" if done[1] is None else "ok", name, done[1] or value))
            del open_calls[process]
    return lines


def is_explained(lines):
    """Whether the operations have an order, each between its begin and its end, in which they return what they did.

    One with info may take effect later, or never.
    """
    calls, open_calls = [], {}
    for at, (process, kind, name, value) in enumerate(lines):
        if kind == "invoke":
            open_calls[process] = len(calls)
            calls.append([at, None, name, value, None])
        else:
            call = calls[open_calls.pop(process)]
            call[1], call[4] = (None if kind == "info" else at), (value if kind == "ok" else kind)
    told = [it for it in calls if it[4] != "fail"]
    tried = set()

    def goes_on(done, rows):
        if all(call[1] is None or at in done for at, call in enumerate(told)):
            return True
        key = (done, tuple(sorted(rows.items())))
        if key in tried:
            return False
        tried.add(key)
        first = min(call[1] for at, call in enumerate(told) if call[1] is not None and at not in done)
        for at, (begin, end, name, value, seen) in enumerate(told):
            if at in done or begin > first:
                continue
            found = does(rows, name, value)
            if found and (end is None or found[1] == seen) and goes_on(done | {at}, found[0]):
                return True
        return False

    return goes_on(frozenset(), {})


class Agreement(unittest.TestCase):
    def agrees(self, seed, processes, count, most):
        """How many histories became LEGAL and ILLEGAL records, and how many none."""
        found = {"LEGAL": 0, "ILLEGAL": 0, "refused": 0}
        kept, seats.MOST = seats.MOST, most
        self.addCleanup(setattr, seats, "MOST", kept)
        for at in range(TRIES):
            lines = operations_of(random.Random(f"{seed} {at}"), processes, count)
            try:
                record = History(history(*lines).encode(), b"x").record()
            except Fault as fault:
                self.assertRegex(str(fault), "no statements stand for it|would be session")
                found["refused"] += 1
                continue
            verdict = (
                says("judge", record)[0].decode().split()[0]
                if record.strip() and not all(it.startswith(b"#") for it in record.splitlines())
                else "LEGAL"
            )
            self.assertEqual(verdict, "LEGAL" if is_explained(lines) else "ILLEGAL", "\n".join(map(str, lines)))
            found[verdict] += 1
        return found

    def test_few_processes(self):
        found = self.agrees("few", 2, 5, 16)
        self.assertGreater(min(found.values()), TRIES // 20, found)

    def test_many_processes_on_few_sessions(self):
        found = self.agrees("many", 4, 6, 3)
        self.assertGreater(min(found.values()), TRIES // 40, found)


if __name__ == "__main__":
    unittest.main()
