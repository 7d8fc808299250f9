"""Points: a statement that reaches a store, and what is done to it."""
import re
from collections import Counter
from collections.abc import Iterable, Sequence
from dataclasses import dataclass

HOLD = 600  # seconds that a statement is held while its manager is killed
# Seconds that a statement is held while somebody else rolls its branch back. If that came too late, the next is tried.
PAUSES = (1.5, 6, 24)
OUTAGE = 2  # seconds that a store is away while it is restarted: far longer than until a manager tries again at once

LOST, UNANSWERED, KILLED_BEFORE, KILLED_AFTER, ROLLED_BACK, RESTARTED = (
    "lost on its way", "answer lost", "manager killed before", "manager killed after", "branch rolled back",
    "store restarted")
FAULTS = {
    LOST: "close-before",
    UNANSWERED: "close-after",
    KILLED_BEFORE: f"stall {HOLD}",
    KILLED_AFTER: f"stall-after {HOLD}",
    ROLLED_BACK: f"stall {PAUSES[0]}",
    RESTARTED: f"outage {OUTAGE}",
}
KILLS = (KILLED_BEFORE, KILLED_AFTER)
REFUSALS = {"XA START": (1399,), "XA END": (1399, 1402), "XA PREPARE": (1397, 1399, 1402),
            "XA COMMIT": (1397, 1399, 1402), "ONE PHASE": (1397, 1399, 1402), "XA ROLLBACK": (1397, 1399, 1402),
            "XA RECOVER": (1399,), "GET": (3572,), "PUT": (3572,), "DEL": (3572,)}

ALL_ACTIONS = (*FAULTS, *sorted({f"refused {number}" for numbers in REFUSALS.values() for number in numbers}))
# where a point is: in the run, or in the recovery of a run that was killed after or before its decision
RUN, REDO, UNDO = "", "redo ", "undo "

# the key that the bench reads when it looks, so that the log shows where a recovery begins
MARKED = "0x" + b"the bench looks".hex()
MOST = 100  # statements of a kind that are counted at a store

# How the server tells that it held a statement: its store, kind and number, and the statement.
TOLD = re.compile(r"store (\d+), .*?the fault ([A-Z]+(?: [A-Z]+)?) (\d+) stall(?: 0)?, at (.*): held before it")
HELD = re.compile(
    rf"the fault .* stall(?:-after)? (?:{'|'.join(map(str, (HOLD, *PAUSES)))}), at .*: held (?:before|after) it$")


@dataclass(frozen=True)
class Site:
    """A statement of a run or of its recovery: the nth of its kind at its store. `fault` is its number for the server,
    which counts all."""
    phase: str
    store: int
    kind: str
    nth: int
    fault: int

    def __str__(self) -> str:
        return f"{self.phase}store {self.store} {self.kind} {self.nth}"


@dataclass(frozen=True)
class Point:
    site: Site
    action: str

    def __str__(self) -> str:
        return f"{self.site}, {self.action}"

    def line(self, pause: float = PAUSES[0]) -> str:
        """The server's line for it, with the pause for a rollback."""
        what = FAULTS.get(self.action) or f"error {self.action.removeprefix('refused ')}"
        if self.action == ROLLED_BACK:
            what = f"stall {pause}"
        return f"STORE {self.site.store} {self.site.kind} {self.site.fault} {what}"

    def is_wanted(self, only: Sequence[str]) -> bool:
        """Whether its name, or its statement's or action's, is one of those; all are where there are none."""
        return (not only
                or any(it in (str(self), str(self.site), self.action, self.site.phase.strip() or "run") for it in only))


def actions(kind: str) -> list[str]:
    found = [LOST, UNANSWERED, KILLED_BEFORE, KILLED_AFTER, *(f"refused {number}" for number in REFUSALS[kind])]
    return [*found, *([ROLLED_BACK] if kind == "XA COMMIT" else []), RESTARTED]


def counting(stores: int, points: Iterable[Point]) -> list[str]:
    """Lines that have the server tell each statement that reaches it, with its number: each is held for no time. Those
    of the points have lines of their own."""
    taken = {(point.site.store, point.site.kind, point.site.fault) for point in points}
    return [f"STORE {store} {kind} {number} stall 0" for store in range(1, stores + 1) for kind in REFUSALS
            for number in range(1, MOST + 1) if (store, kind, number) not in taken]


def sites(log: Iterable[str], phase: str) -> list[Site]:
    """The statements of a run, or those of the recovery after it, in the order in which the server told them. The
    bench's own, by which these are told apart, are left out."""
    found = []
    counts: Counter[tuple[int, str]] = Counter()
    looks: Counter[int] = Counter()
    for line in log:
        told = TOLD.fullmatch(line)
        if not told:
            continue
        store, kind = int(told[1]), told[2]
        if told[4] == f"GET {MARKED}":
            looks[store] += 1
        elif looks[store] == (1 if phase == RUN else 3):
            # a look ends what is planted, and two stand around the XA RECOVER of each further one
            counts[store, kind] += 1
            found.append(Site(phase, store, kind, counts[store, kind], int(told[3])))
    return found
