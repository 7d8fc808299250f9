"""A point's story for the classroom: what each store was asked, one call a line, as the job `coordinate` takes calls.

The records have what each store was asked and replied. The server's log has the order between the stores.
"""
from __future__ import annotations

import re
from collections import Counter
from collections.abc import Iterable, Iterator, Sequence
from dataclasses import dataclass
from pathlib import Path
from typing import TYPE_CHECKING
from urllib.parse import quote_plus

from .points import HOLD, MARKED, PAUSES
from .rows import ANY, DELETED

if TYPE_CHECKING:
    from .trial import Outcome

CALLS, PAGE = "story.calls", "story.html"
CLASSROOM = "http://127.0.0.1:8400/"
# The manager under test stands in the manager's place in the drawing; but for a statement that is another's.
MANAGER, BY_OTHER = "#@ manager Tested manager", "#@ other"
MOST_ROWS = 4  # that a verdict names
MOST = 15  # stores that a story can have: the classroom's are 0 to 15, and 0 isn't used
LOGGED = re.compile(r"store (\d+), .*the fault .*, at .*: ")  # a statement with a fault, in the server's log
FAULT = re.compile(r"# (?:session|connection) (\d+): the fault [A-Z ]+ \d+ "
                   r"(?P<what>[a-z-]+)(?: (?P<number>[\d.]+))?, at (?P<text>.*): ")
CALL = re.compile(r"(\d+) > (.*)")
RETURN = re.compile(r"(\d+) < (.*)")
HEX = re.compile(r"0x([0-9a-f]+)")
LOOK = f"GET {MARKED}"
CONVERT = " CONVERT XID"
SHOWS_PLANTED = ("FOREIGN", "IN DOUBT")  # verdicts that another manager's branches may be the cause of

# What is told of a fault, in the words of the classroom: LOST has the statement that the store never gets. Else the store
# got it, and the manager gets no answer.
LOST, UNANSWERED, REMARK = "lost", "unanswered", "remark"
SAID = {
    "close-before": (LOST, "It is lost on its way, and the connection is cut."),
    "close-after": (UNANSWERED, "The answer is lost: the connection is cut."),
    "stall": (REMARK, "While {words} is on its way, somebody else rolls the branch back."),
    "stall-after": (UNANSWERED, "The manager never gets the answer."),
    "error": (LOST, "The manager is told {number}, and the store never gets it."),
    "outage": (LOST, "All connections are cut, and the store never gets it."),
}
KILLED = LOST, "The store never gets it."


@dataclass
class Step:
    """What a store got, or a fault at it. The session of a fault may be the number of a connection, so its statement is
    known by the text."""
    session: str
    text: str
    reply: str = ""
    what: str = ""  # of a fault; empty for a statement
    number: str = "0"

    def is_disturbing(self) -> bool:
        return self.what != "" and (self.what, float(self.number)) != ("stall", 0)

    def passes(self) -> bool:
        """Whether the store gets the statement of this fault after it."""
        return self.what == "stall" and float(self.number) in (0, *PAUSES)

    def is_of(self, statement: Step) -> bool:
        """Whether this fault is at that statement. A server may ask its store for a list in another form than its
        client did."""
        return not statement.what and statement.text.removesuffix(CONVERT) == self.text.removesuffix(CONVERT)

    def kills(self) -> bool:
        return float(self.number) == HOLD and self.what in ("stall", "stall-after")

    def told(self, store: int) -> Iterator[str]:
        """The lines that tell this fault."""
        how, form = KILLED if self.what == "stall" and self.kills() else SAID[self.what]
        said = form.format(words=" ".join(self.text.split(" ")[:2]), number=self.number)
        yield (f"# {said}" if how == REMARK else f"#@ {how} {store} {readable(self.text)} | {said}" if how == LOST
               else f"#@ {how} {store} {said}")
        if self.kills():
            yield "#@ crash The manager is killed."
        elif self.what == "outage":
            yield f"#@ outage {store} The store is restarted."


def steps_of(record: str) -> list[Step]:
    """The statements and faults of a store's record. A statement that a fault refused is left out, since the store
    never got it."""
    steps: list[Step] = []
    calls: dict[str, Step] = {}
    for line in record.splitlines():
        if found := FAULT.match(line):
            steps.append(Step(found[1], found["text"], what=found["what"], number=found["number"] or "0"))
        elif found := CALL.fullmatch(line):
            calls[found[1]] = Step(found[1], found[2])
            steps.append(calls[found[1]])
        elif (found := RETURN.fullmatch(line)) and found[1] in calls:
            calls[found[1]].reply = found[2]
    refused = {(it.text, f"ERROR {it.number}") for it in steps if it.what == "error"}
    return with_early_ends(it for it in steps if it.what or (it.text, it.reply.partition(" (")[0]) not in refused)


def with_early_ends(steps: Iterable[Step]) -> list[Step]:
    """The same steps, with the end of a connection before what other connections asked meanwhile. The server may see
    late that a client has gone. A story has one client for each store, so it can't tell both at once."""
    told: list[Step] = []
    for step in steps:
        place = len(told)
        if step.text == "DISCONNECT":
            while place and not told[place - 1].is_disturbing() and told[place - 1].session != step.session:
                place -= 1
        told.insert(place, step)
    return told


def is_late(record: str) -> bool:
    """Whether a statement that was held for somebody else's rollback was accepted all the same."""
    steps = steps_of(record)
    held = [place for place, it in enumerate(steps) if it.what == "stall" and float(it.number) in PAUSES]
    got = (next((it for it in steps[place:] if steps[place].is_of(it)), None) for place in held)
    return any(it is not None and it.reply == "OK" for it in got)


def merged(log: Sequence[str], stores: Sequence[list[Step]]) -> Iterator[tuple[int, Step]]:
    """The steps of all stores, each with its store, in the order in which the log tells of statements."""
    at, told, seen = Counter[int](), Counter[int](), Counter[int]()

    def until(store: int, holds) -> Iterator[tuple[int, Step]]:
        """The next steps of a store, as far as one that is wanted."""
        while at[store] < len(stores[store - 1]):
            step = stores[store - 1][at[store]]
            at[store] += 1
            told[store] += step.what != ""
            yield store, step
            if holds(step):
                return

    for line in log:
        found = LOGGED.match(line)
        if not found:
            continue
        store = int(found[1])
        seen[store] += 1
        while told[store] < seen[store] and at[store] < len(stores[store - 1]):
            taken = list(until(store, lambda step: step.what != ""))
            yield from taken
            fault = taken[-1][1]
            if fault.passes():
                yield from until(store, fault.is_of)
    for store in range(1, len(stores) + 1):
        yield from until(store, lambda _: False)


class Teller:
    """Writes the lines of a story, step by step."""

    def __init__(self, recoveries: int, in_between: int, shows_planted: bool) -> None:
        self.lines: list[str] = []
        self._recoveries, self._in_between, self._shows_planted = recoveries, in_between, shows_planted
        self._looks: Counter[int] = Counter()  # marks of the bench in each store
        self._open: set[tuple[int, str]] = set()  # sessions that have a branch that isn't prepared
        self._held: dict[int, Step] = {}  # by store the fault by which a statement of the manager waits for another's

    def tell(self, store: int, step: Step) -> None:
        key = (store, step.session)
        if step.what:
            if step.is_disturbing():
                self.lines += step.told(store)
            if step.is_disturbing() and step.passes():
                self._held[store] = step
        elif step.text == LOOK:
            self._look(store)
        elif step.text == "DISCONNECT":
            if key in self._open:
                self.lines.append(f"AT {store} DISCONNECT")
            self._open.discard(key)
        elif self._is_shown(store, step):
            self._statement(store, step)

    def _is_shown(self, store: int, step: Step) -> bool:
        """Not what the bench plants before its first mark, nor the list that it asks for between two others."""
        looks = self._looks[store]
        if looks == 0:
            return self._shows_planted
        return looks % 2 == 1 or not step.text.startswith("XA RECOVER")

    def _statement(self, store: int, step: Step) -> None:
        if store in self._held and self._held[store].is_of(step):
            del self._held[store]
        if store in self._held or self._looks[store] == 0:
            self.lines.append(BY_OTHER)
        self.lines.append(f"AT {store} {readable(step.text)}")
        if step.reply == "OK" and step.text.startswith("XA START"):
            self._open.add((store, step.session))
        elif step.reply == "OK" and step.text.startswith(("XA PREPARE", "XA COMMIT", "XA ROLLBACK")):
            self._open.discard((store, step.session))

    def _look(self, store: int) -> None:
        """A mark of the bench: the first ends what it planted, and two stand around each look."""
        is_first = self._looks[store] == max(self._looks.values(), default=0)
        self._looks[store] += 1
        number = self._looks[store] // 2
        if not is_first or self._looks[store] % 2 or number > self._recoveries:
            return
        run = f"The run has ended. In doubt: {self._in_between}."
        ended = run if number == 1 else f"Recovery {number - 1} has ended."
        self.lines.append(f"#@ restart {ended} Recovery {number} begins.")


def lines_of(outcome: Outcome, log: Sequence[str], records: Sequence[str]) -> list[str]:
    """The story of a point as lines."""
    shows_planted = outcome.verdict in SHOWS_PLANTED
    teller = Teller(len(outcome.statuses) - 1, outcome.in_between, shows_planted)
    verdict = outcome.verdict + (f", {outcome.why}" if outcome.why else "")
    teller.lines += [f"# {outcome.point or 'without a fault'}: {verdict}", MANAGER]
    if shows_planted:
        teller.lines.append("# First another manager prepares its branches, which the manager has to leave alone.")
    for store, step in merged(log, [steps_of(record) for record in records]):
        teller.tell(store, step)
    teller.lines.append("# The rows in the end, as the bench reads them")
    for store, rows in enumerate(outcome.wanted, 1):
        for key in rows:
            teller.lines += [BY_OTHER, f"AT {store} GET {readable(key.decode())}"]
    in_the_end = rows_said(outcome)
    said = ". ".join(part for part in (outcome.why, in_the_end[:1].upper() + in_the_end[1:]) if part)
    teller.lines.append(f"#@ verdict {outcome.verdict}: {said}")
    return teller.lines


def rows_said(outcome: Outcome) -> str:
    """The rows that say so: first those that aren't as a commit leaves them."""
    found = [(rows.get(key), store, key, value) for store, (wanted, rows) in enumerate(
        zip(outcome.wanted, outcome.rows), 1) for key, value in wanted.items()]
    if found and all(is_as_wanted(left, wanted) for left, _, _, wanted in found):
        return "each row is as a commit leaves it"
    if found and all(left is None for left, _, _, _ in found):
        return "each row is as it was before"
    found.sort(key=lambda row: is_as_wanted(row[0], row[3]))
    return "; ".join(row_said(*row) for row in found[:MOST_ROWS])


def is_as_wanted(left: bytes | None, wanted: bytes) -> bool:
    return left is not None and wanted in (ANY, left)


def row_said(left: bytes | None, store: int, key: bytes, wanted: bytes) -> str:
    now = "is as it was before" if left is None else "was deleted" if left == DELETED else f"is {readable(left.decode())}"
    name = f"row {readable(key.decode())} of store {store} {now}"
    if is_as_wanted(left, wanted):
        return f"{name}, as a commit leaves it"
    return (f"{name}, and a commit "
            + ("writes it" if wanted == ANY else "deletes it" if wanted == DELETED
               else f"makes it {readable(wanted.decode())}"))


def readable(text: str) -> str:
    """A statement with its literals in quotes, if they can be read."""
    return HEX.sub(lambda it: quoted(bytes.fromhex(it[1])) if len(it[1]) % 2 == 0 else it[0], text)


def quoted(data: bytes) -> str:
    is_plain = all(0x20 <= byte < 0x7f and byte not in b"'\\" for byte in data)
    return f"'{data.decode()}'" if is_plain else f"0x{data.hex()}"


def address(lines: Sequence[str], stores: int) -> str:
    """The classroom's address of a story."""
    calls = quote_plus("\n".join(lines), safe="-._~'(),;:@/!*")
    return f"{CLASSROOM}#commit?calls={calls}&stores={stores + 1}"


def write(folder: Path, stores: int, outcome: Outcome, log: Sequence[str], records: Sequence[str]) -> None:
    """Writes the calls, and a page that opens them in the classroom."""
    if stores > MOST:
        return
    lines = lines_of(outcome, log, records)
    (folder / CALLS).write_text("".join(f"{line}\n" for line in lines))
    link = address(lines, stores).replace("&", "&amp;").replace('"', "%22")
    (folder / PAGE).write_text(
        f'<!doctype html>\n<meta charset="utf-8">\n<title>A point of the bench</title>\n'
        f'<p><a href="{link}">The story in the classroom</a>, once nigbaru-page runs '
        f'(in a clone drivers/page/serve).</p>\n')
