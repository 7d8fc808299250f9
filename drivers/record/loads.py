"""Loads that are drawn: the sessions' statements, which clients are lost, and whether the server is killed."""
import random
from dataclasses import dataclass, field

SHARED = ["k", "l", "m"]
# how a transaction ends, and out of how many
ENDS = {"committed": 5, "one phase": 3, "rolled back": 2, "prepared and rolled back": 2, "left": 1, "handed over": 4}
MOST_SESSIONS = 16


@dataclass
class Traits:
    """What loads for a database keep clear of, since its rules are known to differ there."""
    # a session that has prepared a branch is free, and others can finish it at once
    is_free_once_prepared: bool = True
    # what a prepared branch has read stays locked, also if it wrote nothing, and what it has written without a change
    # stays locked when the server is started again
    keeps_all_locks: bool = True
    levels: tuple = (None,)
    waits: tuple = (0,)


@dataclass
class Load:
    """Statements in phases: the next one begins once the sessions are done with the one before."""
    phases: list = field(default_factory=list)
    lose: dict = field(default_factory=dict)
    cut: dict = field(default_factory=dict)
    # after how many statements of the first phase the server is killed; those of the second phase are new clients
    killed_after: int = 0
    level: str = ""
    wait: int = 0
    # whether sessions pause before statements
    pauses: bool = False


class Drawing:
    """One load, as it is drawn."""

    def __init__(self, draw, traits):
        self.draw = draw
        self.traits = traits
        self.number = 0
        self.handed = []
        self.shared = SHARED[:draw.randint(1, len(SHARED))]

    def next(self):
        self.number += 1
        return self.number

    def row(self, verbs, own=()):
        """A statement about a row."""
        key = self.draw.choice([*self.shared, *own])
        verb = self.draw.choice(verbs)
        return f"PUT '{key}','{self.next()}'" if verb == "PUT" else f"{verb} '{key}'"

    def transaction(self, session):
        """The statements of one branch, from its start to its end."""
        end = self.draw.choices(list(ENDS), list(ENDS.values()))[0]
        name = f"'{session}','{self.next()}'"
        own = f"own {session}"
        is_prepared = end in ("committed", "prepared and rolled back", "handed over")
        verbs = ["GET", "PUT", "PUT", "DEL"]
        lines = [f"XA START {name}"]
        if is_prepared and not self.traits.keeps_all_locks:
            own = f"own {session} {self.number}"  # nobody else wants it, so the branch writes something
            verbs = ["PUT"]
            lines.append(f"PUT '{own}','{self.next()}'")
        lines += [self.row(verbs, [own]) for _ in range(self.draw.randint(0 if len(lines) > 1 else 1, 3))]
        if self.draw.random() < 0.1:
            lines.append(self.draw.choice([f"XA PREPARE {name}", f"XA START 'other {session}'", f"XA COMMIT {name}"]))
        if end == "left":
            return [*lines, *([f"XA END {name}"] if self.draw.random() < 0.5 else []), "DISCONNECT"]
        lines.append(f"XA END {name}")
        if self.draw.random() < 0.1:
            lines.append(self.draw.choice([self.row(["GET", "PUT"]), f"XA COMMIT {name}", f"XA END {name}"]))
        if end == "one phase":
            return [*lines, f"XA COMMIT {name} ONE PHASE"]
        if end == "rolled back":
            return [*lines, f"XA ROLLBACK {name}"]
        lines.append(f"XA PREPARE {name}")
        if end != "handed over":
            lists = ["XA RECOVER"] if self.draw.random() < 0.2 else []
            return [*lines, *lists, f"XA {'COMMIT' if end == 'committed' else 'ROLLBACK'} {name}"]
        self.handed.append(name)
        return lines if self.traits.is_free_once_prepared else [*lines, "DISCONNECT"]

    def outside(self):
        return "XA RECOVER" if self.draw.random() < 0.2 else self.row(["GET", "GET", "PUT", "DEL"])

    def program(self, session, count):
        """About so many statements of a session, each branch as a list of its own."""
        parts = []
        while sum(len(part) for part in parts) < count:
            parts.append(self.transaction(session) if self.draw.random() < 0.6 else [self.outside()])
        return parts

    def finished(self, names, programs):
        """Has sessions that are free finish branches that others have prepared; some two at a time, some nobody."""
        for name in names:
            for _ in range(self.draw.choice([0, 1, 1, 1, 2])):
                verb = self.draw.choice(["COMMIT", "COMMIT", "ROLLBACK"])
                parts = self.draw.choice(programs)
                parts.insert(self.draw.randint(0, len(parts)), [f"XA {verb} {name}"])

    def phase(self, sessions, count):
        """The programs of some sessions, by their numbers."""
        return {session: self.program(session, count) for session in sessions}


def lines_of(programs):
    return [(0, session, statement.encode()) for session, parts in programs.items() for part in parts
            for statement in part]


def losses(draw, sessions, lines):
    """Which sessions are lost, and after how many statements of theirs: behind an answer, or without it."""
    found = ({}, {})
    for session in sessions:
        count = sum(one == session for _, one, _ in lines)
        if count and draw.random() < 0.2:
            draw.choice(found)[session] = draw.randint(1, count)
    return found


def load_of(seed, traits):
    """The load that a seed stands for."""
    draw = random.Random(seed)
    drawing, load = Drawing(draw, traits), Load(level=draw.choice(traits.levels), wait=draw.choice(traits.waits))
    load.pauses, is_killed = draw.random() < 0.5, draw.random() < 0.2
    clients = draw.randint(2, MOST_SESSIONS)
    before = list(range(1, 1 + (clients // 2 if is_killed else clients)))
    after = [it for it in range(1, clients + 1) if it not in before] if is_killed else before
    count = draw.randint(20, 60) // clients + 1
    first = drawing.phase(before, count)
    handed, drawing.handed = drawing.handed, []
    second = drawing.phase(after, count)
    if is_killed:
        for key in drawing.shared:
            second[after[-1]].insert(0, [f"GET '{key}'"])
        second[after[-1]].insert(0, ["XA RECOVER"])
    drawing.finished(handed, [*second.values()])
    if traits.is_free_once_prepared:
        drawing.finished(drawing.handed, [*second.values()])
    load.phases = [lines_of(first), lines_of(second)]
    load.lose, load.cut = losses(draw, before, load.phases[0]) if draw.random() < 0.5 else ({}, {})
    if is_killed:
        load.killed_after = draw.randint(1, len(load.phases[0]))
    return load
