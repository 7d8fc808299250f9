"""A trial: a run over fresh stores, broken at a point; its recovery; and what became of the transaction."""
import os
import re
import shutil
import signal
import subprocess
import tempfile
import threading
import time
from collections.abc import Iterable, Sequence
from dataclasses import dataclass, field
from pathlib import Path

from . import story
from .audit import Auditor, Global
from .client import Client, Refused
from .points import KILLS, MARKED, PAUSES, ROLLED_BACK, RUN, Point, Site, counting, sites
from .rows import Rows, lost, rows_of
from .server import PATIENCE, Server

FOREIGN = b"\0another manager's "  # how the gtrid of a planted branch begins: before any other in a list
OWN = b"local "  # how the server names branches of its own, for local transactions

ATOMIC, TOLD, MIXED, PARTIAL, LOST_WORK, IN_DOUBT, OPEN, UNTRUE, TOUCHED, UNREACHED = (
    "atomic", "heuristic, told", "MIXED", "PARTIAL", "LOST WORK", "IN DOUBT", "OPEN", "UNTRUE", "FOREIGN",
    "not reached")
RIGHT = (ATOMIC, TOLD, UNREACHED)


@dataclass(frozen=True)
class Setup:
    """What all trials share."""
    run: str
    recover: str
    server: Sequence[str]
    auditor: Auditor
    stores: int
    port: int  # of the first store, or 0
    folder: Path | None  # copied for each trial
    keep: Path | None
    limit: float  # seconds for a command
    foreign: int  # branches of another manager that are planted in each store
    # the manager's branches by store, formatID and bqual, in a run without faults
    names: frozenset[tuple[int, int, bytes]] = frozenset()
    base: frozenset[int] = frozenset()  # the stores that a run without faults commits in
    rows: Sequence[Rows] = ()  # what a run without faults leaves in each store


@dataclass
class Outcome:
    point: Point | None
    verdict: str = ATOMIC
    why: str = ""
    in_between: int = 0  # branches in doubt before the recovery
    after: str = ""
    statuses: list[int | None] = field(default_factory=list)  # of the run and each recovery; None where it was killed
    seconds: float = 0.0
    committed: frozenset[int] = frozenset()
    names: frozenset[tuple[int, int, bytes]] = frozenset()
    rows: Sequence[Rows] = ()  # what the manager's transactions left in each store
    wanted: Sequence[Rows] = ()  # and what they leave without a fault
    asked: Sequence[Site] = ()  # the statements of the run, or of the recovery if a run was killed for it
    folder: Path | None = None

    def is_right(self) -> bool:
        return self.verdict in RIGHT


class Stopped(Exception):
    """The bench ends, so no more commands are started."""


class Commands:
    """The process groups that were started and haven't ended, so that none outlives the bench."""

    def __init__(self) -> None:
        self._lock = threading.Lock()
        self._groups: set[int] = set()
        self._is_over = False

    def start(self, command: str, folder: Path, environment: dict[str, str], name: str) -> subprocess.Popen[bytes]:
        with self._lock, (folder.parent / name).open("wb") as said:
            if self._is_over:
                raise Stopped
            process = subprocess.Popen(["/bin/sh", "-c", command], cwd=folder, env=environment,
                                       stdin=subprocess.DEVNULL, stdout=said, stderr=subprocess.STDOUT,
                                       start_new_session=True)
            self._groups.add(process.pid)
        return process

    def kill(self, process: subprocess.Popen[bytes]) -> None:
        """Kills the whole group, also when its first process has ended."""
        try:
            os.killpg(process.pid, signal.SIGKILL)
        except ProcessLookupError:
            pass
        process.wait()
        with self._lock:
            self._groups.discard(process.pid)

    def kill_all(self) -> None:
        """Kills all groups, and lets no more be started."""
        with self._lock:
            self._is_over = True
            for group in self._groups:
                try:
                    os.killpg(group, signal.SIGKILL)
                except ProcessLookupError:
                    pass


COMMANDS = Commands()


class Trial:
    records: list[str]

    def __init__(self, setup: Setup, point: Point | None, base: Point | None = None, phase: str = RUN) -> None:
        """`base` is the point at which the run is killed if `point` is one of its recovery, whose phase is named."""
        self.setup, self.point, self.base, self.phase = setup, point, base, phase

    def go(self) -> Outcome:
        """Tries it. If somebody else's rollback came too late, it tries again, with more time for it."""
        began = time.monotonic()
        for self.pause in PAUSES:
            outcome = self._try()
            if not self._is_late():
                break
        outcome.seconds = time.monotonic() - began
        return outcome

    def _is_late(self) -> bool:
        return (self.point is not None and self.point.action == ROLLED_BACK
                and story.is_late(self.records[self.point.site.store - 1]))

    def _try(self) -> Outcome:
        folder = Path(tempfile.mkdtemp(prefix="bench-"))
        try:
            outcome = self._in(folder)
            self.records = [path.read_text() for path in self.server.records()]
            if self.setup.keep:
                story.write(folder, self.setup.stores, outcome, self.server.log, self.records)
                outcome.folder = self.setup.keep / re.sub(r"[^A-Za-z0-9]+", "-", str(self.point or "without a fault"))
                shutil.rmtree(outcome.folder, ignore_errors=True)
                shutil.copytree(folder, outcome.folder, symlinks=True)
        finally:
            shutil.rmtree(folder, ignore_errors=True)
        return outcome

    def _in(self, folder: Path) -> Outcome:
        self.outcome = Outcome(self.point)
        work = folder / "work"
        if self.setup.folder:
            shutil.copytree(self.setup.folder, work, symlinks=True)
        else:
            work.mkdir()
        points = [point for point in (self.base, self.point) if point]
        lines = [point.line(self.pause) for point in points]
        # the statements are wanted in their order, for the points or for the story
        if not self.point or self.setup.keep:
            lines += counting(self.setup.stores, points)
        self.server = Server(self.setup.server, self.setup.stores, self.setup.port, folder, lines)
        try:
            ports = self.server.ports
            self.environment = {**os.environ, "STORES": str(len(ports)), "PORTS": " ".join(map(str, ports)),
                                **{f"PORT{store}": str(port) for store, port in enumerate(ports, 1)}}
            for store, port in enumerate(ports, 1):
                self._plant(store, port)
            broken = self._break(work)
            left = self._recover(work, broken)
        finally:
            self.server.end()
        self.outcome.asked = sites(self.server.log, self.phase)
        self._judge(left)
        return self.outcome

    # before

    def _plant(self, store: int, port: int) -> None:
        """Prepares branches of another manager, which the manager must leave alone, and marks the log. They are named
        as its own, but for the gtrid."""
        with Client(port) as client:
            for number in range(self.setup.foreign):
                for place, (_, format_id, bqual) in enumerate(
                        sorted(name for name in self.setup.names if name[0] == store)):
                    key = FOREIGN + b"%d %d" % (number, place)
                    xid = f"{literal(FOREIGN + b'%d' % number)},{literal(bqual)},{format_id}"
                    for text in (f"XA START {xid}", f"PUT {literal(key)},'row'", f"XA END {xid}", f"XA PREPARE {xid}"):
                        client.ask(text)
            client.ask(f"GET {MARKED}")

    # the run and its recovery

    def _break(self, work: Path) -> bool:
        """Runs, and breaks it; whether the point was one of the run."""
        self._command(self.setup.run, work, "run.out",
                      self.base or (self.point if self.point and self.point.site.phase == RUN else None))
        return self.base is None

    def _command(self, command: str, work: Path, name: str, point: Point | None) -> None:
        """Runs a command to its end, or until its point is reached that kills it."""
        seen = self.server.held
        process = COMMANDS.start(command, work, self.environment, name)
        deadline = time.monotonic() + self.setup.limit
        waits = point is not None and point.action in (*KILLS, ROLLED_BACK)
        try:
            while process.poll() is None and time.monotonic() < deadline:
                if waits and self.server.held > seen:
                    assert point
                    if point.action in KILLS:
                        break
                    self._roll_back(point.site.store)
                    waits = False
                time.sleep(0.005)
            self.outcome.statuses.append(process.poll())
        finally:
            COMMANDS.kill(process)

    def _roll_back(self, store: int) -> None:
        """Somebody else rolls back what the manager has prepared in a store."""
        with Client(self.server.ports[store - 1]) as client:
            for format_id, gtrid, bqual in self._prepared(client):
                try:
                    client.ask(f"XA ROLLBACK {literal(gtrid)},{literal(bqual)},{format_id}")
                except Refused:
                    pass  # somebody was faster

    @staticmethod
    def _prepared(client: Client) -> list[tuple[int, bytes, bytes]]:
        """The prepared branches of the manager."""
        found = []
        for format_id, length, _, text in client.ask("XA RECOVER"):
            assert format_id and length and text is not None
            gtrid, bqual = text[:int(length)], text[int(length):]
            if not gtrid.startswith(FOREIGN):
                found.append((int(format_id), gtrid, bqual))
        return found

    def _look(self) -> list[int]:
        """How many branches of the manager are prepared in each store. A store that is away is waited for."""
        found = []
        for port in self.server.ports:
            deadline = time.monotonic() + PATIENCE
            while True:
                try:
                    with Client(port) as client:
                        client.ask(f"GET {MARKED}")
                        found.append(len(self._prepared(client)))
                        client.ask(f"GET {MARKED}")
                    break
                except (OSError, Refused):
                    if time.monotonic() > deadline:
                        raise
                    time.sleep(0.05)
        return found

    def _recover(self, work: Path, was_of_run: bool) -> list[int]:
        """Recovers once, with the point's fault if it is one of the recovery, and again if something is left; what is
        left in the end."""
        left = self._look()
        self.outcome.in_between = sum(left)
        for attempt in range(3):
            is_broken = attempt == 0 and not was_of_run and self.point is not None
            self._command(self.setup.recover, work, f"recovery{attempt + 1}.out", self.point if is_broken else None)
            left = self._look()
            if attempt >= (0 if was_of_run or self.point is None else 1) and not any(left):
                break
        return left

    # the verdict

    def _was_reached(self) -> bool:
        return self.point is None or any(f"fault {self.point.line(self.pause).split(' ', 2)[2]}" in line
                                         for line in self.server.log
                                         if line.startswith(f"store {self.point.site.store},"))

    def _judge(self, left: Sequence[int]) -> None:
        """Says what became of the manager's transactions, by the histories and by what is left."""
        it = self.outcome
        all_found = self.setup.auditor.globals(self.server.histories())
        found = [one for one in all_found if is_own(one.gtrid)]
        it.committed = frozenset(store for one in found for store in one.committed())
        it.rows = [rows_of(path.read_bytes(), is_own) for path in self.server.histories()]
        it.wanted = self.setup.rows or it.rows
        missing = lost(it.wanted, it.rows)
        it.names = frozenset((branch.store, one.format_id, branch.bqual) for one in found for branch in one.branches)
        recoveries = len(it.statuses) - 1
        it.after = "committed" if it.committed else "rolled back"
        touched = [one for one in all_found if one.gtrid.startswith(FOREIGN) and one.verdict != "IN DOUBT"]
        mixed = [one for one in found if one.verdict == "MIXED"]
        is_told = self.point is not None and self.point.action == ROLLED_BACK and any(it.statuses)
        if not self._was_reached():
            it.verdict, it.why = UNREACHED, "this run or recovery had no such statement"
        elif mixed and not is_told:
            it.verdict, it.why = MIXED, ends_of(mixed[0])
        elif touched:
            it.verdict, it.why = TOUCHED, f"another manager's branch: {ends_of(touched[0])}"
        elif any(left):
            it.verdict, it.why = (IN_DOUBT,
                                  f"left in {stores_of(store for store, count in enumerate(left, 1) if count)} by "
                                  f"{recoveries} recoveries")
        elif mixed:
            it.verdict, it.why = TOLD, ends_of(mixed[0])
        elif any(one.verdict != "ATOMIC" for one in found):
            it.verdict, it.why = OPEN, ends_of(next(one for one in found if one.verdict != "ATOMIC"))
        elif it.committed and not it.committed >= self.setup.base:
            it.verdict, it.why = (
                PARTIAL, f"only {stores_of(it.committed)} committed, where {stores_of(self.setup.base)} had to")
        elif it.committed and missing:
            it.verdict, it.why = (LOST_WORK, f"store {missing[0][0]} committed, and its row {readable(missing[0][1])} "
                                  "isn't as a run without faults leaves it")
        elif it.statuses[0] == 0 and not it.committed:
            it.verdict, it.why = UNTRUE, "the run ended with status 0, and nothing is committed"
        if it.verdict in (MIXED, PARTIAL, LOST_WORK, IN_DOUBT, OPEN, TOLD):
            it.after = it.verdict.split(",")[0].lower()


def is_own(gtrid: bytes) -> bool:
    """Whether a transaction is the manager's: not one of another manager, nor of the server."""
    return not gtrid.startswith((FOREIGN, OWN))


def readable(text: bytes) -> str:
    """A key as a person wrote it, if it can be read."""
    return story.readable(text.decode())


def literal(data: bytes) -> str:
    """As it stands in a statement."""
    return f"X'{data.hex()}'"


def stores_of(numbers: Iterable[int]) -> str:
    return " and ".join(f"store {number}" for number in sorted(numbers))


def ends_of(one: Global) -> str:
    return ", ".join(f"store {branch.store} {branch.ends[-1].lower()}" for branch in one.branches)


