"""A nigbaru-server for tests of pytest, with faults, kills of a manager, and what is left of its transactions.

    # conftest.py
    pytest_plugins = ["nigbaru.pytest_plugin"]

Each test that takes the fixture `nigbaru_server` has a server of its own, with empty stores, at free ports.
`@pytest.mark.nigbaru(stores=2)` says how many stores; without it there is one. Stores are numbered from 1.
"""
from __future__ import annotations

import os
import re
import signal
import subprocess
import time
from pathlib import Path
from typing import IO, Callable, Dict, Iterator, List, NamedTuple, Optional, Sequence, Union

import pytest

from .connection import Connection
from .network import Remote
from .programs import bundled
from .server import Word
from .xid import Xid

PREPARED = re.compile(r",\d+ PREPARED(,|$)")
PATIENCE = 60.0  # seconds for anything that has to come
HOLD = 600  # seconds that a statement is held while its client is killed
LISTENS = re.compile(r"store \d+ listens on .*:(\d+)")


class Ended(NamedTuple):
    """How a command ended, and what it wrote on its standard output and error."""

    status: int
    output: str


class NigbaruServer:
    """A server with empty stores. Its files and the commands' output are in `folder`."""

    def __init__(self, folder: Path, stores: int = 1, options: Sequence[Word] = ()) -> None:
        self.folder, self.stores = folder, stores
        self._commands = 0
        (folder / "work").mkdir()
        (folder / "faults").touch()
        words: Sequence[Word] = ("--port", "0", "--stores", str(stores), "--fault", folder / "faults", "--record",
                                 folder / "record", "--history", folder / "history", *options)
        with (folder / "server.log").open("wb") as log:
            self._process = _launch("NIGBARU_SERVER", "nigbaru-server", words, subprocess.DEVNULL, log)
        listening = f"store {stores} listens on "
        if not self._wait(0, lambda line: line.startswith(listening), lambda: self._process.poll() is not None):
            self._process.kill()
            self._process.wait()
            raise RuntimeError(f"the server doesn't start: {self._log()}")
        self.ports = [int(found[1]) for found in map(LISTENS.fullmatch, self._log().splitlines()) if found]

    def connect(self, store: int = 1) -> Connection:
        """A new connection to a store, which a `with` closes."""
        return Remote(self._port(store), timeout=PATIENCE).connect()

    def get(self, store: int, key: str) -> Optional[bytes]:
        """The committed value of a row, or None."""
        with self.connect(store) as connection:
            return connection.get(key)

    def put(self, store: int, key: str, value: str) -> None:
        """Gives a row a value."""
        with self.connect(store) as connection:
            connection.put(key, value)

    # faults and commands

    def fault(self, *lines: str) -> None:
        """Puts these faults in the place of all earlier ones, as lines of the server's option --fault: for example
        "STORE 1 XA COMMIT 1 close-after". Statements are counted from here. Without a line no fault is left."""
        start = len(self._log())
        (self.folder / "faults.next").write_text("".join(f"{line}\n" for line in lines))
        (self.folder / "faults.next").replace(self.folder / "faults")
        told = self._wait(start, lambda line: line.startswith("the faults "),
                          lambda: self._process.poll() is not None)
        if told is None:
            raise RuntimeError(f"the server hasn't read the faults: {self._log()}")
        if told.startswith("the faults stay"):
            raise ValueError(re.sub(r"^.*: (?=line \d)", "", told))

    def run(self, *command: Word) -> Ended:
        """Runs a command to its end. The ports are in its environment: PORTS has all, PORT1 that of store 1, and so on.
        Its folder is empty when the test begins, and all commands of a test have the same, for a journal."""
        process = self._start(command)
        try:
            status = process.wait(PATIENCE)
        except subprocess.TimeoutExpired:
            pytest.fail(f"after {PATIENCE:g} s it hasn't ended: {self._told(command)}")
        finally:
            _destroy(process)
        return Ended(status, self._output())

    def kill_before(self, statement: str, *command: Word) -> None:
        """Runs a command, and kills it with all its processes as soon as a statement reaches a store, which never gets
        it. The statement is named as in a line of faults, for example "STORE 1 XA COMMIT 1". No fault is left."""
        self._kill(f"{statement} stall {HOLD}", command)

    def kill_after(self, statement: str, *command: Word) -> None:
        """As `kill_before`, but the statement takes effect, and only its answer is never sent."""
        self._kill(f"{statement} stall-after {HOLD}", command)

    # what a test looks at

    def in_doubt(self) -> List[List[Xid]]:
        """For each store the branches that it has prepared and not yet finished."""
        found = []
        for store in range(1, self.stores + 1):
            with self.connect(store) as connection:
                found.append(connection.tpc_recover())
        return found

    def verdicts(self) -> List[str]:
        """Ends the server. For each store what `xa_script judge` says of its record: "LEGAL" if some order of the calls
        explains all replies, "ILLEGAL" with a line, "UNDECIDED", or "EMPTY" if no client asked the store."""
        self.end()
        return [_program("judge", "--quiet", "--text", "--file", path).output.partition("\n")[0]
                for path in self._files("record")]

    def audit(self) -> Dict[str, int]:
        """Ends the server. How many global transactions `xa_script audit` found with each verdict: ATOMIC, MIXED (one
        store committed and another dropped its writes), IN DOUBT and OPEN. A verdict that none has is left out."""
        self.end()
        audit = _program("audit", "--quiet", *self._files("history"))
        counts = {name: int(count) for name, count in re.findall(r"(?<=\d )([A-Z ]+) (\d+)", audit.output)}
        if not counts:
            raise RuntimeError(f"the histories can't be audited: {audit.output}")
        return {name: count for name, count in counts.items() if count}

    def end(self) -> None:
        """Ends the server if it runs, by its signal, so that it writes all that it still has to."""
        if self._process.returncode is None:
            self._process.terminate()
            try:
                self._process.wait(PATIENCE)
            finally:
                self._process.kill()
                self._process.wait()
            if self._process.returncode:
                raise RuntimeError(f"the server ended with status {self._process.returncode}: {self._log()}")

    # the server's files

    def _port(self, store: int) -> int:
        if not 1 <= store <= self.stores:
            raise ValueError(f"there is no store {store}: they are 1 to {self.stores}")
        return self.ports[store - 1]

    def _log(self) -> str:
        return (self.folder / "server.log").read_text("latin-1")

    def _files(self, name: str) -> List[Path]:
        return [self.folder / (name if self.stores == 1 else f"{name}.{store}") for store in range(1, self.stores + 1)]

    def _wait(self, start: int, is_wanted: Callable[[str], bool], is_over: Callable[[], bool]) -> Optional[str]:
        """The first line of the server's log from a place on that is wanted; None if it is over before that comes."""
        deadline = time.monotonic() + PATIENCE
        while True:
            # (asked before the log is read, so that a last line isn't missed)
            is_last = is_over() or time.monotonic() > deadline
            whole, _, _ = self._log()[start:].rpartition("\n")
            found = next(filter(is_wanted, whole.split("\n")), None)
            if found is not None or is_last:
                return found
            time.sleep(0.01)

    # commands

    def _start(self, command: Sequence[Word]) -> subprocess.Popen[bytes]:
        self._commands += 1
        environment = {**os.environ, "PORTS": " ".join(map(str, self.ports)),
                       **{f"PORT{store}": str(port) for store, port in enumerate(self.ports, 1)}}
        with self._output_file().open("wb") as output:
            return subprocess.Popen(command, cwd=self.folder / "work", env=environment, stdin=subprocess.DEVNULL,
                                    stdout=output, stderr=subprocess.STDOUT, start_new_session=True)

    def _output_file(self) -> Path:
        return self.folder / f"command{self._commands}.out"

    def _output(self) -> str:
        return self._output_file().read_text(errors="replace")

    def _told(self, command: Sequence[Word]) -> str:
        return f"{' '.join(map(str, command))}\nIt wrote: {self._output()}"

    def _kill(self, fault: str, command: Sequence[Word]) -> None:
        self.fault(fault)
        before = self._uses()
        start = len(self._log())
        process = self._start(command)
        try:
            held = self._wait(start, lambda line: ": held " in line, lambda: process.poll() is not None)
        finally:
            status = process.poll()
            _destroy(process)
        if held is None:
            how = "it was still running" if status is None else f"it ended with status {status}"
            pytest.fail(f"{how}, and the fault {fault} was not reached: {self._told(command)}")
        self.fault()
        # The stores see the end of each connection by themselves, and roll back what isn't prepared.
        deadline = time.monotonic() + PATIENCE
        while any(map(int.__gt__, after := self._uses(), before)):
            if time.monotonic() > deadline:
                raise RuntimeError("since the kill stores have more connections or open branches than before it: "
                                   f"{after}, and not {before}. Open none while a command is killed")
            time.sleep(0.01)

    def _uses(self) -> List[int]:
        """For each store how many connections it has, its asker among them, and how many branches that are open."""
        found = []
        for store in range(1, self.stores + 1):
            with self.connect(store) as connection:
                rows = connection.ask("SHOW NIGBARU STATUS")
            found.append(sum(int(row.split(" ")[-1]) for row in rows if row.startswith("connections ")))
            # (an identifier may have spaces, and the state stands behind it, alone or with what is known of the branch)
            found.append(sum(row.startswith("branch ") and not PREPARED.search(row) for row in rows))
        return found


def _launch(variable: str, name: str, words: Sequence[Word], stdout: int,
            stderr: Union[int, IO[bytes]]) -> subprocess.Popen[bytes]:
    """Starts a program, which a variable of the environment names, or else this package or PATH has it."""
    program = os.environ.get(variable) or bundled(name) or name
    try:
        return subprocess.Popen([program, *words], stdin=subprocess.DEVNULL, stdout=stdout, stderr=stderr)
    except OSError as fault:
        raise RuntimeError(f"{program} can't be started: install Nigbaru, or name the built file in the environment "
                           f"variable {variable}") from fault


def _program(*words: Word) -> Ended:
    """Runs the program xa_script to its end."""
    process = _launch("NIGBARU_PROGRAM", "xa_script", words, subprocess.PIPE, subprocess.STDOUT)
    output, _ = process.communicate()
    return Ended(process.returncode, output.decode("latin-1"))


def _destroy(process: subprocess.Popen[bytes]) -> None:
    """Kills the process's group, also if it has ended itself, and waits for its end."""
    try:
        os.killpg(process.pid, signal.SIGKILL)
    except ProcessLookupError:
        pass
    process.wait()


def pytest_configure(config: pytest.Config) -> None:
    config.addinivalue_line("markers", "nigbaru(stores=1, options=()): the stores of the fixture nigbaru_server, and "
                            "further options of the server's command line")


@pytest.fixture
def nigbaru_server(request: pytest.FixtureRequest, tmp_path: Path) -> Iterator[NigbaruServer]:
    """A server with empty stores at free ports, which ends with the test."""
    mark = request.node.get_closest_marker("nigbaru")
    folder = tmp_path / "nigbaru"
    folder.mkdir()
    # (pytest shows this if the test fails, and keeps the folder for a while)
    print(f"nigbaru: the server's log, the records and histories, and what commands wrote, are in {folder}")
    server = NigbaruServer(folder, **(mark.kwargs if mark else {}))
    try:
        yield server
    finally:
        server.end()
