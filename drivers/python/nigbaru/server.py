"""A served store: a child process that gives a pipe, or the two ends of a pipe."""
from __future__ import annotations

import os
import shutil
import subprocess
import threading
from typing import List, Optional, Sequence, Tuple, Union

from .connection import Connection
from .errors import Error, InterfaceError, OperationalError, ProgrammingError, refusal
from .pipe import Deadline, Pipe
from .programs import bundled

SESSIONS = range(1, 17)
LONGEST = 65536  # bytes of a line (docs/COMMANDS.md#serve)
Word = Union[str, "os.PathLike[str]"]
# What to pass is said in every error about a command.
ADVICE = "pass program=PATH of xa_script, set NIGBARU_PROGRAM to it, or have it on PATH"


class Server:
    """One store. Its sessions, 16 at most, are connections; threads may share it, and ask one at a time."""

    child: "Optional[subprocess.Popen[bytes]]"

    def __init__(self, command: Optional[Sequence[Word]] = None, *, program: Optional[Word] = None,
                 timeout: Optional[float] = None) -> None:
        """Starts a store that ends when this is closed.

        `command` is a list of words, as ["ssh", "HOST", "xa_script", "serve"]. Without it, `program serve` is started;
        without `program`, that of the variable NIGBARU_PROGRAM, the one in a release's wheel, or else `xa_script` on
        PATH. OperationalError where it can't be started.
        `timeout` is how many seconds an answer may take. After that the store is gone for each of its connections, by
        OperationalError.
        """
        seconds = checked_timeout(timeout)
        words = words_of(command, program)
        try:
            self.child = subprocess.Popen(words, stdin=subprocess.PIPE, stdout=subprocess.PIPE, bufsize=0)
        except OSError as fault:
            raise OperationalError(f"{words[0]} can't be started: {fault.strerror}; {ADVICE}") from fault
        assert self.child.stdout and self.child.stdin
        self._begin(Pipe(self.child.stdout, self.child.stdin), seconds)

    @classmethod
    def over(cls, reader: int, writer: int, *, timeout: Optional[float] = None) -> "Server":
        """A store at the ends of a pipe (file descriptors) that somebody else had: its sessions are disconnected
        first."""
        seconds = checked_timeout(timeout)
        self = cls.__new__(cls)
        self.child = None
        self._begin(Pipe(os.fdopen(reader, "rb", 0), os.fdopen(writer, "wb", 0)), seconds)
        try:
            for session in SESSIONS:
                self.ask(session, "DISCONNECT")
        except BaseException:
            self.close()
            raise
        return self

    def _begin(self, pipe: Pipe, timeout: Optional[float]) -> None:
        self._pipe, self._timeout = pipe, timeout
        self._turn = threading.Lock()
        self._free = list(SESSIONS)
        self._cause: Optional[str] = None  # why the store is gone
        self._has_answered = False

    def connect(self) -> Connection:
        """A connection; OperationalError where the store is known to be gone, or 16 are open."""
        with self._turn:
            self._need_store()
            if not self._free:
                raise OperationalError("16 sessions are open")
            return Connection(self, self._free.pop(0))

    def give_back(self, session: int) -> None:
        """The session's number can be given to another connection."""
        with self._turn:
            self._free.append(session)

    @property
    def is_gone(self) -> bool:
        """Whether nothing can be asked any more: it was closed, has ended, or didn't answer in time."""
        return self._cause is not None

    def ask(self, session: int, statement: str) -> List[str]:
        """The answer to a session's statement, its lines in a list; a refusal is raised."""
        line = line_of(session, statement)
        with self._turn:
            first, rows = self._exchange(session, line)
        error = refusal(first)
        if error:
            raise error
        return [first, *rows]

    def _need_store(self) -> None:
        if self._cause is not None:
            raise OperationalError(f"the store is gone: {self._cause}")

    def _exchange(self, session: int, line: bytes) -> Tuple[str, List[str]]:
        self._need_store()
        deadline = Deadline(self._timeout)
        try:
            self._pipe.write(line, deadline)
            first = self._line(f"{session} ", deadline)
            self._has_answered = True
            count = int(first[5:]) if first.startswith("ROWS ") else 0
            return first, [self._line("", deadline) for _ in range(count)]
        except EOFError:
            self._cause = self._ending()
            raise OperationalError(f"the store is gone: {self._cause}") from None
        except (OSError, ValueError) as fault:
            self._cause = f"{fault}; {self._ending()}" if isinstance(fault, BrokenPipeError) else str(fault)
            raise OperationalError(f"the store is gone: {self._cause}") from fault
        except BaseException as fault:
            # An answer may be left in the pipe.
            self._cause = str(fault) if isinstance(fault, Error) else "a question was broken off"
            raise

    def _line(self, begin: str, deadline: Deadline) -> str:
        text = self._pipe.line(deadline).decode("ascii")
        if not text.startswith(begin):
            raise InterfaceError(f"no answer of this session: {text!r}")
        return text[len(begin):]

    def _ending(self) -> str:
        """How the store ended, once its output has."""
        if self.child is None:
            return "it ended"
        try:
            ended = f"{self.child.args!r} ended with status {self.child.wait(10)}"
        except subprocess.TimeoutExpired:
            return "it closed its output"
        return ended if self._has_answered else f'{ended}; a command is wanted that serves, as ["xa_script", "serve"]'

    def close(self) -> None:
        """Ends the input of the store; a child process then ends. One that doesn't within the time-out is killed."""
        self._cause = self._cause or "it was closed"
        self._pipe.close()
        if self.child:
            try:
                self.child.wait(self._timeout)
            except subprocess.TimeoutExpired:
                self.child.kill()
                self.child.wait()

    def __enter__(self) -> "Server":
        return self

    def __exit__(self, *_: object) -> None:
        self.close()

    def __repr__(self) -> str:
        what = repr(self.child.args) if self.child else "over a pipe"
        return f"<nigbaru.Server {what}: {f'gone, {self._cause}' if self.is_gone else f'{len(SESSIONS) - len(self._free)} of {len(SESSIONS)} sessions are open'}>"


def line_of(session: int, statement: str) -> bytes:
    """The line that asks for a statement. ProgrammingError for what is no line, of which nothing is sent."""
    if not isinstance(statement, str):
        raise TypeError(f"a statement is a str, and not {type(statement).__name__}: {statement!r:.40}")
    try:
        line = f"{session} {statement}".encode()
    except UnicodeEncodeError as fault:
        raise ProgrammingError(f"a statement that UTF-8 can't write: {fault}") from fault
    if b"\n" in line or len(line) > LONGEST:
        raise ProgrammingError(f"a statement is a line of at most {LONGEST} bytes: {statement!r:.60}")
    return line + b"\n"


def checked_timeout(timeout: Optional[float]) -> Optional[float]:
    """The time-out as it was given, where it is one."""
    if (timeout is not None
        and (isinstance(timeout, bool) or not isinstance(timeout, (int, float)) or not 0 < timeout < float("inf"))):
        raise ProgrammingError(f"timeout is a number of seconds above 0, or None, and not {timeout!r:.40}")
    return timeout


def words_of(command: Optional[Sequence[Word]], program: Optional[Word]) -> List[str]:
    """The words of the process that is to be started."""
    if command is None:
        return [program_at(program), "serve"]
    if program is not None:
        raise ProgrammingError("a command has its own program: pass command or program, and not both")
    if isinstance(command, (str, bytes, os.PathLike)):
        raise ProgrammingError(f'a command is a list of words, as ["xa_script", "serve"], and not {command!r:.60}; for '
                               'a program at a path pass program=PATH')
    words = list(command)
    if not words or not all(isinstance(word, (str, bytes, os.PathLike)) for word in words):
        raise ProgrammingError(f'a command is a list of words, as ["xa_script", "serve"], and not {command!r:.60}')
    return [os.fsdecode(word) for word in words]


def program_at(program: Optional[Word]) -> str:
    """Where the program is: what was passed, what NIGBARU_PROGRAM has, the one in this package, or xa_script on PATH."""
    if program is not None and not isinstance(program, (str, os.PathLike)):
        raise ProgrammingError(f"program is the path of xa_script, and not {program!r:.60}")
    named = os.fspath(program) if program is not None else os.environ.get("NIGBARU_PROGRAM")
    if named:
        path, whence = named, "by program" if program is not None else "by NIGBARU_PROGRAM"
    else:
        path, whence = bundled("xa_script") or shutil.which("xa_script") or "", "on PATH"
    if not path:
        raise OperationalError(f"there is no xa_script {whence}: {ADVICE}")
    if not os.path.isfile(path) or not os.access(path, os.X_OK):
        raise OperationalError(f"there is no program at {path}, named {whence}: {ADVICE}")
    return path
