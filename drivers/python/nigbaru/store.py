"""A store in this process, over the library for C: statements of different threads run at the same time."""
from __future__ import annotations

import ctypes
import os
import threading
from typing import List, Optional

from .connection import Connection
from .errors import DataError, InternalError, OperationalError, ProgrammingError, refusal
from .programs import bundled
from .server import Word, line_of

# The statuses of nigbaru.h that are looked at.
OK, VALUE, NONE, LIST, REFUSED = range(5)
NO_MEMORY, SYNTAX, OUT_OF_RANGE = 7, 8, 10
# What the library says of a refusal is its number. As the program does, this adds the text; of 1399 the session's state
# isn't known here.
TEXTS = {1397: "(XAE04): XAER_NOTA unknown xid", 1398: "(XAE05): XAER_INVAL clause not supported",
         1399: "(XAE07): XAER_RMFAIL the session's state doesn't allow this statement",
         1440: "(XAE08): XAER_DUPID xid already exists", 3572: "(HY000): row locked by another branch"}
ADVICE = ("pass library=PATH of libnigbaru.so.0, set NIGBARU_LIBRARY to it, or install a release, whose wheel and "
          "package have it")


class _Seat(ctypes.Structure):
    """nigbaru_seat."""
    _fields_ = [("shared", ctypes.c_void_p), ("number", ctypes.c_uint64), ("turn", ctypes.c_uint64)]


class _Answer(ctypes.Structure):
    """nigbaru_answer."""
    _fields_ = [("place", ctypes.c_uint64), ("length", ctypes.c_uint64), ("count", ctypes.c_uint64),
                ("error", ctypes.c_uint32), ("value", ctypes.c_uint8 * 64)]


class _Xid(ctypes.Structure):
    """nigbaru_xid."""
    _fields_ = [("format_id", ctypes.c_long), ("gtrid_length", ctypes.c_long), ("bqual_length", ctypes.c_long),
                ("data", ctypes.c_uint8 * 128)]


def _loaded(library: Optional[Word]) -> ctypes.CDLL:
    """The library that was passed, that NIGBARU_LIBRARY names, that is in this package, or that the system has."""
    path = os.fspath(library) if library is not None else os.environ.get("NIGBARU_LIBRARY")
    path = path or bundled("libnigbaru.so.0") or "libnigbaru.so.0"
    try:
        found = ctypes.CDLL(path)
        seat = ctypes.POINTER(_Seat)
        found.nigbaru_shared_open.argtypes = [ctypes.c_uint64, ctypes.c_uint64, ctypes.POINTER(ctypes.c_void_p)]
        found.nigbaru_shared_close.argtypes = [ctypes.c_void_p]
        found.nigbaru_seat_take.argtypes = [ctypes.c_void_p, ctypes.c_uint64, seat]
        found.nigbaru_seat_run.argtypes = [seat, ctypes.c_char_p, ctypes.c_size_t, ctypes.POINTER(_Answer),
                                           ctypes.POINTER(_Xid), ctypes.c_size_t]
        found.nigbaru_seat_leave.argtypes = [seat]
        return found
    except (OSError, AttributeError) as fault:
        raise OperationalError(f"the library {path} can't be used: {fault}; {ADVICE}") from fault


class Store:
    """One store in this process. Threads may share it; each of its connections belongs to one thread at a time. It ends
    when it is closed, or with the process. A child that was forked can't use it."""

    def __init__(self, *, library: Optional[Word] = None, rows: int = 16384, sessions: int = 16) -> None:
        """`rows` is how many of the last entries of its history the store keeps, 1 to 65,536; `sessions` is how many
        connections it may have, 1 to 16. OperationalError where there is no library, or no memory."""
        if not 1 <= rows <= 65536 or not 1 <= sessions <= 16:
            raise ProgrammingError("rows is from 1 to 65536, and sessions from 1 to 16")
        self.library, self.sessions = _loaded(library), sessions
        self._store = ctypes.c_void_p()
        self._turn = threading.Lock()  # no seat is taken of a store that is being closed
        if self.library.nigbaru_shared_open(rows, sessions, ctypes.byref(self._store)) != OK:
            raise OperationalError("out of memory: the store can't be opened")

    def connect(self) -> Connection:
        """A connection; OperationalError where all sessions are taken, or the store is closed."""
        seat = _Seat()
        with self._turn:
            if not self._store:
                raise OperationalError("the store is closed")
            if self.library.nigbaru_seat_take(self._store, 0, ctypes.byref(seat)) != OK:
                raise OperationalError(f"{self.sessions} sessions are open")
        return Connection(Seat(self, seat), seat.number)

    def close(self) -> None:
        """Frees the store. OperationalError where a connection is open, and then nothing was done."""
        with self._turn:
            if self._store and self.library.nigbaru_shared_close(self._store) != OK:
                raise OperationalError("connections are open: close them first")
            self._store = ctypes.c_void_p()

    def __enter__(self) -> "Store":
        return self

    def __exit__(self, *_: object) -> None:
        self.close()

    def __repr__(self) -> str:
        return f"<nigbaru.Store in this process{'' if self._store else ': closed'}>"


class Seat:
    """A session of such a store, asked as a Server is: by a statement, for the lines of its answer."""

    is_gone = False

    def __init__(self, store: Store, seat: _Seat) -> None:
        self._store, self._seat = store, seat

    def ask(self, session: int, statement: str) -> List[str]:
        """The answer to a statement, its lines in a list; a refusal is raised."""
        text = line_of(session, statement)[len(f"{session} "):-1]
        answer, room = _Answer(), 16
        while True:
            xids = (_Xid * room)()
            status = self._store.library.nigbaru_seat_run(ctypes.byref(self._seat), text, len(text),
                                                          ctypes.byref(answer), xids, room)
            if status != LIST or answer.count <= room:
                return lines_of(status, answer, xids)
            room = answer.count

    def connect(self) -> Connection:
        """Another connection to the same store."""
        return self._store.connect()

    def give_back(self, session: int) -> None:
        """Gives the session back, since the connection is closed."""
        self.is_gone = True
        if self._store.library.nigbaru_seat_leave(ctypes.byref(self._seat)) == NO_MEMORY:
            raise OperationalError("out of memory: the session stays taken")


def lines_of(status: int, answer: _Answer, xids: "ctypes.Array[_Xid]") -> List[str]:
    """An answer as `xa_script serve` writes it; a refusal or another fault is raised."""
    if status == OK:
        return ["OK"]
    if status == VALUE:
        return [f"VALUE {literal_of(bytes(answer.value[:answer.length]))}"]
    if status == NONE:
        return ["NONE"]
    if status == LIST:
        return [f"ROWS {answer.count}", *map(row_of, xids[:answer.count])]
    if status == OUT_OF_RANGE:
        raise DataError("a format id above 2 ** 63 - 1, which C's XID can't hold")
    if status == REFUSED:
        said = f"{answer.error} {TEXTS.get(answer.error, '(HY000): refused')}"
    elif status == SYNTAX:
        said = f"1064 (42000): syntax fault at byte {answer.place}"
    elif status == NO_MEMORY:
        said = "1037 (HY001): out of memory"
    else:
        raise InternalError(f"the library returned status {status}: is the connection closed, or in another thread?")
    error = refusal(f"ERROR {said}")
    assert error
    raise error


def row_of(xid: _Xid) -> str:
    """A row of XA RECOVER CONVERT XID."""
    data = bytes(xid.data[:xid.gtrid_length + xid.bqual_length])
    return f"{xid.format_id} {xid.gtrid_length} {xid.bqual_length} {literal_of(data)}"


def literal_of(data: bytes) -> str:
    """Bytes as an answer has them."""
    return f"0x{data.hex()}" if data else "X''"
