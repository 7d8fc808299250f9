"""PEP 249's two-phase calls over `xa_script serve`, over a server of MySQL's protocol, or over the library in this
process. It needs nothing but the standard library."""
from __future__ import annotations

from typing import Optional, Sequence

from .connection import Connection
from .cursor import BINARY, DATETIME, NUMBER, ROWID, STRING, Cursor
from .errors import (DatabaseError, DataError, Error, IntegrityError, InterfaceError, InternalError, NotSupportedError,
                     OperationalError, ProgrammingError, Warning)
from .manager import Branch
from .network import Remote
from .programs import path_of
from .server import Server, Word
from .store import Store
from .xid import Xid

__version__ = "0.1.0"
apilevel = "2.0"
threadsafety = 1  # a Server may be shared by threads, a connection may not
paramstyle = "qmark"
Binary = bytes


def connect(command: Optional[Sequence[Word]] = None, *, program: Optional[Word] = None,
            timeout: Optional[float] = None) -> Connection:
    """A connection to a store of its own, which ends with it: see Server, also for what is passed, and for several
    connections."""
    return _Alone(Server(command, program=program, timeout=timeout))


class _Alone(Connection):
    """The one connection of a store."""

    def __init__(self, server: Server) -> None:
        super().__init__(server, 1)
        self._own = server

    def close(self) -> None:
        """Ends the store, too."""
        if self._session is not None:
            try:
                super().close()
            finally:
                self._own.close()


__all__ = ["BINARY", "Binary", "Branch", "Connection", "Cursor", "DATETIME", "DataError", "DatabaseError", "Error",
           "IntegrityError", "InterfaceError", "InternalError", "NUMBER", "NotSupportedError", "OperationalError",
           "ProgrammingError", "ROWID", "Remote", "STRING", "Server", "Store", "Warning", "Xid", "__version__",
           "apilevel", "connect", "paramstyle", "path_of", "threadsafety"]
