"""A session of a store, with the two-phase calls of PEP 249."""
from __future__ import annotations

from typing import TYPE_CHECKING, List, Optional, Sequence, Tuple, Union

from .cursor import Cursor
from .errors import (DatabaseError, DataError, Error, IntegrityError, InterfaceError, InternalError, NotSupportedError,
                     OperationalError, ProgrammingError, Warning, means_no_branch)
from .texts import CONVERTED_LIST, bytes_of, is_list, literal, rows_of, verb_of
from .xid import Text, Xid, xid_from, xid_of

if TYPE_CHECKING:
    from .network import Line
    from .server import Server
    from .store import Seat

# Where a transaction stands. IDLE: its work has ended, and it isn't prepared, since a call between failed. BY_TEXT: XA
# START was a cursor's statement.
NONE, ACTIVE, IDLE, PREPARED, BY_TEXT = "none", "active", "idle", "prepared", "by text"
# Statements that begin or end a session's branch.
BEGINS = ("XA START", "XA BEGIN")
ENDS = ("XA PREPARE", "XA COMMIT", "XA ROLLBACK", "DISCONNECT")
ChosenXid = Union[Xid, Tuple[int, Text, Text], Sequence[object]]


class Connection:
    """A row outside a transaction is written at once. A transaction is a branch: from `tpc_begin` to its end."""

    Warning, Error, InterfaceError, DatabaseError = Warning, Error, InterfaceError, DatabaseError
    DataError, OperationalError, IntegrityError = DataError, OperationalError, IntegrityError
    InternalError, ProgrammingError, NotSupportedError = InternalError, ProgrammingError, NotSupportedError

    def __init__(self, server: Union[Server, Line, Seat], session: int) -> None:
        self._server = server
        self._session: Optional[int] = session
        self._xid: Optional[Xid] = None
        self._stage = NONE

    def _number(self) -> int:
        """The session's number. InterfaceError where the connection is closed."""
        if self._session is None:
            raise InterfaceError("the connection is closed")
        return self._session

    def _ask(self, statement: str) -> List[str]:
        return self._server.ask(self._number(), statement)

    def _ask_row(self, statement: str) -> List[str]:
        if self._stage == PREPARED:
            raise ProgrammingError("the transaction is prepared: nothing is executed until tpc_commit or tpc_rollback")
        return self._ask(statement)

    # rows

    def get(self, key: Text) -> Optional[bytes]:
        """The value of a row, or None."""
        answer = self._ask_row(f"GET {literal(key, 1)}")[0]
        return None if answer == "NONE" else bytes_of(answer[len("VALUE "):])

    def put(self, key: Text, value: Text) -> None:
        """Gives a row a value."""
        self._ask_row(f"PUT {literal(key, 1)},{literal(value, 0)}")

    def delete(self, key: Text) -> None:
        """Takes a row's value away; there need be none."""
        self._ask_row(f"DEL {literal(key, 1)}")

    def cursor(self) -> Cursor:
        """A cursor, for statements as texts."""
        self._number()
        return Cursor(self)

    def ask(self, statement: str) -> List[str]:
        """The answer to a statement's text, its lines in a list, as cursors ask for it. XA RECOVER is given with
        CONVERT XID.

        A text may begin a transaction, where none is open, and then texts end it. Within one of `tpc_begin`
        ProgrammingError is raised for such a text, and after `tpc_prepare` for any.
        """
        verb = verb_of(statement)
        if self._stage in (ACTIVE, IDLE) and verb in (*BEGINS, "XA END", *ENDS):
            raise ProgrammingError(
                f"{verb} within a transaction of tpc_begin: tpc_prepare, tpc_commit and tpc_rollback end it")
        answer = self._ask_row(CONVERTED_LIST if is_list(statement) else statement)
        if verb in BEGINS:
            self._stage = BY_TEXT
        elif verb in ENDS:
            self._stage = NONE
        return answer

    # PEP 249

    def close(self) -> None:
        """Rolls back what isn't prepared; a prepared transaction stays, for `tpc_recover` of any connection."""
        if self._session is None:
            return
        session, self._session, self._stage = self._session, None, NONE
        try:
            if not self._server.is_gone:
                self._server.ask(session, "DISCONNECT")
        finally:
            self._server.give_back(session)

    @property
    def is_gone(self) -> bool:
        """Whether nothing can be asked by it any more: it was closed, or its store or its socket is gone."""
        return self._session is None or self._server.is_gone

    def another(self) -> "Connection":
        """Another connection to the same store; OperationalError if there is none to be had."""
        return self._server.connect()

    @property
    def in_transaction(self) -> bool:
        """Whether a transaction is open, prepared or not."""
        return self._stage != NONE

    def commit(self) -> None:
        """Nothing waits outside a transaction; within one it is an error."""
        self._need_none("commit")

    def rollback(self) -> None:
        """Does nothing outside a transaction, where each row was written at once; within one it is an error."""
        self._need_none("rollback")

    def xid(self, format_id: int, global_transaction_id: Text, branch_qualifier: Text) -> Xid:
        """An identifier: a number below 2 ** 64, and two parts of at most 64 bytes."""
        return xid_of(format_id, global_transaction_id, branch_qualifier)

    def tpc_begin(self, xid: ChosenXid) -> None:
        """Begins a transaction. IntegrityError where a branch has the identifier already."""
        if self._stage != NONE:
            raise ProgrammingError("a transaction is open")
        begun = xid_from(xid, "tpc_begin")
        self._ask(f"XA START {begun.literal()}")
        self._xid, self._stage = begun, ACTIVE

    def tpc_prepare(self) -> None:
        """The first phase: the transaction is kept for `tpc_commit` or `tpc_rollback`, and nothing is executed until
        then."""
        self._need_own()
        if self._stage == PREPARED:
            raise ProgrammingError("the transaction is prepared already")
        self._end_work()
        self._ask_own("PREPARE")
        self._stage = PREPARED

    def tpc_commit(self, xid: Optional[ChosenXid] = None) -> None:
        """Commits this connection's transaction, in one phase where it isn't prepared; or a recovered one."""
        if xid is not None:
            self._finish("COMMIT", xid_from(xid, "tpc_commit"))
            return
        self._need_own()
        self._end_work()
        self._ask_own("COMMIT", " ONE PHASE" if self._stage == IDLE else "")
        self._stage = NONE

    def tpc_rollback(self, xid: Optional[ChosenXid] = None) -> None:
        """Rolls back this connection's transaction, or a recovered one."""
        if xid is not None:
            self._finish("ROLLBACK", xid_from(xid, "tpc_rollback"))
            return
        self._need_own()
        self._end_work()
        self._ask_own("ROLLBACK")
        self._stage = NONE

    def tpc_recover(self) -> List[Xid]:
        """The identifiers of the prepared transactions, ascending."""
        return [Xid(format_id, data[:length], data[length:])
                for format_id, length, _, data in rows_of(self._ask(CONVERTED_LIST))]

    def _need_none(self, call: str) -> None:
        self._number()
        if self._stage not in (NONE, BY_TEXT):
            raise ProgrammingError(f"{call} within a transaction: tpc_{call} ends it")
        self._need_no_text()

    def _need_own(self) -> None:
        if self._stage == NONE:
            raise ProgrammingError("no transaction")
        self._need_no_text()

    def _need_no_text(self) -> None:
        if self._stage == BY_TEXT:
            raise ProgrammingError("the transaction was begun by a statement, and is ended by one")

    def _ask_own(self, verb: str, clause: str = "") -> None:
        """Asks about this connection's transaction. Where the server has it no more, since another client finished it,
        it is over here too."""
        assert self._xid is not None
        try:
            self._ask(f"XA {verb} {self._xid.literal()}{clause}")
        except Error as error:
            if means_no_branch(error):
                self._stage = NONE
            raise

    def _end_work(self) -> None:
        if self._stage == ACTIVE:
            self._ask_own("END")
            self._stage = IDLE

    def _finish(self, verb: str, xid: Xid) -> None:
        if self._stage != NONE:
            raise ProgrammingError("a transaction is open")
        self._ask(f"XA {verb} {xid.literal()}")

    def __enter__(self) -> "Connection":
        return self

    def __exit__(self, *_: object) -> None:
        self.close()

    def __repr__(self) -> str:
        if self._session is None:
            return "<nigbaru.Connection: closed>"
        if self._server.is_gone:
            return f"<nigbaru.Connection, session {self._session}: its store is gone>"
        named = {NONE: "no transaction", BY_TEXT: "a transaction that was begun by a statement"}
        return (f"<nigbaru.Connection, session {self._session}: "
                f"{named.get(self._stage) or f'{self._stage} {self._xid!r}'}>")
