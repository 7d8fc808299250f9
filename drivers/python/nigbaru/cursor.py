"""PEP 249's cursor: statements as texts, and their answers as rows."""
from __future__ import annotations

from typing import TYPE_CHECKING, Any, Iterable, Iterator, List, Optional, Sequence, Tuple

from .errors import InterfaceError, ProgrammingError
from .texts import bound, bytes_of, rows_of

if TYPE_CHECKING:
    from .connection import Connection

# PEP 249's types: a row has bytes and numbers alone.
BINARY, NUMBER, STRING, DATETIME, ROWID = "BINARY", "NUMBER", "STRING", "DATETIME", "ROWID"
Column = Tuple[str, str, None, Optional[int], None, None, bool]
Row = Tuple[Any, ...]


def column(name: str, kind: str, size: Optional[int] = None) -> Column:
    """A column of a description: name, type, and at most so many bytes; never NULL."""
    return (name, kind, None, size, None, None, False)


VALUE = (column("value", BINARY, 64),)
LISTED = (column("formatID", NUMBER), column("gtrid_length", NUMBER), column("bqual_length", NUMBER),
          column("data", BINARY, 128))


class Cursor:
    """Statements of one connection. GET gives a row where there is a value, XA RECOVER a row for each prepared
    transaction, others none."""

    arraysize = 1

    def __init__(self, connection: Connection) -> None:
        self._connection: Optional[Connection] = connection
        self._begin(None, None)

    def _begin(self, columns: Optional[Tuple[Column, ...]], rows: Optional[List[Row]]) -> None:
        self._description, self._rows, self._at = columns, rows, 0

    @property
    def connection(self) -> Connection:
        """The connection that the cursor is of."""
        if self._connection is None:
            raise InterfaceError("the cursor is closed")
        return self._connection

    @property
    def description(self) -> Optional[Tuple[Column, ...]]:
        """The columns of the rows, seven entries each; None where the last statement gives no rows."""
        return self._description

    @property
    def rowcount(self) -> int:
        """How many rows the last statement gave; -1 where it gives none, or there was none."""
        return -1 if self._rows is None else len(self._rows)

    @property
    def rownumber(self) -> Optional[int]:
        """How many rows were fetched; None where there are none to fetch."""
        return None if self._rows is None else self._at

    def execute(self, operation: str, parameters: Sequence[Any] = ()) -> "Cursor":
        """Gives a statement, with a parameter for each question mark outside of quotes; a refusal is raised.

        A parameter is a key, a value or a part of an identifier (bytes, bytearray or str), a format id (int), or a
        whole identifier (Xid). The data of XA RECOVER are bytes, whether CONVERT XID is written or not.
        """
        connection = self.connection
        self._begin(None, None)
        answer = connection.ask(bound(operation, parameters))
        if answer[0].startswith("ROWS "):
            self._begin(LISTED, list(rows_of(answer)))
        elif answer[0] == "NONE":
            self._begin(VALUE, [])
        elif answer[0].startswith("VALUE "):
            self._begin(VALUE, [(bytes_of(answer[0][len("VALUE "):]),)])
        return self

    def executemany(self, operation: str, seq_of_parameters: Iterable[Sequence[Any]]) -> "Cursor":
        """Gives a statement once for each of the parameters; the first refusal is raised."""
        for parameters in seq_of_parameters:
            self.execute(operation, parameters)
        self._begin(None, None)
        return self

    def fetchone(self) -> Optional[Row]:
        """The next row, or None."""
        found = self.fetchmany(1)
        return found[0] if found else None

    def fetchmany(self, size: Optional[int] = None) -> List[Row]:
        """The next rows, at most so many; `arraysize` where it isn't said."""
        end = self._at + (self.arraysize if size is None else size)
        return self._fetched(end)

    def fetchall(self) -> List[Row]:
        """The rows that are left."""
        return self._fetched(None)

    def _fetched(self, end: Optional[int]) -> List[Row]:
        self.connection  # a closed cursor gives nothing
        if self._rows is None:
            raise ProgrammingError("the last statement gives no rows: GET and XA RECOVER do")
        found = self._rows[self._at:end]
        self._at += len(found)
        return found

    def __iter__(self) -> Iterator[Row]:
        return self

    def __next__(self) -> Row:
        row = self.fetchone()
        if row is None:
            raise StopIteration
        return row

    def setinputsizes(self, sizes: Sequence[Any]) -> None:
        """PEP 249's; nothing depends on it."""

    def setoutputsize(self, size: int, column: Optional[int] = None) -> None:
        """PEP 249's; nothing depends on it."""

    def close(self) -> None:
        """The cursor gives and fetches nothing any more; its connection stays."""
        self._connection = None
        self._begin(None, None)

    def __enter__(self) -> "Cursor":
        return self

    def __exit__(self, *_: object) -> None:
        self.close()

    def __repr__(self) -> str:
        if self._connection is None:
            return "<nigbaru.Cursor: closed>"
        return (f"<nigbaru.Cursor of {self._connection!r}: "
                f"{'no rows' if self._rows is None else f'{self._at} of {len(self._rows)} rows fetched'}>")
