"""Identifiers of transaction branches, and the bytes that texts stand for."""
from __future__ import annotations

import operator
from typing import Any, NamedTuple, Union

from .errors import DataError, ProgrammingError

Text = Union[bytes, bytearray, str]
MOST = 64  # bytes of a key, a value and each part of an identifier
FORMATS = 2 ** 64


class Xid(NamedTuple):
    """format_id in [0, 2 ** 64), gtrid and bqual of at most 64 bytes each."""

    format_id: int
    gtrid: bytes
    bqual: bytes

    def literal(self) -> str:
        """As it stands in a statement."""
        return f"X'{self.gtrid.hex()}',X'{self.bqual.hex()}',{self.format_id}"


def as_bytes(part: Text) -> bytes:
    """The bytes of a key, a value or a part of an identifier; a str's in UTF-8. TypeError for all else."""
    if isinstance(part, str):
        try:
            return part.encode()
        except UnicodeEncodeError as fault:
            raise DataError(f"a text that UTF-8 can't write: {fault}") from fault
    if isinstance(part, (bytes, bytearray)):
        return bytes(part)
    raise TypeError(f"bytes, bytearray or str is wanted, and not {type(part).__name__}: {part!r:.40}")


def xid_of(format_id: int, global_transaction_id: Text, branch_qualifier: Text) -> Xid:
    """An identifier; ProgrammingError where a part is too large, TypeError where it is of another type."""
    try:
        number = int(operator.index(format_id))
    except TypeError:
        raise TypeError(f"a format id is an int, and not {type(format_id).__name__}: {format_id!r:.40}") from None
    gtrid, bqual = as_bytes(global_transaction_id), as_bytes(branch_qualifier)
    if not 0 <= number < FORMATS or len(gtrid) > MOST or len(bqual) > MOST:
        raise ProgrammingError("a format id is from 0 to 2 ** 64 - 1, and each part has at most 64 bytes")
    return Xid(number, gtrid, bqual)


def xid_from(given: Any, call: str) -> Xid:
    """The identifier that a call was given: an Xid, or its three parts in a tuple or a list."""
    if not isinstance(given, (tuple, list)) or len(given) != 3:
        raise ProgrammingError(
            f"{call} takes what xid(format_id, global_transaction_id, branch_qualifier) gives, and not {given!r:.60}")
    return xid_of(*given)
