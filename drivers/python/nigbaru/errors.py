"""PEP 249's exceptions, with what the server says of a refusal."""
from __future__ import annotations

import re
from typing import Dict, Optional, Tuple, Type


class Warning(Exception):  # noqa: A001  (the name is PEP 249's)
    """PEP 249's; nothing here raises it."""


class Error(Exception):
    """A refusal of the server has its number, SQLSTATE and XA code; others have None."""

    number: Optional[int] = None
    sqlstate: Optional[str] = None
    xa_code: Optional[int] = None


class InterfaceError(Error):
    """A connection or cursor that was closed, or an answer that isn't one of the protocol."""


class DatabaseError(Error):
    """What the classes below have in common."""


class DataError(DatabaseError):
    """A key or a value that is too long, or a key that is empty."""


class OperationalError(DatabaseError):
    """A store that is gone, doesn't answer in time or isn't there; a locked row; memory that ran out; 16 sessions that
    are open."""


class IntegrityError(DatabaseError):
    """An identifier that a branch has already."""


class InternalError(DatabaseError):
    """A refusal whose number isn't known here."""


class ProgrammingError(DatabaseError):
    """A call out of order, or of something that it can't mean; a statement that isn't one; an unknown identifier."""


class NotSupportedError(DatabaseError):
    """A clause that the server recognises and doesn't support."""


# number: class, XA code (docs/STATEMENTS.md#replies)
KINDS: Dict[int, Tuple[Type[Error], Optional[int]]] = {
    1037: (OperationalError, None),
    1064: (ProgrammingError, None),
    1397: (ProgrammingError, -4),
    1398: (NotSupportedError, -5),
    1399: (ProgrammingError, -7),
    1440: (IntegrityError, -8),
    3572: (OperationalError, None),
}
REFUSAL = re.compile(r"ERROR (\d+) \((\w+)\): (.*)", re.DOTALL)


def refusal(text: str) -> Optional[Error]:
    """The exception of an answer, or None where it is no refusal."""
    found = REFUSAL.fullmatch(text)
    if not found:
        return None
    number = int(found[1])
    kind, xa_code = KINDS.get(number, (InternalError, None))
    error = kind(text)
    error.number, error.sqlstate, error.xa_code = number, found[2], xa_code
    return error


def means_no_branch(error: Error) -> bool:
    """Whether the server refused because there is no such branch: it is unknown, or the session has none."""
    return error.number == 1397 or (error.number == 1399 and str(error).endswith(" NON-EXISTING"))
