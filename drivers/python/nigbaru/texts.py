"""Statement texts: literals, parameters in the place of question marks, and what a text begins with."""
from __future__ import annotations

import re
from typing import Any, List, Match, Sequence, Tuple

from .errors import DataError, ProgrammingError
from .xid import FORMATS, MOST, Text, Xid, as_bytes, xid_of

# A quoted text as docs/STATEMENTS.md has it, or what is replaced outside of one.
PIECE = re.compile(r"""'(?:[^'\\]|\\.|'')*'|"(?:[^"\\]|\\.|"")*"|[?\n]""", re.DOTALL)
VERB = re.compile(r"[ \t\r\n]*(XA[ \t\r\n]+)?([A-Z]+)", re.ASCII | re.IGNORECASE)
LIST = re.compile(r"[ \t\r\n]*XA[ \t\r\n]+RECOVER[ \t\r\n]*;?[ \t\r\n]*", re.ASCII | re.IGNORECASE)
# An identifier's bytes may be line feeds, so a list is asked for in this form.
CONVERTED_LIST = "XA RECOVER CONVERT XID"


def literal(part: Text, least: int) -> str:
    """A key or a value as it stands in a statement."""
    data = as_bytes(part)
    if not least <= len(data) <= MOST:
        raise DataError(f"{len(data)} bytes, where {least} to {MOST} may be")
    return f"X'{data.hex()}'"


def bytes_of(text: str) -> bytes:
    """What a literal of an answer stands for: X'' or 0x and digits."""
    return b"" if text == "X''" else bytes.fromhex(text[2:])


def parameter(value: Any) -> str:
    """A parameter as it stands in a statement: a text, a format id or an identifier."""
    if isinstance(value, Xid):
        return xid_of(*value).literal()
    if type(value) is int:
        if not 0 <= value < FORMATS:
            raise DataError(f"{value}, where 0 to 2 ** 64 - 1 may be")
        return str(value)
    return literal(value, 0)


def bound(operation: str, parameters: Sequence[Any]) -> str:
    """The text with a parameter in the place of each question mark outside of quotes, all in one line."""
    if not isinstance(operation, str):
        raise TypeError(f"a statement is a str, and not {type(operation).__name__}: {operation!r:.40}")
    if not isinstance(parameters, (tuple, list)) or isinstance(parameters, Xid):
        raise ProgrammingError(f"parameters are a tuple or a list, as (key,), and not {parameters!r:.40}")
    left = list(parameters)

    def replaced(found: Match[str]) -> str:
        piece = found[0]
        if piece == "?":
            if not left:
                raise ProgrammingError(f"{len(parameters)} parameters, and more question marks")
            return parameter(left.pop(0))
        if piece == "\n":
            return " "
        if "\n" in piece:
            raise ProgrammingError(
                "a line feed in a quoted text: write a question mark, and give the text as a parameter")
        return piece

    text = PIECE.sub(replaced, operation)
    if left:
        raise ProgrammingError(f"{len(parameters)} parameters, and {len(parameters) - len(left)} question marks")
    return text


def verb_of(text: str) -> str:
    """The first word of a statement in capitals, or the first two where it is XA."""
    found = VERB.match(text)
    return "" if not found else ("XA " if found[1] else "") + found[2].upper()


def is_list(text: str) -> bool:
    """Whether it is XA RECOVER without CONVERT XID."""
    return bool(LIST.fullmatch(text))


def rows_of(answer: List[str]) -> List[Tuple[int, int, int, bytes]]:
    """The rows of a list of identifiers: format id, both lengths, both texts."""
    rows = []
    for row in answer[1:]:
        format_id, gtrid_length, bqual_length, data = row.split(" ")
        rows.append((int(format_id), int(gtrid_length), int(bqual_length), bytes_of(data)))
    return rows
