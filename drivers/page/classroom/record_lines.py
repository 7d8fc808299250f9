"""The lines of a record, as docs/HISTORIES.md has them."""
import re
from dataclasses import dataclass
from typing import Optional

SAID = re.compile(rb"[ \t\r]*([1-9]|1[0-6])[ \t\r]+([<>!?])(?:[ \t\r]+(.*))?", re.S)
COUNT = re.compile(rb"ROWS[ \t\r]+(\d{1,18})[ \t\r]*")
BLANKS = b" \t\r\n"

CALL, RETURN, LOSS, ROW, REMARK, BLANK, OTHER = "call", "return", "loss", "row", "remark", "blank", "other"
KINDS = {b">": CALL, b"<": RETURN, b"!": LOSS, b"?": RETURN}
GONE = b"GONE"  # said by a loss that may have come at any time since the session's last return
EVENTS = (CALL, RETURN, LOSS)


@dataclass(frozen=True)
class Line:
    number: int             # from 1
    kind: str
    session: Optional[int]  # of an event
    text: bytes             # what is said: without the session and the sign, or without the comment's sign
    is_known: bool = True   # of a return: what it returned


def lines_of(text):
    lines = text.split(b"\n")
    return lines[:-1] if lines[-1] == b"" else lines


def read_lines(record, faulty=()):
    """Every line of a record; those whose numbers are in `faulty` are of another kind than the record's."""
    found, missing = [], 0
    for number, text in enumerate(lines_of(record), 1):
        line = read_line(number, text, missing > 0)
        if number in faulty:
            line = Line(number, OTHER, None, text.strip(BLANKS))
        if line.kind == ROW:
            missing -= 1
        elif line.kind in EVENTS:
            count = COUNT.fullmatch(line.text) if line.kind == RETURN else None
            missing = int(count[1]) if count else 0
        found.append(line)
    return found


def read_line(number, text, may_be_row):
    trimmed = text.strip(BLANKS)
    if not trimmed:
        return Line(number, BLANK, None, b"")
    if trimmed.startswith(b"#"):
        return Line(number, REMARK, None, trimmed[1:].strip(BLANKS))
    said = SAID.fullmatch(text)
    if said:
        return Line(number, KINDS[said[2]], int(said[1]), (said[3] or b"").strip(BLANKS), said[2] != b"?")
    return Line(number, ROW if may_be_row else OTHER, None, trimmed)
