"""How statements are spelt: the forms of docs/STATEMENTS.md that the recorder takes apart."""
import re
import sys
from pathlib import Path

sys.path.append(str(Path(__file__).resolve().parent.parent / "page"))

from classroom.signs import LITERAL, PARTS, bytes_of  # noqa: E402

# what ends a word: a blank, or the quote that a literal begins with
GAP = rb"""(?:\s+|(?=['"]))"""
GET = re.compile(rb"GET" + GAP + rb"(" + LITERAL + rb")\s*;?", re.I | re.S)
PUT = re.compile(rb"PUT" + GAP + rb"(" + LITERAL + rb")\s*,\s*(" + LITERAL + rb")\s*;?", re.I | re.S)
DEL = re.compile(rb"DEL" + GAP + rb"(" + LITERAL + rb")\s*;?", re.I | re.S)
DISCONNECT = re.compile(rb"DISCONNECT\s*;?", re.I)
RECOVER = re.compile(rb"XA\s+RECOVER(?:\s+CONVERT\s+XID)?\s*;?", re.I)
XID = LITERAL + rb"(?:\s*,\s*" + LITERAL + rb"(?:\s*,\s*\d+)?)?"
BRANCH = re.compile(rb"XA\s+(START|BEGIN|END|PREPARE|COMMIT|ROLLBACK)" + GAP + rb"(" + XID + rb")\s*"
                    rb"(JOIN|RESUME|SUSPEND(?:\s+FOR\s+MIGRATE)?|ONE\s+PHASE)?\s*;?", re.I | re.S)


def xid_of(text):
    """The three parts of an identifier: formatID, gtrid, bqual."""
    gtrid, bqual, number = (*PARTS.findall(text), None, None)[:3]
    return int(number or 1), bytes_of(gtrid), bytes_of(bqual or b"''")


def row_of(xid):
    """A row of XA RECOVER."""
    number, gtrid, bqual = xid
    return b"%d %d %d 0x%s" % (number, len(gtrid), len(bqual), (gtrid + bqual).hex().encode())


def row_statement(text):
    """The verb, the key and the value of a statement about a row, each as bytes; None for any other statement."""
    for verb, form in ((b"GET", GET), (b"PUT", PUT), (b"DEL", DEL)):
        found = form.fullmatch(text)
        if found:
            return (verb, *(bytes_of(literal) for literal in found.groups()), None)[:3]
    return None


def hexadecimal(data):
    """A literal of statements, and of MySQL's SQL."""
    return b"X'%s'" % data.hex().encode()
