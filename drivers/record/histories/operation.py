"""A line of a history: the begin or the end of what a process did, and the parts of statements that its value names."""
import json
import re

from .edn import Edn
from .fault import Fault

NEMESIS = "nemesis"  # who disturbs the servers, and is no client
TYPES = ("invoke", "ok", "fail", "info")
# What f is called, and the statement of which it is the word; those of ROWS are about a row.
WORDS = {
    "read": "GET",
    "get": "GET",
    "r": "GET",
    "write": "PUT",
    "put": "PUT",
    "w": "PUT",
    "delete": "DEL",
    "del": "DEL",
    "start": "XA START",
    "begin": "XA START",
    "end": "XA END",
    "prepare": "XA PREPARE",
    "commit": "XA COMMIT",
    "commit-one-phase": "XA COMMIT",
    "rollback": "XA ROLLBACK",
    "recover": "XA RECOVER",
    "disconnect": "DISCONNECT",
}
ONE_PHASE = "commit-one-phase"
ROWS = ("GET", "PUT", "DEL")
CAS, TXN = "cas", "txn"  # what several statements stand for
NUMBER = re.compile(r"(?:ERROR\s+)?(\d{1,5})(?!\d)")
PLAIN = re.compile(rb"[ !#-&(-\[\]-~]*")


class Operation:
    """What a line says. `line` is its number in the history."""

    def __init__(self, line, found):
        self.line = line
        self.process, self.kind = found.get("process"), found.get("type")
        self.value, self.error = found.get("value"), found.get("error")
        if isinstance(self.process, bool) or not isinstance(self.process, (int, str)):
            raise Fault("process is a whole number or a text")
        if self.kind not in TYPES:
            raise Fault("type is invoke, ok, fail or info")
        name = str(found.get("f")).lower().replace("_", "-")
        self.name = name[3:] if name[:3] in ("xa-", "xa/") else name
        if self.name not in WORDS and self.name not in (CAS, TXN):
            raise Fault(
                f"f is {self.name!r}, and no statement does that: log it as reads and writes of rows, "
                f"or judge the history by a checker that knows it"
            )

    def number(self):
        """The number of a refusal, with which `error` or an element of it begins, or None."""
        error = self.error
        for one in error if isinstance(error, list) else [error.get("code")] if isinstance(error, dict) else [error]:
            found = NUMBER.match(str(one)) if isinstance(one, (int, str)) and not isinstance(one, bool) else None
            if found:
                return int(found[1])
        return None


def operation_of(line, text):
    """The operation of a line, or None where it is the nemesis's."""
    try:
        text = text.decode()
        try:
            found = json.loads(text)
        except json.JSONDecodeError:
            found = Edn(text).whole()
    except (ValueError, RecursionError) as fault:
        raise Fault("neither JSON nor EDN") from fault
    if not isinstance(found, dict):
        raise Fault("not a map")
    return None if found.get("process") == NEMESIS else Operation(line, found)


def text_of(value, least, what):
    """A key, a value or a part of an identifier as bytes: a text as it is, a number as its digits."""
    if isinstance(value, bool) or not isinstance(value, (str, int)):
        raise Fault(f"{what} is a text or a whole number")
    try:
        found = str(value).encode()
    except UnicodeEncodeError as fault:
        raise Fault(f"{what} isn't a text of Unicode") from fault
    if not least <= len(found) <= 64:
        raise Fault(f"{what} has {least} to 64 bytes, and this one has {len(found)}")
    return found


def key_of(value):
    return text_of(value, 1, "a key")


def value_of(value):
    """What a row has: bytes, or None where it has nothing."""
    return None if value is None else text_of(value, 0, "a value")


def literal(text):
    return b"'%s'" % text if PLAIN.fullmatch(text) else b"X'%s'" % text.hex().encode()


def xid_of(value):
    """An identifier: its gtrid, or a list of gtrid, bqual and formatID, of which the last may be left out."""
    parts = value if isinstance(value, list) else [value]
    if not 1 <= len(parts) <= 3:
        raise Fault("an identifier is a gtrid, or a list of gtrid, bqual and formatID")
    form = parts[2] if len(parts) == 3 else 1
    if isinstance(form, bool) or not isinstance(form, int) or not 0 <= form < 2**64:
        raise Fault("a formatID is a whole number from 0 to 2^64-1")
    return text_of(parts[0], 0, "a gtrid"), text_of(parts[1], 0, "a bqual") if len(parts) > 1 else b"", form


def xid_text(xid):
    gtrid, bqual, form = xid
    return b"%s,%s,%d" % (literal(gtrid), literal(bqual), form)


def read_row(value, key):
    """The key and the value of a row: a list of both, or the value alone of the one row that the history is about."""
    if not isinstance(value, list):
        return key, value
    if not 1 <= len(value) <= 2:
        raise Fault("a row is a list of its key and its value, or its value alone")
    return key_of(value[0]), value[1] if len(value) == 2 else None


def shown(row):
    """What a GET returned for a row's value."""
    return b"NONE" if row is None else b"VALUE " + literal(row)


def get_of(key):
    return b"GET %s" % literal(key)


def put_of(key, value):
    return b"PUT %s,%s" % (literal(key), literal(value))
