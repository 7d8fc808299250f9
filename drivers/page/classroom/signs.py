"""Short signs for branches, so that a statement is read at a glance: `T1` is transaction 1 of the coordinator, and `A2`
the second branch of the first other transaction."""
import re

from .exchanges import transaction_of

LITERAL = (rb"(?:[xX]'(?:[0-9a-fA-F]{2})*'|0x[0-9a-fA-F]+|'(?:[^'\\]|''|\\.)*'|" + rb'"(?:[^"\\]|""|\\.)*")')
NAMED = re.compile(rb"((?:AT[ \t]+\d+[ \t]+)?XA[ \t]+(?:START|BEGIN|END|PREPARE|COMMIT|ROLLBACK)[ \t]+)"
                   rb"(%s(?:[ \t]*,[ \t]*%s(?:[ \t]*,[ \t]*\d+)?)?)(.*)" % (LITERAL, LITERAL), re.S | re.I)
PARTS = re.compile(rb"%s|\d+" % LITERAL)
ESCAPED = re.compile(rb"''|\"\"|\\(.)", re.S)
# what a backslash and these stand for; before any other byte it stands for that
ESCAPES = {b"0": b"\0", b"b": b"\b", b"t": b"\t", b"n": b"\n", b"r": b"\r", b"Z": b"\x1a", b"%": b"\\%", b"_": b"\\_"}


def bytes_of(literal):
    """The bytes of a literal of a statement, as docs/STATEMENTS.md has them."""
    if literal[:1] in b"xX":
        return bytes.fromhex(literal[2:-1].decode())
    if literal[:2] == b"0x":
        return bytes.fromhex(("0" if len(literal) % 2 else "") + literal[2:].decode())
    quote = literal[:1]
    return ESCAPED.sub(lambda it: ESCAPES.get(it[1], it[1]) if it[1] else quote if it[0][:1] == quote else it[0],
                       literal[1:-1])


def digits(data):
    return b"0x" + data.hex().encode() if data else b"X''"


def canonical(xid):
    """An identifier as the program prints it."""
    gtrid, bqual, number = (*PARTS.findall(xid), None, None)[:3]
    return b",".join([digits(bytes_of(gtrid)), digits(bytes_of(bqual or b"''")), (number or b"1").lstrip(b"0") or b"0"])


def letters(number):
    """A, B, .., Z, AA, .."""
    found = ""
    while True:
        found = chr(ord("A") + number % 26) + found
        if number < 26:
            return found
        number = number // 26 - 1


class Signs:
    """The signs of one drawing, in the order in which branches are named."""

    def __init__(self):
        self._signs, self._branches, self._written = {}, {}, {}

    def of(self, xid, written=None):
        """The sign of a branch, by its identifier as the program prints it."""
        if xid not in self._signs:
            own, gtrid = transaction_of(xid), xid.partition(b",")[0]
            if own:
                self._signs[xid] = f"T{own[0]}"
            else:
                branches = self._branches.setdefault(gtrid, [])
                branches.append(xid)
                place = list(self._branches).index(gtrid)
                self._signs[xid] = f"{letters(place)}{len(branches)}"
        if written:
            self._written.setdefault(xid, written)
        return self._signs[xid]

    def has(self, xid):
        """Whether a statement or a row of a store has named it."""
        return xid in self._signs

    def short(self, statement):
        """A statement with its branch's sign in the place of its identifier."""
        found = NAMED.fullmatch(statement)
        if not found:
            return statement
        return found[1] + self.of(canonical(found[2]), found[2]).encode() + found[3]

    def legend(self):
        """Each sign that stands for an identifier that was written, with that."""
        return [(self._signs[xid], written) for xid, written in self._written.items()]
