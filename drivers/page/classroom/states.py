"""What each store has and locks behind each message that it got: what the program lists (`show`) for the statements
that exchanges.py says the store got. Where the two don't answer alike, nothing is said from there on."""
import re
from dataclasses import dataclass, field
from typing import Optional

from .exchanges import STRANGER

BRANCH = re.compile(rb"  BRANCH (\S+) (ACTIVE|IDLE|PREPARED)(?: SESSION \d+)?")
HELD = re.compile(rb"    (?:(SHARES) (\S+)|HOLDS (\S+) (?:WRITES (\S+)|DELETES))")
LISTED = re.compile(rb"  ROW (\S+) (?:VALUE (\S+)|NONE)")
ENDED = re.compile(rb"(XA (?:COMMIT|ROLLBACK)) of (\d+)")
OWN, OTHER = b"1", b"2"  # sessions: the coordinator's, and that of the other client
# Statements that change nothing that is shown, and whose answers may have any bytes, or that aren't read.
PASSED = re.compile(rb"XA[ \t]+RECOVER", re.I)
UNSAID = (b"", b"XAER_NOTA")  # answers that aren't as the program prints them


@dataclass(frozen=True)
class Lock:
    """A branch's lock on a row, and what its commit makes of it. `is_read`: it is shared, and nothing is written."""
    xid: bytes
    is_read: bool
    will_be: Optional[bytes]


@dataclass(frozen=True)
class Row:
    key: bytes
    value: Optional[bytes] = None
    locks: tuple = ()


@dataclass(frozen=True)
class Change:
    """A store's rows behind a message, those that it changed, and those as they were before."""
    rows: dict
    changed: dict


@dataclass
class Listing:
    """A store as it is listed."""
    values: dict = field(default_factory=dict)
    locks: dict = field(default_factory=dict)

    def rows(self):
        return {key: Row(key, self.values.get(key), tuple(self.locks.get(key, ())))
                for key in sorted({*self.values, *self.locks})}


def data(literal):
    return b"" if literal == b"X''" else bytes.fromhex(literal[2:].decode())


def name(number, store):
    return b"0x63%016x,0x%02x,22593" % (number, store)


def own_statement(it, store, text):
    """A statement of the coordinator's as its store got it, or None where it isn't known or changes nothing."""
    ended = ENDED.fullmatch(text)
    if ended:
        return b"%s %s" % (ended[1], name(int(ended[2]), store))
    if not text.startswith(b"XA "):
        return text
    if PASSED.match(text):
        return None
    words, _, end = text.partition(b" .. ")
    return b" ".join([words, name(int(it.words[1]), store), end]).strip()


def asked(found, stores):
    """For each store the statements that it got: the message's place, the session, the statement, and its answer."""
    wanted = {store: [] for store in range(stores)}
    for it in found:
        if it.answer is None:
            break
        if it.kind == STRANGER and it.store in wanted:
            statement = it.said.split(None, 2)[2] if len(it.said.split(None, 2)) == 3 else b""
            if statement and not PASSED.match(statement) and not it.first.startswith(b"ERROR 1064"):
                wanted[it.store].append(((it.place, it.store), OTHER, statement, it.first))
        for at, (store, said) in enumerate(it.groups):
            wanted[store] += [((it.place, at), OWN, own_statement(it, store, one.text), one.answer)
                              for one in said if one.is_answered]
    return wanted


def states(show, found, stores):
    """By the place of a message, which is its call's and its number among that call's to stores, the change that it
    made. `show` gives what the program's job of that name prints for an input."""
    changes = {}
    for statements in asked(found, stores).values():
        # a statement whose words aren't known ends what is known of its store
        known = next((at for at, it in enumerate(statements) if it[2] and it[2].startswith(b"call ")), len(statements))
        told = [it for it in statements[:known] if it[2]]
        if told:
            follow(told, show(b"".join(b"%s %s\n" % it[1:3] for it in told)), changes)
    return changes


def follow(told, output, changes):
    """Reads what is listed behind each statement, and keeps what each message changed."""
    listing, before = Listing(), {}
    parts = re.split(rb"(?m)^(?=[12-] ?)", output)[1:]
    for (place, _, _, answer), part in zip(told, parts):
        reply, *lines = part.split(b"\n")
        if answer not in UNSAID and reply[2:].split()[:1] != answer.split()[:1]:
            return
        listing = listed(lines, listing.values)
        now = listing.rows()
        changed = {key: before.get(key) for key in now if now[key] != before.get(key)}
        earlier = changes.get(place)
        if earlier:
            changed = {**changed, **earlier.changed}
        if changed:
            changes[place] = Change(now, changed)
        before = now


def listed(lines, values):
    """A store as these lines list it; of a row that they don't list the value is known from before."""
    found, xid = Listing(dict(values)), b""
    for line in lines:
        branch, held, row = BRANCH.fullmatch(line), HELD.fullmatch(line), LISTED.fullmatch(line)
        if branch:
            xid = branch[1]
        elif held:
            key = data(held[2] or held[3])
            lock = Lock(xid, held[1] is not None, data(held[4]) if held[4] else None)
            found.locks.setdefault(key, []).append(lock)
        elif row:
            found.values[data(row[1])] = data(row[2]) if row[2] else None
    return found
