"""The rows that a manager's transactions left in a store, by the store's history."""
from collections.abc import Callable, Mapping, Sequence

Rows = Mapping[bytes, bytes]  # of a store: what was committed last for each key, as statements have it
DELETED = b"DEL"  # what stands for a value that was taken away
ANY = b""  # what stands for a value that isn't the same in each run


def rows_of(history: bytes, is_own: Callable[[bytes], bool]) -> Rows:
    """What the committed branches wrote whose gtrid is the manager's. A history has only what a store accepted, in
    canonical form."""
    rows: dict[bytes, bytes] = {}
    own: dict[bytes, bytes] = {}  # the branch of each session
    written: dict[bytes, dict[bytes, bytes]] = {}  # what each branch wrote that hasn't ended
    for line in history.splitlines():
        session, verb, argument = read(line)
        if verb == b"START":
            own[session], written[argument] = argument, {}
        elif verb in (b"PUT", b"DEL"):
            key, _, value = argument.partition(b",")
            written.get(own.get(session, b""), {})[key] = value if verb == b"PUT" else DELETED
        elif verb in (b"PREPARE", b"DISCONNECT"):
            own.pop(session, None)
        elif verb in (b"COMMIT", b"ROLLBACK"):
            ended = written.pop(argument, {})
            if own.get(session) == argument:
                del own[session]
            if verb == b"COMMIT" and is_own(gtrid_of(argument)):
                rows.update(ended)
    return rows


def read(line: bytes) -> tuple[bytes, bytes, bytes]:
    """Session, verb and argument of a logged statement."""
    session, _, statement = line.partition(b" ")
    words = statement.removeprefix(b"XA ").split(b" ")
    return session, words[0], words[1] if len(words) > 1 else b""


def gtrid_of(xid: bytes) -> bytes:
    text = xid.partition(b",")[0]
    return b"" if text == b"X''" else bytes.fromhex(text[2:].decode())


def expected(one: Sequence[Rows], other: Sequence[Rows]) -> list[Rows]:
    """What each run has to leave if it commits, by two runs without faults: keys that both wrote, each with its value
    if that is the same in both."""
    return [{key: value if value == there[key] else ANY for key, value in here.items() if key in there}
            for here, there in zip(one, other)]


def lost(wanted: Sequence[Rows], found: Sequence[Rows]) -> list[tuple[int, bytes]]:
    """The rows, each with its store, that aren't as they have to be."""
    return [(store, key) for store, (here, there) in enumerate(zip(wanted, found), 1) for key, value in here.items()
            if key not in there or value not in (ANY, there[key])]
