"""Records that go on in pieces: their files, and what `judge` says of each, from the state in which it begins."""
from pathlib import Path

from support import verdict


def pieces_of(record):
    """The files behind the first one."""
    found = []
    while Path(f"{record}.{len(found) + 1}").exists():
        found.append(Path(f"{record}.{len(found) + 1}"))
    return found


def verdict_of(piece):
    """Of a piece behind the first one."""
    return verdict(piece.read_bytes(), "--from", f"{piece}.state")


def verdicts(record):
    """Of the first file, and of each piece behind it."""
    return [verdict(Path(record).read_bytes()), *map(verdict_of, pieces_of(record))]
