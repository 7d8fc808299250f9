#!/usr/bin/env python3
"""What became of each global transaction of some stores, by their histories: the text of `xa_script audit`, from the
rules and by other means.

    reference_audit.py [--json | --quiet] [--text] HISTORY..

Tests compare it with the program, and the bench uses it where a program hasn't that job. docs/STATEMENTS.md has the
rules of the server, docs/HISTORIES.md#audits those of the verdict.
"""
import json
import re
import sys
from pathlib import Path

BLANKS = b" \t\r"
MOST = 64
PLAIN = re.compile(rb"[ -~]*")


# reading

class Fault(Exception):
    """A line that isn't read, and the byte where."""


TOKEN = re.compile(
    rb"""(?P<quoted>'(?:[^'\\]|\\.|'')*'(?!')|"(?:[^"\\]|\\.|"")*"(?!"))"""
    rb"""|[Xx]'(?P<pairs>[0-9A-Fa-f]*)'|(?P<run>[A-Za-z0-9_$\x80-\xff]+)|(?P<sign>[,;])""",
    re.DOTALL)
ESCAPES = {b"0": b"\0", b"b": b"\b", b"t": b"\t", b"n": b"\n", b"r": b"\r", b"Z": b"\x1a", b"%": rb"\%", b"_": rb"\_"}


def tokens(text):
    """Each token with its place: (place, kind, value). Kinds are word, literal, sign, and bad, which ends the list; a
    run of digits may be number, or both."""
    place = 0
    while True:
        while place < len(text) and text[place:place + 1] in (b" ", b"\t", b"\n", b"\r"):
            place += 1
        if place == len(text):
            return
        found = TOKEN.match(text, place)
        if not found:
            yield place, "bad", b""
            return
        if found["quoted"] is not None:
            quote, inner = found["quoted"][:1], found["quoted"][1:-1]
            data = re.sub(rb"(?s)\\(.)|" + quote * 2,
                          lambda it: ESCAPES.get(it[1], it[1]) if it[1] is not None else quote, inner)
            yield place, "literal" if len(data) <= MOST else "bad", data
        elif found["pairs"] is not None:
            is_right = len(found["pairs"]) % 2 == 0 and len(found["pairs"]) <= 2 * MOST
            yield place, "literal" if is_right else "bad", bytes.fromhex(found["pairs"].decode()) if is_right else b""
        elif found["sign"]:
            yield place, "sign", found["sign"]
        elif re.fullmatch(rb"0x[0-9A-Fa-f]+", found["run"]):
            digits = found["run"][2:]
            data = bytes.fromhex((b"0" * (len(digits) % 2) + digits).decode())
            yield place, "number" if len(digits) > 2 * MOST else "both", (data, int(digits, 16))
        elif found["run"].isdigit():
            yield place, "number", (b"", int(found["run"]))
        else:
            yield place, "word", found["run"].upper()
        place = found.end()


class Reader:
    def __init__(self, text):
        self.tokens, self.place, self.end = list(tokens(text)), 0, len(text)

    def fail(self):
        raise Fault(self.tokens[self.place][0] if self.place < len(self.tokens) else self.end)

    def sees(self, *words):
        """Takes a word or sign, if one of these comes next."""
        if (self.place < len(self.tokens) and self.tokens[self.place][1] in ("word", "sign")
            and self.tokens[self.place][2] in words):
            self.place += 1
            return self.tokens[self.place - 1][2].decode()
        return None

    def must(self, *words):
        return self.sees(*words) or self.fail()

    def literal(self, least=0):
        if self.place < len(self.tokens):
            _, kind, value = self.tokens[self.place]
            data = value if kind == "literal" else value[0] if kind == "both" else None
            if data is not None and len(data) >= least:
                self.place += 1
                return data
        self.fail()

    def number(self):
        if (self.place < len(self.tokens) and self.tokens[self.place][1] in ("number", "both")
            and self.tokens[self.place][2][1] < 2 ** 64):
            self.place += 1
            return self.tokens[self.place - 1][2][1]
        self.fail()

    def xid(self):
        """formatID, gtrid and bqual."""
        gtrid, bqual, format_id = self.literal(), b"", 1
        if self.sees(b","):
            bqual = self.literal()
            if self.sees(b","):
                format_id = self.number()
        return format_id, gtrid, bqual

    def statement(self):
        verb = self.must(b"XA", b"GET", b"PUT", b"DEL", b"DISCONNECT")
        if verb == "XA":
            verb = self.must(b"START", b"BEGIN", b"END", b"PREPARE", b"COMMIT", b"ROLLBACK",
                             b"RECOVER").replace("BEGIN", "START")
            if verb == "RECOVER":
                read = verb, self.sees(b"CONVERT") and self.must(b"XID")
            else:
                read = verb, self.xid(), self.suffix(verb)
        else:
            key = None if verb == "DISCONNECT" else self.literal(1)
            if verb == "PUT":
                self.must(b",")
                self.literal()
            read = verb, key
        self.sees(b";")
        if self.place < len(self.tokens):
            self.fail()
        return read

    def suffix(self, verb):
        if verb == "COMMIT" and self.sees(b"ONE"):
            return self.must(b"PHASE")
        if verb == "END" and self.sees(b"SUSPEND"):
            if self.sees(b"FOR"):
                self.must(b"MIGRATE")
            return "UNSUPPORTED"
        return "UNSUPPORTED" if verb == "START" and self.sees(b"JOIN", b"RESUME") else None


def read_line(line):
    """Session and statement of a line, or None for one that says nothing."""
    text = line.lstrip(BLANKS)
    if not text or text.startswith(b"#"):
        return None
    found = re.match(rb"([1-9]|1[0-6])[ \t\r]", text)
    if not found:
        raise Fault(0)
    return int(found[1]), Reader(text[found.end():].lstrip(BLANKS)).statement()


# the server

class Store:
    """A sequential server as docs/STATEMENTS.md describes it, without the values of its rows; `lives` has the end of
    each life of each branch."""

    def __init__(self):
        self.own = {}  # session: the identifier of its branch
        self.states = {}  # identifier: ACTIVE, IDLE or PREPARED
        self.exclusive, self.shared = {}, {}  # key: who has locked it
        self.wrote = set()
        self.lives = {}

    def do(self, session, verb, argument, suffix=None):
        own = self.own.get(session)
        state = self.states.get(own)
        if suffix == "UNSUPPORTED" or verb == "RECOVER":
            return
        if verb in ("GET", "PUT", "DEL"):
            self.row(verb, argument, own, state)
        elif verb == "DISCONNECT":
            if own is not None:
                self.end(session, own, "ROLLED BACK")
        elif verb == "START":
            if own is None and argument not in self.states:
                self.own[session], self.states[argument] = argument, "ACTIVE"
                self.lives.setdefault(argument, []).append(None)
        elif verb == "END":
            if state == "ACTIVE" and own == argument:
                self.states[own] = "IDLE"
        elif verb == "PREPARE":
            if state == "IDLE" and own == argument:
                self.states[own] = "PREPARED"
                del self.own[session]
        else:
            is_prepared = own is None and self.states.get(argument) == "PREPARED" and suffix is None
            is_idle = own == argument and state == "IDLE" and (verb == "ROLLBACK" or suffix == "PHASE")
            if is_prepared or is_idle:
                self.end(session, argument, "COMMITTED" if verb == "COMMIT" else "ROLLED BACK")

    def row(self, verb, key, own, state):
        if state == "IDLE" or self.exclusive.get(key, own) != own:
            return
        if verb == "GET":
            if own is not None:
                self.shared.setdefault(key, set()).add(own)
        elif not self.shared.get(key, set()) - {own} and own is not None:
            self.exclusive[key] = own
            self.wrote.add(own)

    def end(self, session, xid, how):
        if self.own.get(session) == xid:
            del self.own[session]
        del self.states[xid]
        self.lives[xid][-1] = "EMPTY" if how == "ROLLED BACK" and xid not in self.wrote else how
        self.wrote.discard(xid)
        self.exclusive = {key: it for key, it in self.exclusive.items() if it != xid}
        for owners in self.shared.values():
            owners.discard(xid)

    def ends(self, xid):
        """How each life of a branch ended, or where it is."""
        now = {"PREPARED": "IN DOUBT", "ACTIVE": "OPEN", "IDLE": "OPEN"}.get(self.states.get(xid))
        return [end or now for end in self.lives[xid]]


# the verdict

def verdict_of(branches):
    """Of a global transaction, by the ends of each of its branches."""
    took = any("COMMITTED" in ends for ends in branches)
    failed = any("COMMITTED" not in ends and ends[-1] == "ROLLED BACK" for ends in branches)
    if took and failed:
        return "MIXED"
    last = [ends[-1] for ends in branches]
    return "IN DOUBT" if "IN DOUBT" in last else "OPEN" if "OPEN" in last else "ATOMIC"


def literal(data, is_text=False):
    if is_text and PLAIN.fullmatch(data):
        return "'" + data.decode().replace("\\", "\\\\").replace("'", "''") + "'"
    return "0x" + data.hex() if data else "X''"


def audit(histories):
    """Faults as (store, line, byte), and the global transactions as (formatID, gtrid, [(store, bqual, ends)],
    verdict)."""
    faults, stores = [], []
    for number, history in enumerate(histories, 1):
        store = Store()
        lines = history.split(b"\n")
        for place, line in enumerate(lines, 1):
            try:
                read = read_line(line)
            except Fault as fault:
                faults.append((number, place, fault.args[0]))
                continue
            if read:
                store.do(read[0], *read[1])
        stores.append(store)
    names = sorted({xid[:2] for store in stores for xid in store.lives})
    found = []
    for name in names:
        branches = [(number, xid[2], store.ends(xid)) for number, store in enumerate(stores, 1)
                    for xid in sorted(store.lives) if xid[:2] == name]
        found.append((*name, branches, verdict_of([ends for _, _, ends in branches])))
    return faults, found


COUNTED = ("ATOMIC", "MIXED", "IN DOUBT", "OPEN")


def text_of(found, is_text=False):
    lines = []
    for format_id, gtrid, branches, verdict in found:
        lines.append(f"GLOBAL {format_id} {literal(gtrid, is_text)}")
        lines += [f"STORE {store} {literal(bqual, is_text)} {end}" for store, bqual, ends in branches for end in ends]
        lines.append(verdict)
    return "".join(f"{line}\n" for line in lines)


def last_line(found):
    counts = {word: sum(verdict == word for *_, verdict in found) for word in COUNTED}
    return f"GLOBALS {len(found)} " + " ".join(f"{word} {counts[word]}" for word in COUNTED) + "\n"


def json_of(found):
    transactions = [{"format": format_id, "gtrid": literal(gtrid), "branches": [
        {"store": store, "bqual": literal(bqual), "ends": ends} for store, bqual, ends in branches], "verdict": verdict}
                    for format_id, gtrid, branches, verdict in found]
    counts = {word.lower().replace(" ", "_"): sum(verdict == word for *_, verdict in found) for word in COUNTED}
    return json.dumps({"globals": transactions, **counts}, separators=(",", ":")) + "\n"


def written(faults, found, options):
    """What is written with these options, and the status."""
    if faults:
        lines = [f"STORE {store} LINE {line} ERROR 1064 (42000): syntax fault at byte {place}\n"
                 for store, line, place in faults]
        return "".join(lines), 6
    status = 0 if all(verdict == "ATOMIC" for *_, verdict in found) else 9
    if "--json" in options:
        return json_of(found), status  # as it is with --text too, and with --quiet
    return ("" if "--quiet" in options else text_of(found, "--text" in options)) + last_line(found), status


def main(words):
    options = {word for word in words if word.startswith("--")}
    text, status = written(*audit([Path(word).read_bytes() for word in words if not word.startswith("--")]), options)
    sys.stdout.write(text)
    return status


if __name__ == "__main__":
    sys.exit(main(sys.argv[1:]))
