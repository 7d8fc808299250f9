"""What the calls of a transaction manager made of the stores: the statements that each store got for a call, and what
each was answered.

How many there were is the program's word (probe.py); which they are follows from docs/COORDINATOR.md. Where the two
don't agree, a statement is named by its number alone.
"""
import re
import secrets
from dataclasses import dataclass, field
from typing import Optional

from .record_lines import BLANKS, lines_of
from .talk import unknown_transaction

REMARK, BLANK, WORK, STRANGER, CRASH, COORDINATOR = "remark", "blank", "work", "stranger", "crash", "coordinator"
EVENT = "event"
CAPTIONS = (REMARK, BLANK)
# A remark that tells what happens to a manager of its own, whose statements are those of the other client: it is drawn,
# and the program passes it by. Behind the word stands a store where it has one, and then what is said.
TELLS = re.compile(rb"#@[ \t]*(manager|other|crash|restart|lost|unanswered|outage|verdict)\b[ \t]*"
                   rb"(?:(\d{1,2})\b[ \t]*)?(.*)", re.S)
NAMES, BY_OTHER = b"manager", b"other"  # of these, those that nothing is drawn for
ASKED = (b"DISCONNECT", b"XA RECOVER")  # statements by which a recovery asks a store
UNHEARD = b"unanswered"
VOTES = (b"READY", b"ONE PHASE", b"NO", b"NOTHING")
# answers behind which a transaction has no branch left for a recovery, by the call's word
FINISHED = (b"COMMITTED", b"ROLLED BACK", b"HAZARD")
ENDINGS = {b"PREPARE": (b"NOTHING",), b"FINISH": FINISHED, b"ABANDON": FINISHED}
FAIL = re.compile(rb"[ \t]*FAIL[ \t]+(\d{1,2})[ \t]+AFTER[ \t]+(\d{1,18})[ \t\r]*")
STOP = re.compile(rb"[ \t]*STOP[ \t\r]*")
STOPPED_AT = re.compile(rb"(?:NO|UNFINISHED|UNRECOVERED) (\d+): (.*)", re.S)
BAD = re.compile(rb"ERROR|FAULT|NOT STARTED|LOST|NO \d|HAZARD|UNFINISHED|UNRECOVERED|STILL PREPARED|UNKNOWN|WRONG "
                 rb"STAGE|CLOSED|NUMBERS SPENT")
# answers to work behind which its store takes no part for its sake
NO_WORK = re.compile(rb"ERROR 1064|UNKNOWN|WRONG STAGE|NOT STARTED|LOST")
ROW = re.compile(rb"(?:WORK[ \t\r]+\d+|AT)[ \t\r]+\d+[ \t\r]+(?:GET|PUT|DEL)[ \t\r]*"
                 rb"('(?:[^'\\]|''|\\.)*'|[^ \t\r,]+).*", re.S | re.I)
VOTE_ASKED = re.compile(rb"AT[ \t\r]+\d+[ \t\r]+XA[ \t\r]+PREPARE\b", re.I)
# answers that the program explains where it is asked to be verbose
EXPLAINED = re.compile(rb"WRONG STAGE|UNKNOWN|ERROR 1064")
REASON = re.compile(rb"xa_script: line (\d+): (.*)")
NAMED = re.compile(rb"0x63([0-9a-f]{16}),0x([0-9a-f]{2}),22593")
LISTED = re.compile(rb"(\d+) (\d+) (\d+) 0x([0-9a-f]*)")
NUMBERS = re.compile(rb"(UNDECIDED|DECIDED|CLOSED)((?: \d+)*)")


@dataclass
class Shown:
    """What `SHOW` lists: for each store the branches that are prepared, and how the numbers stand."""
    prepared: dict = field(default_factory=dict)
    numbers: dict = field(default_factory=dict)

    def of(self, word):
        return self.numbers.get(word, [])


@dataclass
class Statement:
    text: bytes
    answer: bytes
    is_answered: bool
    call: int  # its number among the call's in this store, from 0
    of: int    # how many these are


@dataclass
class Exchange:
    place: int
    line: bytes
    kind: str
    store: Optional[int]
    said: bytes
    answer: Optional[bytes] = None  # none for a call that waits
    before: Shown = field(default_factory=Shown)
    behind: Shown = field(default_factory=Shown)
    groups: list = field(default_factory=list)  # stores in the order in which they were asked, each with its statements
    vote: Optional[bytes] = None                # of the transaction, before this call
    over: frozenset = frozenset()               # the transactions that had ended before this call
    is_failing: bool = False                    # a session was let fail, and its coordinator not stopped since
    is_doubt_in_way: bool = False               # it was refused a row that a branch in doubt has locked
    is_managers: bool = False                   # of the other client: it is the manager that is shown in its own place
    is_unheard: bool = False                    # its answer is lost, as the remark behind it tells
    event: bytes = b""                          # what a remark tells, by its word
    reason: bytes = b""

    @property
    def words(self):
        return words_of(self.line)

    @property
    def statement(self):
        """What is for a store: without the words that say for which, and in which transaction."""
        before = {STRANGER: 2, WORK: 3}.get(self.kind, 0)
        words = self.said.split(None, before)
        return words[-1] if before and len(words) > before else self.said

    @property
    def first(self):
        return first_line(self.answer)

    @property
    def row(self):
        """The key of the row that its statement is about, as it is written."""
        found = ROW.fullmatch(self.said)
        return found[1] if found else None

    def gave_work(self):
        """Whether its store takes part by it, if it didn't before."""
        if self.kind != WORK or self.answer is None or NO_WORK.match(self.answer):
            return False
        return not self.first.startswith(b"FAULT") or any(one.is_answered for _, made in self.groups for one in made)

    def makes_participant(self):
        """Whether its store is a participant for its sake, or may be once it is answered: of the coordinator's
        transaction, or of another manager's that asks by the other client."""
        if self.kind == STRANGER:
            return VOTE_ASKED.match(self.said) is not None and not self.is_bad()
        return self.gave_work() or (self.kind == WORK and self.answer is None)

    def only_asked(self, store):
        """Whether it is a recovery that asked a store, which answered that nothing is prepared there."""
        said = [one for asked, part in self.groups if asked == store for one in part]
        return self.words[0] == b"RECOVER" and all(one.is_answered and one.text in ASKED for one in said)

    def ends_transaction(self):
        return self.first.startswith(ENDINGS.get(self.words[0], ()))

    def is_bad(self):
        return self.answer is not None and BAD.match(self.answer) is not None


class Locks:
    """Which branches of the coordinator may hold a row, as far as its calls tell."""

    def __init__(self):
        self._open = {}  # by its store, the transaction whose branch there isn't prepared
        self._rows = {}  # by its transaction and store, the rows that a branch got work on

    def follow(self, it):
        if it.gave_work():
            branch = int(it.words[1]), it.store
            self._open[it.store] = branch[0]
            if not it.is_bad():
                self._rows.setdefault(branch, set()).add(it.row)
        is_over = it.first.startswith(b"RECOVERED")
        self._open = {store: number for store, number in self._open.items()
                      if not is_over and number not in it.over and (number, store) not in self._prepared(it, store)}

    def is_doubt_in_way(self, it):
        """Whether it is sure that a branch in doubt, and not one that is still open, keeps another client from a
        row."""
        if it.kind != STRANGER or not it.first.startswith(b"ERROR 3572"):
            return False
        prepared = self._prepared(it, it.store)
        return bool(prepared) and (it.store not in self._open
                                   or any(it.row in self._rows.get(branch, ()) for branch in prepared))

    @staticmethod
    def _prepared(it, store):
        return [transaction_of(xid) for xid in it.behind.prepared.get(store, [])]


def words_of(line):
    return line.split() or [b""]


def first_line(answer):
    return (answer or b"").split(b"\n", 1)[0]


def read_call(place, line):
    trimmed = line.strip(BLANKS)
    if not trimmed:
        return Exchange(place, line, BLANK, None, b"")
    tells = TELLS.fullmatch(trimmed)
    if tells:
        return Exchange(place, line, BLANK if tells[1] in (NAMES, BY_OTHER) else EVENT,
                        int(tells[2]) if tells[2] else None, tells[3], event=tells[1])
    if trimmed.startswith(b"#"):
        return Exchange(place, line, REMARK, None, trimmed[1:].strip(BLANKS))
    word, *words = trimmed.split()

    def store(at):
        return int(words[at]) if at < len(words) and re.fullmatch(rb"\d{1,2}", words[at]) else None

    kind, at = {b"WORK": (WORK, 1), b"AT": (STRANGER, 0), b"FAIL": (CRASH, 0),
                b"STOP": (CRASH, 99)}.get(word, (COORDINATOR, 99))
    return Exchange(place, line, kind, store(at), trimmed)


def transaction_of(xid):
    """The number and the store of a branch that the coordinator named, or None for another's."""
    found = NAMED.fullmatch(xid)
    return (int(found[1], 16), int(found[2], 16)) if found else None


def branch_name(xid):
    found = transaction_of(xid)
    return b"transaction %d, store %d" % found if found else xid


def read_shown(text):
    found, stores = Shown(), []
    for line in lines_of(text):
        store, row, numbers = re.fullmatch(rb"STORE (\d+)", line), LISTED.fullmatch(line), NUMBERS.fullmatch(line)
        if store:
            stores.append(int(store[1]))
            found.prepared[stores[-1]] = []
        elif numbers:
            found.numbers[numbers[1].decode()] = [int(number) for number in numbers[2].split()]
        elif row and stores:
            split = 2 * int(row[2])
            parts = [b"0x" + part if part else b"X''" for part in (row[4][:split], row[4][split:])]
            found.prepared[stores[-1]].append(b",".join([*parts, row[1]]))
    return found


def answered(run, lines):
    """For each line its answer, and what `SHOW` lists behind it, as far as the program comes. `run` gives what it
    prints for an input, and on its standard error."""
    markers, asked = [], []
    first = secrets.randbits(61) | 1 << 62
    for at, line in enumerate(lines):
        two = [unknown_transaction(first + 2 * at + more) for more in (0, 1)]
        markers += [last for _, last in two]
        asked += [line, two[0][0], b"SHOW", two[1][0]]
    output, found = run(b"".join(part + b"\n" for part in asked)), []
    for marker in markers:
        part, whole, output = output.partition(marker)
        if not whole:
            break
        found.append(part)
    return list(zip(found[::2], (read_shown(text) for text in found[1::2])))


def reasons(explain, lines, answers):
    """For each line why it was refused, as the program says where it is verbose: `explain` gives its standard error for
    an input."""
    if not any(EXPLAINED.match(answer) for answer, _ in answers):
        return {}
    found = (REASON.fullmatch(line) for line in lines_of(explain(b"".join(line + b"\n" for line in lines))))
    return {int(one[1]) - 1: one[2] for one in found if one}


def exchanges(lines, answers, counts, why=None):
    """Every call, with what came of those that are answered. `counts` has for each line how many calls it makes of the
    session in each store."""
    found = [read_call(place, line) for place, line in enumerate(lines)]
    give_to_manager(found)
    votes, decided, fuses, is_failing, before = {}, set(), {}, False, Shown()
    over, locks = frozenset(), Locks()
    for it in found[:len(answers)]:
        it.answer, it.behind = answers[it.place]
        it.before, it.is_failing, it.over = before, is_failing, over
        number = it.words[1] if len(it.words) > 1 else b""
        it.vote, it.reason = votes.get(number), (why or {}).get(it.place, b"")
        fail = FAIL.fullmatch(it.line)
        if fail and it.first == b"OK":
            fuses[int(fail[1])], is_failing = int(fail[2]), True
        elif STOP.fullmatch(it.line):
            fuses, is_failing = {}, False
        wanted = counts[it.place] if it.place < len(counts) else []
        it.groups = [group for store, of in enumerate(wanted) if of
                     for group in said(it, store, of, fuses, number in decided)]
        if it.words[0] == b"PREPARE":
            votes.update({number: vote for vote in VOTES if it.first.startswith(vote)}
                         if any(map(it.first.startswith, VOTES)) else {})
        elif it.words[0] == b"DECIDE" and it.first == b"DECIDED":
            decided.add(number)
        if it.ends_transaction():
            over |= {int(number)}
        locks.follow(it)
        it.is_doubt_in_way = locks.is_doubt_in_way(it)
        before = it.behind
    return found


def give_to_manager(found):
    """Gives the statements of the other client to the manager that a remark names, but for those behind a remark that
    they are another's; and says of each whose answer is lost."""
    is_named, is_other, last = False, False, {}
    for it in found:
        is_named |= it.event == NAMES
        is_other |= it.event == BY_OTHER
        if it.kind == STRANGER:
            it.is_managers, is_other = is_named and not is_other, False
            last = {it.store: it}
        elif it.event == UNHEARD and it.store in last:
            last[it.store].is_unheard = True


def said(it, store, of, fuses, is_decided):
    """The statements of a call in one store in groups, of which each is one message."""
    answered_here = min(of, fuses.get(store, of))
    if store in fuses:
        fuses[store] -= answered_here
    words = statements_in(it, store, of, is_decided)
    words = words if words and len(words) == of else None
    made = [Statement(words[at] if words else b"call %d of %d" % (at + 1, of), b"", at < answered_here, at, of)
            for at in range(min(of, answered_here + 1))]
    for statement in made:
        statement.answer = (b"stopped" if not statement.is_answered
                            else answer_in(it, store, words, statement.call) if words else b"")
    if it.words[0] == b"RECOVER" and words:
        parts = [made[:2], *([one] for one in made[2:])]
    else:
        parts = [made]
    return [(store, part) for part in parts if part]


def statements_in(it, store, count, is_decided):
    """The statements of a call in one store, or None where they can't be said."""
    word = it.words[0]
    if word == b"WORK":
        statement = re.sub(rb"^WORK[ \t\r]+\d+[ \t\r]+\d+[ \t\r]+", b"", it.said)
        return ([b"XA START", statement] if count == 2
                else [b"XA START" if it.first.startswith(b"NOT STARTED") else statement])
    if word == b"PREPARE":
        return [b"XA END", b"XA PREPARE"][:count]
    if word == b"FINISH":
        ending = (b"XA COMMIT" if is_decided else b"XA COMMIT .. ONE PHASE" if it.vote == b"ONE PHASE"
                  else b"XA ROLLBACK")
        return [b"XA END", ending][-count:]
    if word == b"ABANDON":
        return [b"XA END", b"XA ROLLBACK"][-count:]
    if word == b"RECOVER":
        return [b"DISCONNECT", b"XA RECOVER", *endings(it.before, store), b"XA RECOVER"]
    return None


def endings(before, store):
    """Those that a recovery gives a store: one for each prepared branch that it finds there."""
    named = [found for found in map(transaction_of, before.prepared.get(store, [])) if found and found[1] == store]
    return [b"%s of %d" % (b"XA COMMIT" if number in before.of("DECIDED") else b"XA ROLLBACK", number)
            for number, _ in named]


def answer_in(it, store, words, at):
    """What a store answered to the statement at this place of its own; `words` is all that it got."""
    is_last, cause = at == len(words) - 1, STOPPED_AT.fullmatch(it.first)
    if is_last and cause and int(cause[1]) == store:
        return cause[2]
    if words[at] == b"XA START":
        return it.first.removeprefix(b"NOT STARTED: ") if it.first.startswith(b"NOT STARTED: ") else b"OK"
    if re.match(rb"(?i)(GET|PUT|DEL)\b", words[at]):
        return it.first
    if words[at] == b"XA RECOVER":
        return b"none" if is_last else b"%d prepared" % (len(words) - 3)
    is_gone = it.first.startswith(b"HAZARD") and b"%d" % store in it.first.split()[1:]
    return b"XAER_NOTA" if is_last and is_gone else b"OK"
