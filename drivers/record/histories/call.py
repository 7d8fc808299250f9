"""What a process did: a call, and how it ended."""
from .fault import Fault
from .operation import (
    CAS,
    ONE_PHASE,
    ROWS,
    TXN,
    WORDS,
    get_of,
    literal,
    put_of,
    read_row,
    shown,
    text_of,
    value_of,
    xid_of,
    xid_text,
)
from .transaction import Transaction

OK, REFUSED, NOTHING, UNKNOWN = "ok", "refused", "nothing", "unknown"  # the ends: the last but one did nothing
# the connection was closed by the server: CR_SERVER_GONE_ERROR, CR_SERVER_LOST, ER_CONNECTION_KILLED
GONE = (2006, 2013, 1927)


class Call:
    """A call as the history has it. `end` is UNKNOWN while there is none."""

    def __init__(self, operation, key, branch):
        self.process, self.name, self.line = operation.process, operation.name, operation.line
        self.key = key  # of the one row that the history is about
        self.branch = branch  # the identifier of the branch that its session may have
        self.end, self.number, self.is_gone = UNKNOWN, None, False
        self.is_last = False  # of its process, before that goes on as a new session
        self.statement, self.answer = None, []
        self.about = None  # the identifier, or the key
        self.transaction, self.is_branch = None, False
        if self.name in (CAS, TXN):
            self.transaction = Transaction(self.name, operation.value, key)
        else:
            self.statement = self.written(WORDS[self.name], operation.value)

    def written(self, word, value):
        if word in ("XA RECOVER", "DISCONNECT"):
            return word.encode()
        if word not in ROWS:
            self.about = xid_of(value)
            return word.encode() + b" " + xid_text(self.about) + (b" ONE PHASE" if self.name == ONE_PHASE else b"")
        self.about, said = read_row(value, self.key)
        if word == "PUT":
            return put_of(self.about, text_of(said, 0, "a value"))
        if said is not None:
            raise Fault("a call that reads or deletes has no value; a row is named by a list of its key")
        return get_of(self.about) if word == "GET" else b"DEL %s" % literal(self.about)

    # ends

    def complete(self, operation):
        """How it ended."""
        if operation.kind == "ok":
            self.end = OK
            self.take(operation.value)
        elif operation.kind == "fail":
            self.number = operation.number()
            if self.number is not None and self.number > 65535:
                raise Fault("an error's number is 0 to 65,535")
            self.end = NOTHING if self.number is None else REFUSED
        else:
            self.is_gone = operation.number() in GONE

    def take(self, value):
        """What ok returned."""
        if self.transaction:
            found = Transaction(self.name, value, self.key)
            if not self.transaction.is_same(found):
                raise Fault(f"the {self.name} isn't that of the call")
            self.transaction = found
        else:
            self.answer = self.answer_of(WORDS[self.name], value)

    def answer_of(self, word, value):
        if word == "GET":
            key, said = read_row(value, self.key)
            if key != self.about:
                raise Fault("the row isn't that of the call")
            return [shown(value_of(said))]
        if word != "XA RECOVER":
            return [b"OK"]
        if not isinstance(value, list):
            raise Fault("recover returns a list of identifiers")
        rows = [xid_of(it) for it in value]
        return [b"ROWS %d" % len(rows)] + [
            b"%d %d %d 0x%s" % (form, len(gtrid), len(bqual), (gtrid + bqual).hex().encode())
            for gtrid, bqual, form in rows
        ]

    def settle(self):
        """Says which statement a transaction is, where one does and shows the same; else it is a branch, or nothing."""
        if not self.transaction:
            return
        step, count = self.transaction.as_step(self.end == OK), len(self.transaction.steps)
        if step and (self.end in (OK, UNKNOWN) or self.end == REFUSED and count == 1):
            self.statement, self.about = step.statement(), step.key
            self.answer = [step.answer()]
        elif self.end == REFUSED or self.end == OK and count == 0:
            self.end = NOTHING  # it is known that none of it was done
        else:
            self.is_branch = self.end != NOTHING

    def branch_behind(self):
        """The branch that its session may have once it has ended."""
        if self.end != OK:
            return self.branch
        if self.name in ("start", "begin"):
            return self.about
        is_left = (
            self.name == "disconnect" or self.name in ("prepare", ONE_PHASE, "rollback") and self.about == self.branch
        )
        return None if is_left else self.branch

    # rows

    def keys(self):
        """The rows that it is about."""
        if self.end == NOTHING:
            return frozenset()
        if self.is_branch:
            return self.transaction.keys
        return frozenset([self.about]) if self.statement.startswith((b"GET ", b"PUT ", b"DEL ")) else frozenset()

    def changes(self):
        """Those that it writes."""
        if self.is_branch:
            return self.transaction.written
        return frozenset() if self.is_read() else self.keys()

    def is_read(self):
        return not self.is_branch and self.statement is not None and self.statement.startswith(b"GET ")

    def is_unseen(self):
        """Whether it changes nothing, and nobody saw what it was answered. In a branch even a read locks its row."""
        return (
            self.end == UNKNOWN and self.branch is None and (self.is_read() or self.name in ("recover", "disconnect"))
        )

    def puts(self):
        """Its writes of values, as statements."""
        if self.end == NOTHING:
            return []
        found = [step.statement() for step in self.transaction.steps] if self.is_branch else [self.statement]
        return [statement for statement in found if statement.startswith(b"PUT ")]

    # branches

    def locks(self):
        """The identifier that it is about, or the rows that it locks, each with whether nobody else may have it."""
        if self.end == NOTHING or self.is_branch and self.end == UNKNOWN:
            return {}
        if isinstance(self.about, tuple):
            return {self.about: True}
        shared = self.keys() if self.is_branch or self.branch is not None else ()
        return {**dict.fromkeys(shared, False), **dict.fromkeys(self.changes(), True)}

    def may_need_an_end(self):
        """Whether, if it was accepted, no other branch was in its way; of statements about branches only a start."""
        return self.about is None or isinstance(self.about, bytes) or self.name in ("start", "begin")

    def keeps_the_branch(self):
        """Whether its session's branch, if it still has it then, is rolled back by the end of its connection."""
        return bool(self.keys()) or self.name in ("end", "recover", "disconnect")

    def meets(self, other):
        """Whether the order of the two may be seen: one writes a row that the other is about, or saw."""
        mine, theirs = (it.changes() if it.end == UNKNOWN else it.keys() for it in (self, other))
        return bool(self.changes() & theirs or mine & other.changes())
