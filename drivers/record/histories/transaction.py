"""Reads and writes that happen at once: a `txn`, or a `cas`, which reads a value and writes another one."""
from .fault import Fault
from .operation import CAS, WORDS, get_of, key_of, put_of, shown, text_of, value_of, xid_text

READ, WRITE = "GET", "PUT"


class Step:
    """A read or a write of a row; of a read `value` is what was read, None where the row had none."""

    def __init__(self, kind, key, value):
        self.kind, self.key, self.value = kind, key, value

    def statement(self):
        return get_of(self.key) if self.kind == READ else put_of(self.key, self.value)

    def answer(self):
        return shown(self.value) if self.kind == READ else b"OK"


class Transaction:
    """The steps of a call. Those of a txn are told once more, with what was read, where it has ended with ok."""

    def __init__(self, name, value, key):
        self.name = name
        self.steps = cas_steps(value, key) if name == CAS else txn_steps(value)
        self.keys = frozenset(step.key for step in self.steps)
        self.written = frozenset(step.key for step in self.steps if step.kind == WRITE)

    def is_same(self, other):
        """Whether the other one has these steps, whatever it read; an end with ok has to."""
        return [
            (step.kind, step.key, step.value if step.kind == WRITE or self.name == CAS else None) for step in self.steps
        ] == [
            (step.kind, step.key, step.value if step.kind == WRITE or self.name == CAS else None)
            for step in other.steps
        ]

    def as_step(self, is_known):
        """The one step that does and shows the same, or None. `is_known` says whether it is known what was read."""
        if len(self.keys) != 1:
            return None
        first = next((step.value for step in self.steps if step.kind == READ), None)
        writes = [step for step in self.steps if step.kind == WRITE]
        if is_known or self.name == CAS:
            if not self.agrees_with(first):
                return None
            if self.steps[0].kind == WRITE:
                return writes[-1]
            # what is written last was there before, so nothing has changed
            return Step(READ, self.steps[0].key, first) if not writes or writes[-1].value == first else None
        return writes[-1] if writes else self.steps[0]

    def agrees_with(self, first):
        """Whether over one key each read shows what was written before it, or what was there first."""
        now = first
        for step in self.steps:
            if step.kind == WRITE:
                now = step.value
            elif step.value != now:
                return False
        return True

    def branch(self, xid):
        """Pairs of a statement and its answer: the steps as a branch of this identifier."""
        name = xid_text(xid)
        return [
            (b"XA START " + name, b"OK"),
            *((step.statement(), step.answer()) for step in self.steps),
            (b"XA END " + name, b"OK"),
            (b"XA COMMIT " + name + b" ONE PHASE", b"OK"),
        ]


def cas_steps(value, key):
    """Those of [OLD NEW], or of [KEY [OLD NEW]]."""
    if isinstance(value, list) and len(value) == 2 and isinstance(value[1], list):
        key, value = key_of(value[0]), value[1]
    if not isinstance(value, list) or len(value) != 2:
        raise Fault("a cas has a list of the old value and the new one, or a list of its key and that")
    return [Step(READ, key, value_of(value[0])), Step(WRITE, key, text_of(value[1], 0, "a value"))]


def txn_steps(value):
    if not isinstance(value, list):
        raise Fault("a txn has a list of steps")
    found = []
    for step in value:
        if not isinstance(step, list) or len(step) != 3:
            raise Fault("a step of a txn is a list of f, key and value")
        kind = WORDS.get(str(step[0]).lower())
        if kind not in (READ, WRITE):
            raise Fault(
                f"a step of a txn is {step[0]!r}, and statements read and write rows only: "
                f"judge the history by a checker that knows it, such as Elle"
            )
        found.append(Step(kind, key_of(step[1]), value_of(step[2]) if kind == READ else text_of(step[2], 0, "a value")))
    return found
