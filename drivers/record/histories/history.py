"""A history of operations, and the record that it becomes."""
from collections import defaultdict

from .call import NOTHING, OK, UNKNOWN, Call
from .ends import ends_of
from .fault import Fault
from .operation import CAS, operation_of
from .seats import Seats

KNOWS = {CAS: "Knossos", "txn": "Elle"}  # a checker that knows what several statements stand for


class History:
    """`events` are the begins and the ends of calls, by their lines: pairs of a call, and whether it begins."""

    def __init__(self, text, key):
        self.key = key
        self.events = []
        self.open, self.branches = {}, {}  # of each process its open call, and the branch that it may have
        self.last = {}  # its last call
        for line, operation in enumerate(text.split(b"\n"), 1):
            try:
                if operation.strip():
                    self.take(operation_of(line, operation))
            except Fault as fault:
                raise Fault(f"line {line}: {fault}") from fault
        self.calls = [call for call, begins in self.events if begins]
        for call in self.last.values():
            call.is_last = True
        for call in self.calls:
            call.settle()

    def take(self, operation):
        if operation is None:
            return
        process, call = operation.process, self.open.get(operation.process)
        if operation.kind == "invoke":
            if call:
                raise Fault(f"process {process} has an open call")
            self.open[process] = self.last[process] = made = Call(operation, self.key, self.branches.get(process))
            self.events.append((made, True))
            return
        if not call:
            raise Fault(f"process {process} has no open call")
        if operation.name != call.name:
            raise Fault(f"f is {operation.name!r}, and process {process} called {call.name!r}")
        call.complete(operation)
        del self.open[process]
        self.events.append((call, False))
        self.branches[process] = call.branch_behind() if call.end != UNKNOWN else None

    # transactions

    def check(self):
        """Each branch of ours is done at one moment: no other call of its time may be about its rows."""
        # of each row the calls about it that are open, or that may still take effect: our branches, and the others
        now = defaultdict(lambda: ({}, {}))
        for call, begins in self.events:
            if begins and call.is_branch and call.branch is not None:
                raise Fault(
                    f"line {call.line}: the {call.name} of process {call.process} stands in a branch: "
                    f"log its steps as operations of their own"
                )
            for key in call.keys():
                branches, others = now[key]
                if begins:
                    for other in (*branches.values(), *(others.values() if call.is_branch else ())):
                        self.check_pair(other, call)
                    (branches if call.is_branch else others)[call.line] = call
                elif call.end != UNKNOWN:
                    del (branches if call.is_branch else others)[call.line]

    @staticmethod
    def check_pair(earlier, later):
        """`later` begins while `earlier` is open, or has no known end."""
        if not earlier.meets(later):
            return
        one, other = (earlier, later) if earlier.is_branch else (later, earlier)
        what = f"the {one.name} of process {one.process}"
        if one.end == UNKNOWN:
            why = f"nobody knows whether {what} was done, and line {other.line} is about the same row"
        elif other.end == UNKNOWN:
            why = f"{what} is about the same row as line {other.line}, and nobody knows whether that was done"
        else:
            why = f"{what} overlaps line {other.line}, which is about the same row"
        raise Fault(
            f"line {one.line}: {why}, so no statements stand for it; let one process at a time use a row, "
            f"or judge the history by a checker that knows {one.name}, such as {KNOWS[one.name]}"
        )

    def identifier(self, call):
        """One for the branch that stands for a call, which the history doesn't have."""
        gtrid, form = b"line %d" % call.line, 1
        while (gtrid, b"", form) in self.named:
            form += 1
        return gtrid, b"", form

    # the record

    def record(self):
        """The lines of the record; a call without an end is as one with info."""
        self.check()
        self.named = {call.about for call in self.calls if isinstance(call.about, tuple)}
        self.lines, seen = [], {}
        for at, (call, _) in enumerate(self.events):
            for key in call.keys() if call.end != UNKNOWN or call.is_branch else ():
                seen[key] = at
        self.seats = Seats(self.lines, seen)
        self.ends, self.lost = ends_of(self.events), {}
        due = defaultdict(set)
        for call, places in self.ends.items():
            for at in places:
                due[at].add(call)
        for at, (call, begins) in enumerate(self.events):
            for lost in sorted(due[at], key=lambda it: it.line):
                self.end_of(lost, at)
            if call.end != NOTHING and not call.is_branch:
                (self.begin if begins else self.finish)(call, at)
            elif call.is_branch:
                self.branch(call, at, begins)
            if not begins and call.end != UNKNOWN:
                self.seats.leave(call)
        return b"".join(line + b"\n" for line in self.lines if line is not None)

    def begin(self, call, at):
        if call.is_unseen():
            self.leave_out(call, "nobody saw what it was answered, and it changes nothing")
            return
        session = self.seats.take(call, at)
        self.lines.append(b"%d > %s" % (session, call.statement))
        if call in self.ends:
            self.lost[call] = self.seats.set_aside(call)
        elif call.end == UNKNOWN:
            # from its call on nobody knows of the session
            self.lines.append(b"%d ! %s" % (session, b"GONE" if call.is_gone else b"LOST"))
            self.seats.lose(call, len(self.lines) - 1)

    def finish(self, call, at):
        if call.end == UNKNOWN:
            return
        session = self.seats.take(call, at)
        answer = call.answer if call.end == OK else [b"ERROR %d" % call.number]
        self.lines += [b"%d < %s" % (session, answer[0]), *answer[1:]]

    def end_of(self, call, at):
        """What later answers show of a call that has none. Its session is another's then."""
        session, (over, ended) = self.lost[call], self.ends[call]
        has_branch = call.branch is not None
        if at == over:
            self.lines.append(b"%d ? ERROR a later answer shows that it is over" % session)
            if has_branch:
                shown = b"# A later answer shows that the server has ended the branch of session %d:" % session
                self.lines += [shown, b"%d > DISCONNECT" % session]
        if at == ended:
            if has_branch:
                self.lines.append(b"%d < OK" % session)
            self.seats.give_back(session)

    def branch(self, call, at, begins):
        """A transaction as a branch, all at its end. One without a known end is left out: nobody uses what it wrote."""
        if call.end == UNKNOWN:
            if begins:
                self.leave_out(call, "nobody can see whether it was done")
        elif not begins:
            session = self.seats.take(call, at)
            self.lines.append(b"# The %s of line %d, as a branch:" % (call.name.encode(), call.line))
            for statement, answer in call.transaction.branch(self.identifier(call)):
                self.lines += [b"%d > %s" % (session, statement), b"%d < %s" % (session, answer)]

    def leave_out(self, call, why):
        """Its session has no branch, so the server's end of it changes nothing either."""
        self.lines.append(b"# The %s of line %d is left out: %s." % (call.name.encode(), call.line, why.encode()))
        self.seats.let_go(call)
