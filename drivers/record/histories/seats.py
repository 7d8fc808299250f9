"""The sessions of a record, of which it has 16, and who has each."""
import json

from .fault import Fault

MOST = 16


class Seats:
    """`lines` are those of the record, None for one taken away; `seen` has the last event that sees a row."""

    def __init__(self, lines, seen):
        self.lines, self.seen = lines, seen
        self.of = {}  # each process's session
        self.count = 0
        self.free = []  # the sessions of processes that have ended, and have no branch
        self.lost = []  # (session, call, place of its line LOST or GONE) of those whose call may be over before the end

    def take(self, call, now):
        """The process's session; it gets one where it has none."""
        if call.process not in self.of:
            self.of[call.process] = session = self.next(call, now)
            self.lines.append(b"# Session %d is process %s." % (session, json.dumps(call.process).encode()))
        return self.of[call.process]

    def next(self, call, now):
        if self.count < MOST:
            self.count += 1
            return self.count
        if self.free:
            return self.free.pop(0)
        over = next((it for it in self.lost if self.is_over(it[1], now)), None)
        if over is None:
            raise Fault(
                f"line {call.line}: process {call.process} would be session {MOST + 1}, and a record has {MOST}: "
                f"here each is of a process that goes on, that may have a branch, "
                f"or whose call is unknown and may still be seen; run fewer processes at a time, or split the history"
            )
        self.lost.remove(over)
        session, _, place = over
        self.lines[place] = None
        self.lines.append(b"%d ? ERROR nobody sees any more whether it was done" % session)
        return session

    def is_over(self, call, now):
        """Whether nobody can see any more what became of a call without an answer: no call is about its row."""
        return all(self.seen.get(key, -1) < now for key in call.keys())

    def lose(self, call, place):
        """Its process goes on as a new session."""
        session = self.of.pop(call.process)
        if call.branch is None and call.keys():
            self.lost.append((session, call, place))

    def set_aside(self, call):
        """The session of a call without an answer. Its process goes on as a new one."""
        return self.of.pop(call.process)

    def give_back(self, session):
        self.free.append(session)

    def let_go(self, call):
        """A process has nothing open and no branch, and goes on as a new session, if at all."""
        if call.process in self.of:
            self.free.append(self.of.pop(call.process))

    def leave(self, call):
        """Another process may have the session of one that has ended without a branch."""
        if call.is_last and call.branch_behind() is None:
            self.let_go(call)
