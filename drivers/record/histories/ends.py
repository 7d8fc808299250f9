"""What later answers show of the calls that have none: that one is over, and that the server has ended its branch."""
from collections import Counter, defaultdict

from .call import NOTHING, OK, REFUSED, UNKNOWN
from .operation import literal


def ends_of(events):
    """For each call that is shown to be over two events: before the first one it is over, before the second its branch.

    A call outside a branch has the same event twice.
    """
    written = writes_read(events)
    return {**written, **Branches(events, written).found}


def writes_read(events):
    """The writes outside branches whose value was read, and is that of no other write."""
    count = Counter(put for call, begins in events if begins for put in call.puts())
    waiting, found = {}, {}
    for at, (call, begins) in enumerate(events):
        if begins:
            if call.end == UNKNOWN and call.branch is None:
                waiting.update((put, call) for put in call.puts() if count[put] == 1 and not call.is_branch)
        elif call.end == OK and call.is_read():
            write = waiting.pop(b"PUT %s,%s" % (literal(call.about), call.answer[0].removeprefix(b"VALUE ")), None)
            if write:
                found[write] = (at, at)
    return found


class Watch:
    """A branch whose session was lost in `call`, until an answer shows that the server has ended it.

    `locked` has what it surely locked before, its identifier too, each with whether nobody else may have it.
    """

    def __init__(self, call, locked):
        self.call, self.locked, self.wanted = call, locked, call.locks()
        self.open = set()  # the calls that it is in the way of
        # since there was none of them: where the first one began, and which have begun
        self.since, self.begun = None, set()

    def places(self):
        return {**self.wanted, **self.locked}

    def is_met(self, locks):
        return meet(locks, self.locked) or meet(locks, self.wanted)

    def adds(self):
        """Whether its last call may have locked more."""
        return any(place not in self.locked or alone > self.locked[place] for place, alone in self.wanted.items())

    def begin(self, call, at):
        if not self.open:
            self.since, self.begun = at, set()
        self.open.add(call)
        self.begun.add(call)

    def is_ended_before(self, call):
        """Whether an accepted call needs the branch's end, which can then be put off to where `since` is.

        What was refused before that would be refused while the branch is there as well. What its last call locked
        behind `since` can only be taken away if nobody but the accepted call could meet it there.
        """
        is_needed = meet(call.locks(), self.locked) and call.may_need_an_end()
        return is_needed and (not self.adds() or len(self.begun) == 1)


def meet(locks, others):
    """Whether they can't be had at the same time."""
    return any(place in others and (alone or others[place]) for place, alone in locks.items())


class Branches:
    """Goes through the events. Where the branch's end can't be put off for sure, nothing is found.

    A lost session's branch can only be in the way of others: of calls about its identifier, and of locks on its rows.
    """

    def __init__(self, events, written):
        self.found = {}
        self.open = defaultdict(set)  # by identifier and row the calls that may still take effect
        self.watches = defaultdict(set)
        self.locked = {}  # by process what its branch surely locks
        self.returned, self.met = {}, {}  # the last return by process, and by identifier and row
        over = defaultdict(list)
        for call, (_, at) in written.items():
            over[at].append(call)
        for at, (call, begins) in enumerate(events):
            for write in over[at]:
                self.close(write)
                # it took effect by now, perhaps only since a connection had been closed whose call comes later
                self.met.update(dict.fromkeys(write.locks(), at))
            if call.end != NOTHING:
                (self.begin if begins else self.end)(call, at)

    def begin(self, call, at):
        locks = call.locks()
        for watch in self.watching(locks):
            if watch.is_met(locks):
                watch.begin(call, at)
        if call.branch is None:
            self.locked.pop(call.process, None)
        elif call.end == UNKNOWN and call.keeps_the_branch():
            self.watch(Watch(call, {call.branch: True, **self.locked.get(call.process, {})}))
        for place in locks:
            self.open[place].add(call)

    def watch(self, watch):
        """Not where a call is open already that may meet it, nor where a connection may have been closed before one."""
        last = self.returned.get(watch.call.process, -1)
        for place in watch.places():
            if any(watch.is_met(other.locks()) for other in self.open[place]):
                return
            if watch.call.is_gone and self.met.get(place, -1) > last:
                return
        for place in watch.places():
            self.watches[place].add(watch)

    def watching(self, locks):
        return {watch for place in locks for watch in self.watches[place]}

    def end(self, call, at):
        if call.end == UNKNOWN:
            return
        locks = call.locks()
        for watch in self.watching(locks):
            if call in watch.open:
                self.answered(watch, call, at)
        self.close(call)
        self.returned[call.process] = at
        self.met.update(dict.fromkeys(locks, at))
        if call.end == OK and call.branch is not None:
            locked = self.locked.setdefault(call.process, {})
            locked.update((key, alone or locked.get(key, False)) for key, alone in locks.items() if key in call.keys())

    def answered(self, watch, call, at):
        watch.open.remove(call)
        if call.end == REFUSED:
            return
        if watch.is_ended_before(call):
            self.found[watch.call] = (watch.since, at)
            self.close(watch.call)
        for place in watch.places():
            self.watches[place].discard(watch)

    def close(self, call):
        for place in call.locks():
            self.open[place].discard(call)
