"""The children of the page: how many there may be, and when one that nobody asks is ended."""
import threading
import time

from .child import Child, Trouble
from .probe import Counts


class Pool:
    def __init__(self, program, limits, status=None):
        self.program, self.limits, self.status = program, limits, status
        self.counts = Counts()
        self._lock = threading.Lock()
        self._children = set()
        self._talks = {}
        self._closed = threading.Event()
        threading.Thread(target=self._end_idle_ones, name="idle", daemon=True).start()

    # children

    def start(self, words, memory_kib=None):
        """A child at these words of the command line, with so much memory, or the limits' own. Trouble: all places are
        taken, and no talk is idle."""
        with self._lock:
            if self._closed.is_set():
                raise Trouble("the page is ending")
            if len(self._children) >= self.limits.children and not self._end_idlest():
                raise Trouble(f"{self.limits.children} children are at work; try again")
            child = Child(self.program, words, memory_kib or self.limits.memory_kib)
            self._children.add(child)
            return child

    def end(self, child):
        with self._lock:
            self._drop(child)

    def count(self):
        with self._lock:
            return len(self._children)

    def _drop(self, child):
        self._children.discard(child)
        child.end()

    # talks

    def talk(self, name, make):
        """The talk of this name, which is made where there is none."""
        with self._lock:
            talk = self._talks.get(name)
            if talk is None:
                talk = self._talks[name] = make()
            talk.used = time.monotonic()
            return talk

    def forget(self, prefix):
        """Ends the talks whose names begin so."""
        with self._lock:
            gone = [self._talks.pop(name) for name in list(self._talks) if name.startswith(prefix)]
        for talk in gone:
            with talk.lock:
                talk.end()

    def _end_idlest(self):
        """Ends the child of the talk that was asked least lately, and isn't being asked now."""
        for talk in sorted(self._talks.values(), key=lambda it: it.used):
            if self._rest(talk, "other talks needed its place"):
                return True
        return False

    def _rest(self, talk, cause):
        if talk.child is None or not talk.lock.acquire(blocking=False):
            return False
        try:
            if talk.child is None:
                return False
            self._drop(talk.child)
            talk.rest(cause)
            return True
        finally:
            talk.lock.release()

    def _end_idle_ones(self):
        limit = self.limits.idle_seconds
        while not self._closed.wait(min(5, limit / 4)):
            with self._lock:
                for name, talk in list(self._talks.items()):
                    if time.monotonic() - talk.used < limit:
                        continue
                    if talk.child is None:
                        del self._talks[name]
                    else:
                        self._rest(talk, f"nobody had asked it for {limit / 60:g} minutes")
                        talk.used = time.monotonic()

    def is_closed(self):
        return self._closed.is_set()

    def close(self):
        """Ends all children; none is started any more."""
        self._closed.set()
        with self._lock:
            for child in list(self._children):
                self._drop(child)
