"""A conversation with a child that answers line by line: `show` or `coordinate`."""
import secrets
import threading
import time

from .child import Trouble


class Talk:
    """One child, and the lines that it was given. Whoever asks gives all lines, so a child can be replaced by another
    at any time."""

    def __init__(self, pool, words, marker, after):
        self.lock = threading.Lock()
        self.used = time.monotonic()
        self.child = None
        self._pool, self._words, self._marker, self._after = pool, words, marker, after
        self._given = []
        self._why = None

    def ask(self, lines, known):
        """What answers each line from `known` on, as far as the child came, and how it ended, or None."""
        with self.lock:
            self.used = time.monotonic()
            note, self._why = self._why, None
            if self.child is None or lines[:len(self._given)] != self._given:
                self._begin()
                note = note if lines else None
            answers, ended, left = [], None, self._pool.limits.output_bytes
            for at in range(len(self._given), len(lines)):
                try:
                    answer = self._answer(lines[at], left)
                except Trouble as trouble:
                    ended = {"status": None, "error": str(trouble)}
                else:
                    ended = self._ending(answer)
                if ended:
                    self.end()
                    break
                self._given.append(lines[at])
                if at >= known:
                    answers.append(answer)
                    left -= sum(map(len, answer))
            self.used = time.monotonic()
            return {"answers": answers, "ended": ended, "note": note}

    def _begin(self):
        self.end()
        self.child = self._pool.start(self._words)

    def _answer(self, line, most):
        """The answer of a line, and what the question behind it is answered; None where the child has ended."""
        parts = []
        for question in [line, *self._after]:
            asked, last = self._marker(secrets.randbits(62) | 1 << 62)
            limits = self._pool.limits
            text = self.child.exchange(question + b"\n" + asked + b"\n", last, limits.answer_seconds, most)
            if not text.endswith(last):
                return None
            parts.append(text[:-len(last)])
        return parts

    def _ending(self, answer):
        return self.child.how_it_ended() if answer is None else None

    def rest(self, cause):
        """The pool has ended the child; the next one is given all lines anew."""
        self.child, self._given, self._why = None, [], cause

    def end(self):
        if self.child is not None:
            self._pool.end(self.child)
        self.child, self._given = None, []


# What is asked behind a line, so that the end of its answer is known: a line that changes nothing, and the whole line
# that answers it. Its number is drawn anew each time, so that nothing that a store holds can be taken for it.

def remark(number):
    """`show` says a remark again behind two blanks."""
    return b"#%d" % number, b"  #%d\n" % number


def unknown_transaction(number):
    """No transaction has so high a number, and a call for one that is unknown is refused before anything is done."""
    return b"DECIDE %d" % number, b"UNKNOWN TRANSACTION %d\n" % number
