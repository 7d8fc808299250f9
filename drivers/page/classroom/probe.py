"""How many calls a call of the transaction manager makes of the coordinator's session in each store, as the program
itself shows it.

`FAIL k AFTER j` has the session in store k answer j calls and no more. So the call makes as many there as the least j
with which it is answered as with a j that is never reached.
"""
import hashlib
import re
import secrets
import threading
import time
from collections import OrderedDict

from .talk import unknown_transaction

NEVER = 1_000_000
MOST = 64  # calls in one store that are looked for
KEPT = 4096  # lines of which the calls are kept
# a line for which the coordinator may ask its sessions something
ASKS = re.compile(rb"[ \t]*(WORK|PREPARE|FINISH|ABANDON|RECOVER)\b")


def answer_with(run, lines, store, after):
    """What answers the last line where the session in the store fails behind so many calls; None where the program
    doesn't come as far."""
    (begin, begun), (end, ended) = (unknown_transaction(secrets.randbits(62) | 1 << 62) for _ in range(2))
    failing = b"FAIL %d AFTER %d" % (store, after)
    output = run(b"\n".join([*lines[:-1], failing, begin, lines[-1], end]) + b"\n")
    _, found, rest = output.partition(b"\n" + begun)
    answer, whole, _ = rest.partition(ended)
    return answer if found and whole else None


def calls_in(run, lines, store):
    """The number of calls in one store, or None where there are too many or the program gives no answer."""
    wanted = answer_with(run, lines, store, NEVER)
    if wanted is None:
        return None
    return next((after for after in range(MOST) if answer_with(run, lines, store, after) == wanted), None)


class Counts:
    """What was found is kept, by the lines up to the call: a diagram that grows asks for its last call alone."""

    def __init__(self):
        self._kept, self._lock = OrderedDict(), threading.Lock()

    def of(self, run, lines, stores, seconds):
        """For each line how many calls it makes in each store, as far as that is known or found within so many
        seconds."""
        digest, found, deadline = hashlib.sha256(b"%d\n" % stores), [], time.monotonic() + seconds
        for at, line in enumerate(lines):
            digest.update(line + b"\n")
            if not ASKS.match(line):
                found.append([])
                continue
            key = digest.digest()
            with self._lock:
                counts = self._kept.get(key)
            if counts is None:
                if time.monotonic() > deadline:
                    break
                counts = [calls_in(run, lines[:at + 1], store) for store in range(stores)]
                with self._lock:
                    self._kept[key] = counts
                    while len(self._kept) > KEPT:
                        self._kept.popitem(last=False)
            found.append(counts)
        return found
