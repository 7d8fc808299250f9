"""A coordinator's calls as a sequence diagram: what the program answers, how many statements each call made, and the
drawing."""
import time

from .exchanges import answered, exchanges, reasons
from .sequence import Sequence
from .states import states

FILE_WIDTH = 1000


def diagram(run, show, counts, lines, stores, seconds, at=None, **drawing):
    """The drawing, and whether all of it is known. `run` gives what `coordinate` prints for an input, with more words,
    and on its standard error; `show` gives what the job of that name prints; `counts` keeps how many statements calls
    make. The lines from `at` on wait. So that lifelines stay where they are while more lines are given, those that wait
    are answered too, as far as there is time, and the widths of their labels are kept in mind."""
    deadline = time.monotonic() + seconds

    def told(given):
        """The calls, of which so many lines are given; how many are answered, what they changed, whether all is
        known."""
        answers = answered(lambda text: run(["--text"], text)[0], given)
        known = counts.of(lambda text: run([], text)[0], given[:len(answers)], stores, deadline - time.monotonic())
        why = reasons(lambda text: run(["--verbose"], text)[1], given, answers)
        found = exchanges(lines, answers, known, why)
        # behind a call whose statements aren't known, nothing is known of rows
        calls = {"found": found, "stores": stores, "at": len(answers),
                 "changes": states(show, found[:len(known)], stores)}
        return calls, len(known) == len(answers)

    calls, is_whole = told(lines if at is None else lines[:at])
    later = told(lines)[0] if at is not None and at < len(lines) else None
    return drawn({**calls, **drawing}, later and {**later, **drawing, "asked": False, "quiz": False}), is_whole


def drawn(calls, later=None):
    """The drawing, whose lifelines stand where its labels need it: so it is drawn twice. `later` has the calls once all
    are answered. {svg, steps, rows}."""
    drafts = [Sequence(**it) for it in (calls, later) if it]
    for it in drafts:
        it.text()
    wants = {ends: max(it.wants.get(ends, 0) for it in drafts) for it in drafts for ends in it.wants}
    made = Sequence(**calls, wants=wants, signs=drafts[0].signs)
    return {"svg": made.text(), "steps": made.steps, "rows": made.boxes}
