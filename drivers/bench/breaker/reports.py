"""What is written of the trials: the table as it grows, and files for CI."""
import json
import shlex
import sys
from collections import Counter
from collections.abc import Sequence
from pathlib import Path
from xml.sax.saxutils import quoteattr

from . import story
from .names import WITHOUT
from .trial import ATOMIC, IN_DOUBT, LOST_WORK, MIXED, OPEN, PARTIAL, RIGHT, TOLD, TOUCHED, UNREACHED, UNTRUE, Outcome

HEAD = ("point", "action", "in between", "after recovery", "time", "")
WIDTHS = (29, 22, 12, 15, 8)
COUNTED = {ATOMIC: "atomic", TOLD: "heuristic and told", MIXED: "mixed", PARTIAL: "partial",
           LOST_WORK: "with lost work", IN_DOUBT: "left in doubt", OPEN: "left open", UNTRUE: "untrue",
           TOUCHED: "foreign branches touched", UNREACHED: "not reached"}


def say(line: str) -> None:
    print(line, flush=True)


def columns(words: Sequence[str]) -> str:
    return "".join(f"{word:<{width}}" for word, width in zip(words, (*WIDTHS, 0))).rstrip()


def name_of(outcome: Outcome) -> str:
    return str(outcome.point) if outcome.point else WITHOUT


def row(outcome: Outcome) -> str:
    point = outcome.point
    result = ("ok" if outcome.verdict == ATOMIC else f"{outcome.verdict}: {outcome.why}"
              if outcome.verdict not in (MIXED,) else outcome.why)
    in_between = f"{outcome.in_between} in doubt" if outcome.in_between else "-"
    after = outcome.after if outcome.verdict != MIXED else MIXED
    return columns((str(point.site) if point else WITHOUT, point.action if point else "-", in_between, after,
                    f"{outcome.seconds:.1f} s", result))


def summary(outcomes: Sequence[Outcome], seconds: float) -> str:
    counts = Counter(outcome.verdict for outcome in outcomes)
    parts = [f"{counts[verdict]} {words}" for verdict, words in COUNTED.items() if counts[verdict]]
    return f"{len(outcomes)} points: {', '.join(parts)}; {seconds:.0f} s"


def command(words: Sequence[str], outcome: Outcome) -> str:
    """The command that repeats a point: that of the bench, without the options that choose points or write files."""
    kept, rest = [], iter(words)
    for word in rest:
        name, has_value, _ = word.partition("=")
        if name in ("--only", "--repeat", "--junit", "--tap", "--json", "--jobs"):
            if not has_value:
                next(rest)
        else:
            kept.append(word)
    return shlex.join([sys.argv[0], *kept, *(["--only", name_of(outcome)])])


def failures(outcomes: Sequence[Outcome], words: Sequence[str]) -> list[str]:
    lines = []
    for outcome in outcomes:
        if not outcome.is_right():
            lines += [f"{name_of(outcome)}: {outcome.verdict}, {outcome.why}", f"    {command(words, outcome)}"]
            if outcome.folder:
                lines.append(
                    f"    its records are in {outcome.folder}, and {story.PAGE} there opens it in the classroom")
    if lines and not any(outcome.folder for outcome in outcomes):
        lines.append(f"With --keep DIR such a command leaves the records in DIR, and {story.PAGE}, which opens the "
                     "point in the classroom.")
    return lines


def as_dictionary(outcome: Outcome) -> dict[str, object]:
    return {"point": str(outcome.point.site) if outcome.point else WITHOUT,
            "action": outcome.point.action if outcome.point else "-", "in_between": outcome.in_between,
            "after": outcome.after, "verdict": outcome.verdict, "why": outcome.why, "statuses": outcome.statuses,
            "seconds": round(outcome.seconds, 3)}


def write_json(path: Path, outcomes: Sequence[Outcome]) -> None:
    path.write_text(json.dumps({"points": [as_dictionary(it) for it in outcomes],
                                "right": all(it.is_right() for it in outcomes)}, indent=1) + "\n")


def write_junit(path: Path, outcomes: Sequence[Outcome], words: Sequence[str]) -> None:
    cases = []
    for it in outcomes:
        inner = ("" if it.verdict in (ATOMIC, TOLD) else "<skipped/>" if it.verdict == UNREACHED
                 else f"<failure message={quoteattr(f'{it.verdict}: {it.why}')}>"
                      f"{quoteattr(command(words, it))[1:-1]}</failure>")
        cases.append(f"  <testcase classname=\"bench\" name={quoteattr(name_of(it))} "
                     f"time=\"{it.seconds:.3f}\">{inner}</testcase>")
    wrong = sum(not it.is_right() for it in outcomes)
    skipped = sum(it.verdict == UNREACHED for it in outcomes)
    path.write_text("<?xml version=\"1.0\" encoding=\"UTF-8\"?>\n"
                    f"<testsuite name=\"bench\" tests=\"{len(outcomes)}\" failures=\"{wrong}\" skipped=\"{skipped}\">\n"
                    + "\n".join(cases) + "\n</testsuite>\n")


def write_tap(path: Path, outcomes: Sequence[Outcome]) -> None:
    lines = ["TAP version 13", f"1..{len(outcomes)}"]
    for number, it in enumerate(outcomes, 1):
        note = (" # SKIP not reached" if it.verdict == UNREACHED else "" if it.verdict in RIGHT
                else f" - {it.verdict}: {it.why}")
        lines.append(f"{'ok' if it.is_right() else 'not ok'} {number} - {name_of(it)}{note}")
    path.write_text("\n".join(lines) + "\n")
