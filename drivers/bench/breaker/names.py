"""Names of points, as `--only` takes them, and what is said of one that names none."""
import difflib
import re
from collections.abc import Iterable, Sequence

from .points import ALL_ACTIONS, REDO, REFUSALS, RUN, UNDO, Point, actions

WITHOUT = "without a fault"
ALONE = (*ALL_ACTIONS, "run", REDO.strip(), UNDO.strip(), WITHOUT)  # names that say no statement
NAME = re.compile(
    rf"(?:{REDO}|{UNDO})?store (?P<store>[1-9]\d*) (?P<kind>{'|'.join(REFUSALS)}) [1-9]\d*(?:, (?P<action>.*))?")
SHOWN = 3  # nearest names


def could_be(name: str, stores: int) -> bool:
    """Whether some manager has a point of this name, over so many stores."""
    it = NAME.fullmatch(name)
    if it is None or int(it["store"]) > stores:
        return name in ALONE
    return it["action"] in (None, *actions(it["kind"]))


def usual(stores: int) -> list[str]:
    """The names that most managers have."""
    sites = [(f"{phase}store {store} {kind} 1", kind)
             for phase in (RUN, REDO, UNDO) for store in range(1, stores + 1) for kind in REFUSALS]
    points = (f"{site}, {action}" for site, kind in sites for action in actions(kind))
    return [*ALONE, *(site for site, _ in sites), *points]


def unnamed(only: Sequence[str], points: Iterable[Point]) -> list[str]:
    """Those names that none of the points has."""
    all_points = list(points)
    return [name for name in only if name != WITHOUT and not any(point.is_wanted([name]) for point in all_points)]


def said_of(name: str, known: Iterable[str]) -> str:
    nearest = difflib.get_close_matches(name, list(dict.fromkeys(known)), SHOWN, 0.6)
    near = f"; the nearest: {', '.join(map(repr, nearest))}" if nearest else ""
    return f"no point is named '{name}'{near}. --list prints those of the run"
