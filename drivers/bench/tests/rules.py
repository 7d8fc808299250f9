"""At which points each wrong manager has to be found, and with which verdict: in words, and as a predicate.

Each rule follows from the manager's wrong line, from what the reference does at all other lines, and from what each
action does. None is taken from a table.

What the reference does: it votes in the order of the stores, and goes on with the next vote whatever the last one said.
It commits in the same order, with two tries at once. It gives a commit up if it is told 1397 and hadn't asked before,
or if both tries fail; then the branch is left to the recovery.
"""
from collections.abc import Callable
from dataclasses import dataclass

from breaker.points import (
    KILLED_AFTER, KILLED_BEFORE, KILLS, LOST, REDO, RESTARTED, ROLLED_BACK, RUN, UNANSWERED, UNDO, Point, Site, actions)

STORES = (1, 2)
START, PUT, END, PREPARE = "XA START", "PUT", "XA END", "XA PREPARE"
COMMIT, ROLLBACK, RECOVER, ONE_PHASE = "XA COMMIT", "XA ROLLBACK", "XA RECOVER", "ONE PHASE"
# of each phase and store the kinds of its statements; a kind that is named twice is sent twice
Sites = dict[str, dict[int, list[str]]]

WORKS = [START, PUT, END, PREPARE, COMMIT]
COMMITS_ONCE = {store: [RECOVER, COMMIT] for store in STORES}
ENDS_ONCE = {store: [RECOVER, ROLLBACK] for store in STORES}
# the statements of the reference
USUAL: Sites = {RUN: {store: WORKS for store in STORES}, REDO: COMMITS_ONCE, UNDO: ENDS_ONCE}
MIXED, IN_DOUBT, FOREIGN, LOST_WORK, TOLD = "MIXED", "IN DOUBT", "FOREIGN", "LOST WORK", "heuristic, told"


@dataclass(frozen=True)
class Rule:
    says: str
    is_found: Callable[[Point], bool]
    verdict: str = MIXED
    sites: Sites | None = None

    def points(self) -> list[Point]:
        """All points of the manager's table."""
        return [Point(site, action) for site in sites_of(self.sites or USUAL) for action in actions(site.kind)]

    def found(self) -> dict[str, str]:
        """The names of the points that aren't right, with their verdicts."""
        return {str(point): self.verdict for point in self.points() if self.is_found(point)}

    def part(self) -> list[str]:
        """A few points: of each statement at which it is found one where it is, and one where it isn't; and a point of
        another statement."""
        chosen: dict[tuple[Site, bool], str] = {}
        others: list[str] = []
        for point in self.points():
            chosen.setdefault((point.site, self.is_found(point)), str(point))
        wrong = {site for site, is_found in chosen if is_found}
        others = [name for (site, _), name in chosen.items() if site not in wrong]
        return [name for (site, _), name in chosen.items() if site in wrong] + others[:1]


def sites_of(sites: Sites) -> list[Site]:
    return [Site(phase, store, kind, kinds[:place + 1].count(kind), 0)
            for phase, stores in sites.items() for store, kinds in stores.items() for place, kind in enumerate(kinds)]


def is_at(point: Point, kind: str, store: int | None = None, phase: str = RUN) -> bool:
    """Whether it is at the first statement of this kind, in this store."""
    site = point.site
    return (site.phase, site.kind, site.nth) == (phase, kind, 1) and store in (None, site.store)


def is_refused(point: Point) -> bool:
    return point.action.startswith("refused ")


def splits(point: Point, kind: str = COMMIT) -> bool:
    """The manager is killed when the first store has committed, or done another such statement, and the second
    hasn't."""
    after_one, before_two = point.action == KILLED_AFTER, point.action == KILLED_BEFORE
    return is_at(point, kind, 1) and after_one or is_at(point, kind, 2) and before_two


def is_left(point: Point) -> bool:
    """The reference gives this commit up, and the branch stays prepared, while the other store commits."""
    return is_at(point, COMMIT) and point.action in ("refused 1397", RESTARTED)


def leaves_in_doubt(point: Point) -> bool:
    """The run ends with a branch that is prepared: it is killed after some vote and before the last commit, or a commit
    is given up."""
    second_vote = is_at(point, PREPARE, 2) and point.action in KILLS
    first_commit = is_at(point, COMMIT, 1) and point.action in KILLS
    return splits(point, PREPARE) or second_vote or first_commit or splits(point) or is_left(point)


def too_soon(point: Point) -> bool:
    """Of the manager that commits before all votes."""
    first = is_at(point, PREPARE, 1) and point.action not in KILLS
    second = is_at(point, PREPARE, 2)
    return first or second or splits(point) or is_left(point)


def unheard(point: Point) -> bool:
    """A vote that the manager doesn't hear, and whose branch isn't prepared."""
    return is_at(point, PREPARE) and point.action not in (*KILLS, UNANSWERED)


def one_phase(point: Point) -> bool:
    is_missed = point.action in (LOST, RESTARTED) or is_refused(point)
    return splits(point, ONE_PHASE) or is_at(point, ONE_PHASE) and is_missed


def without_decision(point: Point) -> bool:
    return splits(point) or is_left(point)


def nota(point: Point) -> bool:
    """In the run, and in the recovery that commits."""
    wrong = {1: UNANSWERED, 2: "refused 1397"}
    return any(is_at(point, COMMIT, store, phase) and point.action == wrong[store] for store in STORES
               for phase in (RUN, REDO))


LISTS = {store: [RECOVER] for store in STORES}
ONLY_FIRST = {1: [RECOVER, ROLLBACK], 2: [RECOVER]}  # where only the first store has a branch in doubt

RULES = {
    "commits-before-all-votes": Rule(
        "The first store commits before the second has voted, and the second votes and commits whatever the first "
        "said. So it is found if either vote isn't heard, or the manager is killed"
        "at the second; and, since it has no decision until both have committed, at a kill between the commits and at "
        "each commit that is given up. A run that is killed at the first vote"
        "commits nothing. Both commits are asked for once more after the decision, when nothing is left.",
        too_soon, sites={RUN: {store: [*WORKS, COMMIT] for store in STORES}, REDO: ONLY_FIRST, UNDO: ONLY_FIRST}),
    "never-decides": Rule(
        "The recovery finds no decision, and rolls back. So it is found if the recovery has a branch to end and the "
        "other store has committed: at a kill between the commits, and at each commit"
        "that is given up.",
        without_decision, sites={**USUAL, REDO: ENDS_ONCE}),
    "decides-late": Rule(
        "The decision is missing only while the commits are made. So it is found if the manager is killed between "
        "them.",
        splits, sites={**USUAL, REDO: ENDS_ONCE}),
    "goes-on-without-a-vote": Rule(
        "It commits if one store has voted yes. So it is found at each vote that isn't heard, if the branch isn't "
        "prepared; if only the answer was lost, it is, and commits with the other."
        "A run that is killed decides nothing.",
        unheard),
    "recovery-commits-all": Rule(
        "A branch without a decision is committed. So it is found if the manager is killed when one store is prepared "
        "and the other isn't.",
        lambda point: splits(point, PREPARE), sites={**USUAL, UNDO: COMMITS_ONCE}),
    "recovery-rolls-back-all": Rule(
        "A decided branch is rolled back. So it is found where one without a decision is, as the manager that never "
        "decides.",
        without_decision, sites={**USUAL, REDO: ENDS_ONCE}),
    "nota-is-a-failure": Rule(
        "1397 at a commit has it roll back the branches that are left. So it is found if one has committed by then "
        "and another is left: the first commit's answer is lost, and the second try is told 1397;"
        "or the second is refused with 1397. The same in a recovery that commits. If the first is refused with 1397, "
        "both are rolled back.",
        nota),
    "one-phase": Rule(
        "Each store commits by itself. So it is found if one doesn't get its commit, or is told no, and the manager "
        "goes on with the other; and at a kill between the two. If only an answer is lost, both have committed.",
        one_phase, sites={RUN: {store: [START, PUT, END, ONE_PHASE, COMMIT] for store in STORES}, REDO: LISTS}),
    "first-page": Rule(
        "It doesn't see a branch that comes after the two of another manager. So it is found at each point that "
        "leaves a branch in doubt, and at each point of a recovery that has something to do.",
        lambda point: point.site.phase != RUN or leaves_in_doubt(point), IN_DOUBT, {**USUAL, REDO: LISTS, UNDO: LISTS}),
    "foreign": Rule(
        "Its recovery rolls back what another manager has prepared, and each point has a recovery.",
        lambda _: True, FOREIGN,
        {**USUAL, REDO: {store: [RECOVER, ROLLBACK, ROLLBACK, COMMIT] for store in STORES},
         UNDO: {store: [RECOVER, ROLLBACK, ROLLBACK, ROLLBACK] for store in STORES}}),
    "drops-a-refused-row": Rule(
        "It goes on without a row that a store refused, and commits. A connection that is cut at this row fails at "
        "the next statement. So it is found at each refused PUT.",
        lambda point: is_at(point, PUT) and is_refused(point), LOST_WORK),
}


def told(points: list[Point]) -> set[str]:
    """Where a right manager has to say that somebody else rolled a branch back."""
    return {str(point) for point in points if point.action == ROLLED_BACK}
