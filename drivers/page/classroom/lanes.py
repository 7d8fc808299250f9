"""Where the lifelines of a sequence diagram stand: only of those that take part, each as far from the next as the
labels between them need, as far as there is room."""
from .exchanges import COORDINATOR as CALL
from .exchanges import CRASH, EVENT, STRANGER, WORK

MANAGER, COORDINATOR, FIRST_STORE, CLIENT = 0, 1, 2, -1
# in heights of letters
LEAST = 6.2        # between two lifelines
EDGE = 2.7         # beside the first and the last
HEADED = 6.6       # beside the first, where there is room
MOST = 25          # that a label's way is made wider for it
BOXED = 16         # and a gap for a box
PARTED = 9         # which a box keeps where labels have to take more lines


def taking_part(found, stores, manager):
    """The lifelines from left to right. `manager` is whether a manager is shown that has no coordinator."""
    used = {store for it in found for store, _ in it.groups if not it.only_asked(store)}
    used |= {it.store for it in found if it.kind in (WORK, STRANGER, EVENT) and it.store is not None}
    asks = any(it.kind in (WORK, CALL, CRASH) for it in found)
    others = any(it.kind == STRANGER and not it.is_managers for it in found)
    front = [MANAGER] if manager and not asks else [MANAGER, COORDINATOR] if asks or not others else []
    return [*front, *(FIRST_STORE + store for store in sorted(used) if store < stores), *([CLIENT] if others else [])]


class Lanes:
    """The places of lifelines in a drawing so wide. `wants` has for two lifelines how wide the widest label between
    them is, and under `None` how wide the widest box beside a lifeline."""

    def __init__(self, order, left, width, size, wants):
        self.order, self.size = order, size
        room = (width - left) / size
        boxes = self._boxes(wants)
        gaps, edges = self._wanted(wants, boxes)
        # where there isn't room for all, labels take more lines, and then boxes lie over other lifelines
        narrow = ([max(LEAST, min(gap, boxes.get(at, 0), PARTED)) for at, gap in enumerate(gaps)],
                  [EDGE, max(EDGE, min(boxes.get(len(gaps), 0), PARTED))])
        least = [LEAST] * len(gaps), [EDGE] * 2
        for small, large in ((narrow, (gaps, edges)), (least, narrow), (([0] * len(gaps), [0] * 2), least)):
            few, many = sum(map(sum, small)), sum(map(sum, large))
            if few <= room <= many:
                share = (room - few) / (many - few)
                gaps, edges = ([one + (other - one) * share for one, other in zip(*parts)]
                               for parts in zip(small, large))
                break
        else:
            more = (room - sum(gaps) - sum(edges)) / (len(gaps) + 1)
            gaps, edges = [gap + more for gap in gaps], [edge + more / 2 for edge in edges]
        at, self._x = edges[0], {}
        for lane, gap in zip(order, [*gaps, 0]):
            self._x[lane] = left + at * size
            at += gap
        self._ends = left, width

    def _boxes(self, wants):
        """By its gap, how wide the widest box is that stands in it; the last is the room behind all lifelines."""
        found = {}
        for (lane, side), wide in wants.items():
            gap = self._gap(side) if lane is None else None
            if gap is not None:
                found[gap] = max(found.get(gap, 0), min(wide, BOXED))
        return found

    def _wanted(self, wants, boxes):
        """How wide gaps and edges have to be: first for neighbours, then what is missing evenly for others."""
        gaps = [max(LEAST, boxes.get(at, 0)) for at in range(len(self.order) - 1)]
        ways = sorted((sorted((self.order.index(one), self.order.index(other))), wide)
                      for (one, other), wide in wants.items() if one in self.order and other in self.order)
        for (first, last), wide in sorted(ways, key=lambda way: way[0][1] - way[0][0]):
            lack = min(wide, MOST) - sum(gaps[first:last])
            for at in range(first, last):
                gaps[at] += max(0, lack) / (last - first)
        return gaps, [HEADED, max(EDGE, boxes.get(len(gaps), 0))]

    def _gap(self, side):
        """The gap of a box: it stands right of its lane, or left of it where the side says so."""
        lane, is_left = side
        return self.order.index(lane) - is_left if lane in self.order else None

    def x(self, lane):
        return self._x[lane]

    def has(self, lane):
        return lane in self._x

    def to_end(self, lane, is_left=False):
        """How far it is from a lifeline to the drawing's end at this side."""
        return abs(self._ends[not is_left] - self._x[lane])

    def beside(self, lane, is_left=False):
        """How far it is from a lifeline to the next one at this side, or to the drawing's end."""
        at = self.order.index(lane) + (-1 if is_left else 1)
        there = self._x[self.order[at]] if 0 <= at < len(self.order) else self._ends[not is_left]
        return abs(there - self._x[lane])
