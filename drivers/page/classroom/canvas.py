"""The rows of a sequence diagram: heads, lifelines, labels with their arrows, and frames. Each message has a row of its
own with its label above its arrow, so no label can lie over another."""
import math
from xml.sax.saxutils import escape

from .flow import Run, cut_lines, flow
from .lanes import CLIENT, COORDINATOR, FIRST_STORE, MANAGER
from .svg import element

# in heights of letters
LINE = 1.24
ARROW = 0.24        # from a label to its arrow
BELOW = 0.38        # from an arrow to the next label
ANSWER = 14         # for which a way is made wider
TEXT = 40           # of a label at most, in all its lines
MARGIN = 0.6        # at the right of labels
HEAD = 3.1
WHOLE = "whole"     # the act that shows all of a label that is cut
NAMES_OF = {MANAGER: ("Transaction manager", "Manager", "TM"), COORDINATOR: ("Coordinator", "Coord.", "C"),
            CLIENT: ("Other client", "Client", "Cl.")}


def head_width(name):
    """How wide a lifeline's name is, with the least that stands beside it in its frame."""
    return Run("term", name).width() + 0.2


def words(runs):
    """What runs say, as a text."""
    return " ".join("".join(piece for piece, _ in run.parts) for run in runs)


class Button:
    """What can be done at a place of the drawing in the page: an act, its numbers, and what it says it does."""

    def __init__(self, act, says, **numbers):
        self.act, self.says, self.numbers = act, says, numbers

    def around(self, *inside):
        data = {f"data_{name}": value for name, value in self.numbers.items()}
        return element("g", {"class_": f"button {self.act}", "role": "button", "tabindex": 0, "data_act": self.act,
                             "aria_label": self.says, "aria_expanded": "false" if self.act == WHOLE else None, **data},
                       element("title", {}, escape(self.says)), *inside)


class Canvas:
    """What a diagram is drawn with. Who draws on it sets the places and what was drawn so far."""

    # places

    def x(self, lifeline):
        return self.lanes.x(lifeline)

    def store(self, store):
        return FIRST_STORE + store if store is not None and self.lanes.has(FIRST_STORE + store) else None

    def hatching(self):
        size = round(self.size * 0.6, 1)
        return element("defs", {}, element(
            "pattern", {"id": "hatching", "width": size, "height": size, "patternUnits": "userSpaceOnUse",
                        "patternTransform": "rotate(45)"},
            element("rect", {"class_": "doubt-paper", "width": size, "height": size}),
            element("rect", {"class_": "doubt-stripe", "width": round(size * 0.45, 1), "height": size})))

    def heads(self):
        found, size = [], self.size
        for lifeline in self.lanes.order:
            x = self.x(lifeline)
            room = min(self.lanes.beside(lifeline, is_left) * (1 if self.is_end(lifeline, is_left) else 0.5)
                       for is_left in (True, False)) * 2 - 0.35 * size
            names = self.names(lifeline)
            name = next((name for name in names if head_width(name) * size <= room), names[-1])
            is_part = lifeline in map(self.store, self.participants) and 0.54 * size * 11 <= room
            part = "participant" if is_part else ""
            wide = min(room, max(head_width(name) * size, 0.54 * size * len(part)) + 0.6 * size)
            found.append(element(
                "g", {"class_": "lane-head", "data_lane": self.number_of(lifeline)},
                element("rect", {"class_": "head-box", "x": x - wide / 2, "y": 0.25 * size, "width": wide,
                                 "height": (HEAD - 0.6) * size, "rx": 0.3 * size}),
                element("text", {"class_": "head", "x": x, "y": (1.3 if part else 1.8) * size},
                        element("title", {}, escape(names[0])), escape(name)),
                *([element("text", {"class_": "role", "x": x, "y": 2.35 * size}, part)] if part else [])))
        return element(
            "g", {"class_": "heads"},
            element("rect", {"class_": "paper", "width": self.width, "height": (HEAD - 0.2) * size}), *found)

    def is_end(self, lifeline, is_left):
        return lifeline == self.lanes.order[0 if is_left else -1]

    def names(self, lifeline):
        if lifeline >= FIRST_STORE:
            return f"Store {lifeline - FIRST_STORE}", f"S{lifeline - FIRST_STORE}"
        if lifeline == MANAGER and self.manager:
            return self.manager, "Manager", "TM"
        return NAMES_OF[lifeline]

    def lifelines(self):
        top = (HEAD - 0.35) * self.size
        first = min((since for _, since, _ in self.lives), default=top)
        return [element("line", {"class_": "lifeline", "data_lane": self.number_of(lane), "x1": self.x(lane),
                                 "x2": self.x(lane), "y1": top if since == first else since, "y2": end})
                for lane, since, end in sorted(self.lives)]

    def number_of(self, lane):
        """A lifeline's number among those of all stores."""
        return lane % (self.stores + 3)

    # rows

    def lines(self, runs):
        return flow(runs, (self.width - self.gutter) / self.size - self.margin)

    def start(self, runs, left):
        """Where a row begins: at `left` where there is room, or else as far to the left as it must."""
        _, widest = self.lines(runs)
        return max(self.gutter, min(left, self.width - (self.margin + widest) * self.size))

    def row(self, runs, left, height=0.0):
        """A label at the current height, and where it ends below."""
        size, start = self.size, self.start(runs, left)
        for line in self.lines(runs)[0]:
            if line:
                last = line[-1]
                self.marks.append(element("rect",
                                          {"class_": "behind", "x": start - 0.15 * size, "y": self.y + 0.08 * size,
                                           "width": (last[0] + last[1].width()) * size + 0.3 * size,
                                           "height": LINE * size - 0.1 * size, "rx": 0.2 * size}))
            for at, run in line:
                text = element("text", {"class_": f"{run.kind} label", "x": start + at * size, "y": self.y + size},
                               run.inside())
                self.marks.append(run.button.around(text) if run.button and not self.is_file else text)
            self.y += LINE * size
        self.y += height * size

    def label(self, runs, left, way):
        """A message's label at the current height: never wider than its way, and cut where that takes many lines. In
        the page a label that is cut is a button that shows all of it; the buttons in it stay beside that."""
        size, top = self.size, self.y
        lines, _ = flow(runs, way)
        fitted = cut_lines(lines, max(2, math.ceil(TEXT / way)), way)
        marks, buttons = [], []
        for line in fitted:
            if not line:
                continue
            last = line[-1]
            marks.append(element("rect", {"class_": "behind", "x": left - 0.15 * size, "y": self.y + 0.08 * size,
                                          "width": (last[0] + last[1].width()) * size + 0.3 * size,
                                          "height": LINE * size - 0.1 * size, "rx": 0.2 * size}))
            for at, run in line:
                text = element("text", {"class_": f"{run.kind} label", "x": left + at * size, "y": self.y + size},
                               run.inside())
                if run.button and not self.is_file:
                    buttons.append(run.button.around(text))
                else:
                    marks.append(text)
            self.y += LINE * size
        if len(fitted) < len(lines) and not self.is_file:
            said = words(run for run in runs if not run.button)
            room = element("rect", {"class_": "room", "x": left, "y": top, "width": way * size, "height": self.y - top})
            marks = [Button(WHOLE, said, line=self.line).around(room, *marks)]
        self.marks += [*marks, *buttons]

    def message(self, sender, receiver, runs, kind, is_lost=False, more=(), says=""):
        """A row with its arrow, and more rows between the two; one that is lost ends in a cross before the receiver."""
        size, before = self.size, len(self.marks)
        self.begin_step(says)
        rows = [runs, *([line] for line in more)]
        ends = (sender, receiver)
        before_cross = 1.5 if is_lost and self.x(receiver) < self.x(sender) else 0.5
        left = min(map(self.x, ends)) + before_cross * size
        way = abs(self.x(sender) - self.x(receiver)) / size - 0.4 - before_cross
        for line in rows:
            self.want(ends, min(flow(line, math.inf)[1] + 1, ANSWER if kind.startswith("answer") else math.inf))
            self.label(line, left, max(way, 1))
        self.y += ARROW * size
        self.arrow(self.x(sender), self.x(receiver), kind, is_lost)
        made, self.marks = self.marks[before:], self.marks[:before]
        self.marks.append(element("g", {"class_": f"message {kind}", "data_from": self.number_of(sender),
                                        "data_to": self.number_of(receiver), "data_step": len(self.says)},
                                  element("title", {}, escape(words(run for line in rows for run in line))), *made))
        self.y += BELOW * size

    def arrow(self, start, end, kind, is_lost):
        size, way = self.size, 1 if end > start else -1
        if is_lost:
            end -= way * 0.9 * size
            self.cross(end, self.y, 0.42 * size, "cross")
        else:
            head = 0.6 * size
            self.marks.append(element(
                "path", {"class_": f"head-of {kind}",
                         "d": f"M{end:.1f} {self.y:.1f}l{-way * head:.1f} {-0.34 * size:.1f}v{0.68 * size:.1f}z"}))
        self.marks.append(element("line", {"class_": f"arrow {kind}{self.waiting}", "x1": start, "x2": end
                                           - (0 if is_lost else way * 0.3 * size), "y1": self.y, "y2": self.y}))

    def cross(self, x, y, reach, kind):
        self.marks.append(
            element("path", {"class_": kind, "d": f"M{x - reach:.1f} {y - reach:.1f}l{2 * reach:.1f} "
                             f"{2 * reach:.1f}m0 {-2 * reach:.1f}l{-2 * reach:.1f} {2 * reach:.1f}"}))

    def want(self, ends, wide):
        key = tuple(sorted(ends, key=self.lanes.order.index))
        self.wants[key] = max(self.wants.get(key, 0), wide)

    def begin_step(self, says):
        """A step ends above the next one's message."""
        if self.says:
            self.ends.append(self.y)
        self.says.append(says)

    def remark(self, text, kind="remark"):
        self.row([Run(kind, text)], self.gutter, 0.1)

    def note(self, lifeline, runs, most=math.inf):
        """What happens at a lifeline itself, in a frame over it, that takes so much room at most."""
        size = self.size
        room = min(most, (self.width - self.gutter) / size - self.margin - 1)
        lines, widest = flow(runs, room)
        wide, high = (widest + 0.9) * size, (LINE * len(lines) + 0.2) * size
        left = max(self.gutter, min(self.x(lifeline) - 0.7 * size, self.width - self.margin * size - wide))
        self.y += 0.15 * size
        self.marks.append(element("rect", {"class_": "note-box", "x": left, "y": self.y, "width": wide, "height": high,
                                           "rx": 0.25 * size}))
        self.y += 0.08 * size
        for line in lines:
            self.marks += [element("text", {"class_": f"{run.kind} label", "x": left + (0.45 + at) * size,
                                            "y": self.y + size}, run.inside()) for at, run in line]
            self.y += LINE * size
        self.y += 0.4 * size
