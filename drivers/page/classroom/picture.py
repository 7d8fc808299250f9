"""Draws a record and its verdict as SVG: a lane for each session, a bar from each call to its return, and a stroke
where an order puts its effect."""
from pathlib import Path
from xml.sax.saxutils import escape

from .calls import calls_of, effects_of
from .labels import Labels
from .layout import BAR, EVENT, FOOT, HEAD, LINE, Layout, Narrow
from .record_lines import EVENTS, GONE, LOSS, lines_of, read_lines
from .svg import element, plain
from .verdict import read_verdict

STYLE = (Path(__file__).resolve().parent.parent / "static/css/picture.css").read_text(encoding="utf-8")
MOST_LINES = 400    # that are drawn where none are named
BEFORE_MARK = 300   # of these, before a line that is marked
MOST_ANSWERS = 12   # lines of what could have been answered
CORNER, LEFT = 5, 12
READING = "A bar reaches from a call to its return."
ORDER = "Numbered strokes: an order of the effects that explains"


def before_mark(lines, mark):
    """The lines before the one at which a record is ILLEGAL, and those behind it by which a session's connection was
    found closed that never returned since: it may have ended before."""
    above, below = lines[:mark - 1], lines[mark - 1:]
    here = {line.session for line in below if line.kind in EVENTS and line.kind != LOSS}
    return above + [line for line in below if line.kind == LOSS and line.text == GONE and line.session not in here]


def picture(record, judged, judge, chosen=None, is_narrow=False):
    """The picture of a record of which this was judged, or none where that is no verdict. `judge` judges a record: an
    ILLEGAL one's lines before its mark are explained by an order of their own. `chosen` are the first and the last line
    that are drawn."""
    verdict = read_verdict(judged)
    if verdict.kind is None:
        return None
    lines = read_lines(record, verdict.faults)
    explained, order = lines, verdict.order
    if verdict.kind == "ILLEGAL":
        explained, texts = before_mark(lines, verdict.line), lines_of(record)
        order = read_verdict(judge(b"".join(texts[line.number - 1] + b"\n" for line in explained))).order
    effects = effects_of(order, explained)
    return Picture(lines, verdict, effects, chosen or cut(lines, verdict), Narrow if is_narrow else Layout).text()


def cut(lines, verdict):
    """The first and the last line that are drawn of a long record: with its mark, or else from its beginning."""
    marked = verdict.line or min(verdict.faults, default=1)
    first = max(1, min(marked - BEFORE_MARK, len(lines) - MOST_LINES + 1))
    return first, min(len(lines), first + MOST_LINES - 1)


def notes_of(verdict):
    """What is said below the marked lines: texts with their classes."""
    if verdict.kind == "ILLEGAL":
        answers = [line for answer in verdict.could for line in lines_of(b"COULD BE " + answer.replace(b"\n", b"\n  "))]
        more = [(b"and %d lines more" % (len(answers) - MOST_ANSWERS), "hint")] if len(answers) > MOST_ANSWERS else []
        return {verdict.line: [(b"ILLEGAL at line %d" % verdict.line, "said illegal"),
                               *((line, "text could") for line in answers[:MOST_ANSWERS]), *more]}
    if verdict.kind == "UNDECIDED":
        return {verdict.line: [(b"UNDECIDED at line %d" % verdict.line, "said undecided")]}
    return {number: [(cause, "said faulty")] for number, cause in verdict.faults.items()}


class Picture:
    def __init__(self, lines, verdict, effects, chosen, layout):
        first, last = min(chosen[0], max(1, len(lines))), min(chosen[1], len(lines))
        self.verdict, self.all = verdict, len(lines)
        self.first, self.last = first, last
        self.mark = verdict.line
        drawn = lines[first - 1:last]
        numbers = {line.number for line in drawn}
        self.effects = [effect for effect in effects if effect.behind in numbers]
        self.strokes = {effect.call.begin.number: effect.number for effect in self.effects if effect.call}
        self.calls = [call for call in calls_of(lines)
                      if call.begin.number <= last
                      and (call.end is None or call.end.number >= first or call.begin.number in self.strokes)]
        notes = {number: note for number, note in notes_of(verdict).items() if number in numbers}
        self.layout = layout(drawn, self.calls, self.effects, notes)
        self.labels = Labels(self.layout, self.mark)

    def text(self):
        foot = self._foot()
        width, height = round(self.layout.width), round(self.layout.bottom + max(FOOT, EVENT + LINE * len(foot)))
        inside = [
            element("title", {}, escape(self._heading())), element("style", {}, escape(STYLE)),
            element("rect", {"class_": "paper", "width": width, "height": height}),
            *self._heads(), *map(self._guide, self.layout.sessions), *map(self._bar, self.calls),
            *self.labels.all(self.calls), *map(self._tick, self.effects), *foot]
        return element("svg", {"xmlns": "http://www.w3.org/2000/svg", "class_": "lanes-picture", "width": width,
                               "height": height, "viewBox": f"0 0 {width} {height}", "role": "img"}, "\n",
                       "\n".join(inside), "\n") + "\n"

    def _heading(self):
        if self.verdict.kind == "FAULTY":
            return "Faulty lines"
        return self.verdict.kind + (f" at line {self.mark}" if self.mark else "")

    def _heads(self):
        found = [element("text", {"class_": f"verdict {self.verdict.kind.lower()}", "x": LEFT, "y": 26},
                         self._heading())]
        if self.layout.part is not None:
            found += [element("text", {"class_": "hint", "x": self.layout.part, "y": 26}, said)
                      for said in self._part()]
        return found + [element("text", {"class_": f"session s{session}", "x": self.layout.bar(session), "y": 52},
                                self.layout.head(session)) for session in self.layout.sessions]

    def _part(self):
        """Which lines are drawn, where that isn't all."""
        return ([f"lines {self.first:,} to {self.last:,} of {self.all:,}"]
                if self.last - self.first + 1 < self.all else [])

    def _guide(self, session):
        """The line of a lane, up to where its client is lost."""
        middle, loss = self.layout.bar(session) + BAR / 2, self.layout.losses.get(session)
        end = self.layout.middle(loss.number) if loss else self.layout.bottom
        return element("line", {"class_": f"guide s{session}", "x1": middle, "x2": middle, "y1": HEAD - 6, "y2": end})

    def _bar(self, call):
        layout, session = self.layout, call.begin.session
        top, known, bottom = self._reach(call)
        parts = [self._piece(session, "bar", top, known)]
        if bottom > known:
            parts.append(self._piece(session, "bar open", known, bottom))
        parts.append(element("text", {"class_": "who", "x": layout.bar(session) + BAR / 2, "y": top + 13},
                             str(session)))
        said = f"Session {session}, line {call.begin.number}: {plain(call.begin.text)}"
        if call.end is not None:
            said += f"; line {call.end.number}: {plain(call.end.text)}"
        unjudged = " unjudged" if self.mark is not None and call.begin.number > self.mark else ""
        return element("g", {"class_": f"call s{session}{unjudged}", "data_line": call.begin.number},
                       element("title", {}, escape(said)), *parts)

    def _reach(self, call):
        """Where a bar begins, up to where its call is known to be open, and where it ends."""
        layout = self.layout
        top = HEAD if call in layout.carried else layout.middle(call.begin.number) - 9
        if call.end is None or call.end.number < self.first:
            known = top + 18
        elif call.end.number > self.last:
            known = layout.bottom
        else:
            known = layout.middle(call.end.number) + (9 if call.is_answered() else 0)
        stroke = layout.ticks.get(self.strokes.get(call.begin.number), top) + 8
        return top, known, max(known, stroke, layout.bottom if call.end is None else known)

    def _piece(self, session, kind, top, bottom):
        return element("rect", {"class_": kind, "x": self.layout.bar(session), "y": top, "width": BAR,
                                "height": bottom - top, "rx": CORNER})

    def _tick(self, effect):
        layout, y = self.layout, self.layout.ticks[effect.number]
        left = layout.bar(effect.session)
        parts = [element("line", {"class_": "tick", "x1": left - 5, "x2": left + BAR + 5, "y1": y, "y2": y}),
                 element("text", {"class_": "nth halo", "x": left - 8, "y": y + 4}, str(effect.number))]
        if effect.call is None:
            parts.append(element("text", {"class_": "remark halo", "x": layout.beside(effect.session), "y": y + 4},
                                 "DISCONNECT"))
        return element("g", {"class_": "effect", "data_nth": effect.number,
                             "data_line": effect.call.begin.number if effect.call else None}, *parts)

    def _foot(self):
        said = [*(self._part() if self.layout.part is None else []), READING]
        if self.effects:
            said.append(f"{ORDER} {f'all above line {self.mark}' if self.mark else 'all'}.")
        if self.mark is not None and any(line.number > self.mark and line.kind in EVENTS for line in self.layout.lines):
            said.append("What is pale comes later, and wasn't judged.")
        y = self.layout.bottom + EVENT
        lines = [line.decode() for text in said for line in self.layout.wrapped(text.encode(), LEFT)]
        return [element("text", {"class_": "hint", "x": LEFT, "y": y + LINE * at}, text)
                for at, text in enumerate(lines)]
