"""What is written in a picture: the lines' numbers, statements, answers, remarks, and what is said below a marked
line."""

from .layout import BAR, EVENT, HEAD, LETTER, LINE
from .record_lines import BLANK, CALL, EVENTS, LOSS, REMARK, RETURN, ROW
from .svg import columns, element, shown

BASE = 16.5  # from the top of an event to the foot of its letters


class Labels:
    def __init__(self, layout, mark):
        self.layout, self.mark = layout, mark
        self.session = None  # of the list whose rows come, where its return is drawn

    def all(self, calls):
        """Every line's, and then those notes that lie over others."""
        found = [self._carried(call) for call in self.layout.carried]
        notes = []
        for line in self.layout.lines:
            if line.kind in EVENTS:
                self.session = line.session
            if line.number in self.layout.top and line.kind != BLANK:
                found.append(self._line(line))
                if line.number in self.layout.notes:
                    notes.append(self._note(line))
        return found + notes

    def _line(self, line):
        unjudged = " unjudged" if self.mark is not None and line.number > self.mark else ""
        number = element("text", {"class_": "line-number", "x": self.layout.gutter - 14,
                                  "y": self.layout.top[line.number] + self._foot(line)}, str(line.number))
        draw = {CALL: self._call, RETURN: self._return, LOSS: self._loss, ROW: self._row,
                REMARK: self._remark}.get(line.kind, self._other)
        return element("g", {"class_": f"line{unjudged}", "data_line": line.number}, number, *draw(line))

    @staticmethod
    def _foot(line):
        return BASE if line.kind in EVENTS else 13

    def _beside(self, kind, session, y, text):
        return element("text", {"class_": kind, "x": self.layout.beside(session), "y": y},
                       shown(text, self.layout.letters))

    def _event(self, kind, line, y):
        return self._beside(kind, line.session, y, self.layout.said(line))

    def _carried(self, call):
        return self._event("statement halo", call.begin, HEAD + BASE)

    def _call(self, line):
        return [self._event("statement halo", line, self.layout.top[line.number] + BASE)]

    def _return(self, line):
        kind = "reply refused halo" if line.text.startswith(b"ERROR") else "reply halo"
        return [*self._mark(line), self._event(kind, line, self.layout.top[line.number] + BASE)]

    def _loss(self, line):
        x, y = self.layout.bar(line.session) + BAR / 2, self.layout.middle(line.number)
        cross = element("path", {"class_": "cross", "d": f"M{x - 7} {y - 7}l14 14m0 -14l-14 14"})
        return [cross, self._event("reply refused halo", line, y + 4.5)]

    def _row(self, line):
        text, y = line.text, self.layout.top[line.number] + 13
        left = self.layout.rows_left.get(line.number)
        if self.session is None:
            return self._other(line)
        found = [self._beside("reply halo", self.session, y, text)]
        if left is not None:
            beside = self.layout.beside(self.session) + LETTER * min(columns(text), self.layout.letters) + 10
            found.append(element("text", {"class_": "hint halo", "x": beside, "y": y}, f"+ {left:,}"))
        return found

    def _remark(self, line):
        return [element("text", {"class_": "remark halo", "x": self.layout.gutter,
                                 "y": self.layout.top[line.number] + 13 + LINE * at}, shown(part, columns(part)))
                for at, part in enumerate(self.layout.wrapped(line.text, self.layout.gutter))]

    def _other(self, line):
        most = int((self.layout.width - self.layout.gutter) / LETTER) - 2
        place = {"x": self.layout.gutter, "y": self.layout.top[line.number] + 13}
        return [element("text", {"class_": "text halo", **place}, shown(line.text, most))]

    def _mark(self, line):
        """The frame of a marked return."""
        if line.number not in self.layout.notes:
            return []
        layout, left, top = self.layout, self.layout.bar(line.session) - 6, self.layout.top[line.number]
        width = layout.beside(line.session) - left + LETTER * min(layout.letters, columns(layout.said(line))) + 9
        return [element("rect", {"class_": "mark" + self._undecided(line), "x": left, "y": top + 1, "width": width,
                                 "height": EVENT - 2, "rx": 5})]

    def _undecided(self, line):
        return " undecided" if "undecided" in self.layout.notes[line.number][0][1] else ""

    def _note(self, line):
        """What is said below a marked line, on a paper of its own, which hides no event."""
        layout, texts = self.layout, self.layout.notes[line.number]
        left, most = layout.note(line)
        top = layout.top[line.number] + (EVENT if line.kind in EVENTS else LINE) + 4
        width = 20 + LETTER * min(most, max(columns(text) for text, _ in texts))
        paper = element("rect", {"class_": "note" + self._undecided(line), "x": left, "y": top, "width": width,
                                 "height": LINE * len(texts) + 8, "rx": 5})
        return element("g", {"class_": "marked", "data_line": line.number}, paper, *(
            element("text", {"class_": kind, "x": left + 10, "y": top + 17 + LINE * at}, shown(text, most))
            for at, (text, kind) in enumerate(texts)))
