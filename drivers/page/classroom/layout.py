"""Where everything in a picture stands: time goes down, and each session has a lane."""
import math
from typing import Optional

from .record_lines import BLANK, CALL, EVENTS, LOSS, REMARK, RETURN, ROW
from .svg import columns

LETTER = 7.9        # the width of a letter, in units of the picture
WORD_LETTER = 7     # of one in a remark
LINE = 18           # the height of a line of letters
HEAD = 64           # the verdict and the lanes' heads
EVENT = 24          # a call, a return or a loss
TICK = 14           # from an effect to the next between the same events
BAR = 20
BESIDE = 9          # from a bar to what is said beside it
FOOT = 72
NARROWEST = 560
TELEPHONE = 350     # the width of a picture for one
SIGNS = {CALL: b">", RETURN: b"<", LOSS: b"!"}
MOST_ROWS = 8       # of a list that are drawn
LETTERS = ((2, 34), (16, 20))  # where there are so many lanes at most, one has so many letters at most


class Layout:
    """Of the lines that are drawn, with the calls and effects among them. `notes` have what is said below a line, by
    its number: texts with their classes."""
    gutter = 56  # the numbers of the lines
    part: Optional[int] = 250  # where the head says which lines are drawn; where it has no room for that, the foot does

    def __init__(self, lines, calls, effects, notes):
        self.lines, self.effects, self.notes = lines, effects, notes
        self.sessions = sorted({line.session for line in lines if line.kind in EVENTS}
                               | {call.begin.session for call in calls} | {effect.session for effect in effects})
        self.carried = [call for call in calls if lines and call.begin.number < lines[0].number]
        self.losses = {line.session: line for line in lines if line.kind == LOSS}
        self.margin = 14 + LETTER * len(str(max((effect.number for effect in effects), default=0)))
        self.letters = self._letters(calls)
        self.lane = self._lane()
        self.width = self._width()
        self.top, self.ticks, self.rows_left = {}, {}, {}
        self.first = HEAD + (EVENT if self.carried else 0)
        self.bottom = self._place()

    def _letters(self, calls):
        most = next(letters for lanes, letters in LETTERS if len(self.sessions) <= lanes)
        said = ([columns(call.begin.text) for call in calls]
                + [columns(line.text) for line in self.lines if line.kind in (RETURN, ROW)])
        return min(most, max(said + [len("Session 16")]))

    def _lane(self):
        return self.margin + BAR + BESIDE + LETTER * self.letters + 10

    def _width(self):
        lanes = self.gutter + self.lane * len(self.sessions)
        widest = [LETTER * columns(text) for note in self.notes.values() for text, _ in note]
        beside = max((self.beside(line.session) for line in self.lines if line.number in self.notes and line.session),
                     default=self.gutter)
        return max(NARROWEST, lanes, beside + max(widest) + 40 if widest else 0)

    def _place(self):
        """Finds where each line and each effect stands, and gives where the last ends."""
        behind, below, waiting, rows = {}, self.first, [], 0
        for effect in self.effects:
            behind.setdefault(effect.behind, []).append(effect.number)
        for line in self.lines:
            if line.kind in EVENTS:
                below = self._put_ticks(waiting, below)
                waiting, rows = behind.get(line.number, []), 0
            rows += line.kind == ROW
            if line.kind == ROW and rows > MOST_ROWS:
                self.rows_left[line.number - rows + MOST_ROWS] = rows - MOST_ROWS
                continue
            self.top[line.number] = below
            below += self._height_of(line) + self._height_of_note(line.number)
        return self._put_ticks(waiting, below) + (TICK if waiting else 0)

    def _put_ticks(self, numbers, below):
        for at, number in enumerate(numbers):
            self.ticks[number] = below + TICK * at
        return below + TICK * max(0, len(numbers) - 1)

    def _height_of(self, line):
        if line.kind == BLANK:
            return 0
        if line.kind == REMARK:
            return LINE * len(self.wrapped(line.text, self.gutter))
        return EVENT if line.kind in EVENTS else LINE

    def _height_of_note(self, number):
        return LINE * len(self.notes[number]) + 18 if number in self.notes else 0

    def wrapped(self, text, left):
        """A remark from there on in lines of the picture's width."""
        most = int((self.width - left - 10) / WORD_LETTER)
        found = [b""]
        for word in text.split():
            if found[-1] and columns(found[-1]) + 1 + columns(word) > most:
                found.append(b"")
            found[-1] += (b" " if found[-1] else b"") + word
        return found

    def middle(self, number):
        return self.top[number] + EVENT / 2

    def bar(self, session):
        """The left edge of a session's bars."""
        return self.gutter + self.lane * self.sessions.index(session) + self.margin

    def beside(self, session):
        return self.bar(session) + BAR + BESIDE

    def note(self, line):
        """Where what is said below a marked line begins, and how many letters it has at most."""
        return self.beside(line.session) - 4 if line.kind in EVENTS else self.gutter, math.inf

    @staticmethod
    def head(session):
        return f"Session {session}"

    @staticmethod
    def said(line):
        """What is said beside a bar: its lane says whose it is."""
        return line.text


class Narrow(Layout):
    """The same for a telephone: the bars stand close together, and all that is said in one column beside them, as in
    the record."""
    gutter, part = 38, None

    def _letters(self, _):
        return max(LETTERS[-1][1] // 2, int((TELEPHONE - self.beside(None)) / LETTER))

    def _lane(self):
        return self.margin + BAR + 2

    def _width(self):
        return max(TELEPHONE, self.beside(None) + LETTER * self.letters)

    def beside(self, _):
        return self.gutter + self._lane() * len(self.sessions) + BESIDE

    def note(self, _):
        return self.gutter, int((self.width - self.gutter - 24) / LETTER)

    @staticmethod
    def head(session):
        return str(session)

    @staticmethod
    def said(line):
        sign = SIGNS[line.kind] if line.is_known else b"?"
        return b"%d %s %s" % (line.session, sign, line.text)
