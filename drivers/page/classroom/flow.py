"""Labels of a sequence diagram: runs of words that are put in lines, none wider than there is room."""
from xml.sax.saxutils import escape

from .svg import CUT, element, pieces, width_of

LETTER = 0.605      # the width of a letter of one width, in letters' heights
GAP = 0.55          # between two runs
SIGN = "cut-sign"   # the kind of a run that stays with the word behind it
# The widths of letters in the type of terms and of remarks: those of DejaVu Sans, which other faces don't pass.
NARROW = {**dict.fromkeys(" ijl.,:;'|", 0.34), **dict.fromkeys("frt()[]-", 0.45), **dict.fromkeys("csz?", 0.56),
          **dict.fromkeys("mwMW", 0.99), **dict.fromkeys("ABCEFKLPRSTVXYZ", 0.7), **dict.fromkeys("DGHNOQU", 0.79)}
BOLD = {char: wide * 1.12 for char, wide in NARROW.items()}
KINDS = {"term": (BOLD, 0.72), "remark": (NARROW, 0.645), "reason": (NARROW, 0.645), "note": (NARROW, 0.645)}


def wide(kind, piece):
    """The width of a piece in this type, at most."""
    letters, other = KINDS.get(kind.split(" ", 1)[0], ({}, LETTER))
    return letters.get(piece, other * width_of(piece))


class Run:
    """Words of one kind that stand together."""

    def __init__(self, kind, text, button=None):
        self.kind, self.button = kind, button
        self.parts = list(pieces(text if isinstance(text, bytes) else text.encode()))

    def of(self, parts):
        made = Run.__new__(Run)
        made.kind, made.button, made.parts = self.kind, self.button, parts
        return made

    def width(self):
        return sum(wide(self.kind, piece) for piece, _ in self.parts)

    def cut(self, most):
        """As much of it as there is room for, at least a letter, and the rest."""
        taken, count = 0.0, 0
        for piece, _ in self.parts:
            taken += wide(self.kind, piece)
            if count and taken > most + 0.001:
                break
            count += 1
        return self.of(self.parts[:count]), self.of(self.parts[count:])

    def words(self):
        """Its words, each with the blank behind it."""
        found, word = [], []
        for part in self.parts:
            word.append(part)
            if part[0] == " ":
                found.append(self.of(word))
                word = []
        return [*found, *([self.of(word)] if word else [])]

    def inside(self):
        return "".join(escape(piece) if seen else element("tspan", {"class_": "byte"}, escape(piece))
                       for piece, seen in self.parts)


def cut_lines(lines, most, room):
    """So many lines at most; where there are more, the last that stays ends in a sign that it was cut."""
    if len(lines) <= most:
        return lines
    *kept, last = lines[:most]
    at, run = last[-1]
    sign = wide(run.kind, CUT)
    fits = run.parts
    while len(fits) > 1 and at + sum(wide(run.kind, piece) for piece, _ in fits) + sign > room:
        fits = fits[:-1]
    return [*kept, [*last[:-1], (at, run.of([*fits, (CUT, True)]))]]


def beside_sign(run, room):
    """How much of a run stays with the sign before it: all if there is room for it, else its first word."""
    whole = GAP + run.width()
    return whole if whole <= room else GAP + run.words()[0].width()


def flow(runs, room):
    """Lines of pairs, where each run begins and the run; and how wide the widest line is. A run moves to a new line
    before it is parted at blanks, and then anywhere."""
    lines, at, is_behind_sign = [[]], 0.0, False
    for run, following in zip(runs, [*runs[1:], None]):
        whole = run.width()
        needed = whole + (beside_sign(following, room - whole) if run.kind == SIGN and following else 0)
        if lines[-1] and at + needed > room >= needed and not is_behind_sign:
            lines, at = [*lines, []], 0.0
        is_behind_sign = run.kind == SIGN
        for piece in [run] if at + whole <= room else run.words():
            while piece.parts:
                if lines[-1] and at + piece.width() > room:
                    lines.append([])
                    at = 0.0
                fits, piece = piece.cut(max(room - at, 1))
                last = lines[-1][-1] if lines[-1] else None
                if last and last[2] is run:
                    last[1].parts += fits.parts
                else:
                    lines[-1].append((at, run.of(list(fits.parts)), run))
                at += fits.width()
        at += GAP
    widest = max((at + run.width() for line in lines for at, run, _ in line[-1:]), default=0.0)
    return [[(at, run) for at, run, _ in line] for line in lines], widest
