"""A store's rows in a frame beside its lifeline: what is committed, who has locked it, and what it will be; what a
message changed is marked."""
from xml.sax.saxutils import escape

from .flow import LETTER
from .svg import CUT, element, plain

LINE = 1.3          # in heights of letters, as all below
LOCK = 1.1          # the sign of a lock, with what stands beside it
PADDING = 0.35
AWAY = 0.75         # from the lifeline, beside the hatching
MOST = 4            # rows
SHORTEST = 3        # letters of a row that are seen at least


def value(data):
    return "none" if data is None else plain(data) or "''"


class Line:
    """A row as pieces of text, each with its kind."""

    def __init__(self, row, was, is_changed, signs):
        self.row, self.was, self.is_changed = row, was, is_changed
        self.lock = row.locks[-1] if row.locks else None
        self.holder = signs.of(self.lock.xid) if self.lock else None
        self.parts = [("key", plain(row.key))]
        if is_changed and was is not None and was.value != row.value:
            self.parts.append(("old", value(was.value)))
        self.parts.append(("value", value(row.value)))
        if self.lock and not self.lock.is_read:
            self.parts.append(("will", f"\N{RIGHTWARDS ARROW}{value(self.lock.will_be)}"))
        if self.holder:
            self.parts.append(("holder", self.holder))

    def text(self):
        return " ".join(text for _, text in self.parts)

    def wide(self):
        return LETTER * len(self.text()) + (LOCK if self.lock else 0)

    def fitted(self, room):
        """Its parts in lines so wide at most. A part that is wider alone is cut."""
        most = max(SHORTEST, int((room - (LOCK if self.lock else 0)) / LETTER))
        lines, left = [[]], most
        for kind, text in self.parts:
            if lines[-1] and len(text) > left:
                lines, left = [*lines, []], most
            lines[-1].append((kind, text if len(text) <= most else text[:most - 1] + CUT))
            left -= len(text) + 1
        return lines

    def said(self):
        how = ("" if not self.lock else f", read by {self.holder}, so others can't write it" if self.lock.is_read
               else f", locked by {self.holder}, whose commit makes it {value(self.lock.will_be)}")
        return f"{plain(self.row.key)}: {value(self.row.value)}{how}"


class Box:
    def __init__(self, change, signs, size):
        self.size = size
        lines = [Line(row, change.changed.get(key), key in change.changed, signs) for key, row in change.rows.items()]
        first = sorted(lines, key=lambda line: not line.is_changed)[:MOST]
        self.lines = [line for line in lines if line in first]
        self.more = len(lines) - len(self.lines)
        self.all = lines

    def wanted(self):
        return max(line.wide() for line in self.lines) + 2 * PADDING + AWAY

    def rows(self):
        """All rows as the page lists them."""
        return [{"key": plain(it.row.key), "value": None if it.row.value is None else value(it.row.value),
                 "was": None if it.was is None or it.was.value == it.row.value else value(it.was.value),
                 "will": value(it.lock.will_be) if it.lock and not it.lock.is_read else None,
                 "holder": it.holder, "reads": bool(it.lock and it.lock.is_read), "changed": it.is_changed}
                for it in self.all]


def put_box(box, x, y, room, is_left, step):
    """A box beside a lifeline, of this message of its call, and how high it is with what stands below it."""
    size = box.size
    room = max(SHORTEST * LETTER, room / size - AWAY - 2 * PADDING - 0.5)
    fitted = [(line, line.fitted(room)) for line in box.lines]
    wide = 2 * PADDING + max(LETTER * len(" ".join(text for _, text in parts)) + (LOCK if line.lock else 0)
                             for line, lines in fitted for parts in lines)
    high = LINE * (sum(len(lines) for _, lines in fitted) + (box.more > 0)) + 0.25
    left = x - (AWAY + wide) * size if is_left else x + AWAY * size
    inside = [element("title", {}, escape("\n".join(line.said() for line in box.all))),
              element("rect", {"class_": "rows-box", "x": left, "y": y, "width": wide * size, "height": high * size,
                               "rx": 0.25 * size})]
    top = y + 0.12 * size
    for line, lines in fitted:
        inside += put_line(line, lines, left, top, wide, size)
        top += len(lines) * LINE * size
    if box.more:
        inside.append(element("text", {"class_": "row more", "x": left + PADDING * size, "y": top + 0.95 * size},
                              f"+ {box.more}"))
    return element("g", {"class_": "rows", "data_step": step}, *inside), (high + 0.35) * size


def put_line(line, lines, left, top, wide, size):
    found, start = [], left + PADDING * size
    if line.is_changed:
        found.append(element("rect", {"class_": "changed", "x": left + 0.1 * size, "y": top, "width":
                                      (wide - 0.2) * size, "height": len(lines) * LINE * size, "rx": 0.2 * size}))
    if line.lock:
        found.append(lock_sign(start, top + 0.25 * size, size, line.lock.is_read))
        start += LOCK * size
    for at, parts in enumerate(lines):
        place = start
        for kind, text in parts:
            found.append(element("text", {"class_": f"row {kind}", "x": place, "y": top + (0.95 + at * LINE) * size},
                                 escape(text)))
            place += LETTER * size * (len(text) + 1)
    return found


def lock_sign(x, y, size, is_read):
    """A padlock; one for a reader is open."""
    wide, high, arch = 0.66 * size, 0.48 * size, 0.3 * size
    foot = 0.1 * size if is_read else 0
    bow = (f"M{x + 0.18 * wide:.1f} {y + arch - foot:.1f}v{-0.4 * arch:.1f}a{0.32 * wide:.1f} {0.7 * arch:.1f} 0 0 1 "
           f"{0.64 * wide:.1f} 0v{0.4 * arch + (0 if is_read else 0):.1f}")
    return element("g", {"class_": "lock shared" if is_read else "lock"},
                   element("path", {"class_": "bow", "d": bow}),
                   element("rect", {"x": x, "y": y + arch, "width": wide, "height": high, "rx": 0.1 * size}))
