"""The calls of a record, and where an order puts their effects."""
import re
from collections import Counter
from dataclasses import dataclass
from typing import Optional

from .record_lines import CALL, EVENTS, GONE, LOSS, RETURN, Line

DISCONNECT = re.compile(rb"DISCONNECT[ \t\r]*;?", re.I)
PIECE = re.compile(
    rb"""[xX]'([0-9a-fA-F]*)'|0x([0-9a-fA-F]*)|'((?:[^'\\]|\\.|'')*)'|"((?:[^"\\]|\\.|"")*)"|([A-Za-z]+)""", re.S)


@dataclass
class Call:
    begin: Line
    end: Optional[Line] = None  # its return, or its client's loss

    def is_answered(self):
        return self.end is not None and self.end.kind == RETURN

    def may_have_no_effect(self):
        return self.end is None or self.end.kind == LOSS or not self.end.is_known


@dataclass
class Effect:
    number: int           # in the order, from 1
    session: int
    call: Optional[Call]  # none for the DISCONNECT of a client that is lost
    behind: int = 0       # the number of the last line of an event before it


def calls_of(lines):
    found, opened = [], {}
    for line in lines:
        if line.kind == CALL:
            opened[line.session] = Call(line)
            found.append(opened[line.session])
        elif line.kind in (RETURN, LOSS) and line.session in opened:
            opened.pop(line.session).end = line
    return found


def losses_of(lines):
    """For each session that is lost, from which line on it may be: that of the loss, or of its last return where its
    connection was found closed. 0 is before all lines."""
    returns, found = {}, {}
    for line in lines:
        if line.kind == RETURN:
            returns[line.session] = line.number
        elif line.kind == LOSS:
            found[line.session] = returns.get(line.session, 0) if line.text == GONE else line.number
    return found


def effects_of(order, lines):
    """The effects of an order, each as late as the lines and the order allow; none where the order isn't one of these
    calls."""
    waiting, losses = {}, losses_of(lines)
    for call in calls_of(lines):
        waiting.setdefault(call.begin.session, []).append(call)
    effects, left = [], Counter(session for session, _ in order)
    for number, (session, text) in enumerate(order, 1):
        call = next_call(waiting.get(session, []), text, left[session])
        left[session] -= 1
        if call is None and session not in losses:
            return []
        effects.append(Effect(number, session, call))
    return effects if put_late(effects, lines, losses) else []


def pieces(text):
    """The words and the texts of a statement; empty texts, which may be left out, don't count."""
    found = []
    for digits, more, single, double, word in PIECE.findall(text):
        quoted = re.sub(rb"\\(.)|''|\"\"", lambda it: it[1] or it[0][:1], single or double)
        found.append(word.upper().replace(b"BEGIN", b"START") or bytes.fromhex((digits or more).decode()) or quoted)
    return [piece for piece in found if piece]


def next_call(calls, text, left):
    """The call of a session that has this effect: the first that waits, unless the effect is that the lost client's
    session ends. One whose answer isn't known may have had none: it is passed over where the effect is another
    statement's, or the session's `left` effects are those of other calls."""
    while calls and calls[0].is_answered() and calls[0].may_have_no_effect() and (
            pieces(calls[0].begin.text) != pieces(text)
            or left <= sum(not call.may_have_no_effect() for call in calls)):
        calls.pop(0)
    if not calls:
        return None
    ends = DISCONNECT.fullmatch(text) and not DISCONNECT.fullmatch(calls[0].begin.text)
    return None if ends and not calls[0].is_answered() else calls.pop(0)


def put_late(effects, lines, losses):
    """Puts each effect behind an event of its own call, or of the loss; says whether all have a place."""
    events = [line.number for line in lines if line.kind in EVENTS]
    place = {number: at for at, number in enumerate(events)}
    latest = len(events) - 1
    for effect in reversed(effects):
        begin = effect.call.begin.number if effect.call else losses[effect.session]
        if effect.call and effect.call.is_answered():
            latest = min(latest, place[effect.call.end.number] - 1)
        if latest < place.get(begin, 0):
            return False
        effect.behind = events[latest]
    return True
