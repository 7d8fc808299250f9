"""Draws the calls of a coordinator as a sequence diagram: a lifeline for the transaction manager, the coordinator, each
store that takes part and the other client, and time goes down."""
import re
from pathlib import Path
from xml.sax.saxutils import escape

from . import narration
from .boxes import Box, put_box
from .canvas import HEAD, LINE, MARGIN, Button, Canvas
from .exchanges import CAPTIONS, CRASH, EVENT, NAMES, REMARK, STRANGER, branch_name, transaction_of
from .flow import Run, flow
from .lanes import CLIENT, COORDINATOR, FIRST_STORE, MANAGER, Lanes, taking_part
from .record_lines import lines_of
from .signs import Signs, digits
from .svg import element, plain

STYLE = (Path(__file__).resolve().parent.parent / "static/css/sequence.css").read_text(encoding="utf-8")
MOST_CALLS = 400
# words of the textbook that are shorter where there is no room for them
SHORT = {"acknowledgement": "ack", "heuristic outcome": "heuristic"}
LISTED = re.compile(rb"(\d+) (\d+) (\d+) (.*)", re.S)  # a row of XA RECOVER as its bytes are
PREPARES, ENDS = (b"XA PREPARE",), (b"XA COMMIT", b"XA ROLLBACK")
GOOD = ("atomic", "heuristic, told")  # verdicts of a manager that is right
BEFORE = 300        # of these, before the cursor
LEGEND = [
    ("coordinator", "asks the participants to vote, and tells each how the transaction ends"),
    ("participant", "a store that got work of the transaction, and has a branch of it"),
    ("vote", "a participant's answer to prepare: yes, once it is prepared, or no"),
    ("decision", "the record that the transaction commits. From here on it does, whoever crashes"),
    ("in doubt", "hatched: prepared, and not finished. The participant can't know how it ends, and keeps its locks"),
    ("presumed abort", "where no decision was recorded, recovery rolls back"),
    ("heuristic outcome", "somebody else finished a branch that was in doubt, so stores may differ"),
]
# in heights of letters
BETWEEN = 0.45      # calls
SIGN = 1.3          # from the sign that removes a line to the right
BESIDE = 14         # the least width of a frame that leaves the other lifelines
BAND = 0.95
QUESTION = [Run("term", "?"), Run("note", "what is it answered?")]


class Sequence(Canvas):
    """`at` is how many lines were given; `asked` is whether the next one's answer is asked for. Where `is_file`, there
    are no buttons, and a legend below. In a quiz a remark is kept back until the call that it stands above is
    answered. `changes` has what messages changed in stores. `wants` has how wide labels are, as a drawing before this
    one found it."""

    def __init__(self, found, stores, at, width=900, size=14, asked=False, is_file=False, quiz=False, changes=None,
                 wants=None, signs=None):
        self.found, self.stores, self.at, self.asked, self.is_file = found, stores, at, asked, is_file
        self.participants = {it.store for it in found if it.makes_participant()}
        self.manager = next((plain(it.said) or "Tested manager" for it in found if it.event == NAMES), None)
        order = taking_part(found, stores, self.manager is not None)
        if asked and self.next() is not None:
            self.found = found[:self.next() + 1]  # what stands behind it may tell the answer
        self.kept_back = self.telling_captions() if quiz else set()
        self.width, self.size = max(260, width), size
        self.gutter = (1.2 if is_file else 1.6) * size + 0.62 * size * len(str(max(1, len(found))))
        self.lanes = Lanes(order, self.gutter, self.width, size, wants or {})
        self.changes, self.signs, self.legend_of = changes or {}, Signs(), signs
        self.wants = {}                     # for two lifelines the widest label between them
        self.steps, self.boxes = [], []     # of each call that is answered, and the stores' rows
        self.y, self.margin, self.waiting = HEAD * size, MARGIN, ""
        self.floor = 0                      # down to which the last box beside a lifeline reaches
        self.below, self.marks = [], []     # what lies below the labels, and these
        # the branches in doubt: from where on, and which place beside one another; and those that were
        self.doubts, self.closed = {}, []
        # from where on a lifeline goes, or None while it is crashed
        self.alive = {lane: self.y for lane in order}
        self.lives = []
        self.current = None
        # where a store's branch is prepared or finished within a call, by the call's place and the store
        self.ended = {}

    # the whole

    def text(self):
        first = max(0, min(self.at - BEFORE, len(self.found) - MOST_CALLS)) if len(self.found) > MOST_CALLS else 0
        drawn = self.found[first:first + MOST_CALLS]
        self.name_signs()
        if first:
            self.remark(f"The lines 1 to {first} aren't drawn.", "note")
        for it in drawn:
            if it.place not in self.kept_back:
                self.exchange(it)
        if first + MOST_CALLS < len(self.found):
            self.remark(f"The lines from {first + MOST_CALLS + 1} on aren't drawn.", "note")
        self.y += 0.6 * self.size
        end = self.y
        self.end_doubts(end)
        self.lives += [(lane, since, end) for lane, since in self.alive.items() if since is not None]
        foot = self.legend() if self.is_file else []
        height, size = round(self.y), self.size
        inside = [element("title", {}, "Sequence diagram of a two-phase commit"), element("style", {}, escape(STYLE)),
                  self.hatching(),
                  element("rect", {"class_": "paper", "width": self.width, "height": height}),
                  *([self.current] if self.current else []), *self.lifelines(), *self.closed, *self.below,
                  *self.marks, *foot, self.heads()]
        return element("svg", {"xmlns": "http://www.w3.org/2000/svg", "class_": "sequence", "width": self.width,
                               "height": height, "font_size": size, "viewBox": f"0 0 {self.width} {height}",
                               "role": "group" if not self.is_file else "img", "aria_label": "Sequence diagram"}, "\n",
                       "\n".join(inside), "\n") + "\n"

    def name_signs(self):
        """What the signs of branches stand for, above the calls that use them."""
        for sign, written in (self.legend_of or Signs()).legend():
            self.row([Run("term", sign), Run("note", "is the branch"), Run("statement", written)], self.gutter)
        self.alive = {lane: self.y for lane in self.alive}

    def legend(self):
        self.y += 0.6 * self.size
        before = len(self.marks)
        for word, meaning in LEGEND:
            self.row([Run("term", word), Run("remark", meaning)], self.gutter)
        self.y += 0.8 * self.size
        found, self.marks = self.marks[before:], self.marks[:before]
        return found

    def show_rows(self, it, at, store, is_left=False):
        """The rows of a store beside its lifeline, where this message changed some."""
        change = self.changes.get((it.place, at))
        lane = FIRST_STORE + store
        if change is None:
            return
        box = Box(change, self.signs, self.size)
        self.wants[None, (lane, is_left)] = max(self.wants.get((None, (lane, is_left)), 0), box.wanted() + 1.7)
        made, high = put_box(box, self.x(lane), self.y - 0.1 * self.size, self.lanes.to_end(lane, is_left), is_left,
                             len(self.says))
        self.marks.append(made)
        self.floor = self.y + high
        self.says[-1] += " " + narration.changes(change, store, self.signs)
        self.boxes.append({"line": it.place + 1, "step": len(self.says), "store": store, "rows": box.rows()})

    # calls

    def exchange(self, it):
        top, before, size = self.y, len(self.marks), self.size
        self.says, self.ends, self.line = [], [], it.place + 1
        self.margin = SIGN + 0.35 if self.is_removable(it) else MARGIN
        self.waiting = " waiting" if it.answer is None and not self.is_asked(it) else ""
        if it.answer is None:
            self.end_doubts(top)  # what comes of a branch behind the cursor isn't known yet
        if it.kind in CAPTIONS:
            if it.kind == REMARK and it.said:
                self.remark(it.said)
            elif it.event:
                pass
            else:
                self.y += 0.3 * size
        else:
            self.revive(it)
            top = self.y
            {CRASH: self.draw_crash, EVENT: self.draw_event}.get(it.kind, self.draw_call)(it)
            if it.answer is not None:
                ends = [*self.ends, self.y + 0.9 * BETWEEN * size]
                self.steps.append({"line": it.place + 1, "says": self.says, "ends": ends})
        self.follow_doubt(it)
        number = self.number(it, top) if it.kind not in CAPTIONS else []
        if not self.is_file and it.kind not in CAPTIONS and it.place == self.at - 1 - self.captions_behind():
            self.current = element("rect",
                                   {"class_": "current", "x": 0, "y": top, "width": self.width, "height": self.y - top})
        made, self.marks = self.marks[before:], self.marks[:before]
        attributes = {"class_": f"call {it.kind}{self.waiting}", "data_line": it.place + 1, "data_bottom": self.y,
                      "data_said": plain(it.said) if it.kind not in CAPTIONS else None,
                      "data_answer": None if it.answer is None or it.kind in (*CAPTIONS, EVENT)
                      else "\n".join(map(plain, lines_of(it.answer)))}
        if it.kind not in CAPTIONS:
            self.y += BETWEEN * size
        self.marks.append(element("g", attributes, *number, *made))

    def captions_behind(self):
        """How many captions stand directly before the cursor."""
        count = 0
        while count < self.at and self.found[self.at - 1 - count].kind in CAPTIONS:
            count += 1
        return count

    def telling_captions(self):
        """The places of captions that may tell an answer: while a call waits, those directly before the cursor, which
        stand above that call, and all behind it."""
        if self.next() is None:
            return set()
        return {it.place for it in self.found[self.at - self.captions_behind():] if it.kind in CAPTIONS}

    def next(self):
        return next((it.place for it in self.found[self.at:] if it.kind not in CAPTIONS), None)

    def is_removable(self, it):
        return it.answer is None and it.kind not in CAPTIONS and not self.is_file and not self.asked

    def number(self, it, top):
        size, number = self.size, it.place + 1
        text = element("text", {"class_": "line-number", "x": self.gutter - 0.5 * size, "y": top + size}, str(number))
        if self.is_file:
            return [text]
        made = [Button("go", f"Run to here: line {number}", line=number).around(text)]
        if self.is_removable(it):
            x = self.width - SIGN * size
            cross = element("text", {"class_": "remove-mark label", "x": x, "y": top + size}, "×")
            made.append(Button("remove", f"Remove line {number}", line=number).around(cross))
        return made

    def revive(self, it):
        """A call to a coordinator that was stopped meets a new one."""
        is_called = it.kind not in (STRANGER, EVENT) and it.words[0] not in (b"FAIL", b"STOP")
        if is_called and COORDINATOR in self.alive and self.alive[COORDINATOR] is None:
            self.begin_again(COORDINATOR, "new coordinator", "of the same name, with the same decisions")

    def begin_again(self, lane, term, note):
        """A lifeline that had ended goes on from here."""
        self.y += 0.15 * self.size
        if self.alive[lane] is not None:
            self.lives.append((lane, self.alive[lane], self.y))
        self.note(lane, [Run("term", term), *([Run("note", note)] if note else [])])
        self.alive[lane] = self.y - 0.55 * self.size

    def crash(self, lane, runs):
        """A lifeline ends in a cross, and beside it is said why."""
        size, y = self.size, self.y + 0.65 * self.size
        self.cross(self.x(lane), y, 0.6 * size, "cross crash")
        self.row(runs, self.x(lane) + 1.1 * size, 0.35)
        if self.alive[lane] is not None:
            self.lives.append((lane, self.alive[lane], y))
        self.alive[lane] = None

    def draw_crash(self, it):
        store = self.store(it.store)
        self.begin_step(narration.crash(it))
        bad = [Run("bad", plain(it.first)), Run("reason", self.reason(it))] if it.is_bad() else []
        if it.words[0] == b"STOP" and it.answer is not None and not bad:
            self.crash(COORDINATOR, [Run("term", "crash"), Run("statement", "STOP"),
                                     Run("reason", "the coordinator is gone; its decisions are kept")])
            return
        says = [Run("statement", it.said), *bad]
        if it.store is not None and not bad and it.words[0] == b"FAIL":
            after = int(it.words[-1])
            how = ("fails at its next call" if after == 0
                   else f"answers {after} more call{'' if after == 1 else 's'}, and then fails")
            says.append(Run("reason", f"the coordinator's session in store {it.store} {how}"))
        left = self.x(COORDINATOR) if store is None else min(self.x(COORDINATOR), self.x(store))
        self.row([Run("cut-sign", "✂"), *says], left + 0.5 * self.size, 0.35)

    def draw_event(self, it):
        """What happens to a manager that is shown in its own place."""
        word, said, store = it.event, plain(it.said).rstrip(": "), self.store(it.store)
        says = f"{narration.EVENTS[word]} {said}"
        if word == b"verdict":
            self.begin_step(says)
            self.draw_verdict(said)
        elif word == b"lost" and store is not None and self.lanes.has(MANAGER):
            asked, _, why = said.partition(" | ")
            self.message(MANAGER, store, [Run("statement stopped", self.signs.short(asked.encode()).decode())],
                         "asks broken", is_lost=True, says=f"{narration.EVENTS[word]} {why}")
            self.row([Run("reason", why)], self.x(MANAGER) + 0.5 * self.size, 0.1)
        elif word == b"restart" and self.lanes.has(MANAGER):
            self.begin_step(says)
            self.begin_again(MANAGER, "recovery", said)
        else:
            lane = {b"outage": store, b"crash": MANAGER}.get(word)
            self.begin_step(says)
            if lane is None or not self.lanes.has(lane):
                self.row([Run("reason", said)], self.x(self.lanes.order[0]) + 0.5 * self.size, 0.1)
                return
            self.crash(lane, [Run("term bad", "crash" if lane == MANAGER else "restart"), Run("note", said)])
            if word == b"outage":
                self.alive[lane] = self.y

    def draw_verdict(self, said):
        size, left = self.size, self.gutter
        word, _, why = map(str.strip, said.partition(":"))
        kind = "good" if word in GOOD else "bad"
        runs = [Run(f"term {kind}", f"Verdict: {word}"), *([Run("note", why)] if why else [])]
        lines, _ = flow(runs, (self.width - left) / size - 2 * MARGIN - 1)
        high = (LINE * len(lines) + 0.5) * size
        self.y += 0.3 * size
        self.marks.append(element("rect", {"class_": f"verdict-box {kind}", "x": left, "y": self.y,
                                           "width": self.width - left - MARGIN * size, "height": high,
                                           "rx": 0.3 * size}))
        self.y += 0.25 * size
        for line in lines:
            self.marks += [element("text", {"class_": f"{run.kind} label", "x": left + (0.6 + at) * size,
                                            "y": self.y + size}, run.inside()) for at, run in line]
            self.y += LINE * size
        self.y += 0.4 * size

    def is_asked(self, it):
        return self.asked and it.place == self.next()

    def draw_unsent(self, it):
        """What another client can't send, since there is no such store, stays with that client."""
        runs = [Run("statement", it.said)]
        if it.answer is not None:
            runs += [Run("bad", it.first), Run("reason", self.reason(it))]
        self.begin_step(narration.asking(it, self.manager or "The manager"))
        self.note(MANAGER if it.is_managers else CLIENT, runs + (QUESTION if self.is_asked(it) else []),
                  max(BESIDE, 1.3 * self.lanes.beside(CLIENT, True) / self.size) if not it.is_managers else BESIDE)

    def draw_call(self, it):
        sender, receiver = MANAGER, COORDINATOR
        if it.kind == STRANGER:
            sender, receiver = (MANAGER if it.is_managers else CLIENT), self.store(it.store)
        if receiver is None:
            self.draw_unsent(it)
            return
        if it.is_managers and self.alive[MANAGER] is None and it.answer is not None:
            self.draw_end_of_connection(it, receiver)
            return
        said = it.statement if it.is_managers else it.said
        runs = [Run("statement", self.signs.short(said))]
        self.message(sender, receiver, runs, "client" if it.kind == STRANGER else "asks",
                     says=narration.asking(it, self.manager or "The manager"))
        if it.answer is None:
            if self.is_asked(it):
                self.message(receiver, sender, QUESTION, "answer")
            return
        if it.kind == STRANGER:
            self.end_branch(it, it.store, it.statement, ENDS)
            self.show_rows(it, it.store, it.store, is_left=not it.is_managers)
        self.notes_before(it)
        for at, (store, said) in enumerate(it.groups):
            if self.lanes.has(FIRST_STORE + store):
                self.draw_group(it, at, store, said)
        self.tell_of_others(it)
        self.notes_behind(it)
        self.draw_answer(it, receiver, sender)

    def tell_of_others(self, it):
        """The stores that a recovery asks although they take no part have no lifeline."""
        others = sorted({store for store, _ in it.groups if not self.lanes.has(FIRST_STORE + store)})
        if others:
            who = f"store {others[0]} takes" if len(others) == 1 else f"{len(others)} more stores take"
            said = f"{who} no part, and nothing is prepared there"
            self.row([Run("reason", said)], self.x(COORDINATOR) + 0.5 * self.size, 0.1)
            self.says[-1] += f" {said[:1].upper()}{said[1:]}."

    def draw_end_of_connection(self, it, store):
        """What a store does of itself once a manager is gone."""
        self.begin_step(f"Store {it.store} sees that the connection has ended.")
        self.note(store, [Run("term", "connection ended"), Run("note", "an open branch is rolled back")], BESIDE)
        self.show_rows(it, it.store, it.store)
        self.leave_box()

    def tell(self, lifeline, term, note):
        """A note that goes with the message before it, and is said with that."""
        self.note(lifeline, [Run("term", term), Run("note", note)])
        self.says[-1] += f" {term[:1].upper()}{term[1:]}, {note}."

    def notes_before(self, it):
        word = it.words[0]
        if word == b"DECIDE" and it.first == b"DECIDED":
            self.tell(COORDINATOR, "decision: commit", "recorded, before any participant is told")
        elif word == b"DECIDE" and it.first == b"CLOSED":
            self.tell(COORDINATOR, "no decision any more", "the number is closed: presumed abort")
        elif word == b"FINISH" and it.groups and it.groups[0][1][-1].text == b"XA ROLLBACK":
            why = "a participant voted no" if it.vote == b"NO" else "no decision was recorded: presumed abort"
            self.tell(COORDINATOR, "roll back", why)
        elif word == b"FINISH" and it.vote == b"ONE PHASE" and it.groups:
            self.tell(COORDINATOR, "one phase", "one participant: no vote, no decision")
        elif word == b"RECOVER" and presumed_aborted(it):
            numbers = ", ".join(map(str, presumed_aborted(it)[:8]))
            self.tell(COORDINATOR, "presumed abort", f"no decision for {numbers}: rolled back")

    def notes_behind(self, it):
        """An other client that finished a branch of the coordinator's."""
        if it.kind != STRANGER or self.store(it.store) is None:
            return
        gone = [xid for xid in it.before.prepared.get(it.store, [])
                if xid not in it.behind.prepared.get(it.store, []) and transaction_of(xid)]
        if gone:
            self.leave_box()
            way = "rollback" if b"ROLLBACK" in it.said.upper() else "commit"
            self.tell(self.store(it.store), f"heuristic {way}",
                      f"of {branch_name(gone[0]).decode()}, by another client")

    def draw_group(self, it, at, store, said):
        lifeline, line = FIRST_STORE + store, it.place + 1
        asks, answers = self.terms(it, said)
        runs = [Run("term", asks)] if asks else []
        for one in said:
            says = (f"Cut here: {one.text.decode('latin-1')} doesn't reach store {store}, nor does a later call of "
                    f"this session (FAIL {store} AFTER {one.call} before line {line})")
            cut = Button("fail", says, line=line, store=store, call=one.call)
            runs += [*([] if self.is_file else [Run("cut-sign", "✂", cut)]),
                     Run("statement" if one.is_answered else "statement stopped",
                         one.text + (b"," if one is not said[-1] else b""))]
            if len(said) > 1 and one is not said[-1] and one.is_answered and one.answer not in (b"", b"OK"):
                runs.append(Run("reply", one.answer))
        is_whole = all(one.is_answered for one in said)
        if not is_whole:
            runs.append(Run("bad",
                            "stopped: no answer" + (", which counts as no" if it.words[0] == b"PREPARE" else "")))
        asked = narration.TOLD.get(asks, "The coordinator asks store {store}.").format(store=store)
        lost = "" if is_whole else " The message is lost, and there is no answer."
        self.message(COORDINATOR, lifeline, runs, "inner" if is_whole else "inner broken", is_lost=not is_whole,
                     says=asked + lost)
        self.end_branch(it, store, said[-1].text, ENDS)
        self.show_rows(it, at, store)
        if is_whole:
            is_bad = said[-1].answer.startswith((b"ERROR", b"XAER", b"FAULT"))
            way = (self.x(lifeline) - self.x(COORDINATOR)) / self.size - 1
            term = SHORT.get(answers, answers) if Run("term", answers).width() > way else answers
            runs = [Run("term bad" if is_bad else "term good", term)] if answers else []
            answered = narration.ANSWERED.get(answers, "Store {store} answers: {answer}.")
            self.message(lifeline, COORDINATOR, [*runs, Run("bad" if is_bad else "reply", said[-1].answer)],
                         "inner-answer fails" if is_bad else "inner-answer",
                         says=answered.format(store=store, answer=plain(said[-1].answer)))
            self.leave_box()
        self.end_branch(it, store, said[-1].text, PREPARES)

    def end_branch(self, it, store, text, kinds):
        """Keeps where a branch's band begins or ends: it is in doubt from its vote on until the store hears how the
        transaction ends."""
        if text.upper().startswith(kinds):
            self.ended[(it.place, store)] = self.y - 0.3 * self.size

    @staticmethod
    def terms(it, said):
        """The words of the textbook for a message to a participant, and for its answer."""
        word, last = it.words[0], said[-1]
        if word == b"PREPARE":
            if last.text == b"XA PREPARE":
                return "prepare", "vote no" if last.answer.startswith(b"ERROR") else "vote yes"
            return ("end of work", "") if it.first.startswith(b"ONE PHASE") else ("prepare", "")
        done = "heuristic outcome" if last.answer == b"XAER_NOTA" else "acknowledgement"
        if last.text.startswith(b"XA COMMIT .."):
            return "commit in one phase", done
        if last.text.startswith(b"XA COMMIT"):
            return "commit", done
        if last.text.startswith(b"XA ROLLBACK"):
            return "roll back", done
        if word == b"RECOVER":
            return ("what is in doubt?" if len(said) > 1 else "all ended?"), ""
        return "work", ""

    def reason(self, it):
        """Why it was answered so, where that is to be said."""
        if it.reason:
            return plain(it.reason)
        if it.first.startswith(b"UNKNOWN STORE"):
            last = self.stores - 1
            there = ("is only store 0" if last == 0
                     else f"are only the stores 0 {'and' if last == 1 else 'to'} {last}")
            return f"there {there}: take another, or raise the number of stores"
        if it.first.startswith(b"HAZARD"):
            return "in these stores somebody else had finished the branch"
        return "a branch is in doubt here, and keeps its locks" if it.is_doubt_in_way else ""

    def draw_answer(self, it, sender, receiver):
        line, kind = it.place + 1, "bad" if it.is_bad() else "reply"
        runs, lines = [], lines_of(it.answer)
        if it.words[0] == b"HAZARD" or it.first.startswith(b"HAZARD"):
            runs.append(Run("term bad", "heuristic outcome"))
        first = it.first
        if it.is_failing and first.endswith(b" out of memory"):
            first = first.removesuffix(b" out of memory") + b" stopped"
        runs.append(Run(kind, first))
        if it.kind != STRANGER and not self.is_file:
            says = f"Cut here: the coordinator crashes after line {line} (STOP)"
            runs.append(Run("cut-sign", "✂", Button("stop", says, line=line)))
        more = [Run("reply", self.readable_row(line)) for line in lines[1:]]
        kind = "answer broken" if it.is_unheard else "answer fails" if it.is_bad() else "answer"
        self.message(sender, receiver, runs, kind, more=more, is_lost=it.is_unheard,
                     says=" ".join([f"The answer: {plain(first)}.", self.reason(it)]).strip())
        self.leave_box()
        if self.reason(it):
            self.row([Run("reason", self.reason(it))], min(self.x(sender), self.x(receiver)) + 0.5 * self.size, 0.1)

    def readable_row(self, line):
        """A row of a list of branches by its transaction or by its sign."""
        found = LISTED.fullmatch(line)
        size = int(found[2]) + int(found[3]) if found else 0
        if found and (len(found[4]) == size or is_converted(found[4], size)):
            named = bytes.fromhex(found[4][2:].decode()) if is_converted(found[4], size) else found[4]
            split = int(found[2])
            xid = b",".join([digits(named[:split]), digits(named[split:]), found[1]])
            return self.signs.of(xid) if self.signs.has(xid) else readable_row(line)
        return line

    def leave_box(self):
        """What follows stands below the last box."""
        self.y = max(self.y, self.floor)

    # in doubt

    def follow_doubt(self, it):
        """Ends and begins the bands of branches: at their own messages, or else at the end of the call."""
        if it.answer is None:
            return
        now = {(store, xid) for store, xids in it.behind.prepared.items() for xid in xids if store < self.stores}
        ended = self.ended
        for key in [key for key in self.doubts if key not in now]:
            self.end_doubt(key, ended.get((it.place, key[0]), self.y - 0.2 * self.size))
        for key in sorted(now - set(self.doubts)):
            taken = {beside for (store, _), (_, beside) in self.doubts.items() if store == key[0]}
            beside = next(at for at in range(len(taken) + 1) if at not in taken)
            self.doubts[key] = ended.get((it.place, key[0]), self.y - 0.2 * self.size), beside

    def end_doubts(self, y):
        for key in list(self.doubts):
            self.end_doubt(key, y)

    def end_doubt(self, key, y):
        since, beside = self.doubts.pop(key)
        (store, xid), size = key, self.size
        if not self.lanes.has(FIRST_STORE + store):
            return
        room = self.lanes.beside(FIRST_STORE + store)
        wide = min(BAND * size, room * 0.6)
        says = f"In doubt in store {store}: {plain(branch_name(xid))}"
        x = self.x(FIRST_STORE + store) - wide / 2 + min(beside * wide * 0.6, room / 2)
        self.closed.append(element("g", {"class_": "doubt", "data_store": store,
                                         "data_xid": xid.decode("latin-1")}, element("title", {}, escape(says)),
                                   element("rect", {"class_": "band", "x": x, "y": since, "width": wide,
                                                    "height": max(2, y - since), "rx": 2})))


def presumed_aborted(it):
    """The transactions that a recovery rolls back since nobody decided them; it closes the numbers of others too."""
    closed = set(it.before.of("UNDECIDED")) & set(it.behind.of("CLOSED"))
    return sorted(closed - it.over)


def is_converted(data, size):
    """Whether these are the digits of so many bytes."""
    return len(data) == 2 + 2 * size and re.fullmatch(rb"0x[0-9a-f]*", data) is not None


def readable_row(line):
    """A row of a list by its transaction where it is the coordinator's."""
    parts = line.split()
    if len(parts) == 4 and parts[0] == b"22593" and parts[3].startswith(b"0x63") and len(parts[3]) == 22:
        return b"transaction %d, store %d" % (int(parts[3][4:20], 16), int(parts[3][20:], 16))
    return line
