"""The sessions of a script, each with a connection of its own, and the record of what they see."""
import contextlib
import random
import threading
import time

from faults import Cut, Fault, Gone, Refused, RolledBack, Unknown, Unread
from spelling import DISCONNECT, row_statement

# the longest that a pause lasts, in seconds
PAUSE = 0.004


class Record:
    """The lines of a record, in the order in which they were seen."""

    def __init__(self):
        self.lines = []
        self.lock = threading.Lock()

    def add(self, *lines):
        with self.lock:
            self.lines.extend(lines)


class Session:
    """A session of the script."""

    def __init__(self, number, options, record, database, turns):
        self.number = number
        self.options = options
        self.record = record
        self.database = database
        self.turns = turns
        self.client = None
        self.given = 0
        self.lost = False

    def open(self):
        """Opens the session's connection where it is closed."""
        if self.client is None:
            try:
                self.client = self.database.client()
            except Fault as fault:
                raise Fault(f"session {self.number} can't connect: {fault}") from fault

    def close(self):
        """Closes the connection, and waits until the server has ended it."""
        client, self.client = self.client, None
        if client is not None:
            client.close()

    def give(self, statement):
        """Gives a statement, and records the call and what it returns."""
        try:
            self.open()
        except Fault:
            if not self.database.is_killed:
                raise
            self.lose(b"GONE")
            return
        self.given += 1
        self.record.add(b"%d > %s" % (self.number, statement))
        begun = time.monotonic()
        try:
            answer = self.answer(statement, self.given == self.options.cut.get(self.number))
        except (Cut, Unread):
            self.lose()
            return
        except (Gone, RolledBack):
            self.lose(b"GONE")
            return
        except Unknown as refusal:
            self.record.add(b"%d ? ERROR %d %s" % (self.number, refusal.number, refusal.text.encode()))
        except Refused as refusal:
            answer = [b"ERROR %d %s" % (refusal.number, refusal.text.encode("latin1", "replace"))]
            self.returned(answer, begun)
        else:
            self.returned(answer, begun)
        # (a statement that is to be cut, and that the recorder answers by itself, isn't sent)
        if self.given in (self.options.lose.get(self.number), self.options.cut.get(self.number)) and not self.lost:
            self.lose()

    def returned(self, answer, begun):
        """Records an answer, if it has come in time."""
        if self.options.timeout is not None and time.monotonic() - begun > self.options.timeout:
            self.record.add(b"%d ? ERROR no answer within %g seconds" % (self.number, self.options.timeout))
        else:
            self.record.add(b"%d < %s" % (self.number, answer[0]), *answer[1:])

    def lose(self, how=b"LOST"):
        """Records that the client is gone, or found its connection closed, and only then breaks the connection, if it
        is open yet."""
        self.record.add(b"%d ! %s" % (self.number, how))
        self.lost = True
        if self.client is not None:
            self.client.break_off()

    def settle(self):
        """Waits until the server has ended what a lost client left. A server that is gone has."""
        if self.lost and self.client is not None:
            with contextlib.suppress(Gone):
                self.client.await_end()

    def answer(self, statement, cutting):
        """What the server answers the statement, as lines of a record. A row statement that takes a lock waits until it
        is its row's only one."""
        if DISCONNECT.fullmatch(statement):
            if cutting:
                raise Cut
            self.close()
            return [b"OK"]
        row = row_statement(statement)
        if row and self.client.waits_for_turn(row[0]):
            with self.turns[row[1]]:
                return self.client.answer(statement, cutting)
        return self.client.answer(statement, cutting)


def sessions_of(lines, options, database, record=None):
    """The record of some lines of a script, and the sessions that will write it, by their numbers."""
    keys = {row[1] for row in (row_statement(statement) for _, _, statement in lines) if row}
    database.begin(sorted(keys))
    turns = {key: threading.Lock() for key in keys}
    record = record or Record()
    return record, {number: Session(number, options, record, database, turns)
                    for number in sorted({line[1] for line in lines})}


def run_together(sessions, lines, options):
    """Each session gives its statements on a thread of its own."""
    own = {number: [statement for _, one, statement in lines if one == number] for number in sessions}
    faults = []
    start = threading.Barrier(sum(bool(statements) for statements in own.values()))

    def run(session):
        draw = random.Random(f"{options.pauses} {session.number}")
        try:
            start.wait()
            for statement in own[session.number]:
                if session.lost:
                    return
                if options.pauses is not None:
                    time.sleep(draw.uniform(0, PAUSE))
                session.give(statement)
        except Exception as error:
            faults.append(error)

    threads = [threading.Thread(target=run, args=(sessions[number],)) for number, given in own.items() if given]
    for thread in threads:
        thread.start()
    for thread in threads:
        thread.join()
    if faults:
        raise faults[0]


def run_in_turn(sessions, lines):
    """The statements are given in the script's order, each once the one before it has returned, and once the server has
    ended what a lost client left: else its locks would be held for as long as the server takes to notice."""
    for _, number, statement in lines:
        if not sessions[number].lost:
            sessions[number].give(statement)
            sessions[number].settle()


def end(sessions):
    """Closes what is open yet, and then waits for what lost clients left: a next record may begin at once. This one is
    whole, so a server that is gone by now is no fault."""
    for session in sessions.values():
        if not session.lost:
            with contextlib.suppress(Exception):
                session.close()
    for session in sessions.values():
        with contextlib.suppress(Exception):
            session.settle()
