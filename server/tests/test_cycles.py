"""10,000 two-phase cycles of 16 clients at once, some of which are cut; and what a few clients saw themselves, as a
record of theirs."""
import itertools
import random
import threading

from support import Case, verdict
from wire import Closed

CLIENTS, CYCLES = 16, 625
KEYS = 24
WITNESSES, ASKED = 3, 250


class Worker(threading.Thread):
    """A client that goes through cycles: reads and writes rows which others want too, and prepares and ends the
    branch."""

    def __init__(self, server, number):
        super().__init__()
        self.server, self.number, self.draw = server, number, random.Random(number)
        self.ended, self.cut, self.refused, self.wrong = 0, 0, 0, []
        self.client = None

    def run(self):
        try:
            while self.ended < CYCLES:
                self.cycle(f"'{self.number} {self.ended}','b',7")
                self.ended += 1
            self.client.close()
        except Exception as fault:
            self.wrong.append(fault)

    def ask(self, text, *allowed):
        answer = self.client.ask(text)
        if answer.kind == "error" and answer.number not in allowed:
            raise AssertionError(f"{text}: {answer}")
        self.refused += answer.kind == "error"
        return answer.kind != "error"

    def cycle(self, xid):
        """One transaction. Where its connection is cut, another one commits the branch, if it was prepared."""
        try:
            if self.client is None:
                self.client = self.server.client()
            self.ask(f"XA START {xid}")
            for _ in range(self.draw.randint(1, 3)):
                key = self.draw.randrange(KEYS)
                self.ask(self.draw.choice([f"PUT '{key}','{self.number}'", f"GET '{key}'", f"DEL '{key}'"]), 3572)
            self.ask(f"XA END {xid}")
            self.ask(f"XA PREPARE {xid}")
            self.ask(f"XA {self.draw.choice(['COMMIT', 'COMMIT', 'ROLLBACK'])} {xid}")
        except (Closed, ConnectionError):
            self.finish(xid)

    def finish(self, xid):
        """Commits what may be prepared over a new connection, and over further ones where that is cut too."""
        while True:
            self.cut += 1
            self.client.close()
            self.client = self.server.client()
            try:
                self.ask(f"XA COMMIT {xid}", 1397)
                return
            except (Closed, ConnectionError):
                pass


class Cycles(Case):
    def test_ten_thousand(self):
        cuts = [f"{kind} {number * 40 + 7} {what}" for number in range(5)
                for kind in ("XA PREPARE", "XA COMMIT", "XA ROLLBACK") for what in ("close-before", "close-after")][::2]
        cuts += [f"XA COMMIT {number * 40 + 9} close-after" for number in range(5)]
        server = self.serve(faults=cuts)
        workers = [Worker(server, number) for number in range(CLIENTS)]
        for worker in workers:
            worker.start()
        for worker in workers:
            worker.join()
        self.assertEqual([fault for worker in workers for fault in worker.wrong], [])
        self.assertGreater(sum(worker.cut for worker in workers), 10)
        self.assertGreater(sum(worker.refused for worker in workers), 100)
        self.assertEqual(self.client(server).ask("XA RECOVER").rows, [])
        self.assertEqual(server.verdicts(), ["LEGAL"])


class Witness(threading.Thread):
    """A client that writes down when it calls and what it is answered, in a list that all share; where it is cut, it is
    lost, and comes as another one."""

    def __init__(self, server, numbers, record, lock, seed):
        super().__init__()
        self.server, self.numbers, self.record, self.lock, self.draw = (
            server, numbers, record, lock, random.Random(seed))
        self.fault, self.plan = None, []

    def note(self, *lines):
        with self.lock:
            self.record.extend(lines)

    def run(self):
        try:
            asked = 0
            while asked < ASKED:
                self.number = next(self.numbers)
                with self.server.client() as client:
                    try:
                        while asked < ASKED:
                            asked += 1
                            self.ask(client, self.any_statement())
                        self.note(f"{self.number} ! LOST")
                    except (Closed, ConnectionError):
                        # The server has ended the session before its client could see it, and others may have gone on.
                        self.note(f"{self.number} ! GONE")
        except Exception as fault:
            self.fault = fault

    def any_statement(self):
        """Half of them are a cycle's next, the others any."""
        key, xid = self.draw.randrange(3), f"'{self.draw.randrange(4)}'"
        if self.draw.random() < 0.5:
            self.plan = self.plan or [f"XA START {xid}", f"PUT '{key}','{self.number}'", f"XA END {xid}",
                                      f"XA PREPARE {xid}", f"XA COMMIT {xid}"]
            return self.plan.pop(0)
        return self.draw.choice([f"GET '{key}'", f"GET '{key}'", f"PUT '{key}','{self.draw.randrange(100)}'",
                                 f"DEL '{key}'", f"XA START {xid}", f"XA END {xid}", f"XA PREPARE {xid}",
                                 f"XA COMMIT {xid}", f"XA COMMIT {xid} ONE PHASE", f"XA ROLLBACK {xid}",
                                 "XA RECOVER CONVERT XID", f"XA START {xid} JOIN"])

    def ask(self, client, text):
        self.note(f"{self.number} > {text}")
        self.note(*self.lines(client.ask(text), text))

    def lines(self, answer, text):
        """The lines of a return."""
        if answer.kind == "error":
            return [f"{self.number} < ERROR {answer.number}"]
        if answer.kind == "ok":
            return [f"{self.number} < OK"]
        if text.startswith("GET"):
            return [f"{self.number} < VALUE X'{answer.rows[0][0].hex()}'" if answer.rows else f"{self.number} < NONE"]
        return [f"{self.number} < ROWS {len(answer.rows)}", *(b" ".join(row).decode() for row in answer.rows)]


class Witnesses(Case):
    def test_what_clients_saw(self):
        server = self.serve(faults=["XA COMMIT 20 close-after", "XA PREPARE 10 close-after", "PUT 30 close-before"])
        record, lock, numbers = [], threading.Lock(), itertools.count(1)
        witnesses = [Witness(server, numbers, record, lock, seed) for seed in range(WITNESSES)]
        for witness in witnesses:
            witness.start()
        for witness in witnesses:
            witness.join()
        self.assertEqual([witness.fault for witness in witnesses], [None] * WITNESSES)
        self.assertEqual([sum(how in line for line in record) for how in ("! LOST", "! GONE")], [WITNESSES, 3])
        self.assertGreater(sum(line.endswith("< OK") for line in record), 100)
        self.assertEqual(verdict("\n".join(record).encode()), "LEGAL")
        self.assertEqual(server.verdicts(), ["LEGAL"])
