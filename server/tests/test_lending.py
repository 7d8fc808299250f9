"""Many connections over few sessions: pools, who waits and how long, and two hundred at once."""
import random
import socket
import subprocess
import tempfile
import threading
import time
from pathlib import Path

from support import PROGRAM, Case, wait_for
from wire import Client

CONNECTIONS, CYCLES = 30, 60
HELD = ("Too many connections: each of the store's 16 sessions has a branch that isn't prepared, or answers a statement"
        " (SHOW NIGBARU STATUS lists them)")


def memory(server):
    """Kilobytes that are resident."""
    with open(f"/proc/{server.process.pid}/status") as status:
        return next(int(line.split()[1]) for line in status if line.startswith("VmRSS"))


class Worker(threading.Thread):
    """A client of a pool: cycles over rows that others want too."""

    def __init__(self, server, number, cycles=CYCLES):
        super().__init__()
        self.server, self.number, self.cycles, self.draw = server, number, cycles, random.Random(number)
        self.ended, self.fault, self.refusals = 0, None, {}

    def run(self):
        try:
            with self.server.client() as client:
                while self.ended < self.cycles:
                    self.cycle(client, f"'{self.number} {self.ended}','b',7")
                    self.ended += 1
        except Exception as fault:
            self.fault = fault

    def ask(self, client, text, *allowed):
        answer = client.ask(text)
        if answer.kind == "error":
            if answer.number not in allowed:
                raise AssertionError(f"{text}: {answer}")
            self.refusals[answer.number] = self.refusals.get(answer.number, 0) + 1
        return answer.kind != "error"

    def cycle(self, client, xid):
        self.ask(client, f"XA START {xid}")
        for _ in range(self.draw.randint(1, 3)):
            key = self.draw.randrange(12)
            self.ask(client, self.draw.choice([f"PUT '{key}','{self.number}'", f"GET '{key}'", f"DEL '{key}'"]), 3572)
        self.ask(client, f"XA END {xid}")
        if self.draw.random() < 0.2:
            self.ask(client, f"XA COMMIT {xid} ONE PHASE")
            return
        self.ask(client, f"XA PREPARE {xid}")
        self.ask(client, f"XA {self.draw.choice(['COMMIT', 'ROLLBACK'])} {xid}")


class Lending(Case):
    def work(self, server, count, cycles):
        workers = [Worker(server, number, cycles) for number in range(count)]
        for worker in workers:
            worker.start()
        for worker in workers:
            worker.join()
        self.assertEqual([worker.fault for worker in workers if worker.fault], [])
        self.assertEqual([worker.ended for worker in workers], [cycles] * count)

    def test_a_pool_of_thirty(self):
        """The record, in which calls overlap, is LEGAL."""
        server = self.serve("--wait", "60")
        self.work(server, CONNECTIONS, CYCLES)
        with server.client() as client:
            self.assertEqual(client.ask("XA RECOVER").rows, [])
        self.assertEqual(server.verdicts(), ["LEGAL"])
        self.assertTrue(self.overlaps(server.record.read_text()))

    def overlaps(self, record):
        """Whether some call stands between another's call and its return."""
        open_calls = 0
        for line in record.splitlines():
            open_calls += {">": 1, "<": -1}.get(line.split(" ")[1], 0) if not line.startswith("#") else 0
            if open_calls > 1:
                return True
        return False

    def test_two_hundred_at_once(self):
        server = self.serve("--wait", "60")
        self.work(server, 200, 5)
        self.assertEqual(server.verdicts(), ["LEGAL"])

    def test_a_seventeenth_branch_waits(self):
        server = self.serve("--wait", "60")
        clients = [self.client(server) for _ in range(17)]
        for number, client in enumerate(clients[:16]):
            self.ok(client, f"XA START '{number}'")
        clients[16].send(b"\x03XA START 'late'")
        self.wait_for_one_that_waits(server)
        self.assertFalse(clients[16].has_answer())
        self.ok(clients[3], "XA END '3'", "XA PREPARE '3'")
        self.assertEqual(clients[16].read(clients[16].packet()).kind, "ok")
        self.ok(clients[16], "XA END 'late'", "XA ROLLBACK 'late'")
        self.ok(clients[3], "XA COMMIT '3'")
        self.assertEqual(server.verdicts(), ["LEGAL"])

    def test_a_seventeenth_branch_is_refused(self):
        for seconds in ("0.2", "0"):
            server = self.serve("--wait", seconds)
            clients = [self.client(server) for _ in range(17)]
            for number, client in enumerate(clients[:16]):
                self.ok(client, f"XA START '{number}'")
            began = time.monotonic()
            for text in ("XA START 'late'", "GET 'k'"):
                answer = self.refused(clients[16], text, 1040, "08004")
                self.assertEqual(answer.text,
                                 HELD + (" (--wait 0)" if seconds == "0" else ", and none was free for 0.2 s (--wait)"))
            self.assertGreaterEqual(time.monotonic() - began, 2 * float(seconds))
            self.ok(clients[0], "XA END '0'", "XA ROLLBACK '0'")
            self.ok(clients[16], "XA START 'late'")
            self.refused(clients[0], "GET 'k'", 1040, "08004")
            # what needs no session is answered
            self.ok(clients[0], "SET NAMES utf8", "BEGIN", "COMMIT")
            self.assertEqual(server.verdicts(), ["LEGAL"])

    def test_a_client_that_leaves_gives_its_session_back(self):
        server = self.serve("--wait", "20")
        for _ in range(3):
            clients = [self.client(server) for _ in range(16)]
            for number, client in enumerate(clients):
                self.ok(client, f"XA START '{_} {number}'", f"PUT '{number}','v'")
            for client in clients:
                client.close()
            with server.client() as other:
                wait_for(lambda: all(other.ask(f"PUT '{number}','w'").kind == "ok" for number in range(16)),
                         "the rows are free")
        self.assertEqual(server.verdicts(), ["LEGAL"])

    def test_more_connections_than_are_let_in(self):
        server = self.serve("--max-connections", "3")
        clients = [self.client(server) for _ in range(3)]
        refused = self.client(server)
        self.assertEqual((refused.welcome.number, refused.welcome.sqlstate), (1040, "08004"))
        self.assertIn("--max-connections", refused.welcome.text)
        clients[0].quit()
        wait_for(lambda: self.client(server).welcome.kind == "ok", "a place is free")

    def test_a_thousand_that_come_at_once(self):
        """All of them ask to connect before one is heard, and each is let in and answered."""
        server = self.serve("--patience", "300", record=False)
        sockets = [self.ends.enter_context(socket.socket()) for _ in range(1000)]
        for each in sockets:
            each.setblocking(False)
            each.connect_ex(("127.0.0.1", server.port))
        for each in sockets:
            each.settimeout(240)
            self.assertEqual(self.packet(each)[0], 10)
        for each in sockets:
            each.sendall(self.framed(Client.login_packet(b"root", b"", b"mysql_native_password"), 1))
        for number, each in enumerate(sockets):
            self.assertEqual(self.packet(each)[0], 0)
            each.sendall(self.framed(b"\x03PUT 'row %d','v'" % number, 0))
        self.assertEqual({self.packet(each)[:2] for each in sockets}, {b"\0\1"})

    @staticmethod
    def framed(payload, number):
        return len(payload).to_bytes(3, "little") + bytes((number,)) + payload

    @staticmethod
    def packet(each):
        header = each.recv(4, socket.MSG_WAITALL)
        return each.recv(int.from_bytes(header[:3], "little"), socket.MSG_WAITALL)

    def test_a_thousand_that_idle(self):
        """They cost less than 100 MB, and another is answered as before."""
        server = self.serve("--max-connections", "1100", record=False)
        before = memory(server)
        idle = [self.client(server) for _ in range(1000)]
        self.assertEqual({client.welcome.kind for client in idle}, {"ok"})
        for client in idle[::50]:
            self.ok(client, "PUT 'k','v'")
        took = memory(server) - before
        print(f"\n1,000 idle connections: {took} kB")
        self.assertLess(took, 100_000)


class History(Case):
    def test_a_history_is_a_script(self):
        """`run` carries out each of its lines, and gives the rows that the store has, also those of branches that were
        cut off."""
        for rows in ("64", "4096"):
            server = self.serve("--history", self.folder_of() / "history", "--rows", rows, "--wait", "60")
            workers = [Worker(server, number, 20) for number in range(20)]
            for worker in workers:
                worker.start()
            for worker in workers:
                worker.join()
            with server.client() as client:
                client.ask("XA START 'cut'")
                client.ask("PUT 'cut','v'")
            with server.client() as client:
                wait_for(lambda: client.ask("PUT 'cut','w'").kind == "ok", "the branch is rolled back")
                rows = {key: self.value(client, key) for key in [*map(str, range(12)), "cut"]}
            server.end()
            script = (self.folder / "history").read_bytes()
            self.assertGreater(script.count(b"\n"), 1_500)
            asked = script + b"".join(b"1 GET '%s'\n" % key.encode() for key in rows)
            ran = subprocess.run([PROGRAM, "run"], input=asked, stdout=subprocess.PIPE, check=True)
            answers = ran.stdout.splitlines()
            self.assertEqual([line for line in answers if b"ERROR" in line], [])
            expected = [b"1 NONE" if value is None else b"1 VALUE 0x" + value.hex().encode() for value in rows.values()]
            self.assertEqual(answers[-len(rows):], expected)

    def folder_of(self):
        self.folder = Path(self.ends.enter_context(tempfile.TemporaryDirectory()))
        return self.folder
