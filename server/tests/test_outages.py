"""Further faults: connects and logins, local transactions, one phase, every nth, chances, outages, and a file that is
read again."""
import os
import random
import threading
import time

from support import Case, wait_for
from wire import Client, Closed

XID = "'g','b',1"


class Faults(Case):
    def cut(self, call, *words):
        with self.assertRaises((Closed, ConnectionError)):
            call(*words)

    def legal(self, server, noted):
        self.assertEqual(server.verdicts(), ["LEGAL"])
        self.assertIn(noted, server.record.read_text())
        wait_for(lambda: server.logged(noted), noted)

    def begin(self, client, xid=XID):
        self.ok(client, f"XA START {xid}", "PUT 'k','v'", f"XA END {xid}")

    def test_one_phase_apart_from_commit(self):
        server = self.serve(faults=["ONE PHASE 1 close-after", "XA COMMIT 1 close-before"])
        client = self.client(server)
        self.begin(client)
        self.cut(client.ask, f"XA COMMIT {XID} ONE PHASE")
        client = self.client(server)
        self.assertEqual(self.value(client, "k"), b"v")
        self.begin(client)
        self.ok(client, f"XA PREPARE {XID}")
        self.cut(client.ask, f"XA COMMIT {XID}")
        self.ok(self.client(server), f"XA COMMIT {XID}")
        self.legal(server, "the fault ONE PHASE 1 close-after")

    def test_local_transactions(self):
        server = self.serve(faults=["BEGIN 2 close-before", "COMMIT 1 close-after", "COMMIT 2 close-before",
                                    "ROLLBACK 1 error 1213"])
        client = self.client(server)
        self.ok(client, "BEGIN", "PUT 'k','v'")
        self.cut(client.ask, "COMMIT")
        client = self.client(server)
        self.assertEqual(self.value(client, "k"), b"v")
        self.cut(client.ask, "BEGIN")
        client = self.client(server)
        self.ok(client, "BEGIN", "PUT 'k','w'")
        self.cut(client.ask, "COMMIT")
        client = self.client(server)
        self.assertEqual(self.value(client, "k"), b"v")
        self.ok(client, "BEGIN", "PUT 'k','x'")
        self.refused(client, "ROLLBACK", 1213, "40001")
        self.ok(client, "ROLLBACK")
        self.legal(server, "the fault COMMIT 2 close-before, at COMMIT: cut before it")

    def test_connects_and_logins(self):
        server = self.serve(faults=["CONNECT 1 close-before", "CONNECT 2 error 1040", "CONNECT 3 close-after",
                                    "LOGIN 1 close-before", "LOGIN 2 close-after", "LOGIN 3 error 1045",
                                    "LOGIN 4 stall-after 0.3"])
        self.cut_off(server)
        with Client(server.port, log_in=False) as client:
            self.assertEqual(client.read(client.packet()).number, 1040)
        for _ in range(3):
            self.cut_off(server)
        self.assertEqual(self.client(server).welcome.number, 1045)
        began = time.monotonic()
        self.ok(self.client(server), "PUT 'k','v'")
        self.assertGreater(time.monotonic() - began, 0.3)
        self.legal(server, "the fault CONNECT 3 close-after")

    def cut_off(self, server):
        with Client(server.port, log_in=False) as client:
            self.cut(client.log_in, b"root", b"", b"mysql_native_password")

    def test_every_nth_and_chances(self):
        server = self.serve(faults=["GET every 5 error 1205", "PUT chance 0.2 seed 7 error 1205"])
        client = self.client(server)
        self.assertEqual([client.ask("GET 'k'").kind for _ in range(10)], (["table"] * 4 + ["error"]) * 2)
        said = [client.ask("PUT 'k','v'").kind for _ in range(200)]
        self.assertTrue(20 < said.count("error") < 60)
        again = self.client(self.serve(faults=["PUT chance 0.2 seed 7 error 1205"]))
        self.assertEqual([again.ask("PUT 'k','v'").kind for _ in range(200)], said)

    def test_an_outage(self):
        """Whoever is there is cut, nobody comes in, and afterwards what was prepared is there, and nothing else."""
        server = self.serve(faults=["STORE 1 GET 2 outage 600"], stores=2)
        prepared, active, cut, other = (self.client(server), self.client(server), self.client(server),
                                        self.client(server, 1))
        self.prepare(prepared, XID, "k", "v")
        self.ok(active, "XA START 'active'", "PUT 'l','v'")
        self.assertIsNone(self.value(cut, "k"))
        self.cut(cut.ask, "GET 'k'")
        for client in (prepared, active):
            self.cut(client.ask, "XA RECOVER")
        wait_for(lambda: self.is_refused(server), "the port is closed")
        self.assertIsNone(self.value(other, "k"))
        # An outage that is told meanwhile says anew when the store is back.
        began = time.monotonic()
        server.change_faults("STORE 1 NOW outage 1")
        wait_for(lambda: not self.is_refused(server), "the port is open again")
        self.assertGreater(time.monotonic() - began, 1)
        client = self.client(server)
        self.assertEqual(client.ask("XA RECOVER").rows, [(b"1", b"1", b"1", b"gb")])
        wait_for(lambda: client.ask("PUT 'l','w'").kind == "ok", "what wasn't prepared is gone")
        self.ok(client, f"XA COMMIT {XID}")
        self.assertEqual(self.value(client, "k"), b"v")
        wait_for(lambda: server.logged("store 1 is back"), "it is back")
        self.assertEqual(server.verdicts(), ["LEGAL", "LEGAL"])
        record = server.records()[0].read_text()
        self.assertIn("out for 600 seconds: the fault GET 2 outage 600", record)
        self.assertIn("out for 1 seconds: it is told so", record)

    @staticmethod
    def is_refused(server):
        try:
            with Client(server.port, log_in=False) as client:
                client.log_in(b"root", b"", b"mysql_native_password")
                return False
        except (Closed, ConnectionError):
            return True

    def test_a_file_that_is_read_again(self):
        server = self.serve(faults=["GET 2 error 1205"])
        client = self.client(server)
        self.assertEqual([client.ask("GET 'k'").kind for _ in range(3)], ["table", "error", "table"])
        server.change_faults("GET 1 error 1213", "PUT 1 error 1205")
        wait_for(lambda: server.logged("read again: 2 of all stores"), "the file is read")
        self.assertEqual([client.ask("GET 'k'").number for _ in range(2)], [1213, None])
        server.change_faults("GET 1 error 1213", "PUT nonsense")
        wait_for(lambda: server.logged("the faults stay as they were"), "the file is refused")
        self.assertEqual(client.ask("PUT 'k','v'").number, 1205)
        # of the same moment and length as the one before, and yet another file
        about = (server.folder / "faults").stat()
        (server.folder / "same").write_text("GET 1 error 1205\n# 34567890ab\n")
        os.utime(server.folder / "same", ns=(about.st_atime_ns, about.st_mtime_ns))
        self.assertEqual((server.folder / "same").stat().st_size, about.st_size)
        (server.folder / "same").rename(server.folder / "faults")
        wait_for(lambda: server.logged("read again: 1 of all stores"), "the file is read")
        self.assertEqual([client.ask("GET 'k'").number for _ in range(2)], [1205, None])
        server.change_faults("NOW outage 0.5")
        wait_for(lambda: server.logged("store 1 is out for 0.5 seconds: it is told so"), "it goes out")
        wait_for(lambda: server.logged("store 1 is back"), "it is back")
        self.ok(self.client(server), "PUT 'k','v'")


class Worker(threading.Thread):
    """A client that goes through cycles while it is cut at any place, and then commits what may be prepared."""

    def __init__(self, server, number, cycles):
        super().__init__()
        self.server, self.number, self.cycles, self.draw = server, number, cycles, random.Random(number)
        self.cut, self.fault, self.client = 0, None, None

    def run(self):
        try:
            for turn in range(self.cycles):
                self.cycle(f"'{self.number} {turn}','b',7")
        except Exception as fault:
            self.fault = fault
        finally:
            if self.client:
                self.client.close()

    def again(self):
        """Connects, over as many tries as it takes."""
        if self.client:
            self.client.close()
        while True:
            self.client = Client(self.server.port, log_in=False) if self.is_open() else None
            if self.client:
                try:
                    self.client.log_in(b"root", b"", b"mysql_native_password")
                    if self.client.welcome.kind == "ok":
                        return
                except (Closed, ConnectionError):
                    pass
                self.client.close()
            time.sleep(0.02)

    def is_open(self):
        try:
            with Client(self.server.port, log_in=False):
                return True
        except ConnectionError:
            return False

    def ask(self, text, *allowed):
        answer = self.client.ask(text)
        if answer.kind == "error" and answer.number not in allowed:
            raise AssertionError(f"{text}: {answer}")

    def cycle(self, xid):
        try:
            if self.client is None:
                self.again()
            self.ask(f"XA START {xid}")
            for _ in range(2):
                key = self.draw.randrange(12)
                self.ask(self.draw.choice([f"PUT '{key}','{self.number}'", f"GET '{key}'"]), 3572)
            self.ask(f"XA END {xid}")
            self.ask(f"XA PREPARE {xid}")
            self.ask(f"XA {self.draw.choice(['COMMIT', 'ROLLBACK'])} {xid}")
        except (Closed, ConnectionError):
            self.finish(xid)

    def finish(self, xid):
        while True:
            self.cut += 1
            try:
                self.again()
                # an earlier connection may still be at it
                wait_for(lambda: self.client.ask(f"XA COMMIT {xid}").number in (None, 1397), "it is over")
                return
            except (Closed, ConnectionError):
                pass


class Storm(Case):
    def test_faults_at_random(self):
        """Thirty clients, cut at any place and shut out again and again: each is served in the end, nothing is left,
        and the record is LEGAL."""
        points = ["XA START", "XA END", "XA PREPARE", "XA COMMIT", "XA ROLLBACK", "PUT", "GET", "LOGIN", "CONNECT"]
        lines = [f"{point} chance 0.02 seed {seed} {what}" for seed, (point, what) in enumerate(
            (point, what) for point in points
            for what in ("close-before", "close-after", "stall 0.01", "stall-after 0.01"))]
        server = self.serve("--wait", "60", faults=[*lines, "XA PREPARE every 300 outage 0.2"])
        workers = [Worker(server, number, 40) for number in range(30)]
        for worker in workers:
            worker.start()
        for worker in workers:
            worker.join()
        self.assertEqual([worker.fault for worker in workers if worker.fault], [])
        self.assertGreater(sum(worker.cut for worker in workers), 100)
        self.assertGreater(sum("is back" in line for line in server.log), 1)
        (server.folder / "faults").write_text("")
        wait_for(lambda: server.logged("read again: 0 of all stores"), "there are no faults any more")
        client = self.client(server)
        wait_for(lambda: client.ask("XA RECOVER").rows == [], "nothing is prepared")
        wait_for(lambda: all(client.ask(f"PUT '{key}','free'").kind == "ok" for key in range(12)), "no row is held")
        self.assertEqual(server.verdicts(), ["LEGAL"])
