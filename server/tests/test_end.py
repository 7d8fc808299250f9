"""The end, and what can be seen until then."""
import json
import signal
import tempfile
import time
from pathlib import Path

from support import Case, quick, wait_for
from test_lending import Worker
from wire import Closed


class End(Case):
    def test_a_signal_amid_work(self):
        """Statements that were called are answered or not, the record is whole and LEGAL, the history is written, and
        the status is 0."""
        for number in (signal.SIGTERM, signal.SIGINT):
            folder = Path(self.ends.enter_context(tempfile.TemporaryDirectory()))
            server = self.serve("--history", folder / "history", stores=2)
            workers = [Worker(server, number, 100_000) for number in range(20)]
            for worker in workers:
                worker.start()
            wait_for(lambda: sum(worker.ended for worker in workers) > 200, "they work")
            server.process.send_signal(number)
            self.assertEqual(server.ended(), 0)
            for worker in workers:
                worker.join()
                self.assertIsInstance(worker.fault, (Closed, ConnectionError, AssertionError))
            self.assertEqual(server.verdicts(), ["LEGAL", "EMPTY"])
            calls = [line for line in server.records()[0].read_text().splitlines() if " > " in line]
            returns = [line for line in server.records()[0].read_text().splitlines() if " < " in line]
            self.assertEqual(len(calls), len(returns))
            self.assertGreater((folder / "history.1").stat().st_size, 10_000)

    def test_a_signal_while_a_statement_is_held(self):
        server = self.serve(faults=["XA PREPARE 1 stall 600"])
        client = self.client(server)
        self.ok(client, "XA START 'a'", "PUT 'k','v'", "XA END 'a'")
        client.send(b"\x03XA PREPARE 'a'")
        wait_for(lambda: server.logged("held before it"), "it is held")
        server.process.terminate()
        self.assertEqual(server.ended(), 0)
        self.assertEqual(server.verdicts(), ["LEGAL"])
        self.assertNotIn("XA PREPARE 0x61,X'',1\n", server.record.read_text())

    def test_a_signal_while_a_branch_waits_for_a_session(self):
        """It isn't cut off after ten seconds, as a statement is that goes on."""
        self.assertTrue(quick(9, self.end_while_a_branch_waits))

    def end_while_a_branch_waits(self):
        server = self.serve("--wait", "600")
        clients = [self.client(server) for _ in range(17)]
        for number, client in enumerate(clients[:16]):
            self.ok(client, f"XA START '{number}'")
        clients[16].send(b"\x03XA START 'late'")
        self.wait_for_one_that_waits(server)
        began = time.monotonic()
        self.assertEqual(server.end(), 0)
        took = time.monotonic() - began
        self.assertEqual(server.verdicts(), ["LEGAL"])
        return took

    def test_a_signal_during_an_outage(self):
        server = self.serve(faults=["NOW outage 600"])
        wait_for(lambda: server.logged("is out for 600 seconds"), "it is out")
        server.process.terminate()
        self.assertEqual(server.ended(), 0)


class Files(Case):
    def ends_with(self, server, said):
        self.assertEqual(server.ended(), 1)
        server.end()
        self.assertTrue(server.logged(said), server.log)

    def test_a_history_that_cant_be_written(self):
        server = self.serve("--history", "/dev/full")
        self.ok(self.client(server), "PUT 'k','v'")
        self.ends_with(server, "store 1's history can't be written: No space left on device")

    def test_a_comment_of_a_fault_that_cant_be_written(self):
        server = self.serve("--record", "/dev/full", record=False, faults=["GET 1 stall 0.1"])
        with self.assertRaises((Closed, ConnectionError)):
            self.client(server).ask("GET 'k'")
        self.ends_with(server, "store 1's record can't be written: No space left on device")


class Status(Case):
    def seen(self, client):
        return client.ask("SHOW NIGBARU STATUS").rows

    def test_as_a_table(self):
        server = self.serve()
        one, two = self.client(server), self.client(server)
        self.prepare(one, "'a','b',7", "k", "v")
        self.ok(one, "XA START 'c'", "PUT 'm','v'")
        self.assertIsNone(self.value(one, "l"))
        two.ask("PUT 'k','w'")
        rows = {(name.decode(), of.decode()): value.decode() for name, of, value in self.seen(two)}
        self.assertEqual(rows["connections", "logged in"], "2")
        self.assertEqual((rows["sessions", "lent"], rows["sessions", "waited for"]), ("1", "0"))
        self.assertEqual(rows["history", "entries"], "7")  # four of the branch that is prepared, three of the other
        self.assertEqual((rows["statements", "XA START"], rows["statements", "PUT"], rows["refusals", "3572"]),
                         ("2", "3", "1"))
        self.assertRegex(rows["branch", "'a','b',7"], r"\APREPARED, connection 1, [0-9.]+ s, holds 'k'\Z")
        self.assertRegex(rows["branch", "'c','',1"], r"\AACTIVE, connection 1 from 127.0.0.1:\d+, session \d+, "
                         r"[0-9.]+ s, shares 'l', holds 'm'\Z")
        self.ok(one, "XA END 'c'", "XA ROLLBACK 'c'", "XA ROLLBACK 'a','b',7")
        self.assertEqual([row for row in self.seen(two) if row[0] == b"branch"], [])
        self.ok(one, "BEGIN", "PUT 'k','v'")
        self.assertEqual(len([row for row in self.seen(two) if row[0] == b"branch" and b"LOCAL" in row[2]]), 1)

    def test_a_branch_of_many_rows(self):
        """The table shows a thousand of them."""
        client = self.client(self.serve(record=False))
        self.ok(client, "XA START 'a'", *(f"PUT '{number:04}','v'" for number in range(1_002)))
        (told,) = [row[2].decode() for row in self.seen(client) if row[0] == b"branch"]
        self.assertEqual((told.count(", holds "), told.endswith(", holds '0999', and 2 rows more")), (1_000, True))

    def test_as_a_file(self):
        folder = Path(self.ends.enter_context(tempfile.TemporaryDirectory()))
        server = self.serve("--status", folder / "status", stores=2)
        client = self.client(server, 1)
        self.ok(client, "XA START 'a'", "PUT 'k','v'")
        wait_for((folder / "status").exists, "it is written")
        wait_for(lambda: self.branches(folder) == [[], [("0x61,X'',1", "ACTIVE", {"0x6b": "HOLDS"})]],
                 "the branch is there")
        self.ok(client, "XA END 'a'", "XA PREPARE 'a'")
        wait_for(lambda: self.branches(folder) == [[], [("0x61,X'',1", "PREPARED", {"0x6b": "HOLDS"})]],
                 "it is prepared")

    @staticmethod
    def branches(folder):
        stores = json.loads((folder / "status").read_text())["stores"]
        return [[(it["xid"], it["state"], it["rows"]) for it in store["branches"]] for store in stores]
