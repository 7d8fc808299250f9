"""Faults on purpose: what each does to the client and to the store, and that the record is LEGAL whatever was injected
but an error."""
import time

from support import Case, wait_for
from wire import Client, Closed

XID = "'g','b',1"


class Faults(Case):
    def start(self, *lines, stores=1):
        server = self.serve(faults=lines, stores=stores)
        client = self.client(server)
        self.ok(client, f"XA START {XID}", "PUT 'k','v'", f"XA END {XID}")
        return server, client

    def assert_cut(self, client, text):
        with self.assertRaises((Closed, ConnectionError)):
            client.ask(text)

    def is_out(self, server):
        """Whether nobody is taken in: the port is closed, or closes whoever comes just before it does."""
        try:
            with Client(server.port, log_in=False) as refused:
                return refused.is_closed()
        except ConnectionRefusedError:
            return True

    def left(self, server):
        """The prepared branches, once the connection's end is done."""
        self.watch = self.client(server)
        return self.watch.ask("XA RECOVER").rows

    def test_cut_before_the_prepare(self):
        server, client = self.start("XA PREPARE 1 close-before")
        self.assert_cut(client, f"XA PREPARE {XID}")
        self.assertEqual(self.left(server), [])
        self.ok(self.watch, "PUT 'k','w'")
        wait_for(lambda: server.logged("the fault XA PREPARE 1 close-before"), "it is told")
        self.ends_legal(server, "cut before it")

    def test_cut_after_the_prepare(self):
        server, client = self.start("XA PREPARE 1 close-after")
        self.assert_cut(client, f"XA PREPARE {XID}")
        self.assertEqual(len(self.left(server)), 1)
        self.ok(self.watch, f"XA COMMIT {XID}")
        self.assertEqual(self.value(self.watch, "k"), b"v")
        self.ends_legal(server, "cut after it, and the client has no answer")

    def test_cut_around_the_second_commit(self):
        server, client = self.start("XA COMMIT 1 close-before", "XA COMMIT 2 close-after")
        self.ok(client, f"XA PREPARE {XID}")
        self.assert_cut(client, f"XA COMMIT {XID}")
        self.assertEqual(len(self.left(server)), 1)
        self.assert_cut(self.watch, f"XA COMMIT {XID}")
        self.assertEqual(self.left(server), [])
        self.assertEqual(self.value(self.watch, "k"), b"v")
        self.ends_legal(server, "XA COMMIT 2 close-after")

    def test_held(self):
        """Before its effect or after it: nothing is answered meanwhile, and when the time is over it is."""
        server, client = self.start("XA PREPARE 1 stall 600", "XA PREPARE 2 stall 1", "XA COMMIT 1 stall-after 600",
                                    "XA COMMIT 2 stall-after 1")
        other = self.client(server)
        for verb, words, has_effect in (("PREPARE", "held before it", lambda: other.ask("XA RECOVER").rows),
                                        ("COMMIT", "held after it", lambda: self.value(other, "k"))):
            client.send(f"\x03XA {verb} {XID}".encode())
            wait_for(lambda: server.logged(words), words)
            self.assertEqual(bool(has_effect()), verb == "COMMIT")
            self.assertFalse(client.has_answer())
            client.close()
            client = self.client(server)
            wait_for(lambda: client.ask(f"XA START {XID}").kind == "ok", "the branch of who left is ended")
            self.ok(client, "PUT 'k','w'", f"XA END {XID}")
            if verb == "COMMIT":
                self.ok(client, f"XA PREPARE {XID}")
            began = time.monotonic()
            self.ok(client, f"XA {verb} {XID}")
            self.assertGreaterEqual(time.monotonic() - began, 1)
            self.assertTrue(has_effect())
        self.assertEqual(self.value(other, "k"), b"w")
        self.ends_legal(server, "held before it")

    def test_a_client_that_leaves_while_it_is_held(self):
        server, client = self.start("XA PREPARE 1 stall 600")
        client.send(b"\x03XA PREPARE " + XID.encode())
        client.close()
        wait_for(lambda: server.logged("while its statement was held"), "the client is gone")
        self.assertEqual(self.left(server), [])
        self.ok(self.watch, "PUT 'k','w'")
        self.ends_legal(server, "held before it")

    def test_an_outage(self):
        """All connections are cut and new ones refused for a while; what is prepared is kept, and the rest rolled
        back."""
        server, client = self.start("XA PREPARE 2 outage 600")
        self.ok(client, f"XA PREPARE {XID}")
        one, two = self.client(server), self.client(server)
        self.ok(one, "XA START 'lost'", "PUT 'other','v'")
        self.ok(two, "XA START 'two'", "XA END 'two'")
        self.assert_cut(two, "XA PREPARE 'two'")
        for each in (one, client):
            self.assertTrue(each.is_closed())
        self.assertTrue(self.is_out(server))
        # An outage that is told meanwhile says anew when the store is back.
        began = time.monotonic()
        server.change_faults("NOW outage 1")
        wait_for(lambda: server.logged("is back"), "the outage's end")
        self.assertGreaterEqual(time.monotonic() - began, 1)
        self.assertEqual(len(self.left(server)), 1)
        wait_for(lambda: self.watch.ask("PUT 'other','w'").kind == "ok", "what wasn't prepared is gone")
        self.ends_legal(server, "the fault XA PREPARE 2 outage 600, at XA PREPARE")

    def test_one_phase_is_counted_apart(self):
        server, client = self.start("ONE PHASE 1 close-before", "XA COMMIT 1 error 1402")
        other = self.client(server)
        self.ok(other, "XA START 'other'", "XA END 'other'", "XA PREPARE 'other'")
        self.refused(other, "XA COMMIT 'other'", 1402, "XA100")
        self.assert_cut(client, f"XA COMMIT {XID} ONE PHASE")

    def test_a_wrong_answer(self):
        server, client = self.start("XA PREPARE 1 error 1402", "PUT 2 error 65000")
        self.refused(client, f"XA PREPARE {XID}", 1402, "XA100")
        self.refused(client, "PUT 'k','w'", 65000, "HY000")
        self.ok(client, f"XA PREPARE {XID}", f"XA ROLLBACK {XID}")
        self.assertRegex(server.verdicts()[0], "ILLEGAL")

    def test_stores_count_for_themselves(self):
        server = self.serve(faults=["STORE 2 PUT 2 close-before"], stores=2)
        one, two = self.client(server, 0), self.client(server, 1)
        self.ok(one, "PUT 'k','v'", "PUT 'k','v'", "PUT 'k','v'")
        self.ok(two, "PUT 'k','v'")
        self.assert_cut(two, "PUT 'k','v'")
        self.assertEqual(server.verdicts(), ["LEGAL", "LEGAL"])

    def ends_legal(self, server, noted):
        self.assertEqual(server.verdicts(), ["LEGAL"])
        self.assertIn(noted, server.record.read_text())
