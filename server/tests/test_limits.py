"""Who is let in, how many, how much, and what becomes of who does it wrong, while others go on."""
import contextlib
import os
import signal
import struct
import tempfile
import time
from pathlib import Path

import pymysql
from support import LONGEST, Case, wait_for
from wire import ERROR, Client, Closed


class Limits(Case):
    def goes_on(self, server):
        """Others are answered."""
        with server.client() as client:
            self.ok(client, "PUT 'alive','yes'")

    def test_seventeen_connections(self):
        server = self.serve("--max-connections", "16")
        clients = [self.client(server) for _ in range(16)]
        for number, client in enumerate(clients):
            self.ok(client, f"XA START 'branch {number}'", f"PUT 'key {number}','v'")
        refused = self.client(server)
        self.assertEqual((refused.welcome.number, refused.welcome.sqlstate), (1040, "08004"))
        for _ in range(50):
            leaving = clients.pop()
            leaving.send(b"\x01")
            # The server is done with it once it has closed.
            self.assertTrue(leaving.is_closed())
            leaving.close()
            clients.append(self.client(server))
            self.assertEqual(clients[-1].welcome.kind, "ok")
            self.ok(clients[-1], "XA START 'branch 15'", "PUT 'key 15','v'")
        self.assertEqual(self.client(server).welcome.number, 1040)
        self.assertEqual(server.verdicts(), ["LEGAL"])

    def test_packets(self):
        server = self.serve()
        client = self.client(server)
        self.ok(client, "PUT 'k','v'" + " " * (65_535 - 11))
        for size in (65_537, 1 << 20, (1 << 24) - 2):
            with server.client() as greedy:
                greedy.send(b"\x03" + b"x" * (size - 1))
                answer = greedy.read(greedy.packet())
                self.assertEqual((answer.kind, answer.number, answer.sqlstate), (ERROR, 1153, "08S01"))
                self.assertTrue(greedy.is_closed())
        # A text of 16 MiB and more comes in several packets. The client reads its refusal when it has sent them all.
        with server.client() as greedy:
            greedy.send(b"\x03" + b"x" * ((1 << 24) - 2))
            greedy.send(b"x" * ((1 << 24) - 1), 1)
            greedy.send(b"x" * 1000, 2)
            answer = greedy.read(greedy.packet())
            self.assertEqual((answer.number, answer.text), (1153, "a packet of more than 65536 bytes"))
        for size in (70_000, 17 << 20):
            with pymysql.connect(host="127.0.0.1", port=server.port, user="root") as greedy:
                with self.assertRaises(pymysql.err.Error) as refused:
                    greedy.query("GET '" + "x" * size + "'")
                self.assertEqual(refused.exception.args, (1153, "a packet of more than 65536 bytes"))
        with Client(server.port, log_in=False) as greedy:
            greedy.greeted()
            greedy.send(b"x" * 100_000, 1)
            self.assertEqual(greedy.read(greedy.packet()).number, 1153)
        self.assertEqual(self.value(client, "k"), b"v")

    def test_passwords(self):
        with tempfile.TemporaryDirectory() as folder:
            secret = Path(folder) / "secret"
            secret.write_text("right\n")
            server = self.serve("--user", "judy", "--password-file", secret)
            for plugin in (b"mysql_native_password", b"caching_sha2_password"):
                with Client(server.port, b"judy", b"right", plugin=plugin) as client:
                    self.ok(client, "PUT 'k','v'")
                for user, password in ((b"judy", b"wrong"), (b"judy", b""), (b"jud", b"right"), (b"", b"")):
                    with Client(server.port, user, password, plugin=plugin) as client:
                        self.assertEqual((client.welcome.number, client.welcome.sqlstate), (1045, "28000"))
            wait_for(lambda: server.logged("a wrong user or password"), "it is told")
            everywhere = self.serve("--user", "judy", "--password-file", secret, "--host", "0.0.0.0")
            self.assertTrue(everywhere.logged("listens on 0.0.0.0:"))
            with Client(everywhere.port, b"judy", b"right") as client:
                self.ok(client, "PUT 'k','v'")

    def test_silence(self):
        """A client that says nothing at its login, one that stops in its login, and one that stops in a packet are each
        waited for ten seconds."""
        server = self.serve()
        silent, halting, half = (Client(server.port, log_in=False), Client(server.port, log_in=False),
                                 self.client(server))
        began = time.monotonic()
        halting.greeted()
        halting.socket.sendall(b"\x40\0\0\x01abc")
        half.socket.sendall(b"\x10\0\0\0\x03XA")
        idle = self.client(server)
        for client in (silent, halting, half):
            self.assertTrue(client.is_closed())
            client.close()
        self.assertGreater(time.monotonic() - began, 9)
        wait_for(lambda: sum("silent for 10 seconds" in line for line in server.log) == 2,
                 "two silent clients are logged")
        wait_for(lambda: server.logged("half a packet"), "half a packet is logged")
        self.ok(idle, "PUT 'k','v'")

    def test_cut_anywhere(self):
        """Connections that end after each byte of a login and of a statement."""
        server = self.serve()
        login = Client.login_packet(b"root", b"", b"mysql_native_password")
        begin = len(login).to_bytes(3, "little") + b"\x01" + login
        text = b"\x03PUT 'k','v'"
        whole = begin + len(text).to_bytes(3, "little") + b"\0" + text
        for cut in range(len(whole)):
            with Client(server.port, log_in=False) as client:
                client.socket.sendall(whole[:cut])
                client.socket.shutdown(1)
                self.assertTrue(client.is_closed())
        self.goes_on(server)
        wait_for(lambda: server.logged("in the middle of a packet"), "cut connections are logged")
        with server.client() as client:
            self.assertIsNone(self.value(client, "k"))
        self.assertEqual(server.verdicts(), ["LEGAL"])

    def test_a_client_that_breaks_off(self):
        """A connection that is reset in a branch: the branch is rolled back, and its number given again."""
        server = self.serve()
        for _ in range(40):
            client = server.client()
            self.ok(client, "XA START 'a'", "PUT 'k','v'")
            client.socket.setsockopt(1, 13, struct.pack("ii", 1, 0))  # SO_LINGER: the end is a reset
            client.close()
            with server.client() as other:
                wait_for(lambda: other.ask("XA START 'a'").kind == "ok", "the branch is rolled back")
                self.ok(other, "XA END 'a'", "XA ROLLBACK 'a'")
        self.assertEqual(server.verdicts(), ["LEGAL"])

    def test_a_client_that_reads_nothing(self):
        """Answers that nobody takes wait for ten seconds, and others are answered meanwhile."""
        server = self.serve(record=False)
        greedy = self.client(server)
        greedy.socket.setblocking(False)
        packet = len(b"\x03XA RECOVER").to_bytes(3, "little") + b"\0\x03XA RECOVER"
        # So many answers are far more than what any buffer holds.
        unsent = packet * 200_000

        def is_closed():
            """Sends what is taken, and looks whether another is answered."""
            nonlocal unsent
            with contextlib.suppress(BlockingIOError, ConnectionError):
                while unsent:
                    unsent = unsent[greedy.socket.send(unsent[:65536]):]
            self.goes_on(server)
            return server.logged("answers that it didn't take")

        self.assertFalse(is_closed())
        wait_for(is_closed, "the client is closed", LONGEST)
        self.goes_on(server)

    def test_strangers(self):
        """256 connections may be open that haven't logged in; clients that have are answered."""
        server = self.serve("--max-logins", "256", "--patience", "60")
        client = self.client(server)
        strangers = [Client(server.port, log_in=False) for _ in range(256)]
        for stranger in strangers:
            stranger.greeted()
        with Client(server.port, log_in=False) as more:
            self.assertEqual(more.read(more.packet()).number, 1040)
        self.ok(client, "PUT 'k','v'")
        for stranger in strangers:
            stranger.close()
        wait_for(lambda: self.lets_in(server), "a stranger's place is free again")

    @staticmethod
    def lets_in(server):
        with Client(server.port, log_in=False) as client:
            return client.packet()[0] == 10

    def test_a_record_that_cannot_be_written(self):
        server = self.serve("--record", "/dev/full", record=False)
        client = self.client(server)
        self.assertRaises((Closed, ConnectionError), client.ask, "GET 'k'")
        self.assertEqual(server.ended(), 1)
        server.end()
        self.assertTrue(server.logged("store 1's record can't be written: No space left on device"), server.log)

    def assert_unwritten(self, server, why):
        """The server ends by itself, with one line on its standard error behind those of its ports, and status 1."""
        self.assertEqual(server.ended(), 1)
        server.end()
        said = [line for line in server.log if "listens on" not in line and "connection" not in line]
        self.assertEqual(len(said), 1, server.log)
        self.assertRegex(said[0], f"can't be written: {why}")

    def test_a_record_that_nobody_reads_any_more(self):
        with tempfile.TemporaryDirectory() as folder:
            pipe = Path(folder) / "pipe"
            os.mkfifo(pipe)
            reader = os.open(pipe, os.O_RDONLY | os.O_NONBLOCK)
            try:
                server = self.serve("--record", pipe, record=False)
            finally:
                os.close(reader)
            client = self.client(server)
            with contextlib.suppress(Closed, ConnectionError):
                client.ask("PUT 'k','v'")
            self.assert_unwritten(server, "Broken pipe")

    def test_the_end(self):
        """A signal ends the server, with status 0; clients are cut off."""
        for number in (signal.SIGTERM, signal.SIGINT):
            server = self.serve(stores=2)
            client = self.client(server)
            self.ok(client, "XA START 'a'")
            server.process.send_signal(number)
            self.assertEqual(server.ended(), 0)
            self.assertTrue(client.is_closed())
            # nobody asked the second store anything
            self.assertEqual(server.verdicts(), ["LEGAL", "EMPTY"])
