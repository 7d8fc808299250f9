"""Logins with bytes changed, left out and put in: each is let in, refused or closed, and others are answered after
each."""
import random
import struct
import tempfile
from pathlib import Path

from support import LONG, Case
from test_tls import REQUEST, certificate
from wire import CAN, Client, Closed

COUNT = 20_000 if LONG else 2_000
LOGINS = [
    Client.login_packet(b"root", b"", b"mysql_native_password"),
    Client.login_packet(b"root", b"p" * 20, b"mysql_native_password"),
    Client.login_packet(b"root", b"p" * 32, b"caching_sha2_password"),
    Client.login_packet(b"root", b"?", b"dialog"),
    struct.pack("<IIB23x", CAN | 0x300008, 1 << 24, 45) + b"root\0\x14" + b"p" * 20
    + b"db\0mysql_native_password\0\x10\x03abc\x03def\x03ghi\x03jkl",
    struct.pack("<IIB23x", CAN & ~0x88000, 1 << 24, 45) + b"root\0\0",
    REQUEST,
]


class Logins(Case):
    def test_mutated_logins(self):
        draw = random.Random(9)
        folder = Path(self.ends.enter_context(tempfile.TemporaryDirectory()))
        secret = folder / "secret"
        secret.write_text("secret\n")
        cert, key = certificate(folder)
        server = self.serve("--user", "root", "--password-file", secret, "--tls-cert", cert, "--tls-key", key)
        witness = self.ends.enter_context(Client(server.port, b"root", b"secret"))
        ends = {"closed": 0, 1045: 0}
        for _ in range(COUNT):
            with Client(server.port, log_in=False) as client:
                client.greeted()
                end = self.end_of(client, self.mutated(draw, draw.choice(LOGINS)))
                ends[end] = ends.get(end, 0) + 1
            self.assertEqual(witness.command(b"\x0e").kind, "ok")
        # Without the password nobody is let in, whatever is sent.
        self.assertEqual(set(ends), {"closed", 1043, 1045, 1153})
        self.assertGreater(min(ends["closed"], ends[1045]), COUNT // 20)
        self.assertEqual(server.verdicts(), ["EMPTY"])

    @staticmethod
    def mutated(draw, payload):
        packet = bytearray(payload)
        for _ in range(draw.randint(1, 3)):
            place = draw.randrange(len(packet) + 1)
            packet[place:place + draw.randrange(3)] = draw.randbytes(draw.randrange(3))
        length = len(packet) if draw.random() < 0.95 else draw.choice([draw.randrange(100), draw.randrange(1 << 24)])
        return length.to_bytes(3, "little") + b"\1" + bytes(packet)

    @staticmethod
    def end_of(client, login):
        """The number of the error that ends the connection, or how it ends without one."""
        try:
            client.due = None
            client.socket.sendall(login)
            client.socket.shutdown(1)
            while True:
                packet = client.packet()
                if packet[:1] == b"\xff":
                    return int.from_bytes(packet[1:3], "little")
                if packet[:1] == b"\0":
                    return "let in"
        except (Closed, ConnectionError):
            return "closed"
