"""Bytes that no client sends, drawn from a seed: the server answers others after each, and a good client goes through
its cycles undisturbed all the time."""
import random
import struct
import threading
import time

from support import LONG, SEED, Case
from test_lending import memory
from wire import CAN, Client, Closed

PACKETS = 100_000 if LONG else 10_000
STREAMS = 20_000 if LONG else 2_000
LOGIN = Client.login_packet(b"root", b"", b"mysql_native_password")
BEGIN = b"\x17\x01\0\0\0\0\x01\0\0\0"
# Commands of each kind.
COMMANDS = [b"\x03XA START 'a','b',7", b"\x03PUT 'k','v'", b"\x03GET X'6b'", b"\x03XA RECOVER", b"\x03SET autocommit=0",
            b"\x03COMMIT", b"\x03XA END 'a','b',7", b"\x03XA PREPARE 'a','b',7", b"\x03XA ROLLBACK 'a','b',7",
            b"\x03SELECT @@version, 'x' AS `y` LIMIT 1", b"\x03SHOW VARIABLES LIKE 'c%'", b"\x03SHOW NIGBARU STATUS",
            b"\x03SET NAMES utf8", b"\x03DO 1",
            b"\x03SET SESSION TRANSACTION ISOLATION LEVEL READ COMMITTED, READ ONLY", b"\x03BEGIN", b"\x16PUT ?,?",
            b"\x16XA COMMIT ?,?,? ONE PHASE", BEGIN + b"\0\x01\xfd\0\xfd\0\x01k\x01v",
            BEGIN + b"\x02\x01\x08\0\x06\0" + bytes(8), b"\x18\x01\0\0\0\x01\0abc", b"\x19\x01\0\0\0",
            b"\x1a\x01\0\0\0", b"\x0e", b"\x09", b"\x1b\0\0", b"\x1f", b"\x02db", b"\x04t\0", b"\x0d",
            b"\x11root\0\0db\0"]
LOGINS = [LOGIN, LOGIN, struct.pack("<IIB23x", CAN | 0x300008, 1 << 24, 45) + b"root\0\x14" + b"p" * 20
          + b"db\0mysql_native_password\0\x10\x03abc\x03def\x03ghi\x03jkl",
          Client.login_packet(b"root", b"?", b"dialog")]
SLOWEST = 60  # seconds, for an answer to the good client, on a machine that does much else


def framed(payload, number=0):
    return len(payload).to_bytes(3, "little") + bytes((number,)) + payload


def mutated(draw, payload, number=0):
    """A packet with one to three bytes changed, left out or put in; one in ten keeps a header that is wrong then, or
    has it changed too."""
    packet = bytearray(payload)
    for _ in range(draw.randint(1, 3)):
        place = draw.randrange(len(packet) + 1)
        packet[place:place + draw.randrange(2)] = draw.randbytes(draw.randrange(2))
    length = (len(packet) if draw.random() < 0.9
              else draw.choice([len(payload), draw.randrange(100), draw.randrange(1 << 24)]))
    return length.to_bytes(3, "little") + bytes((draw.choice([number, number, draw.randrange(256)]),)) + bytes(packet)


def stream(draw):
    """All that a client says: a login and commands, some of them mutated, left out, doubled or in another order, and
    maybe cut off anywhere."""
    packets = [framed(draw.choice(LOGINS), 1)] + [framed(draw.choice(COMMANDS)) for _ in range(draw.randint(1, 8))]
    for _ in range(draw.randint(1, 3)):
        place = draw.randrange(len(packets))
        what = draw.randrange(5)
        if what < 2:
            packets[place] = mutated(draw, packets[place][4:], packets[place][3])
        elif what == 2:
            packets.insert(place, packets[draw.randrange(len(packets))])
        elif what == 3 and len(packets) > 1:
            packets.pop(place)
        else:
            draw.shuffle(packets)
    said = b"".join(packets)
    return said[:draw.randrange(len(said) + 1)] if draw.random() < 0.3 else said


class Good(threading.Thread):
    """A client that does everything right, and notes what is answered otherwise, or late."""

    def __init__(self, server):
        super().__init__()
        self.client, self.cycles, self.slowest, self.fault, self.ends = server.client(), 0, 0, None, False

    def run(self):
        try:
            while not self.ends or self.cycles == 0:
                self.cycle(f"'good','{self.cycles}',7", f"{self.cycles}")
                self.cycles += 1
        except Exception as fault:
            self.fault = fault

    def ask(self, text):
        began = time.monotonic()
        answer = self.client.ask(text)
        self.slowest = max(self.slowest, time.monotonic() - began)
        return answer

    def cycle(self, xid, value):
        for text in (f"XA START {xid}", f"PUT 'good','{value}'", f"XA END {xid}", f"XA PREPARE {xid}",
                     f"XA COMMIT {xid}"):
            answer = self.ask(text)
            assert answer.kind == "ok", (text, answer)
        rows = self.ask("GET 'good'").rows
        assert rows == [(value.encode(),)], (rows, value)

    def end(self):
        self.ends = True
        self.join()
        self.client.close()


class Noise(Case):
    def setUp(self):
        super().setUp()
        self.server = self.serve(record=False)
        # (a packet that is changed may be a KILL, mostly of a number of a few bits)
        for _ in range(300):
            self.server.client().close()
        self.witness = self.client(self.server)
        self.good = Good(self.server)
        self.good.start()
        self.before = memory(self.server)
        self.addCleanup(self.good.end)

    def undisturbed(self):
        """The good client was answered rightly all the time, the server has nothing of the noise left, and had no fault
        of its own."""
        self.good.end()
        self.assertIsNone(self.good.fault)
        self.assertLess(self.good.slowest, SLOWEST)
        self.assertEqual([line for line in self.server.log if "panicked" in line], [])
        self.assertLess(memory(self.server) - self.before, 50_000)
        self.assertEqual(self.server.end(), 0)
        print(f"\n{self.good.cycles} cycles of a good client, {self.good.slowest * 1000:.0f} ms at most for an answer",
              flush=True)

    def alive(self):
        self.assertEqual(self.witness.command(b"\x0e").kind, "ok")

    def test_random_bytes_at_the_login(self):
        """100,000 bytes, in 500 pieces from 1 to 400."""
        draw = random.Random(SEED)
        left = 100_000
        while left:
            piece = draw.randbytes(min(left, draw.randint(1, 400)))
            left -= len(piece)
            with Client(self.server.port, log_in=False) as client:
                client.greeted()
                client.socket.sendall(piece)
                client.socket.shutdown(1)
                self.assertTrue(client.is_closed())
            self.alive()
        self.undisturbed()

    def test_one_long_noise(self):
        draw = random.Random(SEED)
        with Client(self.server.port, log_in=False) as client:
            client.greeted()
            try:
                client.socket.sendall(draw.randbytes(100_000))
                client.socket.shutdown(1)
            except ConnectionError:
                pass
            self.assertTrue(client.is_closed())
        self.alive()
        self.undisturbed()

    def test_mutated_packets(self):
        """Packets of each kind of command, with bytes changed, left out and put in, also in their headers."""
        draw = random.Random(SEED)
        client = self.fresh()
        closed = 0
        for _ in range(PACKETS):
            try:
                client.socket.sendall(mutated(draw, draw.choice(COMMANDS)))
                if draw.random() < 0.5:
                    self.read_something(client)
            except (Closed, ConnectionError):
                closed += 1
                client.close()
                client = self.fresh()
            self.alive()
        self.assertGreater(closed, 0)
        client.close()
        self.undisturbed()

    def test_mutated_streams(self):
        """Whole streams, in one piece or in several, whose client then reads all, reads nothing, shuts its side, or
        resets the connection."""
        draw = random.Random(SEED)
        for _ in range(STREAMS):
            said = stream(draw)
            cuts = sorted(draw.randrange(len(said) + 1) for _ in range(draw.choice([0, 0, 1, 5])))
            with Client(self.server.port, log_in=False) as client:
                try:
                    for begin, end in zip([0, *cuts], [*cuts, len(said)]):
                        client.socket.sendall(said[begin:end])
                    self.leave(draw, client)
                except OSError:
                    pass  # (the server was faster to close)
            self.alive()
        self.undisturbed()

    @staticmethod
    def leave(draw, client):
        how = draw.randrange(4)
        if how == 0:
            client.socket.shutdown(1)
            client.is_closed()
        elif how == 1:
            client.socket.setsockopt(1, 13, struct.pack("ii", 1, 0))  # SO_LINGER: the end is a reset
        elif how == 2:
            client.socket.recv(65536)

    def fresh(self):
        client = self.server.client()
        client.ask("GET 'k'")
        return client

    @staticmethod
    def read_something(client):
        """Takes what has been answered, without waiting for more."""
        client.socket.settimeout(0.001)
        try:
            if not client.socket.recv(65536):
                raise Closed
        except TimeoutError:
            pass
        finally:
            client.socket.settimeout(240)


class Records(Case):
    def test_a_record_of_noise(self):
        """What the store was asked amid mutated texts is LEGAL."""
        draw = random.Random(SEED + 1)
        server = self.serve()
        texts = [command for command in COMMANDS if command[:1] == b"\x03"]
        for _ in range(100):
            with server.client() as client:
                try:
                    for _ in range(50):
                        client.socket.sendall(framed(b"\x03" + mutated(draw, draw.choice(texts)[1:])[4:]))
                    client.socket.shutdown(1)
                    client.is_closed()
                except (Closed, ConnectionError):
                    pass
        self.assertEqual(server.verdicts(), ["LEGAL"])
        self.assertGreater(server.record.read_bytes().count(b" > "), 200)
