"""A client of MySQL's protocol for tests, so small that each byte it sends is known, and independent of what the server
reads with."""
import hashlib
import select
import socket
import struct

CAN = 0x1 | 0x4 | 0x200 | 0x2000 | 0x8000 | 0x80000
OK, ERROR, TABLE, STATISTICS = "ok", "error", "table", "statistics"


class Closed(Exception):
    """The other side has closed the connection."""


class Answer:
    """What came back: `kind`, and of an error number, sqlstate and text, of a table names and rows, of what is done how
    many rows were affected, and the number that the first of them was given."""

    def __init__(self, kind, status=None, number=None, sqlstate=None, text=None, columns=None, rows=None,
                 affected=None, given=None):
        self.kind, self.status, self.number, self.sqlstate, self.text = kind, status, number, sqlstate, text
        self.columns, self.rows, self.affected, self.given = columns, rows, affected, given

    @property
    def names(self):
        return [name for name, _, _ in self.columns]

    def __repr__(self):
        return {OK: "OK", ERROR: f"ERROR {self.number} ({self.sqlstate}): {self.text}",
                TABLE: f"TABLE {self.rows}"}[self.kind]


def proof_of(password, scramble):
    if not password:
        return b""
    once = hashlib.sha1(password).digest()
    return bytes(a ^ b for a, b in zip(once, hashlib.sha1(scramble + hashlib.sha1(once).digest()).digest()))


def text_at(packet, place):
    """A text behind its length, or None, and where it ends."""
    first = packet[place]
    if first == 0xFB:
        return None, place + 1
    size = {0xFC: 2, 0xFD: 3, 0xFE: 8}.get(first, 0)
    length = int.from_bytes(packet[place + 1:place + 1 + size], "little") if size else first
    begin = place + 1 + size
    return packet[begin:begin + length], begin + length


def number_at(packet, place):
    """A number that says its own length, and where it ends."""
    size = {0xFC: 2, 0xFD: 3, 0xFE: 8}.get(packet[place], 0)
    if not size:
        return packet[place], place + 1
    return int.from_bytes(packet[place + 1:place + 1 + size], "little"), place + 1 + size


# How a number of each type is packed in a binary row.
PACKED = {1: "<b", 2: "<h", 3: "<i", 8: "<q"}


class Client:
    def __init__(self, port, user=b"root", password=b"", log_in=True, plugin=b"mysql_native_password",
                 host="127.0.0.1"):
        self.port = port
        self.socket = socket.create_connection((host, port), timeout=240)
        self.socket.setsockopt(socket.IPPROTO_TCP, socket.TCP_NODELAY, 1)
        self.held, self.sequence, self.due = b"", 0, 0
        self.number = 0
        if log_in:
            self.log_in(user, password, plugin)

    # packets

    def take(self, count):
        while len(self.held) < count:
            try:
                data = self.socket.recv(65536)
            except TimeoutError:
                raise TimeoutError(f"port {self.port} has sent nothing for {self.socket.gettimeout():.0f} s") from None
            if not data:
                raise Closed
            self.held += data
        taken, self.held = self.held[:count], self.held[count:]
        return taken

    def packet(self):
        header = self.take(4)
        # Packets are numbered on: from the one before, or from what was sent last, unless that was noise.
        assert self.due is None or header[3] in (self.sequence, self.due), (header, self.sequence, self.due)
        self.sequence = (header[3] + 1) % 256
        return self.take(int.from_bytes(header[:3], "little"))

    def send(self, payload, sequence=0):
        self.due = (sequence + 1) % 256
        self.socket.sendall(len(payload).to_bytes(3, "little") + bytes((sequence,)) + payload)

    # login

    def log_in(self, user, password, plugin):
        self.scramble = self.greeted()
        proof = proof_of(password, self.scramble) if plugin == b"mysql_native_password" else b"?"
        self.send(self.login_packet(user, proof, plugin), 1)
        answer = self.packet()
        if answer[:1] == b"\xfe":
            self.send(proof_of(password, self.scramble), self.sequence)
            answer = self.packet()
        self.welcome = self.read(answer)
        if self.welcome.kind == ERROR:
            self.close()

    def greeted(self):
        """Reads the greeting; the scramble."""
        packet = self.packet()
        assert packet[0] == 10, packet
        end = packet.index(0, 1)
        self.version = packet[1:end]
        return packet[end + 5:end + 13] + packet[end + 32:end + 44]

    @staticmethod
    def login_packet(user, proof, plugin):
        return struct.pack("<IIB23x", CAN, 1 << 24, 45) + user + b"\0" + bytes((len(proof),)) + proof + plugin + b"\0"

    # commands

    def ask(self, text):
        """Sends a text, and reads the answer."""
        return self.command(b"\x03" + (text.encode() if isinstance(text, str) else text))

    def command(self, payload):
        self.send(payload)
        return self.read(self.packet())

    def read(self, packet, is_binary=False):
        if packet[0] == 0:
            affected, place = number_at(packet, 1)
            given, place = number_at(packet, place)
            return Answer(OK, status=int.from_bytes(packet[place:place + 2], "little"), affected=affected, given=given)
        if packet[0] == 0xFF:
            return Answer(ERROR, number=int.from_bytes(packet[1:3], "little"), sqlstate=packet[4:9].decode(),
                          text=packet[9:].decode())
        columns = [self.column(self.packet()) for _ in range(packet[0])]
        self.packet()
        rows = []
        while True:
            packet = self.packet()
            if packet[0] == 0xFE and len(packet) < 9:
                return Answer(TABLE, status=int.from_bytes(packet[3:5], "little"), columns=columns, rows=rows)
            rows.append(self.binary_row(packet, columns) if is_binary else self.row(packet))

    @staticmethod
    def column(packet):
        """A column's name, type and character set."""
        place = 0
        for _ in range(5):
            name, place = text_at(packet, place)
        _, place = text_at(packet, place)
        return name.decode(), packet[place + 7], int.from_bytes(packet[place + 1:place + 3], "little")

    @staticmethod
    def row(packet):
        row, place = [], 0
        while place < len(packet):
            value, place = text_at(packet, place)
            row.append(value)
        return tuple(row)

    @staticmethod
    def binary_row(packet, columns):
        nulls = int.from_bytes(packet[1:1 + (len(columns) + 9) // 8], "little")
        row, place = [], 1 + (len(columns) + 9) // 8
        for index, (_, kind, _) in enumerate(columns):
            if nulls >> index + 2 & 1:
                row.append(None)
            elif kind in PACKED:
                row.append(struct.unpack_from(PACKED[kind], packet, place)[0])
                place += struct.calcsize(PACKED[kind])
            else:
                value, place = text_at(packet, place)
                row.append(value)
        return tuple(row)

    # prepared statements

    def prepare(self, text):
        """A prepared statement's number, its parameters and columns; or the refusal."""
        self.send(b"\x16" + text.encode())
        packet = self.packet()
        if packet[0] == 0xFF:
            return self.read(packet)
        number, columns, parameters = struct.unpack_from("<IHH", packet, 1)
        for count in (parameters, columns):
            for _ in range(count + 1 if count else 0):
                self.packet()
        return number, parameters, columns

    def execute(self, number, *values):
        """Executes with parameters: texts, or numbers of 8 bytes, or None."""
        packet = b"\x17" + struct.pack("<IBI", number, 0, 1)
        if values:
            nulls = sum(1 << index for index, value in enumerate(values) if value is None)
            packet += nulls.to_bytes((len(values) + 7) // 8, "little") + b"\x01"
            packet += b"".join(b"\x08\x00" if isinstance(value, int) else b"\x06\x00" if value is None else b"\xfd\x00"
                               for value in values)
            packet += b"".join(struct.pack("<q", value) if isinstance(value, int) else bytes((len(value),)) + value
                               for value in values if value is not None)
        self.send(packet)
        return self.read(self.packet(), is_binary=True)

    # ends

    def has_answer(self):
        """Whether something has come that isn't read yet."""
        return bool(self.held or select.select([self.socket], [], [], 0)[0])

    def is_closed(self):
        """Whether the other side closes, after whatever it still says."""
        try:
            while self.socket.recv(65536):
                pass
        except ConnectionError:
            pass
        except TimeoutError:
            return False
        return True

    def close(self):
        self.socket.close()

    def quit(self):
        self.send(b"\x01")
        self.close()

    def __enter__(self):
        return self

    def __exit__(self, *_):
        self.close()
