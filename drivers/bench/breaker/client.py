"""A client of MySQL's protocol, as small as the bench needs one: it asks texts, and reads rows."""
import socket
import struct
from collections.abc import Sequence

# What this client can do: long passwords, long flags, protocol 4.1, transactions, secure connection, plugins.
CAN = 0x1 | 0x4 | 0x200 | 0x2000 | 0x8000 | 0x80000

Row = tuple[bytes | None, ...]


class Refused(Exception):
    """The store refused a statement."""

    def __init__(self, number: int, text: str) -> None:
        super().__init__(f"{number} {text}")
        self.number = number


class Client:
    """A connection to a store. Raises OSError if it is lost, and Refused."""

    def __init__(self, port: int, patience: float = 240) -> None:
        self._socket = socket.create_connection(("127.0.0.1", port), timeout=patience)
        self._held = b""
        try:
            self._packet()  # the greeting
            self._send(struct.pack("<IIB23x", CAN, 1 << 24, 45) + b"root\0\0" + b"mysql_native_password\0", 1)
            self._read(self._packet())
        except BaseException:
            self._socket.close()
            raise

    def ask(self, text: str) -> Sequence[Row]:
        """Sends a text; the rows of its answer, none for an OK."""
        self._send(b"\x03" + text.encode(), 0)
        return self._read(self._packet())

    def close(self) -> None:
        self._socket.close()

    def __enter__(self) -> "Client":
        return self

    def __exit__(self, *_: object) -> None:
        self.close()

    def _send(self, payload: bytes, number: int) -> None:
        self._socket.sendall(len(payload).to_bytes(3, "little") + bytes((number,)) + payload)

    def _take(self, count: int) -> bytes:
        while len(self._held) < count:
            data = self._socket.recv(65536)
            if not data:
                raise ConnectionResetError("the connection was cut")
            self._held += data
        taken, self._held = self._held[:count], self._held[count:]
        return taken

    def _packet(self) -> bytes:
        return self._take(int.from_bytes(self._take(4)[:3], "little"))

    def _read(self, packet: bytes) -> Sequence[Row]:
        if packet[0] == 0:
            return []
        if packet[0] == 0xFF:
            raise Refused(int.from_bytes(packet[1:3], "little"), packet[9:].decode())
        for _ in range(packet[0] + 1):  # the columns, and their end
            self._packet()
        rows = []
        while (packet := self._packet())[0] != 0xFE or len(packet) >= 9:
            rows.append(row_of(packet))
        return rows


def row_of(packet: bytes) -> Row:
    """A row's texts. None of this server's is longer than 250 bytes, except as its length says in two bytes more."""
    row: list[bytes | None] = []
    place = 0
    while place < len(packet):
        first = packet[place]
        if first == 0xFB:
            row.append(None)
            place += 1
            continue
        size = {0xFC: 2, 0xFD: 3, 0xFE: 8}.get(first, 0)
        length = int.from_bytes(packet[place + 1:place + 1 + size], "little") if size else first
        begin = place + 1 + size
        row.append(packet[begin:begin + length])
        place = begin + length
    return tuple(row)
