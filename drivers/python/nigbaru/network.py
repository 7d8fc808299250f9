"""A store behind a server of MySQL's protocol: the same connections, each over a socket of its own."""
from __future__ import annotations

import contextlib
import hashlib
import socket
import struct
from typing import List, Optional, Tuple

from .connection import Connection
from .errors import InterfaceError, OperationalError, refusal
from .server import checked_timeout, line_of

# Long passwords, long flags, protocol 4.1, transactions, secure connection, plugins.
CAN = 0x1 | 0x4 | 0x200 | 0x2000 | 0x8000 | 0x80000
PLUGIN = b"mysql_native_password"
QUIT, QUERY, RESET = b"\x01", b"\x03", b"\x1f"
ONLY = 1  # the session's number in a Line, which has no other


class Remote:
    """Where a store listens. It outlives its clients, so that prepared branches can be recovered by another process."""

    def __init__(self, port: int = 3306, host: str = "127.0.0.1", *, user: str = "root", password: str = "",
                 timeout: Optional[float] = None) -> None:
        """`timeout` is how many seconds the connection and each answer may take. After that the connection is gone, by
        OperationalError."""
        self.host, self.port, self.user, self.password = host, port, user, password
        self._timeout = checked_timeout(timeout)

    def connect(self) -> Connection:
        """A connection; OperationalError where the server isn't there or lets nobody in."""
        return Connection(Line(self, self._timeout), ONLY)

    def __repr__(self) -> str:
        return f"<nigbaru.Remote {self.host}:{self.port}>"


class Line:
    """A socket to a store, asked as a Server is: by a statement, for the lines of its answer."""

    def __init__(self, remote: Remote, timeout: Optional[float]) -> None:
        self._remote = remote
        self._left = b""
        self._cause: Optional[str] = None
        try:
            self._socket = socket.create_connection((remote.host, remote.port), timeout=timeout)
        except OSError as fault:
            raise OperationalError(f"there is no server at {remote.host}:{remote.port}: {fault}") from fault
        try:
            self._socket.setsockopt(socket.IPPROTO_TCP, socket.TCP_NODELAY, 1)
            self._log_in(remote.user.encode(), remote.password.encode())
        except OSError as fault:
            self._socket.close()
            raise OperationalError(f"the server at {remote.host}:{remote.port} is gone: {fault}") from fault
        except BaseException:
            self._socket.close()
            raise

    # what a Connection needs

    @property
    def is_gone(self) -> bool:
        """Whether nothing can be asked any more."""
        return self._cause is not None

    def ask(self, session: int, statement: str) -> List[str]:
        """The answer to a statement, its lines in a list; a refusal is raised."""
        text = line_of(session, statement)[len(f"{session} "):-1]
        if self._cause is not None:
            raise OperationalError(f"the connection is gone: {self._cause}")
        try:
            self._send(RESET if statement == "DISCONNECT" else QUERY + text, 0)
            answer = self._answer()
        except OSError as fault:
            self._end(str(fault) or type(fault).__name__)
            raise OperationalError(f"the connection is gone: {self._cause}") from fault
        except BaseException as fault:
            self._end(str(fault) or "a question was broken off")
            raise
        error = refusal(answer[0])
        if error:
            raise error
        return answer

    def connect(self) -> Connection:
        """Another connection to the same store, over a socket of its own."""
        return self._remote.connect()

    def give_back(self, session: int) -> None:
        """Closes the socket, since the connection is. The server hears that this was meant."""
        if not self.is_gone:
            with contextlib.suppress(OSError):
                self._send(QUIT, 0)
        self._end("it was closed")

    def _end(self, cause: str) -> None:
        self._cause = self._cause or cause
        self._socket.close()

    # packets

    def _send(self, payload: bytes, number: int) -> None:
        self._socket.sendall(struct.pack("<I", len(payload) | number << 24) + payload)

    def _packet(self) -> Tuple[bytes, int]:
        """A packet, and its number."""
        header = self._take(4)
        return self._take(int.from_bytes(header[:3], "little")), header[3]

    def _take(self, count: int) -> bytes:
        while len(self._left) < count:
            more = self._socket.recv(65536)
            if not more:
                raise ConnectionResetError("the server closed it")
            self._left += more
        taken, self._left = self._left[:count], self._left[count:]
        return taken

    def _log_in(self, user: bytes, password: bytes) -> None:
        greeting, _ = self._packet()
        end = greeting.index(b"\0", 1)
        proof = proof_of(password, greeting[end + 5:end + 13] + greeting[end + 32:end + 44])
        self._send(
            struct.pack("<IIB23x", CAN, 1 << 24, 45) + user + b"\0" + bytes((len(proof),)) + proof + PLUGIN + b"\0", 1)
        packet, number = self._packet()
        if packet[:1] == b"\xfe":  # another plugin is asked for first
            self._send(proof_of(password, packet[packet.index(b"\0", 1) + 1:][:20]), number + 1)
            packet, _ = self._packet()
        if packet[0] == 0xFF:
            raise OperationalError(error_of(packet))

    def _answer(self) -> List[str]:
        """The next answer as `xa_script serve` writes it."""
        packet, _ = self._packet()
        if packet[0] == 0:
            return ["OK"]
        if packet[0] == 0xFF:
            return [error_of(packet)]
        count = packet[0]
        for _ in range(count + 1):
            self._packet()
        rows = []
        while True:
            packet, _ = self._packet()
            if packet[0] == 0xFE and len(packet) < 9:
                break
            rows.append(texts_in(packet))
        if count == 1:
            return [f"VALUE 0x{rows[0][0].hex()}" if rows and rows[0][0] else "VALUE X''" if rows else "NONE"]
        return [f"ROWS {len(rows)}", *(b" ".join(row).decode() for row in rows)]


def proof_of(password: bytes, scramble: bytes) -> bytes:
    """mysql_native_password's; nothing for no password."""
    if not password:
        return b""
    once = hashlib.sha1(password).digest()
    return bytes(a ^ b for a, b in zip(once, hashlib.sha1(scramble + hashlib.sha1(once).digest()).digest()))


def error_of(packet: bytes) -> str:
    """A refusal as a line."""
    return f"ERROR {int.from_bytes(packet[1:3], 'little')} ({packet[4:9].decode()}): {packet[9:].decode()}"


def texts_in(packet: bytes) -> List[bytes]:
    """The texts of a row. InterfaceError where one has no value, which no store answers."""
    texts, place = [], 0
    while place < len(packet):
        first = packet[place]
        if first == 0xFB:
            raise InterfaceError("a row without a value")
        size = {0xFC: 2, 0xFD: 3, 0xFE: 8}.get(first, 0)
        length = int.from_bytes(packet[place + 1:place + 1 + size], "little") if size else first
        begin = place + 1 + size
        texts.append(packet[begin:begin + length])
        place = begin + length
    return texts
