"""Requests: which are refused, and who answers the others."""
import json
from http.server import BaseHTTPRequestHandler

from .child import Trouble
from .jobs import JOBS, BadQuestion

POLICY = ("default-src 'none'; script-src 'self'; style-src 'self'; img-src 'self' blob:; connect-src 'self'; "
          "base-uri 'none'; form-action 'none'; frame-ancestors 'none'")
HEADERS = {
    "Content-Security-Policy": POLICY,
    "X-Content-Type-Options": "nosniff",
    "Referrer-Policy": "no-referrer",
    "Cross-Origin-Opener-Policy": "same-origin",
    "Cross-Origin-Resource-Policy": "same-origin",
    "Cache-Control": "no-store",
}


class Refused(Exception):
    def __init__(self, status, cause):
        super().__init__(cause)
        self.status = status


class Handler(BaseHTTPRequestHandler):
    protocol_version = "HTTP/1.1"
    server_version, sys_version = "classroom", ""
    timeout = 30  # seconds that a connection may be silent

    def do_GET(self):
        self._answer(self._file)

    def do_POST(self):
        self._answer(self._job)

    def _answer(self, find):
        try:
            self._check_whence()
            kind, body = find()
            self._send(200, kind, body)
        except Refused as refused:
            self.close_connection = True  # the body may not have been read
            self._send(refused.status, "text/plain; charset=utf-8", f"{refused}\n".encode())
        except (BrokenPipeError, ConnectionResetError, TimeoutError):
            self.close_connection = True

    def _check_whence(self):
        """A page of another address may neither read nor ask anything here, also where a name of its own leads to
        127.0.0.1."""
        hosts, origins = self.headers.get_all("Host") or [], self.headers.get_all("Origin") or []
        if len(hosts) != 1 or hosts[0] not in self._own_hosts():
            raise Refused(403, "this host isn't served")
        if any(origin != f"http://{hosts[0]}" for origin in origins) or (self.command == "POST" and len(origins) != 1):
            raise Refused(403, "this origin isn't served")

    def _own_hosts(self):
        """Those of the server; where others may come, also the address of this machine to which this connection was
        made."""
        reached = {f"{self.connection.getsockname()[0]}:{self.server.server_port}"} if self.server.is_open else set()
        return self.server.hosts | reached

    def _file(self):
        found = self.server.files.get(self.path)
        if found is None:
            raise Refused(404, "there is no such page")
        return found

    def _job(self):
        job = JOBS.get(self.path.removeprefix("/api/")) if self.path.startswith("/api/") else None
        if job is None:
            raise Refused(404, "there is no such job")
        question = self._question()
        try:
            found = job(self.server.pool, question)
        except BadQuestion as bad:
            raise Refused(400, str(bad)) from bad
        except Trouble as trouble:
            raise Refused(503, str(trouble)) from trouble
        return "application/json", json.dumps(found).encode()

    def _question(self):
        length = self.headers.get("Content-Length", "")
        if "Transfer-Encoding" in self.headers or not (length.isascii() and length.isdigit()):
            raise Refused(411, "a request says its length")
        if len(length) > 9 or int(length) > self.server.limits.request_bytes:
            raise Refused(413, f"a request has at most {self.server.limits.request_bytes} bytes")
        if self.headers.get_content_type() != "application/json":
            raise Refused(415, "a request is JSON")
        try:
            question = json.loads(self.rfile.read(int(length)))
        except (ValueError, RecursionError):
            raise Refused(400, "a request is JSON") from None
        if type(question) is not dict:
            raise Refused(400, "a request is an object of JSON")
        return question

    def _send(self, status, kind, body):
        self.send_response(status)
        for name, value in HEADERS.items():
            self.send_header(name, value)
        self.send_header("Content-Type", kind)
        self.send_header("Content-Length", str(len(body)))
        if self.close_connection:
            self.send_header("Connection", "close")
        self.end_headers()
        self.wfile.write(body)

    def send_error(self, code, message=None, explain=None):
        """What the library refuses by itself, as a method that isn't served, has the same headers."""
        self.close_connection = True
        self._send(code, "text/plain; charset=utf-8", b"this request isn't served\n")

    def log_message(self, *_):
        pass
