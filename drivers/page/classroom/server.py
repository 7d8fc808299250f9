"""The page's server: it listens on 127.0.0.1 alone, and all that it sends of itself is read before it begins."""
import json
import sys
import threading
from http.server import ThreadingHTTPServer
from pathlib import Path

from .addresses import own_addresses
from .examples import examples
from .handler import Handler
from .pool import Pool
from .status import Status
from .tables import tables

STATIC = Path(__file__).resolve().parent.parent / "static"
KINDS = {".html": "text/html; charset=utf-8", ".css": "text/css; charset=utf-8",
         ".js": "text/javascript; charset=utf-8", ".svg": "image/svg+xml"}


def files(root):
    """What is sent for each path, and its kind: no path is ever looked up among the files of the machine."""
    found = {f"/{path.relative_to(STATIC).as_posix()}": (KINDS[path.suffix], path.read_bytes())
             for path in STATIC.rglob("*") if path.suffix in KINDS}
    found["/"] = found["/index.html"]
    found["/api/tables"] = "application/json", json.dumps(tables(root)).encode()
    found["/api/examples"] = "application/json", json.dumps(examples(root)).encode()
    return found


class Classroom(ThreadingHTTPServer):
    daemon_threads = True
    block_on_close = False

    def __init__(self, program, root, port, limits, host="127.0.0.1", status=None):
        self.limits = limits
        self.files = files(root)
        self._places = threading.BoundedSemaphore(limits.connections)
        self.pool = Pool(program, limits, status and Status(status, limits.status_bytes))
        super().__init__((host, port), Handler)
        self._name_addresses(host)
        self.files["/api/outside"] = "application/json", json.dumps({"addresses": self.outside}).encode()

    def _name_addresses(self, host):
        """Which hosts are served, and at which addresses other machines open the page; `address` is one of these where
        there are any, so that it leads here from everywhere."""
        bound = self.server_address[0]  # what the host leads to, where it is a name
        self.is_open, is_everywhere = not bound.startswith("127."), bound == "0.0.0.0"
        here = "127.0.0.1" if is_everywhere else bound
        name = here if is_everywhere else host
        own = {name, here, "localhost"} if here.startswith("127.") else {name}
        self.hosts = {f"{it}:{self.server_port}" for it in own}
        outside = own_addresses() if is_everywhere else [name] if self.is_open else []
        self.outside = [self._address_at(it) for it in outside]
        self.address = [*self.outside, self._address_at(name)][0]

    def _address_at(self, name):
        return f"http://{name}:{self.server_port}/"

    def process_request(self, request, address):
        """A connection for which there is no place is closed at once."""
        if self._places.acquire(blocking=False):
            super().process_request(request, address)
        else:
            self.shutdown_request(request)

    def process_request_thread(self, request, address):
        try:
            super().process_request_thread(request, address)
        finally:
            self._places.release()

    def handle_error(self, request, address):
        """A client that went away is no error of ours; while the page ends, its children are gone."""
        if not self.pool.is_closed() and not isinstance(sys.exc_info()[1], ConnectionError):
            super().handle_error(request, address)

    def server_close(self):
        self.pool.close()
        super().server_close()
