"""What the tests share: the server that NIGBARU_SERVER names, in a process of its own, and the program xa_script, for
verdicts."""
import contextlib
import os
import re
import subprocess
import tempfile
import threading
import time
import unittest
from pathlib import Path

from wire import Client

HERE = Path(__file__).resolve().parent
PROGRAM = os.environ["XA_SCRIPT"]
SERVER = os.environ["NIGBARU_SERVER"]
LONG = bool(os.environ.get("NIGBARU_LONG"))
SEED = int(os.environ.get("NIGBARU_SEED", "62"))
PYTHON = "/usr/bin/python3"
PATIENCE = 240  # seconds for whatever has to come, on a machine that does much else
TRIES = 6
LONGEST = 600  # seconds for a program: one of Java has taken minutes to begin where the machine was very busy
LISTENS = re.compile(r"store (\d+) listens on [^ ]*:(\d+)")


class Server:
    """The server as a person starts it, at ports that are free; `log` is what it has said."""

    def __init__(self, *words, stores=1, faults=(), record=True):
        self._folder = tempfile.TemporaryDirectory()
        self.folder = Path(self._folder.name)
        self.record = self.folder / "record"
        self.stores = stores
        words = [*words, "--port", "0", "--stores", str(stores)]
        if record:
            words += ["--record", self.record]
        if faults:
            (self.folder / "faults").write_text("".join(f"{line}\n" for line in faults))
            words += ["--fault", self.folder / "faults"]
        self.process = subprocess.Popen([SERVER, *words], stderr=subprocess.PIPE, text=True)
        self.log = []
        self.ports = []
        while len(self.ports) < stores:
            line = self.process.stderr.readline()
            if not line:
                raise AssertionError(f"the server doesn't start: {self.log}")
            self.log.append(line.rstrip("\n"))
            found = LISTENS.fullmatch(self.log[-1])
            if found:
                self.ports.append(int(found[2]))
        self._reader = threading.Thread(target=self._read)
        self._reader.start()

    def _read(self):
        for line in self.process.stderr:
            self.log.append(line.rstrip("\n"))

    @property
    def port(self):
        return self.ports[0]

    def client(self, store=0):
        return Client(self.ports[store])

    def records(self):
        return ([self.record] if self.stores == 1
                else [Path(f"{self.record}.{number + 1}") for number in range(self.stores)])

    def verdicts(self):
        """What `judge` says first of each store's record."""
        return [verdict(path.read_bytes()) for path in self.records()]

    def logged(self, words):
        return any(words in line for line in self.log)

    def change_faults(self, *lines):
        """Puts another file in the place of the faults, so that the server reads one of the two."""
        (self.folder / "next").write_text("".join(f"{line}\n" for line in lines))
        (self.folder / "next").rename(self.folder / "faults")

    def ended(self):
        """Waits for the server's end; the status."""
        return self.process.wait(PATIENCE)

    def end(self):
        """Ends the server by its signal; the status."""
        if self.process.poll() is None:
            self.process.terminate()
        status = self.ended()
        self._reader.join()
        self.process.stderr.close()
        return status

    def __enter__(self):
        return self

    def __exit__(self, *_):
        self.end()
        self._folder.cleanup()


def verdict(record, *words):
    ran = subprocess.run([PROGRAM, "judge", "--quiet", *words], input=record, stdout=subprocess.PIPE, timeout=300)
    return ran.stdout.split(b"\n")[0].decode()


def quick(seconds, took):
    """Whether it takes less than so long, at least at one of some times: else the machine may just have been busy."""
    return any(took() < seconds for _ in range(TRIES))


def wait_for(holds, what, seconds=PATIENCE):
    deadline = time.monotonic() + seconds
    while not holds():
        if time.monotonic() > deadline:
            raise AssertionError(f"it didn't come: {what}")
        time.sleep(0.01)


class Case(unittest.TestCase):
    """A test that may open servers and clients, which end with it."""

    def setUp(self):
        self.ends = contextlib.ExitStack()
        self.addCleanup(self.ends.close)

    def serve(self, *words, **options):
        return self.ends.enter_context(Server(*words, **options))

    def client(self, server, store=0):
        return self.ends.enter_context(server.client(store))

    def ok(self, client, *texts):
        answer = None
        for text in texts:
            answer = client.ask(text)
            self.assertEqual(answer.kind, "ok", f"{text}: {answer}")
        return answer

    def refused(self, client, text, number, sqlstate):
        answer = client.ask(text)
        self.assertEqual(answer.kind, "error", f"{text}: {answer}")
        self.assertEqual((answer.number, answer.sqlstate), (number, sqlstate), text)
        return answer

    def wait_for_one_that_waits(self, server):
        """Waits until a statement waits for a session."""
        waits = (b"sessions", b"waited for", b"1")
        with server.client() as client:
            wait_for(lambda: waits in client.ask("SHOW NIGBARU STATUS").rows, "one waits for a session")

    def wait_for_all_that_left(self, server):
        """Waits until the server has seen the ends of all connections: none of them does anything any more."""
        for store in range(server.stores):
            with server.client(store) as client:
                wait_for(lambda: len(client.ask("SHOW PROCESSLIST").rows) == 1, "the ends of connections")

    def value(self, client, key):
        """A row's value, or None."""
        answer = client.ask(f"GET '{key}'")
        self.assertEqual(answer.kind, "table", answer)
        return answer.rows[0][0] if answer.rows else None

    def prepare(self, client, xid, key, value):
        """A prepared branch that writes a row."""
        self.ok(client, f"XA START {xid}", f"PUT '{key}','{value}'", f"XA END {xid}", f"XA PREPARE {xid}")
