"""What the tests share: the program, its own answers, and a page over it."""
import contextlib
import http.client
import json
import os
import stat
import subprocess
import sys
import tempfile
import threading
import time
from pathlib import Path

HERE = Path(__file__).resolve().parent
PAGE = HERE.parent
ROOT = PAGE.parents[1]
PROGRAM = Path(os.environ["XA_SCRIPT"])
# MiB for each child, or unlimited where the program has an address sanitizer
MEMORY = os.environ.get("XA_SCRIPT_MEMORY", "1024")
# the page, as a person starts it, but for its patience
SERVE = [sys.executable, HERE / "patient.py", "--memory", MEMORY]
PICTURES = Path(os.environ.get("PAGE_PICTURES", PAGE / "out"))
sys.path.insert(0, str(PAGE))

from patient import PATIENCE, Patient as Limits  # noqa: E402
from classroom.server import Classroom  # noqa: E402


def says(job, text, *words):
    """What the program itself writes for an input, and its status."""
    ran = subprocess.run([PROGRAM, job, *words], input=text, stdout=subprocess.PIPE, stderr=subprocess.DEVNULL,
                         timeout=PATIENCE)
    return ran.stdout, ran.returncode


def help_of(*words):
    return subprocess.run([PROGRAM, *words, "--help"], capture_output=True, text=True, timeout=PATIENCE).stdout


class Page:
    """A page that is served by a process of its own, as a person starts it."""

    def __init__(self, *words, program=PROGRAM):
        self.process = subprocess.Popen([*SERVE, "--port", "0", "--program", program, *words], stdout=subprocess.PIPE)
        self.address = self.process.stdout.readline().decode().strip()
        assert self.address.startswith("http://127.0.0.1:"), self.address
        self.port = int(self.address.split(":")[2].strip("/"))

    def children(self):
        return children_of(self.process.pid)

    def end(self):
        self.process.terminate()
        self.process.wait(PATIENCE)
        self.process.stdout.close()

    def __enter__(self):
        return self

    def __exit__(self, *_):
        self.end()


def children_of(pid):
    """The processes that were started by this one and are alive."""
    found = []
    for entry in Path("/proc").iterdir():
        if entry.name.isdigit():
            with contextlib.suppress(OSError):
                state, parent = (entry / "stat").read_text().rpartition(")")[2].split()[:2]
                if int(parent) == pid and state != "Z":
                    found.append(int(entry.name))
    return found


@contextlib.contextmanager
def room(program=PROGRAM, status=None, **limits):
    """A page within this process, with limits of its own."""
    limits.setdefault("memory_kib", MEMORY if MEMORY == "unlimited" else int(MEMORY) << 10)
    with Classroom(program, ROOT, 0, Limits(**limits), status=status) as served:
        thread = threading.Thread(target=served.serve_forever, args=(0.05,))
        thread.start()
        try:
            yield served
        finally:
            served.shutdown()
            thread.join()


def send(port, method, path, body=None, headers=(), length=True):
    """A request with just these headers: its status, headers and body."""
    connection = http.client.HTTPConnection("127.0.0.1", port, timeout=2 * PATIENCE)
    try:
        connection.putrequest(method, path, skip_host=True, skip_accept_encoding=True)
        for name, value in headers:
            connection.putheader(name, value)
        if body is not None and length:
            connection.putheader("Content-Length", str(len(body)))
        connection.endheaders()
        with contextlib.suppress(BrokenPipeError, ConnectionResetError):
            if body is not None:
                connection.send(body)
        answer = connection.getresponse()
        return answer.status, answer.headers, answer.read()
    finally:
        connection.close()


def own(port):
    """The headers that the page itself sends."""
    return [("Host", f"127.0.0.1:{port}"), ("Origin", f"http://127.0.0.1:{port}"), ("Content-Type", "application/json")]


def ask(port, job, question):
    """A question as the page asks it: the status, and what was answered."""
    status, _, body = send(port, "POST", f"/api/{job}", json.dumps(question).encode(), own(port))
    return status, json.loads(body) if status == 200 else body.decode()


def show(port, name, *lines, known=0):
    return ask(port, "talk", {"talk": name, "job": "show", "lines": list(lines), "known": known})


def text_of(got):
    """The answers that were sent, as the program wrote them."""
    return "".join(part for answer in got["answers"] for part in answer).encode("latin-1")


@contextlib.contextmanager
def standing_in(words):
    """A program of a few words in the place of the built one."""
    with tempfile.TemporaryDirectory() as folder:
        program = Path(folder) / "program"
        program.write_text(f"#!/bin/sh\n{words}\n")
        program.chmod(program.stat().st_mode | stat.S_IXUSR)
        yield program


def alive(pid):
    try:
        return Path(f"/proc/{pid}/stat").read_text().rpartition(")")[2].split()[0] != "Z"
    except OSError:
        return False


def wait_for(holds):
    deadline = time.monotonic() + PATIENCE
    while not holds():
        if time.monotonic() > deadline:
            raise AssertionError("it didn't come")
        time.sleep(0.02)
