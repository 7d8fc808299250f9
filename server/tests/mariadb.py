"""A MariaDB of Debian in a folder of its own, for the tests that ask both."""
import contextlib
import getpass
import socket
import subprocess
import tempfile
import time
from pathlib import Path

from wire import Client, Closed


def free_port():
    with socket.socket() as one:
        one.bind(("127.0.0.1", 0))
        return one.getsockname()[1]


TRIES = 3
PATIENCE = 300  # seconds for a server to begin, and to end


def made(folder, user):
    """Makes a server's tables. No name of a machine is looked up for them, and what a busy machine refused once is
    tried again; where all tries fail, what the last one said is told."""
    for number in range(TRIES):
        data = Path(folder) / f"data{number}"
        ran = subprocess.run(["mariadb-install-db", "--no-defaults", "--force", user, f"--datadir={data}",
                              "--auth-root-authentication-method=normal", "--skip-test-db"],
                             stdin=subprocess.DEVNULL, stdout=subprocess.PIPE, stderr=subprocess.STDOUT)
        if ran.returncode == 0:
            return data
    raise RuntimeError(f"mariadb-install-db ended with {ran.returncode}:\n{ran.stdout.decode(errors='replace')}")


@contextlib.contextmanager
def mariadb():
    """Starts a server, with the account root, which has no password; gives its port. It is quick, and keeps nothing."""
    with tempfile.TemporaryDirectory() as folder:
        user = f"--user={getpass.getuser()}"
        process, port = started(folder, user, made(folder, user))
        try:
            yield port
        finally:
            process.terminate()
            process.wait(PATIENCE)


def started(folder, user, data):
    """The process of a server that listens, and its port. One whose port somebody was faster to take ends by itself,
    and another is started."""
    for _ in range(TRIES):
        port = free_port()
        with open(Path(folder) / "log", "wb") as log:
            # One that starts removes temporary tables from its folder, also those of others that run.
            process = subprocess.Popen(["mariadbd", "--no-defaults", user, f"--datadir={data}", f"--tmpdir={folder}",
                                        f"--socket={folder}/socket", f"--pid-file={folder}/pid", f"--port={port}",
                                        "--bind-address=127.0.0.1", "--innodb-flush-log-at-trx-commit=0",
                                        "--innodb-flush-method=nosync", "--skip-innodb-doublewrite"], stdout=log,
                                       stderr=log)
        deadline = time.monotonic() + PATIENCE
        while process.poll() is None and time.monotonic() < deadline:
            if listens(port, data):
                return process, port
            time.sleep(0.05)
        process.kill()
        process.wait()
    raise RuntimeError(f"no MariaDB listens:\n{(Path(folder) / 'log').read_text(errors='replace')}")


def listens(port, data):
    """Whether the server of this folder listens at the port, and none that somebody else has there."""
    try:
        with Client(port) as client:
            return client.ask("SELECT @@datadir").rows == [(f"{data}/".encode(),)]
    except (OSError, Closed):
        return False
