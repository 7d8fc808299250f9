"""Servers of one's own, each in a folder below another: started, killed as by a loss of power to its processes, and
started again."""
import getpass
import os
import shutil
import signal
import subprocess
import time
from pathlib import Path

from faults import Fault

# the longest that a server may take to begin or to end, in seconds
PATIENCE = 300
# how often a server's files are made, where a busy machine refuses it
TRIES = 3


def run(*words, **more):
    ran = subprocess.run(words, stdin=subprocess.DEVNULL, stdout=subprocess.PIPE, stderr=subprocess.STDOUT, **more)
    if ran.returncode:
        raise Fault(f"{words[0]} ended with {ran.returncode}: {ran.stdout.decode(errors='replace').strip()}")


def children_of(process):
    """The processes that a process has started, and that are there yet."""
    return [int(it) for it in Path(f"/proc/{process}/task/{process}/children").read_text().split()]


class Server:
    """A server. What starts it, and where its socket is, says the class of the database."""

    def __init__(self, folder):
        self.folder = Path(folder)
        self.process = None
        self.make()
        self.start()

    def start(self):
        with open(self.folder / "log", "ab") as log:
            self.process = subprocess.Popen(self.command(), stdin=subprocess.DEVNULL, stdout=log, stderr=log,
                                            start_new_session=True, **self.account())
        end = time.monotonic() + PATIENCE
        while not self.answers():
            if self.process.poll() is not None or time.monotonic() > end:
                raise Fault(f"the server doesn't begin; {self.folder / 'log'} says why")
            time.sleep(0.02)

    def kill(self):
        """Ends the server's processes at once, so that none can write another byte."""
        process = self.process.pid
        os.kill(process, signal.SIGSTOP)  # it starts no others now
        for child in children_of(process):
            os.kill(child, signal.SIGKILL)
        self.process.kill()
        self.process.wait(PATIENCE)

    def stop(self):
        if self.process.poll() is None:
            self.process.send_signal(self.END)
            self.process.wait(PATIENCE)


class MariaDb(Server):
    """A MariaDB. What it has committed or prepared outlives its processes, and not a loss of power to the machine."""
    END = signal.SIGTERM
    PACKAGES = ("mariadb-server", "python3-pymysql")

    @property
    def socket(self):
        return str(self.folder / "socket")

    def account(self):
        return {}

    def make(self):
        if not shutil.which("mariadb-install-db"):
            raise Fault(f"MariaDB isn't there: apt-get install {' '.join(self.PACKAGES)}")
        for rest in reversed(range(TRIES)):
            shutil.rmtree(self.folder / "data", ignore_errors=True)
            try:
                return run("mariadb-install-db", "--no-defaults", "--force", f"--user={getpass.getuser()}",
                           f"--datadir={self.folder / 'data'}", "--auth-root-authentication-method=normal",
                           "--skip-test-db")
            except Fault:
                if not rest:
                    raise

    def command(self):
        return ["mariadbd", "--no-defaults", f"--user={getpass.getuser()}", f"--datadir={self.folder / 'data'}",
                f"--socket={self.socket}", f"--pid-file={self.folder / 'pid'}", f"--tmpdir={self.folder}",
                "--skip-networking", "--innodb-flush-log-at-trx-commit=2"]

    def answers(self):
        return subprocess.run(["mariadb-admin", "--no-defaults", f"--socket={self.socket}", "--user=root", "ping"],
                              stdout=subprocess.DEVNULL, stderr=subprocess.DEVNULL).returncode == 0


class PostgreSql(Server):
    """A PostgreSQL, which root can't run, so that postgres does. Again only the machine has to stay."""
    END = signal.SIGINT
    PACKAGES = ("postgresql", "python3-psycopg2")
    PORT = "5432"  # named in each command, since PGPORT may name another

    @property
    def socket(self):
        return str(self.folder / f".s.PGSQL.{self.PORT}")

    def account(self):
        return {"user": "postgres", "group": "postgres", "extra_groups": []} if os.getuid() == 0 else {}

    def program(self, name):
        found = sorted(Path("/usr/lib/postgresql").glob(f"*/bin/{name}"))
        return str(found[-1]) if found else shutil.which(name)

    def make(self):
        if not self.program("initdb"):
            raise Fault(f"PostgreSQL isn't there: apt-get install {' '.join(self.PACKAGES)}")
        if self.account():
            shutil.chown(self.folder, "postgres", "postgres")
        run(self.program("initdb"), "--no-sync", "--auth=trust", "--username=postgres", "--encoding=UTF8",
            "--no-locale", "--pgdata", str(self.folder / "data"), cwd=self.folder, **self.account())

    def command(self):
        return [self.program("postgres"), "-D", str(self.folder / "data"), "-k", str(self.folder), "-p", self.PORT,
                "-h", "", "-c", "max_prepared_transactions=100", "-c", "fsync=off", "-c", "autovacuum=off"]

    def answers(self):
        return subprocess.run([self.program("pg_isready"), "-q", "-h", str(self.folder), "-p",
                               self.PORT]).returncode == 0
