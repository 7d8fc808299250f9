"""The blocks of docs/CLIENTS.md, run as they stand there, with the ports of a server in the place of the usual ones."""
import os
import re
import signal
import subprocess
import tempfile
from pathlib import Path

from support import LONGEST, PATIENCE, PROGRAM, PYTHON, SERVER, Case, wait_for

ROOT = Path(__file__).resolve().parents[2]
FAULTS = {"close-before", "close-after", "stall", "stall-after", "error", "outage"}
PAGE = (ROOT / "docs" / "CLIENTS.md").read_text()
FAULTS_PAGE = (ROOT / "server" / "README.md").read_text()
BLOCKS = re.findall(r"^```\w+\n(.*?)^```$", PAGE, re.MULTILINE | re.DOTALL)
DRIVER = "/usr/share/java/mariadb-java-client.jar"


def block(beginning):
    """The one block that begins so."""
    (found,) = [text for text in BLOCKS if text.startswith(beginning)]
    return found


class Page(Case):
    def setUp(self):
        super().setUp()
        self.folder = Path(self.ends.enter_context(tempfile.TemporaryDirectory()))

    def write(self, name, server=None):
        """Writes the block that is a file of this name, with the server's ports."""
        text = block(f"{'//' if name.endswith('.java') else '#'} {name}\n")
        for usual, port in zip(("3306", "3307"), server.ports if server else ()):
            text = text.replace(usual, str(port))
        (self.folder / name).write_text(text)

    def run_here(self, *words, text=None, **more):
        ran = subprocess.run(words, cwd=self.folder, input=text, stdout=subprocess.PIPE, stderr=subprocess.STDOUT,
                             text=True, timeout=LONGEST, env={**os.environ, **more})
        self.assertEqual(ran.returncode, 0, ran.stdout)
        return ran.stdout

    def test_start(self):
        """Two stores, and what the server says of them."""
        says = block("store 1 listens on 127.0.0.1:3306\n")
        server = self.serve(stores=2)
        for usual, port in zip(("3306", "3307"), server.ports):
            says = says.replace(usual, str(port))
        self.assertEqual("".join(f"{line}\n" for line in server.log), says)

    def test_java(self):
        """The program starts a server of its own, which it finds on PATH."""
        (self.folder / "nigbaru-server").symlink_to(Path(SERVER).resolve())
        self.write("XaTest.java")
        said = self.run_here(*block("java -cp ").split(), PATH=f"{self.folder}:{os.environ['PATH']}")
        self.assertTrue(said.endswith(block("3 tests passed")), said)

    def test_command_line(self):
        server = self.serve()
        words = block("mariadb --no-defaults").replace("3306", str(server.port)).split()
        self.assertEqual(self.run_here(*words, text=block("XA START 'transfer'")), block("formatID\t"))
        self.assertEqual(self.value(self.client(server), "alice"), b"90")

    def test_pymysql(self):
        server = self.serve()
        self.write("branch.py", server)
        self.assertEqual(self.run_here(PYTHON, "branch.py"), "(b'80',)\n")
        self.assertIn("It prints `(b'80',)`", PAGE)

    def test_driver_in_python(self):
        self.write("two_stores.py")
        said = self.run_here(PYTHON, "two_stores.py", PYTHONPATH=str(ROOT / "drivers/python"),
                             NIGBARU_PROGRAM=str(Path(PROGRAM).resolve()))
        self.assertEqual(said, "b'90' b'10'\n")
        self.assertIn("It prints `b'90' b'10'`", PAGE)

    def test_bitronix(self):
        """A commit; and then the crash and the recovery, as the page tells them."""
        server = self.serve(stores=2, faults=[block("STORE 1 XA COMMIT 2 stall 600").strip()])
        for name in ("Transfer.java", "run.sh"):
            self.write(name, server)
        self.assertEqual(self.run_here("sh", "run.sh", "90"), "recovered: 0 committed, 0 rolled back\ncommitted\n")
        process = subprocess.Popen(["sh", "run.sh", "80"], cwd=self.folder, stdout=subprocess.PIPE,
                                   start_new_session=True)
        self.ends.callback(process.stdout.close)
        wait_for(lambda: server.logged("held before it"), "the commit is held", LONGEST)
        os.killpg(process.pid, signal.SIGKILL)
        process.wait(PATIENCE)
        one, two = self.client(server, 0), self.client(server, 1)
        self.assertEqual((len(one.ask("XA RECOVER").rows), self.value(one, "alice"), self.value(two, "bob")),
                         (1, b"90", b"80"))
        self.assertEqual(self.run_here("sh", "run.sh"), "recovered: 1 committed, 0 rolled back\n")
        self.assertEqual((self.value(one, "alice"), self.value(two, "bob")), (b"80", b"80"))
        self.assertEqual(one.ask("XA RECOVER").rows, [])

    def test_crash_points(self):
        """Each line of the page that names a fault is one that the server takes, and each kind of fault has one. The
        server's page has the kinds."""
        part = PAGE.partition("\n## Crash points\n")[2].partition("\n## ")[0]
        lines = [it for row in part.split("\n") if row.startswith("| ")
                 for it in re.findall(r"`([A-Z][A-Z0-9 ]* [0-9]+ [a-z][^`]*)`", row)]
        self.assertGreater(len(lines), 12)
        self.client(self.serve(faults=lines, stores=2))
        self.assertEqual({re.search(r"[0-9] ([a-z-]+)", line)[1] for line in lines}, FAULTS)
        table = FAULTS_PAGE.partition("\n## Faults on purpose\n")[2].partition("\n## ")[0]
        self.assertEqual(set(re.findall(r"^\| `([a-z-]+)", table, re.MULTILINE)), FAULTS)

    def test_the_table_of_clients(self):
        """Each of Debian's packages that it names has the version that is installed."""
        part = PAGE.partition("\n## Which clients work\n")[2].partition("\n## ")[0]
        for words, package in (("`mariadb` {}", "mariadb-client"), ("PyMySQL {}", "python3-pymysql"),
                               ("mysqlclient {}", "python3-mysqldb"), ("MariaDB's library for C {}", "libmariadb3"),
                               ("Connector/J {}", "libmariadb-java"), ("HikariCP {}", "libhikaricp-java"),
                               ("Bitronix {}", "libbtm-java"), ("ODBC {}", "odbc-mariadb"),
                               ("DBD::mysql {}", "libdbd-mysql-perl"),
                               ("DBD::MariaDB {}", "libdbd-mariadb-perl"), ("PHP {}", "php8.2-mysql"),
                               ("go-sql-driver {}", "golang-github-go-sql-driver-mysql-dev"),
                               ("mysql {} (Node.js)", "node-mysql"), ("mysql2 {} (Ruby)", "ruby-mysql2"),
                               ("RMySQL {}", "r-cran-rmysql")):
            named = re.search(re.escape(words).replace(r"\{\}", r"([0-9.]+)"), part)
            self.assertIsNotNone(named, words)
            installed = subprocess.run(["dpkg-query", "-W", "-f", "${Version}", package], stdout=subprocess.PIPE,
                                       text=True, check=True).stdout
            self.assertTrue(re.sub(r"^\d+:", "", installed).startswith(named[1].rstrip(".")),
                            (words, named[1], installed))
