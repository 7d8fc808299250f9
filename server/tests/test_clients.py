"""MySQL's clients, as Debian packages them: each goes through a whole cycle, with binary values, errors, and prepared
statements where it has them, and a pool of thirty."""
import os
import shutil
import subprocess
import tempfile
import threading
from pathlib import Path

import pymysql
from support import LONGEST, PATIENCE, PYTHON, Case, wait_for

HERE = Path(__file__).resolve().parent
# What each program prints for a cycle: XA RECOVER's first row, the value's bytes, the refusals' numbers, the value of a
# local transaction, that of a prepared statement, and of thirty connections how many branches XA RECOVER lists, which
# all of them have prepared and none has committed.
CYCLE = """\
listed 7 2 1 670062
value 000a27ff5c
refused 1399
refused 1064
local 6c6f63616c
prepared 700a27
thirty 30
"""
UNPREPARED = CYCLE.replace("prepared 700a27\n", "")


class Clients(Case):
    def setUp(self):
        super().setUp()
        self.server = self.serve("--wait", "60")
        self.folder = Path(self.ends.enter_context(tempfile.TemporaryDirectory()))

    def cycle(self, *words, expected=CYCLE, env=None):
        ran = subprocess.run([*map(str, words), str(self.server.port)], stdout=subprocess.PIPE,
                             stderr=subprocess.STDOUT, text=True, timeout=LONGEST, cwd=self.folder, env=env)
        self.assertEqual((ran.stdout, ran.returncode), (expected, 0), "\n".join(self.server.log))
        self.assertEqual(self.server.verdicts(), ["LEGAL"])

    def test_mysqlclient(self):
        """Python's over MariaDB's library in C. It has no prepared statements."""
        self.cycle(PYTHON, HERE / "clients" / "mysqlclient.py", expected=UNPREPARED)

    def test_c(self):
        """MariaDB's library itself."""
        flags = subprocess.run(["mariadb_config", "--cflags", "--libs"], stdout=subprocess.PIPE, text=True,
                               check=True).stdout.split()
        subprocess.run(["gcc", "-Wall", "-Werror", "-o", self.folder / "cycle", HERE / "clients" / "cycle.c", *flags],
                       check=True)
        self.cycle(self.folder / "cycle")

    def test_dbd_mysql(self):
        self.cycle("perl", HERE / "clients" / "cycle.pl", "mysql")

    def test_dbd_mariadb(self):
        self.cycle("perl", HERE / "clients" / "cycle.pl", "MariaDB")

    def test_php_mysqli(self):
        self.cycle("php", HERE / "clients" / "mysqli.php")

    def test_php_pdo(self):
        self.cycle("php", HERE / "clients" / "pdo.php")

    def test_node_mysql(self):
        """It has no prepared statements; the thirty connections are its pool's. It breaks off at statistics that don't
        begin as MySQL's."""
        self.cycle("node", HERE / "clients" / "cycle.js",
                   env={**os.environ, "NODE_PATH": "/usr/share/nodejs:/usr/lib/nodejs"},
                   expected=UNPREPARED.replace("thirty", "statistics 1\npool"))

    def test_ruby_mysql2(self):
        self.cycle("ruby", HERE / "clients" / "cycle.rb")

    def test_go(self):
        """Also transactions with each level; the thirty connections are its pool's."""
        shutil.copy(HERE / "clients" / "cycle.go", self.folder)
        env = {**os.environ, "GOPATH": "/usr/share/gocode", "GO111MODULE": "off", "GOCACHE": str(self.folder / "cache"),
               "GOFLAGS": "-p=1"}
        subprocess.run(["go", "build", "-o", "cycle", "cycle.go"], cwd=self.folder, env=env, check=True,
                       timeout=LONGEST)
        self.cycle(self.folder / "cycle", expected=CYCLE.replace("thirty 30", "levels 4\npool 30"))

    def test_odbc(self):
        """MariaDB's driver. It shows no rows of XA RECOVER, also of a MariaDB."""
        self.cycle(PYTHON, HERE / "clients" / "odbc.py", expected=CYCLE.partition("\n")[2])

    def test_r(self):
        """RMySQL, since Debian 12 has no RMariaDB. It has no prepared statements, and its texts can't hold a zero byte
        or one that is no UTF-8."""
        expected = UNPREPARED.replace("7 2 1 670062", "7 1 1 6762").replace("000a27ff5c", "0a275c")
        self.cycle("Rscript", HERE / "clients" / "cycle.R", expected=expected)

    def test_a_pool_of_thirty_by_pymysql(self):
        """Thirty threads with a connection each, in branches at once."""
        faults, barrier = [], threading.Barrier(30)

        def work(number):
            try:
                connection = pymysql.connect(host="127.0.0.1", port=self.server.port, user="root", autocommit=True)
                with connection, connection.cursor() as cursor:
                    barrier.wait(PATIENCE)
                    for turn in range(10):
                        xid = (f"{number}", f"{turn}", 7)
                        cursor.execute("XA START %s,%s,%s", xid)
                        assert cursor.execute("PUT %s,%s", (f"row {number}", f"{turn}")) == 1
                        for verb in ("END", "PREPARE", "COMMIT"):
                            cursor.execute(f"XA {verb} %s,%s,%s", xid)
            except Exception as fault:
                faults.append(fault)

        threads = [threading.Thread(target=work, args=(number,)) for number in range(30)]
        for thread in threads:
            thread.start()
        for thread in threads:
            thread.join()
        self.assertEqual(faults, [])
        self.assertEqual(self.server.verdicts(), ["LEGAL"])


class Java(Case):
    """Pools of thirty connections."""

    def says(self, name, *words):
        folder = self.ends.enter_context(tempfile.TemporaryDirectory())
        jars = ["mariadb-java-client", "HikariCP", "btm", "geronimo-jta-1.2-spec", "geronimo-jms_1.1_spec", "slf4j-api",
                "slf4j-nop"]
        classes = ":".join(f"/usr/share/java/{jar}.jar" for jar in jars)
        ran = subprocess.run(["java", "-Xshare:auto", "-XX:TieredStopAtLevel=1", "-cp", classes,
                              HERE / "clients" / f"{name}.java",
                              *[folder if word is None else str(word) for word in words]], stdout=subprocess.PIPE,
                             stderr=subprocess.STDOUT, text=True, timeout=LONGEST)
        self.assertEqual(ran.returncode, 0, ran.stdout)
        return ran.stdout

    def test_hikari_and_mariadb(self):
        for pool in ("hikari", "mariadb"):
            server = self.serve("--wait", "60")
            self.assertIn("committed 300", self.says("Pool", server.port, pool))
            self.assertEqual(server.verdicts(), ["LEGAL"])

    def test_bitronix(self):
        server = self.serve("--wait", "60", stores=2)
        self.assertIn("committed 300", self.says("Transfers", None, *server.ports))
        self.assertEqual(server.verdicts(), ["LEGAL", "LEGAL"])
        for store in (0, 1):
            client = self.client(server, store)
            self.assertEqual(client.ask("XA RECOVER").rows, [])
            self.assertEqual({self.value(client, f"row {number}") for number in range(30)}, {b"9"})

    def test_connections_that_were_closed_while_they_idled(self):
        """What docs/CLIENTS.md says of pools: which of them find out before a statement fails."""
        # (a pool that is begun on a busy machine takes a second or two to its first statement)
        server = self.serve("--idle", "20")
        said = self.says("Idle", None, server.port)
        self.assertEqual(
            said, "hikari: ok\nhikari with a query: ok\nmariadb: ok\nbitronix: refused\nbitronix with a query: ok\n")
        wait_for(lambda: server.logged("no command for 20 seconds"), "it is told why")
