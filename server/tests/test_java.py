"""Java programs over Connector/J: the codes of its XAResource, and Bitronix over two stores, killed and disturbed."""
import fcntl
import os
import subprocess
import tempfile
from pathlib import Path

from support import HERE, LONGEST, PATIENCE, Case, wait_for

JARS = ["mariadb-java-client", "btm", "geronimo-jta-1.2-spec", "geronimo-jms_1.1_spec", "slf4j-api", "slf4j-nop"]
CLASSPATH = ":".join(f"/usr/share/java/{jar}.jar" for jar in JARS)
# What Codes prints, call by call. Connector/J has no code for 1440, here as with MariaDB: its XAException has 0.
CODES = """\
end of nothing XA -7
commit of nothing XA -4
start OK
start again XA -7
start there XA 0
join XA -5
put OK
put there SQL 3572 HY000 SQLTransientConnectionException
value null
get there OK
prepare too soon XA -7
end OK
vote 0
prepare OK
first lists 7 global
 [98, 39, 49]
second lists 7 global
 [98, 39, 49]
one phase of prepared XA -7
commit there OK
value v
get OK
start of an empty bqual OK
put OK
end with failure OK
one phase OK
start OK
end OK
prepare OK
first lists 2147483647 other []
roll back there OK
forget OK
value w
value y
local OK
value it's|1 \u00e4
prepared text OK
level 8, valid true
warnings null, version 8.0.36-nigbaru
what a pool asks OK
"""


def compiled():
    """The folder of the compiled programs, which all tests share: whichever comes first compiles them."""
    folder = Path(os.environ["NIGBARU_CLASSES"])
    with open(folder / "lock", "w") as lock:
        fcntl.flock(lock, fcntl.LOCK_EX)
        if not (folder / "done").exists():
            subprocess.run(["javac", "-d", folder, "-cp", CLASSPATH, *(HERE / "java").glob("*.java")], check=True)
            (folder / "done").touch()
    return folder


class Java(Case):
    """Runs the programs."""

    def java(self, *words):
        process = subprocess.Popen(["java", "-Xshare:auto", "-XX:TieredStopAtLevel=1", "-Dfile.encoding=UTF-8", "-cp",
                                    f"{CLASSPATH}:{compiled()}", *map(str, words)], stdout=subprocess.PIPE, text=True,
                                   encoding="utf-8")
        self.ends.callback(process.stdout.close)
        self.ends.callback(process.wait)
        self.ends.callback(process.kill)
        return process

    def says(self, *words):
        process = self.java(*words)
        said = process.communicate(timeout=LONGEST)[0]
        self.assertEqual(process.returncode, 0, said)
        return said


class Codes(Java):
    def test_codes(self):
        server = self.serve()
        self.assertEqual(self.says("Codes", server.port), CODES)
        self.assertEqual(server.verdicts(), ["LEGAL"])


class Bitronix(Java):
    def setUp(self):
        super().setUp()
        self.journal = Path(self.ends.enter_context(tempfile.TemporaryDirectory()))

    def transfer(self, server, what, value="new"):
        return self.says("Transfer", self.journal, *server.ports, what, value)

    def prepared(self, server):
        """How many branches are prepared in each store."""
        return [len(self.client(server, store).ask("XA RECOVER").rows) for store in (0, 1)]

    def outcome(self, server):
        """The row of both stores, which have to agree, once nothing is prepared in either."""
        clients = [self.client(server, store) for store in (0, 1)]
        for client in clients:
            self.assertEqual(client.ask("XA RECOVER").rows, [])
        one, two = [self.value(client, "k") for client in clients]
        self.assertEqual(one, two)
        return one

    def test_a_journal_that_got_full(self):
        """What docs/BENCH.md says of the journal: a process finds the decision that the one before it has left, but not
        once that one has gone on in the other part."""
        for decisions, found in ((100, 1), (9_000, 0)):
            with tempfile.TemporaryDirectory() as journal:
                self.assertEqual(self.says("Journal", journal, decisions), "OPEN 0 1\n")
                self.assertEqual(self.says("Journal", journal, 0), f"OPEN {found} {found}\n")

    def test_commit_and_rollback(self):
        server = self.serve(stores=2)
        self.assertIn("COMMITTED", self.transfer(server, "commit", "first"))
        self.assertEqual(self.outcome(server), b"first")
        self.assertIn("ROLLED BACK", self.transfer(server, "rollback", "second"))
        self.assertEqual(self.outcome(server), b"first")
        self.assertEqual(server.verdicts(), ["LEGAL", "LEGAL"])

    def test_a_refused_row(self):
        server = self.serve(stores=2)
        other = self.client(server, 1)
        self.ok(other, "XA START 'other'", "PUT 'k','theirs'")
        self.assertIn("REFUSED SQLTransientConnectionException", self.transfer(server, "commit"))
        self.ok(other, "XA END 'other'", "XA ROLLBACK 'other'")
        self.assertIsNone(self.outcome(server))
        self.assertEqual(server.verdicts(), ["LEGAL", "LEGAL"])

    def crash(self, server, words):
        """Kills a process that commits once the server has said these words. Its connections end with it."""
        process = self.java("Transfer", self.journal, *server.ports, "commit", "new")
        wait_for(lambda: server.logged(words), words, LONGEST)
        process.kill()
        process.wait(PATIENCE)
        self.wait_for_all_that_left(server)

    def killed_at(self, statement, prepared):
        """Kills the process while a store holds its statement, with so many branches prepared in each store; what a
        further process then makes of it."""
        server = self.serve(stores=2, faults=[f"{statement} stall 600"])
        self.crash(server, "held before it")
        wait_for(lambda: server.logged("while its statement was held"), "the server sees it")
        self.assertEqual(self.prepared(server), prepared)
        said = self.transfer(server, "recover")
        self.assertEqual(server.verdicts(), ["LEGAL", "LEGAL"])
        return said, self.outcome(server)

    # Bitronix prepares the stores in their order, and commits them the other way round.

    def test_killed_before_the_second_prepare(self):
        self.assertEqual(self.killed_at("STORE 2 XA PREPARE 1", [1, 0]), ("FOUND 0 1\n", None))

    def test_killed_before_the_first_commit(self):
        self.assertEqual(self.killed_at("STORE 2 XA COMMIT 1", [1, 1]), ("FOUND 1 0\n", b"new"))

    def test_killed_before_the_second_commit(self):
        self.assertEqual(self.killed_at("STORE 1 XA COMMIT 1", [1, 0]), ("FOUND 1 0\n", b"new"))

    def test_stores_that_came_back_empty(self):
        """A store ends with its server, and Bitronix counts the branch that it doesn't find as committed."""
        server = self.serve(stores=2, faults=["STORE 1 XA COMMIT 1 stall 600"])
        self.crash(server, "held before it")
        server.end()
        empty = self.serve(stores=2)
        self.assertEqual(self.transfer(empty, "recover"), "FOUND 1 0\n")
        self.assertIsNone(self.outcome(empty))

    def recovered(self, *faults):
        """Two processes that recover after a crash before the second commit, the first of them with faults: what each
        found, and both stores' rows."""
        server = self.serve(stores=2, faults=["STORE 1 XA COMMIT 1 stall 600", *faults])
        self.crash(server, "held before it")
        found = [self.transfer(server, "recover").strip() for _ in range(2)]
        self.assertEqual(self.prepared(server), [0, 0])
        self.assertEqual(server.verdicts(), ["LEGAL", "LEGAL"])
        return found, [self.value(self.client(server, store), "k") for store in (0, 1)]

    def test_a_list_that_is_cut(self):
        found, rows = self.recovered("STORE 1 XA RECOVER 3 close-before")
        self.assertEqual(rows, [b"new", b"new"], found)

    def test_an_answer_that_is_cut_in_recovery(self):
        self.assertEqual(self.recovered("STORE 1 XA COMMIT 2 close-after"),
                         (["FOUND 1 0", "FOUND 0 0"], [b"new", b"new"]))

    def test_a_commit_that_is_cut_in_recovery(self):
        """Bitronix 2.1.4 counts it as done, and the next process rolls the branch back: the stores differ, and each
        record is LEGAL."""
        self.assertEqual(self.recovered("STORE 1 XA COMMIT 2 close-before"),
                         (["FOUND 1 0", "FOUND 0 1"], [None, b"new"]))

    def disturbed(self, fault):
        """A transaction with a fault: what Bitronix says of it, and the row that both stores have in the end."""
        server = self.serve(stores=2, faults=[fault])
        said = self.transfer(server, "commit").split("\n")[-2]
        if any(self.prepared(server)):
            self.transfer(server, "recover")
        row = self.outcome(server)
        if " error " not in fault:
            self.assertEqual(server.verdicts(), ["LEGAL", "LEGAL"])
        return said, row

    def test_faults_at_the_prepares(self):
        """A connection that is cut or refuses before its vote is counted rolls back, whether the vote took effect or
        not; one that is slow commits."""
        for store in (1, 2):
            for what in ("close-before", "close-after", "error 1399", "error 1402"):
                with self.subTest(store=store, what=what):
                    self.assertEqual(self.disturbed(f"STORE {store} XA PREPARE 1 {what}"),
                                     ("REFUSED BitronixRollbackException", None))
            for what in ("stall 1", "stall-after 1"):
                with self.subTest(store=store, what=what):
                    self.assertEqual(self.disturbed(f"STORE {store} XA PREPARE 1 {what}"), ("COMMITTED", b"new"))

    def test_faults_at_the_commits(self):
        """Whatever happens to a commit whose decision is written down, both stores commit."""
        for store in (1, 2):
            for what in ("close-before", "close-after", "error 1399", "stall 1", "stall-after 1"):
                with self.subTest(store=store, what=what):
                    self.assertEqual(self.disturbed(f"STORE {store} XA COMMIT 1 {what}"), ("COMMITTED", b"new"))

    def test_killed_at_a_fault(self):
        """A fault, and then the process is killed at once: wherever that meets it, both stores agree once a further
        process has recovered."""
        for fault in [f"STORE {store} XA {verb} 1 {what}"
                      for store, verb in ((1, "PREPARE"), (2, "PREPARE"), (1, "COMMIT"), (2, "COMMIT"))
                      for what in ("close-before", "close-after", "stall-after 9", "error 1399")]:
            with self.subTest(fault):
                server = self.serve(stores=2, faults=[fault])
                self.crash(server, "the fault")
                self.transfer(server, "recover")
                self.outcome(server)
                if " error " not in fault:
                    self.assertEqual(server.verdicts(), ["LEGAL", "LEGAL"])

    def test_a_store_that_says_it_rolled_back(self):
        """A lie at the commit is a heuristic outcome, and Bitronix says so."""
        server = self.serve(stores=2, faults=["STORE 1 XA COMMIT 1 error 1402"])
        self.assertIn("REFUSED BitronixHeuristicMixedException", self.transfer(server, "commit"))
