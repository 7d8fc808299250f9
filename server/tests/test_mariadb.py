"""Where a store and a MariaDB should agree both are asked: numbers, SQLSTATEs, columns, flags. And how many round trips
each makes in a second."""
import re
import subprocess
import tempfile
import unittest
from pathlib import Path

from mariadb import mariadb
from support import LONG, PATIENCE, Case
from wire import Client

STAYS = "a prepared branch is listed"  # MariaDB's stays with its session, whose flag says so until the end
TOO_LONG = "'" + "x" * 65 + "'"
# Each case: who says what. Rules in which the two differ are in docs/RECORDS.md#records-of-mariadb; none of these
# meets one.
CASES = {
    "a branch in one phase": ["1 XA START 'a'", "1 XA END 'a'", "1 XA COMMIT 'a' ONE PHASE", "1 XA RECOVER"],
    "a branch that is rolled back": ["1 XA BEGIN 'a','b',7", "1 XA END 'a','b',7", "1 XA ROLLBACK 'a','b',7"],
    STAYS: ["1 XA START 'a','b',7", "1 WRITE", "1 XA END 'a','b',7", "1 XA PREPARE 'a','b',7", "1 XA RECOVER",
            "2 XA RECOVER", "1 XA COMMIT 'a','b',7", "2 XA RECOVER"],
    "wrong states of none": ["1 XA END 'a'", "1 XA PREPARE 'a'", "1 XA COMMIT 'a'", "1 XA ROLLBACK 'a'"],
    "wrong states of an active one": ["1 XA START 'a'", "1 XA START 'b'", "1 XA PREPARE 'a'", "1 XA COMMIT 'a'",
                                      "1 XA COMMIT 'a' ONE PHASE", "1 XA ROLLBACK 'a'", "1 XA END 'b'", "1 COMMIT",
                                      "1 ROLLBACK", "1 BEGIN",
                                      "1 START TRANSACTION", "1 XA END 'a'", "1 XA ROLLBACK 'a'"],
    "wrong states of an idle one": ["1 XA START 'a'", "1 XA END 'a'", "1 XA START 'b'", "1 XA END 'a'",
                                    "1 XA COMMIT 'a'", "1 COMMIT", "1 WRITE", "1 XA PREPARE 'b'", "1 XA ROLLBACK 'a'"],
    "one identifier twice": ["1 XA START 'a'", "2 XA START 'a'", "1 XA END 'a'", "2 XA START 'a'", "1 XA ROLLBACK 'a'",
                             "2 XA START 'a'", "2 XA END 'a'", "2 XA ROLLBACK 'a'"],
    "clauses that aren't supported": ["1 XA START 'a' JOIN", "1 XA START 'a'", "1 XA END 'a' SUSPEND",
                                      "1 XA END 'a' SUSPEND FOR MIGRATE", "1 XA END 'a'", "1 XA ROLLBACK 'a'"],
    "what is no statement": [f"1 {text}" for text in (f"XA START {TOO_LONG}", "XA START 'a','b',2147483648", "XA START",
                                                      "XA", "XA START 'a' ONE PHASE", "XA COMMIT 'a' ONE",
                                                      "XA START 'a',", "XA RECOVER now",
                                                      "NONSENSE", "XA START 'a','b','c'", "XA START a")],
    "spellings": [f"1 XA {verb} {xid}" for xid in (r"'it''s\n'", r'"say ""so"""', "X'4142'", "0x4142", "'a',''",
                                                   "'a',X'',2147483647", "0x414")
                  for verb in ("START", "END", "ROLLBACK")],
    "a transaction of statements": ["1 START TRANSACTION", "1 WRITE", "1 XA START 'a'", "1 XA END 'a'",
                                    "1 XA PREPARE 'a'", "1 XA COMMIT 'a'", "1 XA ROLLBACK 'a'", "1 COMMIT", "1 BEGIN",
                                    "1 WRITE", "1 ROLLBACK"],
    "autocommit": ["1 SET autocommit=0", "1 WRITE", "1 XA START 'a'", "1 COMMIT", "1 XA START 'a'", "1 WRITE",
                   "1 SET autocommit=0", "1 XA END 'a'", "1 XA ROLLBACK 'a'", "1 SET autocommit=1", "1 XA START 'a'",
                   "1 SET autocommit=1", "1 XA END 'a'", "1 XA ROLLBACK 'a'"],
    "a client that leaves": ["1 XA START 'a'", "1 WRITE", "1 LEAVE", "2 XA START 'a'", "2 WRITE", "2 XA END 'a'",
                             "2 XA ROLLBACK 'a'", "2 XA RECOVER"],
    "texts of clients": ["1 SELECT 1", "1 SET NAMES utf8mb4", "1 SHOW WARNINGS"],
}
WRITES = {"nigbaru": "PUT 'k','v'", "mariadb": "REPLACE INTO db.t VALUES ('k','v')"}


def described(answer, flags):
    """What the two have to have in common of an answer."""
    if answer.kind == "error":
        return answer.number, answer.sqlstate
    return answer.kind, answer.status & flags, answer.columns and answer.names, answer.rows


class Agreement(Case):
    def test_both_say_the_same(self):
        server = self.serve()
        with mariadb() as port:
            with Client(port) as client:
                self.ok(client, "CREATE DATABASE db",
                        "CREATE TABLE db.t (k VARBINARY(64) PRIMARY KEY, v VARBINARY(64)) ENGINE=InnoDB",
                        "INSERT INTO db.t VALUES ('k','')")
            for name, steps in CASES.items():
                with self.subTest(name):
                    flags = 2 if name == STAYS else 3
                    self.assertEqual(self.said("nigbaru", server.port, steps, flags),
                                     self.said("mariadb", port, steps, flags))
            with server.client() as ours, Client(port) as theirs:
                self.assertEqual(ours.ask("XA RECOVER").columns, theirs.ask("XA RECOVER").columns)

    def said(self, name, port, steps, flags):
        """What a server answers to each step."""
        clients = {"1": Client(port), "2": Client(port)}
        try:
            said = []
            for step in steps:
                who, text = step.split(" ", 1)
                if text == "LEAVE":
                    clients[who].quit()
                    self.wait_for_the_end(clients["2"])
                else:
                    said.append((step, described(clients[who].ask(WRITES[name] if text == "WRITE" else text), flags)))
            return said
        finally:
            for client in clients.values():
                client.close()

    @staticmethod
    def wait_for_the_end(client):
        """Waits until the branch 'a' of a client that left is gone."""
        while client.ask("XA START 'a'").kind != "ok":
            pass
        client.ask("XA END 'a'")
        client.ask("XA ROLLBACK 'a'")


# A cycle of five round trips for sysbench; each thread has its own row.
CYCLE = """
function thread_init()
    con = sysbench.sql.driver():connect()
    cycles = 0
end
function event()
    cycles = cycles + 1
    local xid = string.format("'%d %d'", sysbench.tid, cycles)
    con:query("XA START " .. xid)
    con:query(string.format("STATEMENT", sysbench.tid, cycles))
    con:query("XA END " .. xid)
    con:query("XA PREPARE " .. xid)
    con:query("XA COMMIT " .. xid)
end
function thread_done()
    con:disconnect()
end
"""
TRIPS = {"nigbaru": "PUT 'row %d','%d'", "mariadb": "REPLACE INTO t VALUES ('row %d','%d')"}
SECONDS = 5


class Speed(Case):
    @unittest.skipUnless(LONG, "server/test has it with --long")
    def test_round_trips(self):
        """Prints the ratios; none is a promise."""
        server = self.serve(record=False)
        folder = Path(self.ends.enter_context(tempfile.TemporaryDirectory()))
        for name, statement in TRIPS.items():
            (folder / f"{name}.lua").write_text(CYCLE.replace("STATEMENT", statement))
        with mariadb() as port:
            with Client(port) as client:
                self.ok(client, "CREATE DATABASE db",
                        "CREATE TABLE db.t (k VARBINARY(64) PRIMARY KEY, v VARBINARY(64)) ENGINE=InnoDB")
            servers = [(folder / "nigbaru.lua", server.port), (folder / "mariadb.lua", port)]
            for server in servers:
                self.trips(*server, 4, seconds=1)  # nobody begins cold
            print("\nround trips a second:")
            for connections in (1, 4, 16):
                ours, theirs = [self.trips(*server, connections) for server in servers]
                print(
                    f"  {connections:2} connections: {ours:8.0f} beside {theirs:8.0f} of MariaDB, {ours / theirs:.2f}")
                self.assertGreater(ours, 100)

    def trips(self, script, port, connections, seconds=SECONDS):
        """Round trips a second, five to a cycle, as sysbench counts cycles."""
        ran = subprocess.run(["sysbench", script, "--db-driver=mysql", "--mysql-host=127.0.0.1", f"--mysql-port={port}",
                              "--mysql-user=root", "--mysql-db=db", "--db-ps-mode=disable", f"--threads={connections}",
                              f"--time={seconds}", "--report-interval=0", "run"], stdout=subprocess.PIPE,
                             stderr=subprocess.STDOUT, text=True, timeout=PATIENCE)
        found = re.search(r"total number of events: *(\d+)", ran.stdout)
        self.assertTrue(found and ran.returncode == 0, ran.stdout)
        return int(found[1]) * 5 / seconds
