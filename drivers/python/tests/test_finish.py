"""The second phase over a network: a commit that fails is tried again, and what still fails is told and left to
recovery, while the other store commits."""
import os
import subprocess
import tempfile
import unittest
from pathlib import Path

import transaction

from nigbaru import Branch, OperationalError, Remote, Server

SERVER = os.environ["NIGBARU_SERVER"]
STORES = (1, 2)
TRIES = 4  # of a commit


class Before:
    """A data manager that votes last: what it is given is done between the votes and the second phase."""

    transaction_manager = None

    def __init__(self, does):
        self._does = does

    def sortKey(self):  # noqa: N802
        return "~ last"

    def tpc_vote(self, transaction):
        self._does()

    def nothing(self, transaction):
        pass

    abort = tpc_begin = commit = tpc_finish = tpc_abort = nothing


class Finish(unittest.TestCase):
    def start(self, faults=""):
        """Two stores with these faults, and a branch in each, of one transaction."""
        folder = tempfile.TemporaryDirectory()
        self.addCleanup(folder.cleanup)
        (Path(folder.name) / "faults").write_text(faults)
        words = [SERVER, "--port", "0", "--stores", "2", "--fault", f"{folder.name}/faults"]
        process = subprocess.Popen(words, stderr=subprocess.PIPE, text=True)
        self.addCleanup(process.stderr.close)
        self.addCleanup(process.wait)
        self.addCleanup(process.terminate)
        self.remotes = [Remote(int(process.stderr.readline().rpartition(":")[2])) for _ in STORES]
        self.join([self.connect(remote) for remote in self.remotes])

    def join(self, connections):
        self.manager = transaction.TransactionManager()
        self.branches = [Branch(self.manager, connection, "g", f"store {number}")
                         for number, connection in zip(STORES, connections)]
        for connection in connections:
            connection.put("row", "90")

    def connect(self, remote):
        connection = remote.connect()
        self.addCleanup(connection.close)
        return connection

    def stands(self):
        """Of each store the row, and how many branches are prepared."""
        return [(connection.get("row"), len(connection.tpc_recover()))
                for connection in map(self.connect, self.remotes)]

    def test_a_commit_that_fails_once(self):
        """In either store: lost on its way, its answer lost, the store away for a moment, refused."""
        for store in STORES:
            for fault in ("close-before", "close-after", "outage 0.3", "error 1402", "error 1399"):
                with self.subTest(store=store, fault=fault):
                    self.start(f"STORE {store} XA COMMIT 1 {fault}\n")
                    with self.assertNoLogs("nigbaru"):
                        self.manager.commit()
                    self.assertEqual([branch.unfinished for branch in self.branches], [None, None])
                    self.assertEqual(self.stands(), [(b"90", 0), (b"90", 0)])

    def test_a_commit_that_fails_each_time(self):
        """It is told, and nothing is rolled back: the other store commits, and a recovery finds the branch."""
        self.start("".join(f"STORE 1 XA COMMIT {number} error 1402\n" for number in range(1, TRIES + 1)))
        with self.assertLogs("nigbaru", "CRITICAL") as logged:
            self.manager.commit()
        self.assertEqual(len(logged.records), 1)
        self.assertEqual(self.branches[0].unfinished.number, 1402)
        self.assertIsNone(self.branches[1].unfinished)
        self.branches[0].tpc_abort(None)
        self.assertEqual(self.stands(), [(None, 1), (b"90", 0)])
        connection = self.connect(self.remotes[0])
        connection.tpc_commit(*connection.tpc_recover())
        self.assertEqual(self.stands(), [(b"90", 0), (b"90", 0)])

    def test_a_refusal_1397_that_nothing_lost_explains(self):
        """Somebody else has ended the branch, or the refusal is a lie: it isn't taken for a commit."""
        self.start("STORE 1 XA COMMIT 1 error 1397\n")
        with self.assertLogs("nigbaru", "CRITICAL"):
            self.manager.commit()
        self.assertEqual(self.branches[0].unfinished.number, 1397)
        self.assertEqual(self.stands(), [(None, 1), (b"90", 0)])

    def test_a_branch_that_somebody_else_rolls_back(self):
        """Nothing was committed here, and that is told; a lost try before doesn't hide it, since none was lost."""
        self.start()
        other = self.connect(self.remotes[0])
        self.manager.get().join(Before(lambda: other.tpc_rollback(self.branches[0].xid)))
        with self.assertLogs("nigbaru", "CRITICAL"):
            self.manager.commit()
        self.assertEqual(self.branches[0].unfinished.number, 1397)
        self.assertEqual(self.stands(), [(None, 0), (b"90", 0)])

    def test_a_connection_that_goes_between_the_phases(self):
        """No commit was asked for by it, so a store without the branch would not have committed it; here it has it."""
        self.start()
        self.manager.get().join(Before(self.branches[0].connection.close))
        with self.assertNoLogs("nigbaru"):
            self.manager.commit()
        self.assertEqual(self.stands(), [(b"90", 0), (b"90", 0)])
        self.start()
        other = self.connect(self.remotes[0])
        self.manager.get().join(
            Before(lambda: (self.branches[0].connection.close(), other.tpc_rollback(self.branches[0].xid))))
        with self.assertLogs("nigbaru", "CRITICAL"):
            self.manager.commit()
        self.assertEqual(self.branches[0].unfinished.number, 1397)

    def test_a_store_that_is_gone(self):
        stores = [Server([os.environ["XA_SCRIPT"], "serve"]) for _ in STORES]
        for store in stores:
            self.addCleanup(store.close)
        self.join([store.connect() for store in stores])
        self.manager.get().join(Before(stores[0].close))
        with self.assertLogs("nigbaru", "CRITICAL"):
            self.manager.commit()
        self.assertIsInstance(self.branches[0].unfinished, OperationalError)
        self.assertEqual(stores[1].connect().get("row"), b"90")


if __name__ == "__main__":
    unittest.main()
