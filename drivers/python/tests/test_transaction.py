"""Zope's transaction manager over two stores."""
import os
import signal
import subprocess
import sys
import unittest

import transaction
import transaction.interfaces

from nigbaru import Branch, OperationalError, ProgrammingError, Server

PROGRAM = [os.environ["XA_SCRIPT"], "serve"]


class No:
    """A data manager that votes no."""

    transaction_manager = None

    def sortKey(self):  # noqa: N802
        return "~ last"

    def tpc_vote(self, transaction):
        raise RuntimeError("no")

    def nothing(self, transaction):
        pass

    abort = tpc_begin = commit = tpc_finish = tpc_abort = nothing


def transfer(manager, one, two, global_id):
    """Takes 30 of 100 from the first store to the second."""
    Branch(manager, one, global_id, "one")
    Branch(manager, two, global_id, "two")
    one.put("account", b"%d" % (int(one.get("account")) - 30))
    two.put("account", b"%d" % (int(two.get("account")) + 30))


class Transfers(unittest.TestCase):
    def setUp(self):
        self.stores = []
        for _ in range(2):
            store = Server(PROGRAM)
            self.addCleanup(store.close)
            self.stores.append(store)
        self.one, self.two = (store.connect() for store in self.stores)
        self.one.put("account", "100")
        self.two.put("account", "100")
        self.manager = transaction.TransactionManager()

    def accounts(self):
        return tuple(int(store.connect().get("account")) for store in self.stores)

    def prepared(self):
        return [store.connect().tpc_recover() for store in self.stores]

    def test_transfer_is_committed(self):
        transfer(self.manager, self.one, self.two, "g")
        self.manager.commit()
        self.assertEqual(self.accounts(), (70, 130))
        transfer(self.manager, self.one, self.two, "g")
        self.manager.commit()
        self.assertEqual(self.accounts(), (40, 160))
        self.assertEqual(self.prepared(), [[], []])

    def test_aborted_transfer_leaves_nothing(self):
        transfer(self.manager, self.one, self.two, "g")
        self.manager.abort()
        self.assertEqual(self.accounts(), (100, 100))

    def test_vote_of_no_rolls_both_back(self):
        transfer(self.manager, self.one, self.two, "g")
        self.manager.get().join(No())
        self.assertRaises(RuntimeError, self.manager.commit)
        self.manager.abort()
        self.assertEqual(self.accounts(), (100, 100))
        self.assertEqual(self.prepared(), [[], []])

    def test_a_branch_that_cannot_be_joined_leaves_no_transaction(self):
        self.manager.get().join(No())
        self.assertRaises(RuntimeError, self.manager.commit)
        with self.assertRaises(transaction.interfaces.TransactionFailedError):
            Branch(self.manager, self.one, "g", "one")
        self.one.put("account", "99")
        self.one.tpc_begin(self.one.xid(1, "g", "one"))
        self.one.tpc_commit()
        self.manager.abort()

    def test_a_branch_that_another_finished_is_over(self):
        """Nobody knows how, so it is said, but not raised."""
        branch = Branch(self.manager, self.one, "g", "one")
        branch.tpc_vote(None)
        self.stores[0].connect().tpc_commit(branch.xid)
        with self.assertLogs("nigbaru", "CRITICAL"):
            branch.tpc_finish(None)
        self.assertIsInstance(branch.unfinished, ProgrammingError)
        self.assertEqual(branch.unfinished.number, 1397)
        branch.tpc_abort(None)
        branch.abort(None)
        self.one.put("account", "99")
        self.manager.abort()

    def test_locked_row_ends_a_transfer(self):
        other = self.stores[1].connect()
        other.tpc_begin(other.xid(1, "other", ""))
        other.put("account", "0")
        with self.assertRaises(OperationalError):
            transfer(self.manager, self.one, self.two, "g")
        self.manager.abort()
        other.tpc_rollback()
        self.assertEqual(self.accounts(), (100, 100))


class Crashes(unittest.TestCase):
    """The transaction manager is a process of its own, and is killed between the votes and the second phase."""

    def setUp(self):
        self.pipes = []
        for _ in range(2):
            to_store, to_us = os.pipe(), os.pipe()
            child = subprocess.Popen(PROGRAM, stdin=to_store[0], stdout=to_us[1])
            os.close(to_store[0])
            os.close(to_us[1])
            self.pipes.append((child, to_us[0], to_store[1]))
            self.addCleanup(child.wait)
        self.addCleanup(lambda: [os.close(end) for _, *ends in self.pipes for end in ends])

    def take_over(self):
        """The stores, once their last client is gone."""
        return [Server.over(os.dup(reader), os.dup(writer)) for _, reader, writer in self.pipes]

    def crash(self, decides):
        """Begins, and kills, a transaction manager; what it had decided."""
        ends = [str(end) for _, *both in self.pipes for end in both]
        words = [sys.executable, __file__, "manager", "decides" if decides else "waits", *ends]
        manager = subprocess.Popen(words, stdout=subprocess.PIPE, pass_fds=[int(end) for end in ends])
        said = manager.stdout.readline().split()
        self.assertEqual(said[:1], [b"voted"])
        manager.send_signal(signal.SIGKILL)
        manager.wait()
        manager.stdout.close()
        return set(said[1:])

    def recover(self, decided):
        """Commits what was decided and rolls back the rest: presumed abort."""
        stores = self.take_over()
        for store in stores:
            connection = store.connect()
            found = connection.tpc_recover()
            self.assertEqual([xid.gtrid for xid in found], [b"g"])
            for xid in found:
                if xid.gtrid in decided:
                    connection.tpc_commit(xid)
                else:
                    connection.tpc_rollback(xid)
            self.assertEqual(connection.tpc_recover(), [])
        accounts = tuple(int(store.connect().get("account")) for store in stores)
        for store in stores:
            store.close()
        return accounts

    def test_undecided_transfer_is_rolled_back(self):
        decided = self.crash(decides=False)
        self.assertEqual(decided, set())
        self.assertEqual(self.recover(decided), (100, 100))

    def test_decided_transfer_is_committed(self):
        decided = self.crash(decides=True)
        self.assertEqual(decided, {b"g"})
        self.assertEqual(self.recover(decided), (70, 130))


class Decision(No):
    """Votes last; what it says then, another process keeps. It never gets to the second phase."""

    def __init__(self, decides):
        self.decides = decides

    def tpc_vote(self, transaction):
        print("voted", *(["g"] if self.decides else []), flush=True)
        signal.pause()


def be_manager(decides, ends):
    one, two = (Server.over(reader, writer).connect() for reader, writer in zip(ends[::2], ends[1::2]))
    one.put("account", "100")
    two.put("account", "100")
    manager = transaction.TransactionManager()
    transfer(manager, one, two, "g")
    manager.get().join(Decision(decides))
    manager.commit()


if __name__ == "__main__":
    if sys.argv[1:2] == ["manager"]:
        be_manager(sys.argv[2] == "decides", [int(end) for end in sys.argv[3:]])
    else:
        unittest.main()
