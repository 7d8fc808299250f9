#!/usr/bin/env python3
"""Zope's transaction manager over the Python driver's data manager, with a file of decisions.

    zope.py run VALUE | recover

It writes a row into each store of 127.0.0.1 whose port is in $PORTS, in one transaction, and keeps its decisions in the
current folder. Status 0: all is committed, or recovered.
"""
import os
import sys
from pathlib import Path

sys.path.insert(0, str(Path(__file__).resolve().parents[2] / "python"))
import transaction  # noqa: E402

from nigbaru import Branch, Error, Remote  # noqa: E402

MANAGER = b"zope "  # its gtrids begin so
STORES = [Remote(int(port), timeout=240) for port in os.environ["PORTS"].split()]
DECISIONS = Path("decisions")


class Decision:
    """Votes last, and keeps the decision by it."""
    transaction_manager = None

    def __init__(self, gtrid):
        self.gtrid = gtrid

    def sortKey(self):  # noqa: N802  (the name is `transaction`'s)
        return "~ last"

    def tpc_vote(self, transaction):
        with DECISIONS.open("a") as file:
            file.write(self.gtrid.hex() + "\n")
            os.fsync(file)

    def nothing(self, transaction):
        pass

    abort = tpc_begin = commit = tpc_finish = tpc_abort = nothing


def run(value):
    gtrid = MANAGER + os.urandom(8)
    manager = transaction.TransactionManager()
    manager.begin()
    branches = []
    try:
        for number, store in enumerate(STORES, 1):
            connection = store.connect()
            branches.append(Branch(manager, connection, gtrid, f"store {number}"))
            connection.put("row", value)
        manager.get().join(Decision(gtrid))
        manager.commit()
    except Error as fault:
        print(fault)
        manager.abort()
        return False
    return not any(branch.unfinished for branch in branches)


def recover():
    decided = {bytes.fromhex(line) for line in DECISIONS.read_text().split()} if DECISIONS.exists() else set()
    for store in STORES:
        with store.connect() as connection:
            for xid in connection.tpc_recover():
                if xid.gtrid in decided:
                    connection.tpc_commit(xid)
                elif xid.gtrid.startswith(MANAGER):
                    connection.tpc_rollback(xid)
    return True


words = sys.argv[1:]
sys.exit(not (run(words[1]) if words[0] == "run" else recover()))
