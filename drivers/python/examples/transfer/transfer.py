#!/usr/bin/env python3
"""A small transaction manager: it moves money from alice, in store 1, to bob, in store 2.

    transfer.py [AMOUNT]

It finishes what an earlier run left, and then moves the amount, if there is one. Decisions are kept in a file of the
current folder; what isn't decided there is rolled back.
"""
import os
import sys
from pathlib import Path

from nigbaru import OperationalError, Remote

OURS = b"transfer "  # how its gtrids begin
TRIES = 3


class Transfer:
    def __init__(self, ports, folder):
        self.stores = [Remote(int(port), timeout=30) for port in ports]
        self.decisions = Path(folder, "decisions")

    def move(self, amount):
        """Moves an amount, or raises nigbaru.Error and moves nothing."""
        gtrid = OURS + os.urandom(8)
        try:
            with self.stores[0].connect() as alices, self.stores[1].connect() as bobs:
                for connection, name, change in ((alices, "alice", -amount), (bobs, "bob", amount)):
                    connection.tpc_begin(connection.xid(1, gtrid, name))
                    connection.put(name, str(int(connection.get(name)) + change))
                alices.tpc_prepare()
                bobs.tpc_prepare()
            self.decide(gtrid)
        finally:
            self.finish(gtrid)

    def decide(self, gtrid):
        with self.decisions.open("a") as file:
            file.write(f"{gtrid.hex()}\n")
            file.flush()
            os.fsync(file)

    def finish(self, begins=OURS):
        """Finishes all branches whose gtrids begin so. One whose answer was lost is looked for once more."""
        decided = self.decisions.read_text().split() if self.decisions.exists() else []
        for store in self.stores:
            for rest in reversed(range(TRIES)):
                try:
                    self.finish_in(store, begins, decided)
                    break
                except OperationalError:
                    if not rest:
                        raise

    @staticmethod
    def finish_in(store, begins, decided):
        with store.connect() as connection:
            for xid in connection.tpc_recover():
                if xid.gtrid.startswith(begins):
                    is_decided = xid.gtrid.hex() in decided
                    (connection.tpc_commit if is_decided else connection.tpc_rollback)(xid)


if __name__ == "__main__":
    transfer = Transfer(os.environ["PORTS"].split(), ".")
    transfer.finish()
    if len(sys.argv) > 1:
        transfer.move(int(sys.argv[1]))
