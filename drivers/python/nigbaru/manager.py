"""A branch as a data manager of Zope's `transaction`, of which nothing is imported here."""
from __future__ import annotations

import contextlib
import logging
import time
from typing import Any, Optional

from .connection import Connection
from .errors import Error, means_no_branch
from .xid import Text

PAUSES = (0.0, 0.1, 0.5)  # seconds before each further try of a commit
LOG = logging.getLogger("nigbaru")


class Branch:
    """A connection's part of a global transaction. What is written by the connection from now on belongs to it."""

    def __init__(self, manager: Any, connection: Connection, global_id: Text, name: str, format_id: int = 1) -> None:
        """`manager` is a TransactionManager; `name` tells the stores of one transaction apart, and orders their votes.

        Where the transaction can't be joined, the connection has no transaction afterwards, and the manager's error is
        raised.
        """
        self.transaction_manager = manager
        self.connection, self.name = connection, name
        self.xid = connection.xid(format_id, global_id, name)
        connection.tpc_begin(self.xid)
        self.open = True
        self.unfinished: Optional[Error] = None  # why the second phase isn't known to have ended
        self._is_lost = False  # whether a connection went before it had the answer to a commit
        try:
            manager.get().join(self)
        except BaseException:
            with contextlib.suppress(Error):
                self.abort(None)
            raise

    def sortKey(self) -> str:  # noqa: N802  (the name is `transaction`'s)
        """Where the store comes among those that vote."""
        return f"nigbaru:{self.name}"

    def tpc_begin(self, transaction: Any) -> None:
        """Nothing is left to do: the branch began with this."""

    def commit(self, transaction: Any) -> None:
        """Nothing is left to do: what was written is in the branch."""

    def tpc_vote(self, transaction: Any) -> None:
        """The first phase."""
        self.connection.tpc_prepare()

    def tpc_finish(self, transaction: Any) -> None:
        """The second phase. It raises no Error: `transaction` would then roll back the other branches, of which some
        may have committed.

        A commit that fails is tried again, over another connection if this one is gone. If it still fails, `unfinished`
        has the error, which is logged as critical, and the branch is left to recovery.
        """
        self.open = False  # it is decided: what aborts from now on may not roll back
        self.unfinished = self._commit()
        for pause in PAUSES:
            if self.unfinished is None or means_no_branch(self.unfinished):
                break
            time.sleep(pause)
            self.unfinished = self._commit()
        if self.unfinished is not None:
            LOG.critical("%r isn't known to be committed, though that is decided: recovery has to commit it, if it is "
                         "still prepared", self.xid, exc_info=self.unfinished)

    def _commit(self) -> Optional[Error]:
        """Asks for the commit; the error of a try that isn't known to have committed."""
        try:
            connection = self.connection.another() if self.connection.is_gone else self.connection
        except Error as error:
            return error
        was_lost = self._is_lost
        try:
            connection.tpc_commit(self.xid if connection is not self.connection else None)
        except Error as error:
            self._is_lost = was_lost or connection.is_gone
            # Once an answer was lost, a store without this branch has committed it: the answer that was lost said so.
            return None if was_lost and means_no_branch(error) else error
        finally:
            if connection is not self.connection:
                with contextlib.suppress(Error):
                    connection.close()
        return None

    def abort(self, transaction: Any) -> None:
        """Rolls back, once."""
        if self.open:
            self.open = False
            self.connection.tpc_rollback()

    tpc_abort = abort

    def __repr__(self) -> str:
        return f"<nigbaru.Branch {self.name!r} of {self.connection!r}>"
