"""PostgreSQL, by psycopg2: what the sessions of a record are to it.

It has no XA statements. A branch is a transaction, begun at `XA START`, which gets its name at `PREPARE TRANSACTION`;
so the states ACTIVE and IDLE are kept here, as drivers of PostgreSQL for XA keep them.
"""
import base64
import contextlib
import os
import re
import socket
import struct
import threading
import time
from pathlib import Path

from databases import place_text
from faults import Cut, Fault, Gone, Refused, RolledBack, Unknown, Unread, one_line
from spelling import BRANCH, RECOVER, hexadecimal, row_of, row_statement, xid_of

try:
    import psycopg2
except ModuleNotFoundError:
    psycopg2 = None

# the store's number for what PostgreSQL says by these SQLSTATEs
NUMBERS = {
    "42704": 1397,  # undefined_object: no prepared transaction has this name
    "25001": 1399,  # active_sql_transaction: it can't be done within a transaction
    "55000": 1399,  # object_not_in_prerequisite_state: another session is at work on the prepared transaction
    "42710": 1440,  # duplicate_object: a prepared transaction has this name
    "55P03": 3572,  # lock_not_available
    "40P01": 1213,  # deadlock_detected, by MySQL's number
    "40001": 1213,  # serialization_failure, by MySQL's number for this SQLSTATE
    "42601": 1064,  # syntax_error
    "53200": 1037,  # out_of_memory
}
# any other refusal: ER_UNKNOWN_ERROR
OTHER = 1105
SERIALIZATION_FAILURE = "40001"
BUSY = "55000"
NO_ROOM = "53200"  # also where as many are prepared as max_prepared_transactions says
LEVELS = {"read-committed": "READ COMMITTED", "repeatable-read": "REPEATABLE READ", "serializable": "SERIALIZABLE"}
USUAL_LEVEL = "read-committed"
NAME = re.compile(r"(\d+)_([\w+/=]*)_([\w+/=]*)", re.A)
# a refusal within a transaction gives back what the statement did, and the transaction goes on
MARK, BACK = b"RELEASE SAVEPOINT s; SAVEPOINT s; ", "ROLLBACK TO SAVEPOINT s"
# milliseconds after which a session that waits looks for a deadlock
DEADLOCK = 5
# the longest that the server's end of a connection is waited for, in seconds
PATIENCE = 120


def name_of(xid):
    """A prepared transaction's name, at most 198 bytes of the 199 that there may be; as PostgreSQL's driver for Java
    makes it."""
    number, gtrid, bqual = xid
    return f"{number}_{base64.b64encode(gtrid).decode()}_{base64.b64encode(bqual).decode()}"


def xid_named(name):
    """The identifier of a prepared transaction."""
    found = NAME.fullmatch(name)
    if not found:
        raise Fault(f"a prepared transaction isn't the recorder's: {name}")
    return int(found[1]), base64.b64decode(found[2]), base64.b64decode(found[3])


def bytea(data):
    return b"NULL" if data is None else b"'\\x%s'::bytea" % data.hex().encode()


def connect(options, database):
    """A connection, on which nothing begins a transaction by itself."""
    host, port = at_socket(Path(options.socket)) if isinstance(options.socket, str) else options.socket
    connection = psycopg2.connect(host=host, port=port, user=options.user or "postgres", password=options.password,
                                  dbname=database)
    connection.autocommit = True
    return connection


def at_socket(place):
    """A socket's folder, which stands for a host, and the server's port, in which its name ends."""
    port = place.name.rpartition(".")[2] if place.name.startswith(".s.PGSQL.") else "5432"
    return str((place if place.is_dir() else place.parent).absolute()), port


class Database:
    """A server, with a connection that takes no part: it makes the table, and sees which connections there are."""

    def __init__(self, options):
        if psycopg2 is None:
            raise Fault("psycopg2 isn't there; Debian packages it as python3-psycopg2")
        self.options = options
        self.is_killed = False
        self.lock = threading.Lock()
        self.open("postgres")
        if self.ask("SHOW max_prepared_transactions") == [("0",)]:
            raise Fault("the server's max_prepared_transactions is 0, so it prepares nothing; start it with 100")
        if not self.ask(f"SELECT 1 FROM pg_database WHERE datname = '{options.database}'"):
            self.ask(f'CREATE DATABASE "{options.database}"')
        self.close()
        self.open()
        version = self.connection.server_version
        self.version = f"PostgreSQL {version // 10000}.{version % 10000}"

    def open(self, name=None):
        """Connects, also once the server has been started again."""
        try:
            self.connection = connect(self.options, name or self.options.database)
        except psycopg2.Error as error:
            raise Gone(f"no server answers at {place_text(self.options.socket)}: {one_line(error)}") from error

    def ask(self, text):
        """The rows that the server gives for a query; none for another statement."""
        try:
            with self.lock, self.connection.cursor() as cursor:
                cursor.execute(text)
                return cursor.fetchall() if cursor.description else []
        except psycopg2.Error as error:
            raise (Gone if self.connection.closed else Fault)(one_line(error)) from error

    def close(self):
        self.connection.close()

    def begin(self, keys):
        """Rolls back what is prepared, and makes the table anew, with a row for each key."""
        for (name,) in self.ask("SELECT gid FROM pg_prepared_xacts WHERE database = current_database()"):
            self.ask("ROLLBACK PREPARED '%s'" % name.replace("'", "''"))
        self.ask("DROP TABLE IF EXISTS judged")
        self.ask("CREATE TABLE judged (k bytea PRIMARY KEY, v bytea)")
        for key in keys:
            self.ask(b"INSERT INTO judged VALUES (%s, NULL)" % bytea(key))

    def client(self):
        """A client's connection."""
        try:
            return Client(self, connect(self.options, self.options.database))
        except psycopg2.Error as error:
            raise Fault(one_line(error)) from error


class Client:
    """A client's connection, which carries out statements."""

    def __init__(self, database, connection):
        self.database = database
        self.connection = connection
        self.process = connection.info.backend_pid
        self.level = LEVELS[database.options.isolation or USUAL_LEVEL]
        self.wait = database.options.wait
        self.no_wait = b"" if self.wait else b" NOWAIT"
        self.branch = None  # its identifier
        self.is_idle = False
        self.cutting = False
        self.execute(f"SET default_transaction_isolation = '{self.level.lower()}'; "
                     f"SET lock_timeout = {self.wait}; SET deadlock_timeout = {DEADLOCK}".encode())

    def close(self):
        """Closes the connection, and waits until the server has ended it."""
        self.connection.close()
        self.await_end()

    def await_end(self):
        """Waits until the server has ended the connection. It ends its transaction before it takes it from the list."""
        end = time.monotonic() + PATIENCE
        while self.database.ask(f"SELECT 1 FROM pg_stat_activity WHERE pid = {self.process}"):
            if time.monotonic() > end:
                raise Fault(f"the server hasn't ended a closed connection after {PATIENCE} seconds")
            time.sleep(0.001)

    def break_off(self):
        """Closes it without a word to the server."""
        if not self.connection.closed:
            with socket.socket(fileno=os.dup(self.connection.fileno())) as stream, contextlib.suppress(OSError):
                stream.shutdown(socket.SHUT_RDWR)
            self.connection.close()

    def waits_for_turn(self, verb):
        """Whether a row statement has to be the only one about its row. A free session's read takes no lock, and where
        locks are waited for nothing is refused for a statement that is under way."""
        return not self.wait and (self.branch is not None or verb != b"GET")

    def execute(self, text):
        """Sends a text of SQL, and gives the rows of its last statement; if the session is cut off here, it is only
        sent, as the protocol's simple query."""
        if self.cutting:
            try:
                with socket.socket(fileno=os.dup(self.connection.fileno())) as stream:
                    stream.sendall(b"Q" + struct.pack("!I", len(text) + 5) + text + b"\0")
            except OSError as error:
                raise Gone from error
            raise Cut
        with self.connection.cursor() as cursor:
            cursor.execute(text)
            return cursor.fetchall() if cursor.description else []

    def answer(self, statement, cutting):
        """What the server answers the statement, as lines of a record; if `cutting`, it is only sent."""
        self.cutting = cutting
        row, branch = row_statement(statement), BRANCH.fullmatch(statement)
        try:
            if row:
                return self.row(*row)
            if branch:
                clause = b" ".join((branch[3] or b"").upper().split())
                return self.xa(branch[1].upper(), xid_of(branch[2]), clause)
            if RECOVER.fullmatch(statement):
                return self.recover()
            self.in_branch_or_not(statement)
            return [b"OK"]
        except psycopg2.Error as error:
            raise self.meaning(error) from error

    def meaning(self, error):
        """What ended a call, by the driver's error."""
        if self.connection.closed:
            return Gone()
        if error.pgcode is None:
            return Unread()
        text = f"{error.pgcode} {one_line(error.diag.message_primary)}"
        if error.pgcode in (SERIALIZATION_FAILURE, BUSY):
            return Unknown(NUMBERS[error.pgcode], text)
        return Refused(NUMBERS.get(error.pgcode, OTHER), text)

    def in_branch_or_not(self, text):
        """Carries out a text of SQL, in the branch or outside of it."""
        if self.branch is None:
            return self.execute(text)
        try:
            return self.execute(MARK + text)
        except psycopg2.Error:
            if not self.connection.closed:
                self.execute(BACK.encode())
            raise

    def xa(self, verb, xid, clause):
        """A statement about a branch."""
        if clause not in (b"", b"ONE PHASE") or (clause and verb != b"COMMIT"):
            raise Refused(1398, "by the recorder: PostgreSQL has nothing like it")
        if verb in (b"START", b"BEGIN"):
            return self.start(xid)
        if verb == b"END":
            self.check(self.branch is not None and not self.is_idle, xid)
            self.is_idle = True
            return [b"OK"]
        if verb == b"PREPARE":
            self.check(self.is_idle, xid)
            return self.leave(b"PREPARE TRANSACTION '%s'" % name_of(xid).encode())
        if clause or (verb == b"ROLLBACK" and self.is_idle and self.branch == xid):
            if not self.is_idle or self.branch != xid:
                raise Refused(1399, "by the recorder: the session has no such branch whose work is ended")
            return self.leave(verb)
        self.in_branch_or_not(b"%s PREPARED '%s'" % (verb, name_of(xid).encode()))
        return [b"OK"]

    def check(self, is_right_state, xid):
        """What the state or the identifier of the session's branch refuses."""
        if not is_right_state:
            raise Refused(1399, "by the recorder: the session's branch isn't in that state")
        if self.branch != xid:
            raise Refused(1397, "by the recorder: the session's branch is another one")

    def start(self, xid):
        if self.branch is not None:
            raise Refused(1399, "by the recorder: the session has a branch")
        self.execute(f"BEGIN ISOLATION LEVEL {self.level}; SAVEPOINT s".encode())
        self.branch, self.is_idle = xid, False
        return [b"OK"]

    def leave(self, text):
        """Prepares, commits or rolls back the session's own branch. If that is refused, PostgreSQL rolls it back."""
        try:
            self.execute(text)
        except psycopg2.Error as error:
            if error.pgcode in (SERIALIZATION_FAILURE, NO_ROOM):
                raise RolledBack(*self.meaning(error).args) from error
            raise
        finally:
            self.branch, self.is_idle = None, False
        return [b"OK"]

    def recover(self):
        names = self.in_branch_or_not(b"SELECT gid FROM pg_prepared_xacts WHERE database = current_database()")
        return [b"ROWS %d" % len(names)] + [row_of(xid_named(name)) for (name,) in names]

    def row(self, verb, key, value):
        """Reads or writes a row: in the branch, or in a transaction of its own, which two statements that are sent at
        once are by themselves."""
        if self.is_idle:
            raise Refused(1399, "by the recorder: the work of the session's branch is ended")
        key = bytea(key)
        if verb == b"GET":
            lock = b"" if self.branch is None else b" FOR SHARE" + self.no_wait
            found = self.in_branch_or_not(b"SELECT v FROM judged WHERE k = %s%s" % (key, lock))[0][0]
            return [b"NONE" if found is None else b"VALUE " + hexadecimal(bytes(found))]
        self.in_branch_or_not(b"SELECT v FROM judged WHERE k = %s FOR UPDATE%s; INSERT INTO judged VALUES (%s, %s) "
                              b"ON CONFLICT (k) DO UPDATE SET v = EXCLUDED.v"
                              % (key, self.no_wait, key, bytea(value)))
        return [b"OK"]
