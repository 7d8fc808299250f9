"""MySQL and MariaDB, by PyMySQL: what the sessions of a record are to them."""
import re
import threading
import time

from databases import place_text
from faults import Cut, Fault, Gone, Refused, Unread, one_line
from spelling import hexadecimal, row_statement

try:
    import pymysql
    from pymysql.constants import COMMAND
except ModuleNotFoundError:
    pymysql = None

XA = re.compile(rb"XA\s+(START|BEGIN|END|PREPARE|COMMIT|ROLLBACK|RECOVER)\b", re.I)
CONVERT = re.compile(rb"(XA\s+RECOVER)\s+CONVERT\s+XID", re.I)
# a lock that wasn't there at once: ER_LOCK_WAIT_TIMEOUT, which MariaDB gives, and ER_LOCK_NOWAIT, which MySQL gives
NO_LOCK = (1205, 3572)
# the connection was closed by the server: CR_SERVER_GONE_ERROR, CR_SERVER_LOST, ER_CONNECTION_KILLED; 0 where it was
# closed before
CLOSED = (2006, 2013, 1927, 0)
# XA_RBROLLBACK: the branch was rolled back
ROLLED_BACK = 1402
# the longest that the server's end of a connection is waited for, in seconds
PATIENCE = 120


def connect(options, **more):
    """A connection that gives bytes, and no text."""
    place = options.socket
    where = {"unix_socket": place} if isinstance(place, str) else {"host": place[0], "port": place[1]}
    return pymysql.connect(**where, user=options.user or "root", password=options.password, autocommit=True,
                           charset="latin1", use_unicode=False, **more)


class Database:
    """A server, with a connection that takes no part: it makes the table, and sees which connections there are."""

    def __init__(self, options):
        if pymysql is None:
            raise Fault("PyMySQL isn't there; Debian packages it as python3-pymysql")
        self.options = options
        self.is_killed = False
        self.lock = threading.Lock()
        self.open()
        number, _, maker = self.ask("SELECT VERSION()")[0][0].decode().partition("-")
        self.is_mariadb = "MariaDB" in maker
        self.version = f"{'MariaDB' if self.is_mariadb else 'MySQL'} {number}"
        self.share = b"LOCK IN SHARE MODE" if self.is_mariadb else b"FOR SHARE"

    def open(self):
        """Connects, also once the server has been started again."""
        try:
            self.connection = connect(self.options)
        except pymysql.MySQLError as error:
            raise Gone(f"no server answers at {place_text(self.options.socket)}: {one_line(error.args[-1])}") from error

    def ask(self, text):
        """The rows that the server gives for a query."""
        try:
            with self.lock, self.connection.cursor() as cursor:
                cursor.execute(text)
                return cursor.fetchall()
        except pymysql.MySQLError as error:
            said = one_line(error.args[-1] if error.args else error)
            raise (Gone if error.args[:1] in [(it,) for it in CLOSED] else Fault)(said) from error

    def close(self):
        self.connection.close()

    def roll_back_all(self):
        """Rolls back what is prepared. A branch whose client is about to end can be rolled back only then."""
        end = time.monotonic() + PATIENCE
        while True:
            rows = self.ask("XA RECOVER")
            if not rows:
                return
            for number, length, _, data in rows:
                try:
                    self.ask(f"XA ROLLBACK X'{data[:length].hex()}',X'{data[length:].hex()}',{number}")
                except Fault as fault:
                    if time.monotonic() > end:
                        raise Fault(f"a prepared branch can't be rolled back: {fault}") from fault
            time.sleep(0.01)

    def begin(self, keys):
        """Rolls back what is prepared, and makes the table anew, with a row for each key."""
        table = f"`{self.options.database}`.judged"
        self.roll_back_all()
        self.ask(f"SET SESSION lock_wait_timeout = {PATIENCE}")
        self.ask(f"CREATE DATABASE IF NOT EXISTS `{self.options.database}`")
        self.ask(f"DROP TABLE IF EXISTS {table}")
        self.ask(f"CREATE TABLE {table} (k VARBINARY(64) PRIMARY KEY, v VARBINARY(64)) ENGINE=InnoDB")
        for key in keys:
            self.ask(b"INSERT INTO %s VALUES (%s, NULL)" % (table.encode(), hexadecimal(key)))

    def client(self):
        """A client's connection."""
        try:
            return Client(self, connect(self.options, database=self.options.database))
        except pymysql.MySQLError as error:
            raise Fault(one_line(error.args[-1])) from error


class Client:
    """A client's connection, which carries out statements."""

    def __init__(self, database, connection):
        self.database = database
        self.connection = connection
        self.thread = connection.thread_id()
        self.in_branch = False
        self.cutting = False
        with self.connection.cursor() as cursor:
            cursor.execute("SET SESSION TRANSACTION ISOLATION LEVEL READ COMMITTED")

    def close(self):
        """Closes the connection, and waits until the server has ended it."""
        self.connection.close()
        self.await_end()

    def await_end(self):
        """Waits until the server has ended the connection, and what that left open."""
        self.await_none(f"SELECT 1 FROM information_schema.processlist WHERE id = {self.thread}", 0.001)
        if self.in_branch or self.cutting:
            # A connection is off that list before its branch is rolled back. This one is made anew if nobody has asked
            # for it for a tenth of a second.
            self.await_none(f"SELECT 1 FROM information_schema.innodb_trx WHERE trx_mysql_thread_id = {self.thread}", 0.11)

    def await_none(self, question, pause):
        end = time.monotonic() + PATIENCE
        while True:
            time.sleep(pause)
            if not self.database.ask(question):
                return
            if time.monotonic() > end:
                raise Fault(f"the server hasn't ended a closed connection after {PATIENCE} seconds")

    def break_off(self):
        """Closes it without a word to the server."""
        self.connection._force_close()

    def waits_for_turn(self, verb):
        """Whether a row statement has to be the only one about its row. Only a free session's read takes no lock."""
        return self.in_branch or verb != b"GET"

    def answer(self, statement, cutting):
        """What the server answers the statement, as lines of a record; if `cutting`, it is only sent."""
        self.cutting = cutting
        try:
            with self.connection.cursor() as cursor:
                row = row_statement(statement)
                return self.row_transaction(cursor, *row) if row else self.other_statement(cursor, statement)
        except pymysql.MySQLError as error:
            number = error.args[0] if error.args else 0
            if number in CLOSED:
                raise Gone from error
            if not isinstance(number, int):
                raise Unread from error
            raise Refused(number, one_line(error.args[-1])) from error

    def execute(self, cursor, text):
        """Sends a text of SQL, and waits for its answer, unless the session is cut off here."""
        if self.cutting:
            self.connection._execute_command(COMMAND.COM_QUERY, text)
            raise Cut
        cursor.execute(text)

    def other_statement(self, cursor, statement):
        """What the server answers to a text that is sent as it stands."""
        if self.database.is_mariadb:
            statement = CONVERT.sub(rb"\1", statement)
        begin = XA.match(statement)
        verb = begin[1].upper() if begin else b""
        try:
            self.execute(cursor, statement)
        except pymysql.MySQLError as error:
            if verb in (b"PREPARE", b"COMMIT") and error.args[:1] == (ROLLED_BACK,):
                self.in_branch = False
            raise
        if verb == b"RECOVER":
            rows = cursor.fetchall()
            return [b"ROWS %d" % len(rows)] + [self.row(row) for row in rows]
        if verb in (b"START", b"BEGIN"):
            self.in_branch = True
        elif verb in (b"PREPARE", b"COMMIT", b"ROLLBACK"):
            self.in_branch = False
        return [b"OK"]

    @staticmethod
    def row(row):
        """A row of XA RECOVER; CONVERT XID gives its data in digits already."""
        data = row[3]
        is_converted = data[:2] == b"0x" and len(data) == 2 + 2 * (row[1] + row[2])
        return b"%d %d %d %s" % (row[0], row[1], row[2], data if is_converted else b"0x" + data.hex().encode())

    def row_transaction(self, cursor, verb, key, value):
        """Reads or writes a row: in the branch, or in a transaction of its own."""
        try:
            if not self.in_branch:
                self.execute(cursor, "START TRANSACTION")
            answer = self.read(cursor, key) if verb == b"GET" else self.write(cursor, key, value)
            if not self.in_branch:
                self.execute(cursor, "COMMIT")
            return answer
        except pymysql.MySQLError as error:
            if not self.in_branch:
                try:
                    cursor.execute("ROLLBACK")
                except pymysql.MySQLError:
                    # the answer is the first refusal; where the connection is broken, the next statement shows it
                    pass
            if error.args and error.args[0] in NO_LOCK:
                raise Refused(3572, f"the server gave {error.args[0]}") from error
            raise

    def read(self, cursor, key):
        lock = b" %s NOWAIT" % self.database.share if self.in_branch else b""
        self.execute(cursor, b"SELECT v FROM judged WHERE k = %s%s" % (hexadecimal(key), lock))
        value = cursor.fetchone()[0]
        return [b"NONE" if value is None else b"VALUE " + hexadecimal(value)]

    def write(self, cursor, key, value):
        key = hexadecimal(key)
        self.execute(cursor, b"SELECT v FROM judged WHERE k = %s FOR UPDATE NOWAIT" % key)
        self.execute(cursor, b"UPDATE judged SET v = %s WHERE k = %s" %
                     (b"NULL" if value is None else hexadecimal(value), key))
        return [b"OK"]
