"""PyMySQL, as it comes: autocommit off, texts and bytes as it quotes them, and its errors."""
import pymysql
from pymysql.constants import SERVER_STATUS

from support import Case, wait_for


class PyMySQL(Case):
    def setUp(self):
        super().setUp()
        self.server = self.serve()

    def tearDown(self):
        self.assertEqual(self.server.verdicts(), ["LEGAL"])

    def connect(self, **options):
        connection = pymysql.connect(host="127.0.0.1", port=self.server.port, user="root", **options)
        self.ends.callback(lambda: connection.open and connection.close())
        return connection

    def rows(self, connection, text, values=None):
        with connection.cursor() as cursor:
            cursor.execute(text, values)
            return cursor.fetchall()

    def test_branch(self):
        one, two = self.connect(autocommit=True), self.connect(autocommit=True, charset="latin1")
        for text in ("XA START 'g','b',7", "PUT 'k','v'", "XA END 'g','b',7", "XA PREPARE 'g','b',7"):
            self.assertEqual(self.rows(one, text), ())
        self.assertEqual(self.rows(two, "XA RECOVER"), ((7, 1, 1, b"gb"),))
        self.assertEqual(self.rows(two, "GET 'k'"), ())
        self.assertEqual(self.rows(two, "XA COMMIT %s,%s,%s", ("g", b"b", 7)), ())
        self.assertEqual(self.rows(one, "GET %s", "k"), ((b"v",),))

    def test_databases(self):
        """There are none, but the name that a client has given is told."""
        one = self.connect(database="db", autocommit=True)
        self.assertEqual(self.rows(one, "SELECT DATABASE()"), (("db",),))
        one.select_db("Other")
        self.assertEqual(self.rows(one, "SELECT DATABASE()"), (("Other",),))
        self.rows(one, "USE `third one`")
        self.assertEqual(self.rows(one, "SELECT DATABASE()"), (("third one",),))
        one.select_db("x" * 257)
        self.assertEqual(self.rows(one, "SELECT DATABASE()"), ((None,),))
        self.assertEqual(self.rows(self.connect(autocommit=True), "SELECT DATABASE()"), ((None,),))
        self.rows(one, "GET 'k'")

    def test_columns(self):
        with self.connect() as connection, connection.cursor(pymysql.cursors.DictCursor) as cursor:
            cursor.execute("XA RECOVER")
            self.assertEqual([name for name, *_ in cursor.description],
                             ["formatID", "gtrid_length", "bqual_length", "data"])
            cursor.execute("PUT 'k','v'")
            cursor.execute("GET 'k'")
            self.assertEqual(cursor.fetchall(), [{"value": b"v"}])

    def test_errors(self):
        one, two = self.connect(autocommit=True), self.connect(autocommit=True)
        self.rows(one, "XA START 'a'")
        self.rows(one, "PUT 'k','v'")
        for connection, text, number in ((two, "XA START 'a'", 1440), (one, "XA START 'b'", 1399),
                                         (two, "XA COMMIT 'b'", 1397), (two, "PUT 'k','w'", 3572),
                                         (two, "SELECT * FROM t", 1146), (two, "NONSENSE", 1064)):
            with self.assertRaises(pymysql.MySQLError) as caught:
                self.rows(connection, text)
            self.assertEqual(caught.exception.args[0], number, text)

    def test_local_transactions(self):
        one, two = self.connect(), self.connect()
        self.rows(one, "PUT 'k','v'")
        self.assertTrue(one.server_status & SERVER_STATUS.SERVER_STATUS_IN_TRANS)
        self.assertEqual(self.rows(two, "GET 'none'"), ())
        two.rollback()
        one.commit()
        self.assertFalse(one.server_status & SERVER_STATUS.SERVER_STATUS_IN_TRANS)
        self.assertEqual(self.rows(two, "GET 'k'"), ((b"v",),))
        two.rollback()
        one.begin()
        self.rows(one, "PUT 'k','w'")
        one.rollback()
        one.autocommit(True)
        self.assertTrue(one.get_autocommit())
        self.assertEqual(self.rows(one, "GET 'k'"), ((b"v",),))
        one.ping()
        one.select_db("any")

    def is_put(self, connection):
        try:
            self.rows(connection, "PUT 'k','w'")
            return True
        except pymysql.MySQLError as refused:
            self.assertEqual(refused.args[0], 3572)
            return False

    def test_a_client_that_closes(self):
        one, two = self.connect(), self.connect(autocommit=True)
        self.rows(one, "PUT 'k','v'")
        one._force_close()
        wait_for(lambda: self.is_put(two), "the transaction is rolled back")
        self.assertEqual(self.rows(two, "GET 'k'"), ((b"w",),))
