"""Statements as texts, over the built program."""
import os
import unittest

import nigbaru
from nigbaru import Server

PROGRAM = [os.environ["XA_SCRIPT"], "serve"]


class Cursors(unittest.TestCase):
    def setUp(self):
        self.server = Server(PROGRAM)
        self.addCleanup(self.server.close)
        self.one, self.two = self.server.connect(), self.server.connect()
        self.cursor = self.one.cursor()

    def test_get_gives_a_row_where_there_is_a_value(self):
        self.assertIsNone(self.cursor.description)
        self.assertEqual(self.cursor.rowcount, -1)
        self.assertIs(self.cursor.execute("PUT 'k','v'"), self.cursor)
        self.assertEqual((self.cursor.description, self.cursor.rowcount), (None, -1))
        self.assertRaises(nigbaru.ProgrammingError, self.cursor.fetchone)
        self.cursor.execute("get 'k';")
        self.assertEqual([it[:2] for it in self.cursor.description], [("value", nigbaru.BINARY)])
        self.assertEqual([len(it) for it in self.cursor.description], [7])
        self.assertEqual(self.cursor.rowcount, 1)
        self.assertEqual(self.cursor.fetchone(), (b"v",))
        self.assertIsNone(self.cursor.fetchone())
        self.assertEqual(self.cursor.fetchall(), [])
        self.assertEqual(self.cursor.execute("GET 'other'").fetchall(), [])
        self.assertEqual(self.cursor.rowcount, 0)

    def test_parameters_stand_for_question_marks(self):
        for value in (b"", b"\0\n'?\"\\\xff", "text \u20ac", bytearray(b"v" * 64)):
            self.cursor.execute("PUT ?,?", ("k'?", value))
            wanted = value.encode() if isinstance(value, str) else bytes(value)
            self.assertEqual(self.cursor.execute("GET ?", [b"k'?"]).fetchone(), (wanted,))
        self.cursor.execute("""PUT '?','a''?\\'?' """)
        self.assertEqual(self.cursor.execute('GET "?"').fetchone(), (b"a'?'?",))
        self.cursor.executemany("PUT ?,?", ((f"k{i}", f"{i}") for i in range(10)))
        self.assertEqual(self.two.get("k9"), b"9")
        self.assertIsNone(self.cursor.description)
        for parameters in ((), ("k",), ("k", "v", "w"), "kv", {"k": "v"}, 5):
            self.assertRaises(nigbaru.ProgrammingError, self.cursor.execute, "PUT ?,?", parameters)
        self.assertRaises(nigbaru.DataError, self.cursor.execute, "GET ?", ("k" * 65,))
        self.assertRaises(nigbaru.DataError, self.cursor.execute, "XA START ?,?,?", ("g", "b", 2 ** 64))
        for value in (None, 1.5, True):
            self.assertRaises(TypeError, self.cursor.execute, "GET ?", (value,))

    def test_no_text_begins_a_line_of_its_own(self):
        self.assertEqual(self.cursor.execute("GET\n'k'\n").fetchall(), [])
        self.assertRaises(nigbaru.ProgrammingError, self.cursor.execute, "PUT 'a\n1 PUT','v'")
        with self.assertRaises(nigbaru.ProgrammingError) as caught:
            self.cursor.execute("GET 'k\n1 PUT")
        self.assertEqual(caught.exception.number, 1064)
        self.assertRaises(TypeError, self.cursor.execute, b"GET 'k'")
        self.assertIsNone(self.one.get("k"))

    def test_prepared_transactions_are_rows(self):
        xids = [self.one.xid(1, "g\n", b"\n\0"), self.one.xid(2 ** 64 - 1, "", "")]
        for xid in xids:
            self.one.tpc_begin(xid)
            self.one.tpc_prepare()
            self.one.close()
            self.one = self.server.connect()
        cursor = self.one.cursor()
        wanted = [(1, 2, 2, b"g\n\n\0"), (2 ** 64 - 1, 0, 0, b"")]
        for text in ("XA RECOVER", " xa\trecover ; ", "XA RECOVER CONVERT XID"):
            cursor.execute(text)
            self.assertEqual([it[0] for it in cursor.description], ["formatID", "gtrid_length", "bqual_length", "data"])
            self.assertEqual((cursor.rowcount, cursor.rownumber), (2, 0))
            self.assertEqual(cursor.fetchmany(), wanted[:1])
            self.assertEqual(cursor.rownumber, 1)
            self.assertEqual(cursor.fetchmany(5), wanted[1:])
            self.assertEqual(list(cursor.execute(text)), wanted)
        for xid in xids:
            cursor.execute("XA ROLLBACK ?", (xid,))
        self.assertEqual(self.one.tpc_recover(), [])

    def test_a_refusal_is_raised_and_leaves_no_rows(self):
        self.two.tpc_begin(self.two.xid(1, "g", "b"))
        self.two.put("k", "v")
        self.cursor.execute("GET 'k'")
        with self.assertRaises(nigbaru.OperationalError) as caught:
            self.cursor.execute("PUT 'k','w'")
        self.assertEqual(caught.exception.number, 3572)
        self.assertIsNone(self.cursor.description)
        self.assertRaises(nigbaru.ProgrammingError, self.cursor.fetchall)

    def test_a_transaction_of_texts_is_ended_by_texts(self):
        calls = (self.one.tpc_prepare, self.one.tpc_commit, self.one.tpc_rollback, self.one.commit, self.one.rollback,
                 lambda: self.one.tpc_begin((1, "h", "")))
        for begin, ends in (("XA START 'g'", ["XA END 'g'", "XA PREPARE 'g'"]),
                            ("xa  begin'g'", ["XA END 'g'", "XA COMMIT 'g' ONE PHASE"]),
                            ("XA START X'67'", ["XA END 'g'", "XA ROLLBACK 'g'"]), ("XA START 0x67", ["DISCONNECT"])):
            self.cursor.execute(begin)
            self.cursor.execute("PUT 'k',?", (begin[:9],))
            for call in calls:
                self.assertRaises(nigbaru.ProgrammingError, call)
            self.assertTrue(self.one.in_transaction)
            for end in ends:
                self.cursor.execute(end)
            self.assertFalse(self.one.in_transaction)
            for xid in self.one.tpc_recover():
                self.one.tpc_commit(xid)
        self.assertEqual(self.one.get("k"), b"xa  begin")
        self.assertRaises(nigbaru.ProgrammingError, self.cursor.execute, "XA START")
        self.assertRaises(nigbaru.NotSupportedError, self.cursor.execute, "XA START 'g' JOIN")
        self.assertFalse(self.one.in_transaction)

    def test_texts_end_no_transaction_of_calls(self):
        self.one.tpc_begin(self.one.xid(1, "g", ""))
        for text in ("XA END 'g'", "XA PREPARE 'g'", "XA COMMIT 'g' ONE PHASE", "xa rollback'g'", "XA START 'h'",
                     "Disconnect", "XA BEGIN 'h'"):
            with self.assertRaisesRegex(nigbaru.ProgrammingError, "tpc_prepare, tpc_commit and tpc_rollback end it"):
                self.cursor.execute(text)
        self.cursor.execute("PUT 'k','v'")
        self.assertEqual(self.cursor.execute("XA RECOVER").fetchall(), [])
        self.one.tpc_prepare()
        self.one.tpc_commit()
        self.assertEqual(self.two.get("k"), b"v")

    def test_closed_cursors_and_connections(self):
        with self.one.cursor() as cursor:
            self.assertIs(cursor.connection, self.one)
            cursor.execute("GET 'k'")
            self.assertIn("0 of 0 rows", repr(cursor))
        for call in (cursor.fetchone, cursor.fetchall, lambda: cursor.execute("GET 'k'"), lambda: cursor.connection):
            self.assertRaises(nigbaru.InterfaceError, call)
        self.assertEqual(repr(cursor), "<nigbaru.Cursor: closed>")
        self.one.close()
        for call in (self.one.cursor, self.one.commit, self.one.rollback, self.one.tpc_recover,
                     lambda: self.cursor.execute("GET 'k'")):
            self.assertRaises(nigbaru.InterfaceError, call)


if __name__ == "__main__":
    unittest.main()
