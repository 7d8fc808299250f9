"""PEP 249's calls, over the built program."""
import inspect
import os
import threading
import unittest

import nigbaru
from nigbaru import Server

PROGRAM = [os.environ["XA_SCRIPT"], "serve"]


class Calls(unittest.TestCase):
    def setUp(self):
        self.server = Server(PROGRAM)
        self.addCleanup(self.server.close)
        self.one, self.two = self.server.connect(), self.server.connect()

    def refused(self, kind, number, sqlstate, xa_code, call, *words):
        with self.assertRaises(kind) as caught:
            call(*words)
        error = caught.exception
        self.assertEqual((error.number, error.sqlstate, error.xa_code), (number, sqlstate, xa_code))

    def test_rows_are_bytes(self):
        self.assertIsNone(self.one.get("k"))
        for value in [b"", b"\0\n'\xff", b"v" * 64]:
            self.one.put(b"\0'\n", value)
            self.assertEqual(self.two.get(b"\0'\n"), value)
        self.one.delete(b"\0'\n")
        self.assertIsNone(self.two.get(b"\0'\n"))
        self.assertRaises(nigbaru.DataError, self.one.put, "k", b"v" * 65)
        self.assertRaises(nigbaru.DataError, self.one.get, b"")

    def test_a_value_is_bytes_or_text(self):
        for value in (3, True, None, 1.5, [118], memoryview(b"v"), (b"v",)):
            self.assertRaisesRegex(TypeError, "bytes, bytearray or str", self.one.put, "k", value)
            self.assertRaisesRegex(TypeError, "bytes, bytearray or str", self.one.put, value, "v")
            self.assertRaises(TypeError, self.one.get, value)
            self.assertRaises(TypeError, self.one.delete, value)
            self.assertRaises(TypeError, self.one.xid, 1, value, "")
        self.assertRaises(TypeError, self.one.xid, "1", "g", "b")
        self.assertRaises(nigbaru.DataError, self.one.put, "k", "\ud800")
        self.assertIsNone(self.two.get("k"))
        self.one.put(bytearray(b"k"), bytearray(b"v"))
        self.assertEqual(self.two.get("k"), b"v")
        self.one.put("\u00e9", "\u20ac")
        self.assertEqual(self.two.get(b"\xc3\xa9"), b"\xe2\x82\xac")

    def test_two_phases(self):
        xid = self.one.xid(7, b"global\n", b"branch")
        self.one.tpc_begin(xid)
        self.one.put("k", "v")
        self.assertIsNone(self.two.get("k"))
        self.assertEqual(self.two.tpc_recover(), [])
        self.one.tpc_prepare()
        self.assertEqual(self.two.tpc_recover(), [(7, b"global\n", b"branch")])
        self.one.tpc_commit()
        self.assertEqual(self.two.get("k"), b"v")
        self.assertEqual(self.two.tpc_recover(), [])

    def test_one_phase_and_rollback(self):
        xid = self.one.xid(1, "g", "b")
        self.one.tpc_begin(xid)
        self.one.put("k", "v")
        self.one.tpc_commit()
        self.assertEqual(self.two.get("k"), b"v")
        for prepares in (False, True):
            self.one.tpc_begin(xid)
            self.one.put("k", "w")
            if prepares:
                self.one.tpc_prepare()
            self.one.tpc_rollback()
            self.assertEqual(self.two.get("k"), b"v")

    def test_prepared_transaction_outlives_its_connection(self):
        xids = [self.one.xid(1, "g", bqual) for bqual in ("a", "b")]
        for xid in xids:
            self.one.tpc_begin(xid)
            self.one.put(xid.bqual, "v")
            self.one.tpc_prepare()
            self.one.close()
            self.one = self.server.connect()
        self.assertEqual(self.two.tpc_recover(), xids)
        self.two.tpc_commit(xids[0])
        self.two.tpc_rollback(xids[1])
        self.assertEqual((self.two.get("a"), self.two.get("b")), (b"v", None))
        self.refused(nigbaru.ProgrammingError, 1397, "XAE04", -4, self.two.tpc_commit, xids[0])

    def test_nothing_is_executed_between_prepare_and_end(self):
        for end in (self.one.tpc_rollback, self.one.tpc_commit):
            self.one.tpc_begin(self.one.xid(1, "g", "b"))
            self.one.put("in", "v")
            self.one.tpc_prepare()
            for call in (lambda: self.one.put("k", "v"), lambda: self.one.get("k"), lambda: self.one.delete("in")):
                self.refused(nigbaru.ProgrammingError, None, None, None, call)
            self.assertEqual(self.two.tpc_recover(), [(1, b"g", b"b")])
            end()
            self.assertIsNone(self.one.get("k"))
        self.assertEqual(self.one.get("in"), b"v")

    def test_no_text_is_executed_between_prepare_and_end(self):
        cursor = self.one.cursor()
        self.one.tpc_begin(self.one.xid(1, "g", "b"))
        self.one.tpc_prepare()
        for call in (lambda: cursor.execute("PUT 'k','v'"), lambda: cursor.execute("XA COMMIT 'g','b'"),
                     lambda: self.one.ask("GET 'k'")):
            self.refused(nigbaru.ProgrammingError, None, None, None, call)
        self.one.tpc_commit()
        self.assertEqual(cursor.execute("GET 'k'").fetchall(), [])

    def test_a_transaction_that_another_ended_is_over(self):
        for ends in (self.two.tpc_commit, self.two.tpc_rollback):
            for call in (self.one.tpc_commit, self.one.tpc_rollback):
                xid = self.one.xid(1, "g", "b")
                self.one.tpc_begin(xid)
                self.one.put("k", "v")
                self.one.tpc_prepare()
                ends(xid)
                self.refused(nigbaru.ProgrammingError, None, None, None, self.one.get, "k")
                self.refused(nigbaru.ProgrammingError, 1397, "XAE04", -4, call)
                self.refused(nigbaru.ProgrammingError, None, None, None, call)
                self.one.put("k", "w")
                self.one.tpc_begin(xid)
                self.one.tpc_commit()

    def test_a_session_that_was_disconnected_has_no_transaction(self):
        for call in (self.one.tpc_prepare, self.one.tpc_commit, self.one.tpc_rollback):
            self.one.tpc_begin(self.one.xid(1, "g", "b"))
            self.server.ask(1, "DISCONNECT")
            self.refused(nigbaru.ProgrammingError, 1399, "XAE07", -7, call)
            self.refused(nigbaru.ProgrammingError, None, None, None, call)

    def test_in_transaction_says_whether_one_is_open(self):
        self.assertFalse(self.one.in_transaction)
        for end in (self.one.tpc_commit, self.one.tpc_rollback):
            self.one.tpc_begin(self.one.xid(1, "g", "b"))
            self.assertTrue(self.one.in_transaction)
            self.one.tpc_prepare()
            self.assertTrue(self.one.in_transaction)
            end()
            self.assertFalse(self.one.in_transaction)

    def test_outside_a_transaction_commit_and_rollback_do_nothing(self):
        self.one.put("k", "v")
        self.assertIsNone(self.one.rollback())
        self.assertIsNone(self.one.commit())
        self.assertEqual(self.two.get("k"), b"v")

    def test_what_is_no_identifier_is_told(self):
        for given in ("x", "abc", b"abc", 5, (1, "g"), [1, "g", "b", "more"], {1: 2}, object()):
            for call in (self.one.tpc_begin, self.one.tpc_commit, self.one.tpc_rollback):
                with self.assertRaisesRegex(nigbaru.ProgrammingError, r"takes what xid\(format_id, "
                                            r"global_transaction_id, branch_qualifier\) gives"):
                    call(given)
        self.assertRaises(nigbaru.ProgrammingError, self.one.tpc_begin, None)
        for given in ((1, "g", b"b"), [1, b"g", "b"], self.one.xid(1, "g", "b"), nigbaru.Xid(1, "g", "b")):
            self.one.tpc_begin(given)
            self.one.tpc_rollback()

    def test_closing_rolls_back(self):
        self.one.tpc_begin(self.one.xid(1, "g", "b"))
        self.one.put("k", "v")
        self.one.close()
        self.assertIsNone(self.two.get("k"))
        self.assertRaises(nigbaru.InterfaceError, self.one.get, "k")

    def test_refusals_have_their_numbers(self):
        xid = self.one.xid(1, "g", "b")
        self.one.tpc_begin(xid)
        self.one.put("k", "v")
        self.refused(nigbaru.IntegrityError, 1440, "XAE08", -8, self.two.tpc_begin, xid)
        self.refused(nigbaru.OperationalError, 3572, "HY000", None, self.two.put, "k", "w")
        self.refused(nigbaru.ProgrammingError, 1397, "XAE04", -4, self.two.tpc_rollback, xid)
        self.refused(nigbaru.ProgrammingError, 1399, "XAE07", -7, self.server.ask, 1, "XA PREPARE 'x'")
        self.refused(nigbaru.NotSupportedError, 1398, "XAE05", -5, self.server.ask, 2, "XA START 'x' JOIN")
        self.refused(nigbaru.ProgrammingError, 1064, "42000", None, self.server.ask, 2, "SELECT")

    def test_calls_out_of_order(self):
        wrong = nigbaru.ProgrammingError
        for call in (self.one.tpc_prepare, self.one.tpc_commit, self.one.tpc_rollback):
            self.assertRaises(wrong, call)
        xid = self.one.xid(1, "g", "b")
        self.one.tpc_begin(xid)
        for call in (self.one.commit, self.one.rollback):
            self.assertRaises(wrong, call)
        self.assertRaises(wrong, self.one.tpc_begin, self.one.xid(1, "g", "c"))
        self.assertRaises(wrong, self.one.tpc_commit, xid)
        self.one.tpc_prepare()
        self.assertRaises(wrong, self.one.tpc_prepare)
        self.one.tpc_rollback()
        self.assertRaises(wrong, self.one.xid, 2 ** 64, b"", b"")
        self.assertRaises(wrong, self.one.xid, 1, b"g" * 65, b"")

    def test_sixteen_connections(self):
        more = [self.server.connect() for _ in range(14)]
        self.assertRaises(nigbaru.OperationalError, self.server.connect)
        more[0].close()
        self.server.connect().put("k", "v")
        self.assertEqual(self.one.get("k"), b"v")

    def test_threads_share_a_server(self):
        def work(number, connection):
            for i in range(200):
                connection.put(f"{number}", f"{i}")
                assert connection.get(f"{number}") == b"%d" % i
        faults = []

        def run(number, connection):
            try:
                work(number, connection)
            except BaseException as fault:
                faults.append(fault)
        threads = [threading.Thread(target=run, args=(i, self.server.connect())) for i in range(8)]
        for thread in threads:
            thread.start()
        for thread in threads:
            thread.join()
        self.assertEqual(faults, [])

    def test_store_that_ends_is_told(self):
        self.server.child.kill()
        self.assertRaises(nigbaru.OperationalError, self.one.get, "k")
        self.assertRaises(nigbaru.OperationalError, self.two.get, "k")
        self.assertRaisesRegex(nigbaru.OperationalError, "the store is gone", self.server.connect)

    def test_a_command_that_answers_nothing_is_told_what_serves(self):
        for command in (["true"], ["false"]):
            with nigbaru.Server(command) as server, self.assertRaisesRegex(
                    nigbaru.OperationalError, "status [01]; a command is wanted that serves"):
                server.connect().get("k")

    def test_a_closed_store_has_no_connections(self):
        server = nigbaru.Server(PROGRAM)
        for _ in range(16):
            server.connect()
        self.assertRaisesRegex(nigbaru.OperationalError, "16 sessions are open", server.connect)
        server.close()
        self.assertRaisesRegex(nigbaru.OperationalError, "the store is gone: it was closed", server.connect)

    def test_a_gone_store_is_closed_without_a_word(self):
        self.one.tpc_begin(self.one.xid(1, "g", "b"))
        self.server.child.kill()
        with self.assertRaisesRegex(nigbaru.OperationalError, "status -9$"), self.one:
            self.one.get("k")
        self.assertIn("gone", repr(self.two))
        self.two.close()

    def test_what_is_no_line_is_told_and_not_sent(self):
        for statement in ("GET 'k'\n1 PUT 'k','v'", "GET '\ud800'", "GET '" + "k" * 65536):
            self.assertRaises(nigbaru.ProgrammingError, self.server.ask, 1, statement)
        self.assertRaises(TypeError, self.server.ask, 1, b"GET 'k'")
        self.assertIsNone(self.one.get("k"))

    def test_each_name_has_a_text_and_hints(self):
        def looks(name, found):
            self.assertTrue(inspect.getdoc(found), f"{name} has a text")
            signature = inspect.signature(found)
            hinted = [it.annotation for it in signature.parameters.values()
                      if it.name not in ("self", "_")] + [signature.return_annotation]
            self.assertNotIn(inspect.Signature.empty, hinted, name)
        looks("connect", nigbaru.connect)
        for kind in (nigbaru.Branch, nigbaru.Connection, nigbaru.Cursor, nigbaru.Server, nigbaru.Xid):
            self.assertTrue(kind.__doc__, kind)
            for name, found in vars(kind).items():
                if (not name.startswith("_")
                    and (inspect.isfunction(found) or isinstance(found, (classmethod, property)))):
                    looks(f"{kind.__name__}.{name}", found.fget if isinstance(found, property) else getattr(kind, name))
        for kind in (getattr(nigbaru, name) for name in nigbaru.__all__):
            if isinstance(kind, type) and issubclass(kind, Exception):
                self.assertTrue(vars(kind).get("__doc__"), kind)

    def test_pep_249s_levels_and_exceptions(self):
        self.assertEqual((nigbaru.apilevel, nigbaru.threadsafety, nigbaru.paramstyle), ("2.0", 1, "qmark"))
        self.assertRegex(nigbaru.__version__, r"^\d+\.\d+\.\d+$")
        below = {nigbaru.Error: [nigbaru.InterfaceError, nigbaru.DatabaseError],
                 nigbaru.DatabaseError: [nigbaru.DataError, nigbaru.OperationalError, nigbaru.IntegrityError,
                                         nigbaru.InternalError,
                                         nigbaru.ProgrammingError, nigbaru.NotSupportedError]}
        for kind, kinds in below.items():
            for found in kinds:
                self.assertIs(found.__base__, kind)
                self.assertIs(getattr(self.one, found.__name__), found)
        self.assertEqual((nigbaru.Error.__base__, nigbaru.Warning.__base__), (Exception, Exception))

    def test_each_says_what_it_is(self):
        self.assertEqual(repr(self.one), "<nigbaru.Connection, session 1: no transaction>")
        self.one.tpc_begin(self.one.xid(1, "g", "b"))
        self.assertEqual(repr(self.one),
                         "<nigbaru.Connection, session 1: active Xid(format_id=1, gtrid=b'g', bqual=b'b')>")
        self.one.tpc_prepare()
        self.assertIn("prepared", repr(self.one))
        self.assertIn("2 of 16 sessions are open", repr(self.server))
        self.one.close()
        self.assertEqual(repr(self.one), "<nigbaru.Connection: closed>")

    def test_connection_with_a_store_of_its_own(self):
        with nigbaru.connect(PROGRAM) as alone:
            alone.put("k", "v")
            self.assertEqual(alone.get("k"), b"v")


if __name__ == "__main__":
    unittest.main()
