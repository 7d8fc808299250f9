"""States, status flags and local transactions, as a client sees them."""
from support import Case, wait_for
from wire import TABLE

IN_TRANSACTION, AUTOCOMMIT = 1, 2


class Sessions(Case):
    def setUp(self):
        super().setUp()
        self.server = self.serve()
        self.one, self.two = self.client(self.server), self.client(self.server)
        self.verdict = "LEGAL"

    def tearDown(self):
        self.assertEqual(self.server.verdicts(), [self.verdict])

    def status(self, text, client=None):
        return self.ok(client or self.one, text).status

    def test_branch(self):
        self.assertEqual(self.status("XA START 'a','b',7"), IN_TRANSACTION | AUTOCOMMIT)
        self.assertEqual(self.status("PUT 'k','v'"), IN_TRANSACTION | AUTOCOMMIT)
        self.assertEqual(self.status("XA END 'a','b',7"), IN_TRANSACTION | AUTOCOMMIT)
        self.assertEqual(self.status("XA PREPARE 'a','b',7"), AUTOCOMMIT)
        self.assertEqual(self.two.ask("XA RECOVER").rows, [(b"7", b"1", b"1", b"ab")])
        self.assertEqual(self.two.ask("XA RECOVER CONVERT XID").rows, [(b"7", b"1", b"1", b"0x6162")])
        self.assertEqual(self.status("XA COMMIT 'a','b',7", self.two), AUTOCOMMIT)
        self.assertEqual(self.value(self.one, "k"), b"v")
        self.assertEqual(self.one.ask("XA RECOVER").rows, [])

    def test_other_ends(self):
        for ending in ("XA COMMIT 'a' ONE PHASE", "XA ROLLBACK 'a'"):
            self.ok(self.one, "XA START 'a'", "PUT 'k','v'", "XA END 'a'")
            self.assertEqual(self.status(ending), AUTOCOMMIT)
        self.ok(self.one, "XA START 'a'", "XA END 'a'", "XA PREPARE 'a'", "XA ROLLBACK 'a'")
        self.assertEqual(self.value(self.one, "k"), b"v")

    def test_refusals(self):
        self.refused(self.one, "XA END 'a'", 1399, "XAE07")
        self.refused(self.one, "XA COMMIT 'a'", 1397, "XAE04")
        self.refused(self.one, "XA START 'a' JOIN", 1398, "XAE05")
        self.refused(self.one, "XA START 'a' RESUME", 1398, "XAE05")
        self.refused(self.one, "XA END 'a' SUSPEND", 1398, "XAE05")
        self.refused(self.one, "XA END 'a' SUSPEND FOR MIGRATE", 1398, "XAE05")
        self.ok(self.one, "XA START 'a'", "PUT 'k','v'")
        self.refused(self.two, "XA START 'a'", 1440, "XAE08")
        self.refused(self.two, "PUT 'k','w'", 3572, "HY000")
        answer = self.refused(self.one, "XA PREPARE 'a'", 1399, "XAE07")
        self.assertEqual(answer.text, "XAER_RMFAIL state ACTIVE")
        self.refused(self.one, "NONSENSE", 1064, "42000")
        self.refused(self.one, "SET unknown = 1", 1193, "HY000")
        self.refused(self.one, "DISCONNECT", 1064, "42000")
        answer = self.refused(self.one, "XA START 'a','',2147483648", 1064, "42000")
        self.assertTrue(answer.text.startswith("syntax fault at byte 16"), answer)

    def test_a_refused_row_names_its_holder(self):
        def said(key, holder, text="PUT {},'w'"):
            answer = self.refused(self.two, text.format(key), 3572, "HY000")
            self.assertEqual(answer.text, f"row locked by another branch: {key} is held by {holder}; "
                                          "roll back, or send it again when that has ended")

        self.ok(self.one, "XA START 'a','b',7", "PUT 'k','v'", "PUT X'00ff','v'")
        said("'k'", "'a','b',7 (ACTIVE, connection 1)")
        said("0x00ff", "'a','b',7 (ACTIVE, connection 1)")
        self.ok(self.one, "XA END 'a','b',7")
        said("'k'", "'a','b',7 (IDLE, connection 1)", "DEL {}")
        self.ok(self.one, "XA PREPARE 'a','b',7")
        self.ok(self.two, "XA START 'r'")
        said("'k'", "'a','b',7 (PREPARED, connection 1)", "GET {}")
        self.ok(self.two, "XA END 'r'", "XA ROLLBACK 'r'", "XA COMMIT 'a','b',7")
        three = self.client(self.server)
        for client, xid in ((self.one, "'one'"), (three, "'three'")):
            self.ok(client, f"XA START {xid}")
            self.assertEqual(self.value(client, "k"), b"v")
        self.ok(self.two, "XA START 'two'")
        self.assertEqual(self.value(self.two, "k"), b"v")
        said("'k'", "'one','',1 (ACTIVE, connection 1) and 1 more")
        self.ok(self.one, "XA END 'one'", "XA ROLLBACK 'one'")
        said("'k'", "'three','',1 (ACTIVE, connection 3)")
        self.ok(self.one, "BEGIN", "PUT 'l','v'")
        said("'l'", "the local transaction of connection 1")

    def test_disconnected_branch(self):
        self.ok(self.one, "XA START 'a'", "PUT 'k','v'")
        self.one.close()
        wait_for(lambda: self.two.ask("XA START 'a'").kind == "ok", "the branch is rolled back")
        self.ok(self.two, "XA END 'a'")
        self.assertEqual(self.status("XA COMMIT 'a' ONE PHASE", self.two), AUTOCOMMIT)
        self.assertIsNone(self.value(self.two, "k"))

    def test_transaction_of_statements(self):
        self.assertEqual(self.status("START TRANSACTION"), IN_TRANSACTION | AUTOCOMMIT)
        self.assertEqual(self.status("PUT 'k','v'"), IN_TRANSACTION | AUTOCOMMIT)
        self.assertIsNone(self.value(self.two, "k"))
        self.refused(self.two, "PUT 'k','w'", 3572, "HY000")
        for text in ("XA START 'a'", "XA COMMIT 'a'", "XA ROLLBACK 'a'"):
            self.refused(self.one, text, 1400, "XAE09")
        for text in ("XA END 'a'", "XA PREPARE 'a'"):
            self.refused(self.one, text, 1399, "XAE07")
        self.assertEqual(self.status("COMMIT"), AUTOCOMMIT)
        self.assertEqual(self.value(self.two, "k"), b"v")
        self.status("begin")
        self.status("DEL 'k'")
        self.assertEqual(self.status("rollback"), AUTOCOMMIT)
        self.assertEqual(self.value(self.two, "k"), b"v")

    def test_begin_commits_what_is_open(self):
        self.ok(self.one, "BEGIN", "PUT 'k','v'", "START TRANSACTION", "PUT 'l','v'", "ROLLBACK")
        self.assertEqual((self.value(self.two, "k"), self.value(self.two, "l")), (b"v", None))

    def test_autocommit_off(self):
        self.assertEqual(self.status("SET AUTOCOMMIT = 0"), 0)
        self.assertEqual(self.status("PUT 'k','v'"), IN_TRANSACTION)
        self.assertIsNone(self.value(self.two, "k"))
        self.refused(self.one, "XA START 'a'", 1400, "XAE09")
        self.assertEqual(self.status("COMMIT"), 0)
        self.assertEqual(self.value(self.two, "k"), b"v")
        self.ok(self.one, "XA START 'a'", "PUT 'k','w'", "XA END 'a'")
        self.assertEqual(self.status("XA ROLLBACK 'a'"), 0)
        self.assertEqual(self.value(self.one, "k"), b"v")
        self.assertEqual(self.status("ROLLBACK"), 0)
        self.ok(self.one, "PUT 'k','x'")
        self.assertEqual(self.status("set session autocommit=on"), AUTOCOMMIT)
        self.assertEqual(self.value(self.two, "k"), b"x")

    def test_local_statements_within_a_branch(self):
        self.ok(self.one, "SET autocommit=0", "XA START 'a'", "PUT 'k','v'")
        for text in ("COMMIT", "ROLLBACK", "BEGIN", "START TRANSACTION", "SET autocommit=1"):
            answer = self.refused(self.one, text, 1399, "XAE07")
            self.assertEqual(answer.text, "XAER_RMFAIL state ACTIVE")
        self.ok(self.one, "XA END 'a'", "XA COMMIT 'a' ONE PHASE")
        self.assertEqual(self.value(self.two, "k"), b"v")

    def test_a_refused_row_leaves_the_transaction_open(self):
        self.ok(self.two, "XA START 'a'", "PUT 'k','v'")
        self.ok(self.one, "BEGIN", "PUT 'l','v'")
        self.refused(self.one, "PUT 'k','w'", 3572, "HY000")
        self.ok(self.one, "COMMIT")
        self.assertEqual(self.value(self.two, "l"), b"v")

    def test_a_local_transaction_ends_with_its_client(self):
        self.ok(self.one, "BEGIN", "PUT 'k','v'")
        self.one.close()
        wait_for(lambda: self.two.ask("PUT 'k','w'").kind == "ok", "the row is free")

    def test_reset(self):
        self.ok(self.one, "SET autocommit=0", "XA START 'a'", "PUT 'k','v'")
        answer = self.one.command(b"\x1f")
        self.assertEqual((answer.kind, answer.status), ("ok", AUTOCOMMIT))
        self.ok(self.one, "XA START 'a'", "PUT 'k','w'")

    def test_prepared_statements(self):
        number, parameters, columns = self.one.prepare("XA START ?, ?, ?")
        self.assertEqual((parameters, columns), (3, 0))
        self.assertEqual(self.one.execute(number, b"g\n1", b"b'", 2147483647).kind, "ok")
        self.ok(self.one, "XA END 'g\\n1','b''',2147483647", "XA PREPARE 'g\\n1','b''',2147483647")
        number, parameters, columns = self.one.prepare("XA RECOVER")
        self.assertEqual((parameters, columns), (0, 4))
        self.assertEqual(self.one.execute(number).rows, [(2147483647, 3, 2, b"g\n1b'")])
        put, _, _ = self.one.prepare("PUT ?,?")
        get, parameters, columns = self.one.prepare("GET ?")
        self.assertEqual((parameters, columns), (1, 1))
        for value in (b"", b"\0\n'\xff", b"v" * 64):
            self.assertEqual(self.one.execute(put, b"k", value).kind, "ok")
            self.assertEqual(self.one.execute(get, b"k").rows, [(value,)])
        self.assertEqual(self.one.execute(put, b"k", 7).kind, "ok")
        self.assertEqual(self.one.execute(get, b"k").rows, [(b"7",)])
        for wrong, number in ((b"v" * 65, 1406), (None, 1048)):
            answer = self.one.execute(put, b"k", wrong)
            self.assertEqual(answer.number, number)
            self.assertIn("at byte 6, where the value is wanted, a text of up to 64 bytes", answer.text)
        self.assertEqual(self.one.execute(get, b"").number, 1366)
        self.assertEqual(self.one.execute(99).number, 1243)
        self.assertEqual(self.one.prepare("SAVEPOINT ?").number, 1235)
        self.assertEqual(self.one.prepare("GET ?" + " " * 4096).number, 1295)
        self.assertEqual(self.one.ask("GET ?").number, 1064)

    def test_long_data(self):
        put, _, _ = self.one.prepare("PUT ?,?")
        piece = b"\x18" + put.to_bytes(4, "little") + (1).to_bytes(2, "little")
        self.one.send(piece + b"ab")
        self.one.send(piece + b"cd")
        self.one.execute(put, b"k", None)
        self.assertEqual(self.value(self.one, "k"), b"abcd")

    def test_chatter(self):
        self.verdict = "EMPTY"  # the server answers all of this itself, and asks no store
        for text in ("/* hello */ SELECT 1", "select @@max_allowed_packet, @@session.autocommit AS c limit 1",
                     "show databases;", "SHOW WARNINGS"):
            self.assertEqual(self.one.ask(text).kind, TABLE, text)
        self.assertEqual(self.one.ask("select @@max_allowed_packet, @@autocommit AS c").rows, [(b"65536", b"1")])
        self.assertEqual(self.one.ask("select @@max_allowed_packet, @@autocommit AS c").names,
                         ["@@max_allowed_packet", "c"])
        for text, number in (("select @@nothing", 1193), ("SET autocommit=2", 1231), ("SELECT t", 1054), ("", 1064),
                             (";", 1064), ("SET autocommit=0; BEGIN", 1064)):
            self.assertEqual(self.one.ask(text).number, number, text)
        self.assertEqual(self.one.command(b"\x0e").kind, "ok")
        self.assertEqual(self.one.command(b"\x02db").kind, "ok")
        self.assertEqual(self.one.command(b"\x63").number, 1047)
