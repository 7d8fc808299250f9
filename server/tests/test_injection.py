"""What a client writes stays its own statement: no byte of it is another session's line."""
import pymysql

from support import Case


class Injection(Case):
    def setUp(self):
        super().setUp()
        self.server = self.serve()
        self.one, self.two = self.client(self.server), self.client(self.server)
        self.ok(self.two, "XA START 'victim'", "PUT 'k','v'", "XA END 'victim'")

    def tearDown(self):
        self.ok(self.two, "XA PREPARE 'victim'", "XA COMMIT 'victim'")
        self.assertEqual(self.value(self.two, "k"), b"v")
        self.assertEqual(self.server.verdicts(), ["LEGAL"])
        record = self.server.record.read_bytes()
        self.assertNotIn(b"2 > XA ROLLBACK", record)
        self.assertRegex(record, rb"\A(?:[0-9]+ [<>] [ -~]*\n|[0-9]+ [0-9]+ [0-9]+ 0x[0-9a-f]*\n|#[ -~]*\n)*\Z")

    def test_line_feeds(self):
        for text in ("GET 'x'\n2 XA ROLLBACK 'victim'", "GET 'x'\r\n2 XA ROLLBACK 'victim'",
                     "GET 'x';\n2 XA ROLLBACK 'victim'", "\n2 XA ROLLBACK 'victim'"):
            self.refused(self.one, text, 1064, "42000")
        for text in ("GET 'x\n2 XA ROLLBACK ''victim'''", "GET \"x\n2 XA ROLLBACK 'victim'\"", "GET -- '\n'x'",
                     "GET\n/* \n2 XA ROLLBACK 'victim'\n */'x'"):
            self.assertEqual(self.one.ask(text).rows, [], text)
        self.ok(self.one, "PUT 'lines','a\n2 XA ROLLBACK'", "XA START 'g\n2','b\r\n'", "XA END 'g\n2','b\r\n'",
                "XA PREPARE 'g\n2','b\r\n'")
        self.assertEqual(self.one.ask("XA RECOVER").rows, [(b"1", b"3", b"3", b"g\n2b\r\n")])
        self.assertEqual(self.value(self.one, "lines"), b"a\n2 XA ROLLBACK")

    def test_quotes_and_comments(self):
        for text in ("GET 'x' -- '\n;XA ROLLBACK 'victim'", "GET 'x';XA ROLLBACK 'victim'",
                     "GET 'x\\';XA ROLLBACK 'victim'", "/*!XA ROLLBACK 'victim'*/",
                     "GET 'x' /*! ; XA ROLLBACK 'victim' */", "GET 'x'#\nXA ROLLBACK 'victim'", "GET 'x", "GET \"x'",
                     "GET 'x'\0"):
            self.refused(self.one, text, 1064, "42000")
        self.assertEqual(self.one.ask("GET 'x' /* ; XA ROLLBACK 'victim' */").rows, [])
        self.assertEqual(self.one.ask("GET 'x' # ; XA ROLLBACK 'victim'").rows, [])
        self.ok(self.one, r"PUT 'q','it''s \' \" \\'")
        self.assertEqual(self.value(self.one, "q"), b"it's ' \" \\")

    def test_a_driver_that_quotes(self):
        """Every byte, as PyMySQL writes texts and bytes, comes back."""
        connection = pymysql.connect(host="127.0.0.1", port=self.server.port, user="u", autocommit=True)
        with connection, connection.cursor() as cursor:
            for value in ([bytes((byte,)) * 2 for byte in range(256)]
                          + [b"'\n2 XA ROLLBACK 'victim'", b"\\';--\n", bytes(range(64))]):
                cursor.execute("PUT %s,%s", (b"row", value))
                cursor.execute("GET %s", ("row",))
                self.assertEqual(cursor.fetchall(), ((value,),))
            for value in ("'; XA ROLLBACK 'victim", "\u00e4\n2 XA", "\\", "\u65e5\u672c"):
                cursor.execute("PUT %s,%s", ("row", value))
                cursor.execute("GET %s", ("row",))
                self.assertEqual(cursor.fetchall(), ((value.encode(),),))
