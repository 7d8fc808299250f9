"""Stores in this process: the same calls, threads side by side, and what is refused."""
import os
import re
import subprocess
import sys
import threading
import time
import unittest
from pathlib import Path

from nigbaru import DataError, IntegrityError, InternalError, OperationalError, ProgrammingError, Store, Xid

LOCKED = 3572


class InProcess(unittest.TestCase):
    def open(self, **words):
        store = Store(**words)
        self.addCleanup(store.close)
        return store

    def connect(self, store):
        connection = store.connect()
        self.addCleanup(connection.close)
        return connection

    def test_calls(self):
        store = self.open()
        one, two = self.connect(store), self.connect(store)
        self.assertIsNone(one.get("k"))
        one.put("k", b"")
        self.assertEqual(one.get("k"), b"")
        one.put("k", bytes(range(64)))
        self.assertEqual(two.get("k"), bytes(range(64)))
        one.delete("k")
        one.tpc_begin(one.xid(7, b"g\n'", b""))
        one.put("k", "v")
        with self.assertRaises(OperationalError) as caught:
            two.put("k", "w")
        self.assertEqual((caught.exception.number, str(caught.exception)),
                         (LOCKED, "ERROR 3572 (HY000): row locked by another branch"))
        with self.assertRaises(IntegrityError) as caught:
            two.tpc_begin(two.xid(7, b"g\n'", b""))
        self.assertEqual((caught.exception.number, caught.exception.xa_code), (1440, -8))
        one.tpc_prepare()
        self.assertEqual(two.tpc_recover(), [Xid(7, b"g\n'", b"")])
        two.tpc_commit(two.tpc_recover()[0])
        self.assertEqual((two.get("k"), two.tpc_recover()), (b"v", []))
        with self.assertRaises(ProgrammingError) as caught:
            one.tpc_commit()
        self.assertEqual((caught.exception.number, one.in_transaction), (1397, False))
        with two.cursor() as cursor:
            cursor.execute("GET ?", ("k",))
            self.assertEqual(cursor.fetchall(), [(b"v",)])

    def test_texts_that_are_refused(self):
        one = self.connect(self.open())
        for text, kind, number, words in (
                ("PUT 'k'", ProgrammingError, 1064, "syntax fault at byte 7"), ("", ProgrammingError, 1064, "byte 0"),
                ("XA END 'a'", ProgrammingError, 1399, "XAER_RMFAIL"),
                ("XA COMMIT 'a'", ProgrammingError, 1397, "XAER_NOTA"),
                (f"XA START 'a','',{2 ** 63}", DataError, None, "a format id above")):
            with self.subTest(text), self.assertRaisesRegex(kind, words) as caught:
                one.ask(text)
            self.assertEqual(caught.exception.number, number)

    def test_a_list_that_is_longer_than_its_room(self):
        store = self.open()
        xids = [Xid(1, b"%03d" % number, b"b" * 61) for number in range(50)]
        for xid in xids:
            with store.connect() as one:
                one.tpc_begin(xid)
                one.put(xid.gtrid, "v")
                one.tpc_prepare()
        self.assertEqual(self.connect(store).tpc_recover(), xids)

    def test_threads_count_in_one_row(self):
        store = self.open(rows=64)
        self.connect(store).put("count", "0")

        def add(name):
            with store.connect() as one:
                for turn in range(50):
                    while not self.is_added(one, one.xid(1, name, str(turn))):
                        time.sleep(0.0001)

        threads = [threading.Thread(target=add, args=(f"thread {number}",)) for number in range(8)]
        for thread in threads:
            thread.start()
        for thread in threads:
            thread.join()
        self.assertEqual(self.connect(store).get("count"), b"400")

    def test_the_program_of_the_page(self):
        page = Path(__file__).parents[1].joinpath("README.md").read_text()
        text = re.search(r"```python\n(# count\.py\n.*?)```", page, re.DOTALL)[1]
        ran = subprocess.run([sys.executable, "-c", text], stdout=subprocess.PIPE, text=True, timeout=1200)
        self.assertEqual((ran.stdout, ran.returncode), ("b'240'\n", 0))

    @staticmethod
    def is_added(one, xid):
        """Adds one to the row in a branch; not where another branch held it."""
        one.tpc_begin(xid)
        try:
            one.put("turn", "taken")  # whoever has this row is alone, and so has the other row, too
            one.put("count", str(int(one.get("count")) + 1))
        except OperationalError as refused:
            if refused.number != LOCKED:
                raise
            one.tpc_rollback()
            return False
        one.tpc_commit()
        return True

    def test_sessions_and_ends(self):
        store = self.open(sessions=2)
        one, two = store.connect(), store.connect()
        self.assertRaisesRegex(OperationalError, "2 sessions are open", store.connect)
        self.assertRaisesRegex(OperationalError, "connections are open", store.close)
        one.tpc_begin(one.xid(1, "g", "b"))
        one.put("k", "v")
        one.close()  # rolls back what isn't prepared
        three = two.another()
        three.put("k", "w")
        self.assertTrue(one.is_gone)
        for connection in (two, three):
            connection.close()
        store.close()
        store.close()
        self.assertRaisesRegex(OperationalError, "the store is closed", store.connect)

    def test_a_seat_that_was_given_back(self):
        store = self.open()
        connection = store.connect()
        seat = connection._server
        connection.close()
        self.assertRaisesRegex(InternalError, "is the connection closed", seat.ask, 1, "GET 'k'")

    def test_what_cannot_be_opened(self):
        for words in ({"rows": 0}, {"rows": 65537}, {"sessions": 0}, {"sessions": 17}):
            self.assertRaisesRegex(ProgrammingError, "rows is from 1 to 65536", Store, **words)
        self.assertRaisesRegex(OperationalError, "/nowhere can't be used: .*pass library=PATH", Store,
                               library="/nowhere")
        self.assertRaisesRegex(OperationalError, "can't be used: .*nigbaru_shared_open", Store, library="libc.so.6")

    def test_the_library_is_found_by_the_variable(self):
        for path, wanted in ((os.environ["NIGBARU_LIBRARY"], 0), ("/nowhere", 1)):
            ran = subprocess.run([sys.executable, "-c", "import nigbaru; nigbaru.Store().close()"],
                                 env={**os.environ, "NIGBARU_LIBRARY": path}, stderr=subprocess.DEVNULL)
            self.assertEqual(ran.returncode, wanted)
