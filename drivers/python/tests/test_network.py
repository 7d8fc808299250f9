"""Connections over a server of MySQL's protocol: the same calls, and what a cut connection leaves to another
process."""
import os
import subprocess
import tempfile
import time
import unittest
from pathlib import Path

from nigbaru import Error, IntegrityError, OperationalError, ProgrammingError, Remote, Xid

SERVER = os.environ["NIGBARU_SERVER"]
PATIENCE = 240  # seconds: a machine may be busy with other work


class Network(unittest.TestCase):
    def start(self, *words, faults=""):
        return int(self.process(*words, faults=faults).stderr.readline().rpartition(":")[2])

    def process(self, *words, faults=""):
        folder = tempfile.TemporaryDirectory()
        self.addCleanup(folder.cleanup)
        (Path(folder.name) / "faults").write_text(faults)
        process = subprocess.Popen([SERVER, "--port", "0", "--fault", f"{folder.name}/faults", *words],
                                   stderr=subprocess.PIPE, text=True)
        self.addCleanup(process.stderr.close)
        self.addCleanup(process.wait)
        self.addCleanup(process.terminate)
        return process

    def let_in(self, port, timeout):
        """A connection whose time-out is short: on a machine that does much else it is tried until it isn't too
        short to be let in."""
        end = time.monotonic() + PATIENCE
        while True:
            try:
                return self.connect(port, timeout=timeout)
            except OperationalError:
                if time.monotonic() > end:
                    raise

    def connect(self, port, **more):
        connection = Remote(port, **more).connect()
        self.addCleanup(connection.close)
        return connection

    def test_calls(self):
        port = self.start()
        one, two = self.connect(port), self.connect(port)
        self.assertIsNone(one.get("k"))
        one.put("k", b"")
        self.assertEqual(one.get("k"), b"")
        one.put("k", bytes(range(64)))
        self.assertEqual(two.get("k"), bytes(range(64)))
        one.delete("k")
        one.tpc_begin(one.xid(7, b"g\n'", b""))
        one.put("k", "v")
        self.assertRaises(OperationalError, two.put, "k", "w")
        with self.assertRaises(IntegrityError) as caught:
            two.tpc_begin(two.xid(7, b"g\n'", b""))
        self.assertEqual((caught.exception.number, caught.exception.xa_code), (1440, -8))
        one.tpc_prepare()
        self.assertEqual(two.tpc_recover(), [Xid(7, b"g\n'", b"")])
        two.tpc_commit(two.tpc_recover()[0])
        self.assertEqual((two.get("k"), two.tpc_recover()), (b"v", []))
        self.assertRaises(ProgrammingError, one.tpc_commit)
        with two.cursor() as cursor:
            cursor.execute("GET ?", ("k",))
            self.assertEqual(cursor.fetchall(), [(b"v",)])

    def test_a_close_is_no_fault(self):
        process = self.process()
        Remote(int(process.stderr.readline().rpartition(":")[2])).connect().close()
        process.terminate()
        self.assertEqual((process.wait(), process.stderr.read()), (0, ""))

    def test_what_a_closed_connection_leaves(self):
        port = self.start()
        for votes in (False, True):
            connection = Remote(port).connect()
            connection.tpc_begin(connection.xid(1, "g", str(votes)))
            connection.put(str(votes), "v")
            if votes:
                connection.tpc_prepare()
            connection.close()
            self.assertRaises(Error, connection.get, "k")
        self.assertEqual([xid.bqual for xid in self.connect(port).tpc_recover()], [b"True"])

    def test_a_connection_that_is_cut(self):
        port = self.start(faults="XA PREPARE 1 close-after\n")
        connection = self.connect(port)
        connection.tpc_begin(connection.xid(1, "g", ""))
        connection.put("k", "v")
        self.assertRaises(OperationalError, connection.tpc_prepare)
        self.assertRaises(OperationalError, connection.tpc_rollback)
        other = self.connect(port)
        for xid in other.tpc_recover():
            other.tpc_rollback(xid)
        self.assertIsNone(other.get("k"))

    def test_who_is_let_in(self):
        with tempfile.NamedTemporaryFile("w") as file:
            file.write("secret\n")
            file.flush()
            port = self.start("--user", "u", "--password-file", file.name)
            self.assertIsNone(self.connect(port, user="u", password="secret").get("k"))
            self.assertRaises(OperationalError, Remote(port, user="u", password="other").connect)

    def test_a_slow_answer_and_no_server(self):
        port = self.start(faults="GET 1 stall 600\n")
        connection = self.let_in(port, timeout=1)
        self.assertRaises(OperationalError, connection.get, "k")
        self.assertRaises(OperationalError, connection.get, "k")
        self.assertRaises(OperationalError, Remote(1).connect)


if __name__ == "__main__":
    unittest.main()
