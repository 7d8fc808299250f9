"""Stores that don't answer in time."""
import os
import signal
import threading
import time
import unittest
from types import SimpleNamespace
from unittest import mock

import nigbaru
from nigbaru import OperationalError, Server

PROGRAM = [os.environ["XA_SCRIPT"], "serve"]
SHORT = 0.2
PATIENCE = 240.0  # for what is answered at once, on a machine that does much else; less than the commands below sleep


class TimeOuts(unittest.TestCase):
    def gone(self, call, *words):
        """The call ends in time, and says why."""
        begun, threads = time.monotonic(), threading.active_count()
        with self.assertRaisesRegex(OperationalError,
                                    f"no answer came within {SHORT:g} seconds, and the connection is broken"):
            call(*words)
        self.assertTrue(SHORT * 0.9 <= time.monotonic() - begun < PATIENCE)
        self.assertEqual(threading.active_count(), threads)

    def silent(self, script):
        """A store that is a shell's script."""
        server = Server(["/bin/sh", "-c", script], timeout=SHORT)
        self.addCleanup(server.close)
        return server

    def test_a_silent_store_is_gone(self):
        server = self.silent("exec sleep 600")
        one, two = server.connect(), server.connect()
        self.gone(one.get, "k")
        for call in (lambda: one.get("k"), lambda: two.put("k", "v"), one.tpc_recover, server.connect):
            with self.assertRaisesRegex(OperationalError, "the store is gone: no answer came within 0.2 seconds"):
                call()
        one.close()
        begun = time.monotonic()
        server.close()
        self.assertLess(time.monotonic() - begun, PATIENCE)
        self.assertEqual(server.child.returncode, -signal.SIGKILL)

    def test_a_part_of_an_answer_is_none(self):
        for script in ("read line; printf '1 O'; exec sleep 600",
                       "read line; printf '1 ROWS 2\\n1 0 0 0x\\n'; exec sleep 600",
                       "read line; while printf x; do sleep 0.05; done"):
            server = self.silent(script)
            self.gone(server.connect().tpc_recover)
            server.close()

    def test_a_store_that_reads_nothing_is_gone(self):
        server = self.silent("exec sleep 600")
        self.gone(server.ask, 1, "GET '" + "k" * 65528)

    def test_an_answer_that_comes_too_late_is_never_taken_for_another(self):
        server = Server(PROGRAM, timeout=PATIENCE)
        self.addCleanup(server.close)
        one = server.connect()
        one.put("k", "v")
        os.kill(server.child.pid, signal.SIGSTOP)
        with mock.patch.object(server, "_timeout", SHORT):
            self.gone(one.put, "k", "w")
        os.kill(server.child.pid, signal.SIGCONT)
        self.assertRaises(OperationalError, one.get, "k")
        self.assertIn("no answer came", repr(server))

    def test_a_connection_with_a_store_of_its_own(self):
        with self.assertRaises(OperationalError) as caught, nigbaru.connect(["sleep", "600"], timeout=SHORT) as alone:
            alone.get("k")
        self.assertIsNone(caught.exception.__context__, "closing it says nothing more")

    def test_a_pipe_without_a_store(self):
        ours, theirs = os.pipe(), os.pipe()
        self.addCleanup(os.close, ours[1])
        self.addCleanup(os.close, theirs[0])
        self.gone(lambda: Server.over(ours[0], theirs[1], timeout=SHORT))

    def test_the_time_is_each_answers_own(self):
        """Answers together take longer than the time that each may take, by a clock that goes on between them alone."""
        server = Server(["/bin/sh", "-c", "while read line; do echo '1 OK'; done"], timeout=PATIENCE)
        self.addCleanup(server.close)
        one, now = server.connect(), 0.0
        with mock.patch("nigbaru.pipe.time", SimpleNamespace(monotonic=lambda: now)):
            for _ in range(3):
                one.put("k", "v")
                now += 0.9 * PATIENCE

    def test_what_is_no_time_is_told(self):
        for timeout in (0, -1, "1", True, float("nan"), float("inf")):
            self.assertRaisesRegex(nigbaru.ProgrammingError, "a number of seconds above 0", Server, PROGRAM,
                                   timeout=timeout)


if __name__ == "__main__":
    unittest.main()
