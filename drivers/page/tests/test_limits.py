"""How much the page takes: each limit, without a browser."""
import json
import os
import signal
import socket
import threading
import time
import unittest
from types import SimpleNamespace
from unittest import mock

from support import MEMORY, PATIENCE, Page, alive, ask, children_of, own, room, send, show, standing_in, wait_for

PUT = "1 PUT 'k','v'"


class HowMuch(unittest.TestCase):
    def setUp(self):
        self.before = children_of(os.getpid())  # a browser's driver, where other tests have started it

    def started(self):
        """The children that this test has started and that are alive."""
        return [child for child in children_of(os.getpid()) if child not in self.before]

    def test_a_request_has_at_most_a_mebibyte(self):
        with room() as served:
            frame = len(json.dumps({"script": ""}))
            whole = json.dumps({"script": " " * ((1 << 20) - frame)}).encode()
            self.assertEqual(len(whole), 1 << 20)
            self.assertEqual(send(served.server_port, "POST", "/api/race", whole, own(served.server_port))[0], 200)
            self.assertEqual(send(served.server_port, "POST", "/api/race", whole + b" ", own(served.server_port))[0],
                             413)
            claimed = [*own(served.server_port), ("Content-Length", "9" * 30)]
            self.assertEqual(send(served.server_port, "POST", "/api/race", headers=claimed)[0], 413)
            chunked = [*own(served.server_port), ("Transfer-Encoding", "chunked")]
            self.assertEqual(send(served.server_port, "POST", "/api/race", b"0\r\n\r\n", chunked, length=False)[0], 411)

    def test_a_bad_question_starts_no_child(self):
        with room() as served:
            port = served.server_port
            for job, question in [("talk", {}), ("talk", {"talk": "a", "job": "run", "lines": []}),
                                  ("talk", {"talk": "a", "job": "show", "lines": ["a\nb"]}),
                                  ("talk", {"talk": "a", "job": "show", "lines": [1]}),
                                  ("talk", {"talk": "", "job": "show", "lines": []}),
                                  ("talk", {"talk": "a", "job": "show", "lines": ["\u0100"]}),
                                  ("talk", {"talk": "a", "job": "show", "lines": [], "known": 1}),
                                  ("race", {"script": 1}), ("race", {"script": "", "times": 201}),
                                  ("race", {"script": "", "capacity": True}),
                                  ("race", {"script": "", "together": "--help"}), ("race", {"script": "", "seed": "1"}),
                                  ("judge", {"record": "", "limit": 0}),
                                  ("calls", {"lines": []}), ("calls", {"lines": ["BEGIN"], "stores": 17})]:
                self.assertEqual(ask(port, job, question)[0], 400, (job, question))
            for body in (b"", b"{", b"[]", b"[" * 100_000, b"\xff", b"null"):
                self.assertEqual(send(port, "POST", "/api/race", body, own(port))[0], 400, body[:9])
            self.assertEqual(ask(port, "nothing", {})[0], 404)
            self.assertEqual(served.pool.count(), 0)

    def test_there_are_at_most_32_children(self):
        with room() as served:
            most = 0
            for talk in range(40):
                status, got = show(served.server_port, f"talk {talk}", PUT)
                self.assertEqual((status, got["answers"][0][0].split("\n")[0]), (200, "1 OK"))
                most = max(most, served.pool.count())
            self.assertEqual(most, 32)
            status, got = show(served.server_port, "talk 0", PUT, "2 GET 'k'", known=1)
            self.assertEqual((status, got["answers"][0][0].split("\n")[0]), (200, "2 VALUE 0x76"),
                             "its child made room, and another went on")
            self.assertIn("other talks", got["note"])
            self.assertEqual(len(self.started()), 32)
        self.assertEqual(self.started(), [], "all ended with the page")

    def test_where_all_children_work_a_further_one_is_refused(self):
        with standing_in("exec sleep 600") as program, room(program, children=2, answer_seconds=600) as served:
            asking = [threading.Thread(target=show, args=(served.server_port, f"talk {at}", PUT)) for at in range(2)]
            for thread in asking:
                thread.start()
            wait_for(lambda: served.pool.count() == 2)
            status, got = show(served.server_port, "a third", PUT)
            self.assertEqual(status, 503)
            self.assertIn("2 children are at work", got)
            for child in self.started():
                os.kill(child, signal.SIGKILL)
            for thread in asking:
                thread.join()

    def test_an_idle_child_is_ended_and_the_talk_goes_on(self):
        with room() as served:
            show(served.server_port, "a", PUT)
            self.assertEqual(served.pool.count(), 1)
            later = SimpleNamespace(monotonic=lambda: time.monotonic() + served.limits.idle_seconds)
            with mock.patch("classroom.pool.time", later):
                wait_for(lambda: served.pool.count() == 0)
            _, got = show(served.server_port, "a", PUT, "1 GET 'k'", known=1)
            self.assertEqual(got["answers"][0][0].split("\n")[0], "1 VALUE 0x76")
            self.assertIn("nobody had asked it", got["note"])

    def test_ten_minutes_are_the_limit(self):
        with room() as served:
            self.assertEqual((served.limits.idle_seconds, served.limits.children, served.limits.request_bytes),
                             (600, 32, 1 << 20))

    def test_all_children_end_with_the_page(self):
        for end in (signal.SIGTERM, signal.SIGINT, signal.SIGHUP, signal.SIGKILL):
            page = Page()
            try:
                for talk in range(3):
                    show(page.port, f"talk {talk}", PUT)
                children = page.children()
                self.assertEqual(len(children), 3)
                page.process.send_signal(end)
                page.process.wait(PATIENCE)
                wait_for(lambda: not any(alive(pid) for pid in children))
            finally:
                page.process.kill()
                page.process.wait()
                page.process.stdout.close()

    def test_a_page_that_goes_ends_its_children(self):
        with room() as served:
            show(served.server_port, "a", PUT)
            ask(served.server_port, "end", {"talk": "a"})
            self.assertEqual(served.pool.count(), 0)

    def test_the_memory_of_a_child_is_bounded(self):
        with standing_in("exec /usr/bin/python3 -c 'bytearray(1 << 30)'") as program, room(
                program, memory_kib=256 << 10) as served:
            status, got = ask(served.server_port, "race", {"script": ""})
            self.assertEqual((status, got["ran"][0]["status"]), (200, 1))
            self.assertIn("MemoryError", got["ran"][0]["error"])

    @unittest.skipIf(MEMORY == "unlimited", "the program has an address sanitizer")
    def test_where_memory_runs_out_statements_are_refused(self):
        """As many rows as a request can name don't fit into 8 MiB."""
        digits = "0123456789abcdefghijklmnopqrstuvwxyz"
        lines = [f"1 PUT '{a}{b}{c}',''" for a in digits for b in digits for c in digits]
        with room(memory_kib=8 << 10) as served:
            _, got = show(served.server_port, "a", *lines)
        first = [answer.split("\n")[0] for answer, in got["answers"]]
        self.assertEqual(set(first), {"1 OK", "1 ERROR 1037 (HY001): out of memory"})

    def test_a_child_that_was_killed_is_said_so_and_the_talk_goes_on(self):
        with room() as served:
            show(served.server_port, "a", PUT)
            for child in self.started():
                os.kill(child, signal.SIGKILL)
            _, got = show(served.server_port, "a", PUT, "1 GET 'k'", known=1)
            self.assertEqual((got["answers"], got["ended"]["status"]), ([], -9))
            _, got = show(served.server_port, "a", PUT, "1 GET 'k'", known=1)
            self.assertEqual((got["answers"][0][0].split("\n")[0], got["ended"]), ("1 VALUE 0x76", None))

    def test_a_child_that_ends_with_a_status_is_said_so(self):
        with standing_in("echo 'xa_script: out of memory' >&2; exit 3") as program, room(program) as served:
            _, got = show(served.server_port, "a", PUT)
            self.assertEqual(got,
                             {"answers": [], "ended": {"status": 3, "error": "xa_script: out of memory"}, "note": None})

    def test_a_child_that_doesnt_answer_is_ended(self):
        with standing_in("exec sleep 600") as program, room(program, answer_seconds=0.5) as served:
            _, got = show(served.server_port, "a", PUT)
            self.assertIn("didn't answer within 0.5 seconds", got["ended"]["error"])
            _, got = ask(served.server_port, "race", {"script": PUT})
            self.assertIn("didn't answer within 0.5 seconds", got["ran"][0]["error"])
            self.assertEqual(served.pool.count(), 0)

    def test_a_child_that_answers_without_end_is_ended(self):
        with standing_in("exec yes") as program, room(program, output_bytes=1 << 16) as served:
            _, got = show(served.server_port, "a", PUT)
            self.assertIn("more than 65536 bytes", got["ended"]["error"])
            _, got = ask(served.server_port, "race", {"script": PUT})
            self.assertIn("more than 65536 bytes", got["ran"][0]["error"])
            self.assertEqual(served.pool.count(), 0)

    def test_too_many_connections_are_closed(self):
        with room(connections=2) as served:
            held = [socket.create_connection(("127.0.0.1", served.server_port)) for _ in range(2)]
            with socket.create_connection(("127.0.0.1", served.server_port), timeout=PATIENCE) as third:
                self.assertEqual(third.recv(1), b"")
            for connection in held:
                connection.close()
            wait_for(lambda: served_again(served.server_port))


def served_again(port):
    try:
        return send(port, "GET", "/", headers=[("Host", f"127.0.0.1:{port}")])[0] == 200
    except OSError:
        return False


if __name__ == "__main__":
    unittest.main()
