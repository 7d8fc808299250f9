"""What a store logged, as the server writes it: a script that `run` reads, and that leads to the same store."""
import fcntl
import os
import subprocess
import tempfile
import threading
import time
from pathlib import Path

from support import PROGRAM, Case
from test_lending import Worker


class Histories(Case):
    def histories(self, server):
        paths = ([server.folder / "history"] if server.stores == 1
                 else [server.folder / f"history.{number + 1}" for number in range(server.stores)])
        return [path.read_text().splitlines() for path in paths]

    def history_of(self, *steps):
        """Asks statements of connections, numbered from 0, and ends them; the history without the sessions."""
        server = self.with_history()
        clients = {}
        for number, text in steps:
            if number not in clients:
                clients[number] = self.client(server)
            clients[number].ask(text)
        server.end()
        (lines,) = self.histories(server)
        ran = subprocess.run([PROGRAM, "run"], input="\n".join(lines).encode(), stdout=subprocess.PIPE, check=True)
        self.assertNotIn(b"ERROR", ran.stdout)
        return [line.partition(" ")[2] for line in lines]

    def with_history(self, **options):
        folder = Path(self.ends.enter_context(tempfile.TemporaryDirectory()))
        server = self.serve("--history", folder / "history", **options)
        server.folder = folder
        return server

    def test_what_is_logged(self):
        a = "0x61,X'',1"
        self.assertEqual(self.history_of(
            (0, "GET 'k'"), (0, "PUT 'free','1'"), (0, "XA START 'a'"), (0, "XA START 'b'"), (0, "GET 'k'"),
            (0, "GET 'k'"), (1, "PUT 'k','held'"), (0, "PUT 'k','v'"), (0, "GET 'k'"), (0, "no statement"),
            (0, "XA END 'a'"), (0, "XA RECOVER"), (0, "XA PREPARE 'a'"), (1, "XA RECOVER"), (1, "XA COMMIT 'a'"),
            (1, "XA COMMIT 'a'"), (1, "DEL 'k'")),
            ["PUT 0x66726565,0x31", f"XA START {a}", "GET 0x6b", "PUT 0x6b,0x76", f"XA END {a}", f"XA PREPARE {a}",
             f"XA COMMIT {a}", "DEL 0x6b"])

    def test_a_session_that_leaves(self):
        """Its branch is rolled back, which is logged; a session without a branch leaves no trace."""
        self.assertEqual(self.history_of((0, "XA START 'a'"), (0, "PUT 'k','v'"), (1, "GET 'k'")),
                         ["XA START 0x61,X'',1", "PUT 0x6b,0x76", "DISCONNECT"])

    def test_a_file_that_is_slow(self):
        """A store that keeps 64 entries, ten connections, and a pipe that is read slowly: statements wait for it, and
        no entry is lost."""
        folder = Path(self.ends.enter_context(tempfile.TemporaryDirectory()))
        pipe, said = folder / "history", []
        os.mkfifo(pipe)

        def read():
            with open(pipe, "rb", buffering=0) as file:
                fcntl.fcntl(file, 1031, 4096)  # F_SETPIPE_SZ
                while True:
                    piece = file.read(2048)
                    if not piece:
                        return
                    said.append(piece)
                    time.sleep(0.02)

        reader = threading.Thread(target=read)
        reader.start()
        server = self.serve("--history", pipe, "--rows", "64", record=False)
        workers = [Worker(server, number, 60) for number in range(10)]
        began = time.monotonic()
        for worker in workers:
            worker.start()
        for worker in workers:
            worker.join()
        took = time.monotonic() - began
        self.assertEqual([worker.fault for worker in workers if worker.fault], [])
        self.assertEqual(server.end(), 0)
        reader.join()
        script = b"".join(said)
        self.assertEqual(script.count(b" XA START "), 600)
        ran = subprocess.run([PROGRAM, "run"], input=script, stdout=subprocess.PIPE, check=True)
        self.assertNotIn(b"ERROR", ran.stdout)
        # The last pieces may lie in the pipe and in the server when the workers are done.
        self.assertGreater(took, 0.015 * (len(script) - 64 * 1024) / 2048)

    def test_stores_have_histories_of_their_own(self):
        server = self.with_history(stores=2)
        for store, value in ((0, "1"), (1, "2")):
            self.ok(self.client(server, store), f"PUT 'k','{value}'")
        server.end()
        self.assertEqual([[line.partition(" ")[2] for line in lines] for lines in self.histories(server)],
                         [["PUT 0x6b,0x31"], ["PUT 0x6b,0x32"]])
