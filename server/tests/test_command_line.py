"""Command lines. MariaDB's: what it prints for a script, a line of which is refused, and what it asks at a terminal.
That of `server/bench`: its usage."""
import os
import pty
import subprocess
import time
import unittest

from support import HERE, PATIENCE, Case, wait_for


class CommandLine(Case):
    def command(self, server, *words):
        return ["mariadb", "--no-defaults", "--host=127.0.0.1", f"--port={server.port}", "--user=root", *words]

    def test_transcript(self):
        """`command_line.sql`, and beside it what it prints."""
        server = self.serve()
        script = (HERE / "command_line.sql").read_text()
        ran = subprocess.run(self.command(server, "--force", "--table", "--unbuffered"), input=script,
                             stdout=subprocess.PIPE, stderr=subprocess.STDOUT, text=True, timeout=PATIENCE)
        self.assertEqual(ran.stdout, (HERE / "command_line.transcript").read_text())
        self.assertEqual(server.verdicts(), ["LEGAL"])

    def test_thirty_at_once(self):
        """Thirty processes, each with a branch that it has prepared before any of them commits."""
        server = self.serve("--wait", "60")
        processes = [subprocess.Popen(self.command(server), stdin=subprocess.PIPE, stdout=subprocess.DEVNULL)
                     for _ in range(30)]
        for number, process in enumerate(processes):
            process.stdin.write(b"XA START '%d'; PUT 'row %d','v'; XA END '%d'; XA PREPARE '%d';\n" % ((number,) * 4))
            process.stdin.flush()
        client = self.client(server)
        wait_for(lambda: len(client.ask("XA RECOVER").rows) == 30, "thirty branches are prepared")
        for number, process in enumerate(processes):
            process.stdin.write(b"XA COMMIT '%d';\n" % number)
            process.stdin.close()
            self.assertEqual(process.wait(PATIENCE), 0)
        self.assertEqual(client.ask("XA RECOVER").rows, [])
        self.assertEqual({self.value(client, f"row {number}") for number in range(30)}, {b"v"})
        self.assertEqual(server.verdicts(), ["LEGAL"])

    def test_terminal(self):
        """A prompt, and `status`, which asks for what a terminal shows at its beginning."""
        server = self.serve()
        child, end = pty.fork()
        if child == 0:
            os.execvp("mariadb", self.command(server, "db"))
        said = b""
        try:
            for line, answer in ((b"", b"db]> "), (b"status\r", b"db]> "), (b"PUT 'k','v';\r", b"Query OK"),
                                 (b"GET 'k';\r", b"1 row in set"), (b"XA START;\r", b"syntax fault at byte 8"),
                                 (b"exit\r", b"Bye")):
                os.write(end, line)
                said = self.read_until(end, answer)
                if line.startswith(b"status"):
                    self.assertIn(b"8.0.36-nigbaru", said)
        finally:
            os.close(end)
            os.waitpid(child, 0)

    def read_until(self, end, words):
        said, deadline = b"", time.monotonic() + PATIENCE
        while words not in said:
            self.assertLess(time.monotonic(), deadline, said)
            said += os.read(end, 65536)
        return said


class Bench(unittest.TestCase):
    def test_usage(self):
        """Words that can't be read are refused with the usage and status 2, before anything is started."""
        cases = [(["--help"], 0, "SECONDS"), (["--frob"], 2, "--frob"), (["0"], 2, "0 isn't"),
                 (["soon"], 2, "soon isn't a number from 1 to 3600"),
                 (["1", "4", "2001"], 2, "2001 isn't a number from 1 to 2000")]
        for words, status, wanted in cases:
            with self.subTest(words=words):
                ran = subprocess.run([HERE.parent / "bench", *words], stdout=subprocess.PIPE, stderr=subprocess.STDOUT,
                                     text=True, timeout=PATIENCE)
                self.assertEqual(ran.returncode, status)
                self.assertTrue(ran.stdout.startswith("usage: bench"), ran.stdout)
                self.assertIn(wanted, ran.stdout)
