"""A record that goes on in pieces, each with the state in which it begins."""
import random
import re
import subprocess
import tempfile
from pathlib import Path

from pieces import pieces_of, verdict_of, verdicts
from support import PATIENCE, PROGRAM, SERVER, Case
from test_lending import Worker

SIZE = 4096


class Pieces(Case):
    def piecewise(self, *words, **options):
        return self.serve("--record-size", str(SIZE), "--wait", "60", *words, **options)

    def fill(self, client, record):
        """Statements until a piece is full and the next statement begins another."""
        before = len(pieces_of(record))
        while len(pieces_of(record)) == before:
            self.ok(client, "PUT 'fill','x'")

    def test_the_state(self):
        """Branches in each phase, shared rows, deletions, empty values, in the order of the rules: what was done stands
        in the state as `show` would list it."""
        server = self.piecewise()
        one, two, three = (self.client(server) for _ in range(3))
        self.ok(one, "PUT 'a','1'", "PUT 'b',X''", "PUT 'gone','x'", "DEL 'gone'", "PUT 'c','1'")
        self.prepare(one, "'p','q',3", "a", "2")
        self.ok(two, "XA START 'i'")
        self.assertEqual(self.value(two, "b"), b"")
        self.assertIsNone(self.value(two, "none"))
        self.ok(two, "DEL 'c'", "XA END 'i'")
        self.ok(three, "XA START 'h'", "PUT 'd',X''")
        self.assertEqual(self.value(three, "d"), b"")
        self.fill(one, server.record)
        state = Path(f"{server.record}.1.state").read_text()
        sessions = re.findall(r"SESSION (\d+)", state)
        self.assertEqual(len(set(sessions)), 2)
        self.assertEqual(state, f"""\
  BRANCH 0x68,X'',1 ACTIVE SESSION {sessions[0]}
    HOLDS 0x64 WRITES X''
  BRANCH 0x69,X'',1 IDLE SESSION {sessions[1]}
    SHARES 0x62
    HOLDS 0x63 DELETES
    SHARES 0x6e6f6e65
  BRANCH 0x70,0x71,3 PREPARED
    HOLDS 0x61 WRITES 0x32
  ROW 0x61 VALUE 0x31
  ROW 0x62 VALUE X''
  ROW 0x63 VALUE 0x31
  ROW 0x66696c6c VALUE 0x78
""")
        # What began before the piece ends in it.
        self.ok(two, "XA COMMIT 'i' ONE PHASE")
        self.ok(three, "XA END 'h'", "XA PREPARE 'h'", "XA COMMIT 'h'", "XA ROLLBACK 'p','q',3")
        self.assertEqual([self.value(one, key) for key in "abcd"], [b"1", b"", None, b""])
        self.fill(one, server.record)
        self.assertEqual(Path(f"{server.record}.2.state").read_text(), "  ROW 0x61 VALUE 0x31\n  ROW 0x62 VALUE X''\n"
                         "  ROW 0x64 VALUE X''\n  ROW 0x66696c6c VALUE 0x78\n")
        self.assertEqual(verdicts(server.record), ["LEGAL"] * 3)

    def test_pieces_of_many_connections(self):
        """Each piece is LEGAL from its state, which `judge` takes only if a store is listed so."""
        server = self.piecewise()
        workers = [Worker(server, number, 40) for number in range(20)]
        for worker in workers:
            worker.start()
        for worker in workers:
            worker.join()
        self.assertEqual([worker.fault for worker in workers if worker.fault], [])
        pieces = pieces_of(server.record)
        self.assertGreater(len(pieces), 10)
        self.assertEqual(verdicts(server.record), ["LEGAL"] * (len(pieces) + 1))
        with_branches = 0
        for piece in pieces:
            state = Path(f"{piece}.state").read_text()
            with_branches += "  BRANCH " in state
            keys = re.findall(r"(?m)^  ROW 0x(\S+) ", state)
            self.assertEqual(keys, sorted(set(keys)))
            self.assertLess(piece.stat().st_size, SIZE + 4096)
        self.assertGreater(with_branches, 5)

    def test_a_wrong_state_is_seen(self):
        """A state with another value, without a branch, or of the piece before makes a piece ILLEGAL."""
        server = self.piecewise()
        one, two = self.client(server), self.client(server)
        self.ok(one, "PUT 'k','1'")
        self.prepare(two, "'p'", "m", "2")
        self.fill(one, server.record)
        self.assertEqual(self.value(one, "k"), b"1")
        self.ok(two, "XA COMMIT 'p'")
        piece = Path(f"{server.record}.1")
        state = Path(f"{piece}.state")
        right = state.read_text()
        self.assertEqual(verdict_of(piece), "LEGAL")
        for wrong in (right.replace("ROW 0x6b VALUE 0x31", "ROW 0x6b VALUE 0x32"),
                      re.sub(r"(?m)^  BRANCH.*\n    .*\n", "", right), ""):
            self.assertNotEqual(wrong, right)
            state.write_text(wrong)
            self.assertRegex(verdict_of(piece), "ILLEGAL")
        for no_state in (right.replace("  ROW", " ROW"),
                         right.replace("  ROW", "  BRANCH 0x6d,X'',1 PREPARED\n  ROW", 1)):
            state.write_text(no_state)
            self.assertEqual(verdict_of(piece), "")

    def test_with_a_history_and_several_stores(self):
        folder = Path(self.ends.enter_context(tempfile.TemporaryDirectory()))
        server = self.piecewise("--history", folder / "history", "--rows", "64", stores=2)
        draw = random.Random(7)
        for store, record in enumerate(server.records()):
            client = self.client(server, store)
            while len(pieces_of(record)) < 3:
                self.ok(client, f"PUT '{draw.randrange(30)}','{draw.randrange(9)}'")
            self.assertEqual(verdicts(record), ["LEGAL"] * 4)
        self.assertEqual(server.end(), 0)
        for store, record in enumerate(server.records()):
            ran = subprocess.run([PROGRAM, "run"], input=(folder / f"history.{store + 1}").read_bytes(),
                                 stdout=subprocess.PIPE)
            calls = sum(path.read_text().count(" < OK") for path in [record, *pieces_of(record)])
            self.assertEqual(ran.stdout.count(b"OK\n"), calls)

    def test_an_error_on_purpose_and_notes(self):
        """They stand in pieces as they do in a record in one file."""
        server = self.piecewise(faults=["GET every 3 error 1205"])
        client = self.client(server)
        for number in range(400):
            self.assertEqual(client.ask("GET 'k'").number, 1205 if number % 3 == 2 else None)
        texts = [path.read_text() for path in [server.record, *pieces_of(server.record)]]
        self.assertGreater(len(texts), 2)
        for text in texts:
            lines = [line for line in text.splitlines() if not line.startswith("#")]
            self.assertEqual([line.split()[1] for line in lines], [">", "<"] * (len(lines) // 2))
        self.assertEqual(sum(text.count("< ERROR 1205") for text in texts),
                         sum(text.count("# connection 1: ") for text in texts))

    def test_pieces_that_are_there_are_kept(self):
        folder = Path(self.ends.enter_context(tempfile.TemporaryDirectory()))
        (folder / "r.1").write_text("mine")
        ran = subprocess.run([SERVER, "--port", "0", "--record", folder / "r", "--record-size", "5000"],
                             stderr=subprocess.PIPE, text=True, timeout=PATIENCE)
        self.assertEqual(ran.returncode, 1)
        self.assertIn("is there already", ran.stderr)
        self.assertEqual((folder / "r.1").read_text(), "mine")

    def test_a_piece_that_cant_be_written(self):
        """The server ends, and says why."""
        server = self.piecewise()
        client = self.client(server)
        (server.folder / "record.1.state").mkdir()
        with self.assertRaises(Exception):
            for _ in range(1000):
                self.ok(client, "PUT 'k','v'")
        self.assertEqual(server.ended(), 1)
        server._reader.join()
        self.assertTrue(server.logged("record can't be written"))
