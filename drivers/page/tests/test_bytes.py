"""What the program writes comes back byte for byte, whatever it holds."""
import unittest

from support import ask, room, says, show, text_of

PUT = "1 PUT 'k','v'"


class WhatIsSaid(unittest.TestCase):
    """The bytes of the program come back as they are."""

    HOSTILE = [b"<script>window.hacked = 1</script>", b"\xff\xfe\xc3\x28", b"a\nb\n  BRANCH 0x61,X'',1 PREPARED\n",
               bytes(range(64)), bytes(range(192, 256)), b"\0", b"'\"\\%_", b"  #1\n2 ROWS 1\n",
               "\u202eabc\u200b".encode()]

    def test_lists_with_any_bytes_in_them(self):
        lines = []
        for at, text in enumerate(self.HOSTILE):
            xid = f"X'{text.hex()}',X'{text[::-1].hex()}',{at}"
            lines += [f"1 XA START {xid}", f"1 PUT X'{text.hex()}',X'{text.hex()}'", f"1 XA END {xid}",
                      f"1 XA PREPARE {xid}", "2 XA RECOVER", "2 XA RECOVER CONVERT XID"]
        with room() as served:
            _, got = show(served.server_port, "a", *lines)
        self.assertEqual(len(got["answers"]), len(lines))
        self.assertEqual(text_of(got), says("show", "\n".join(lines).encode() + b"\n")[0])

    def test_lines_with_any_bytes_in_them(self):
        lines = [bytes(byte for byte in range(256) if byte != 10), b"1 PUT '\xff\xfe','\x00\x01'", b"1 GET '\xff\xfe'",
                 b"\r", b" \t", b"", b"#\xff", b"# 1", b"1 " + b"x" * 70_000]
        with room() as served:
            _, got = show(served.server_port, "a", *[line.decode("latin-1") for line in lines])
            calls = [b"BEGIN", b"AT 0 PUT '\xff','\x00'", b"AT 0 XA START '\\n'", b"AT 0 XA END '\\n'",
                     b"AT 0 XA PREPARE '\\n'", b"AT 0 XA RECOVER", b"", b"#\xff", b"x" * 70_000]
            question = {"talk": "b", "job": "coordinate", "lines": [call.decode("latin-1") for call in calls]}
            _, answered = ask(served.server_port, "talk", question)
        self.assertEqual(text_of(got), says("show", b"\n".join(lines) + b"\n")[0])
        shown = b"".join(call + b"\nSHOW\n" for call in calls)
        self.assertEqual(text_of(answered), says("coordinate", shown)[0])

    def test_a_talk_that_takes_lines_back_begins_anew(self):
        with room() as served:
            show(served.server_port, "a", PUT)
            _, got = show(served.server_port, "a", "1 GET 'k'")
            self.assertEqual(text_of(got), says("show", b"1 GET 'k'\n")[0])
            self.assertEqual(served.pool.count(), 1)

    def test_how_many_calls_a_call_makes_of_sessions(self):
        """Six of work, six of the vote, three of the second phase, as docs/COORDINATOR.md has it; a recovery
        disconnects and lists twice."""
        lines, wanted = ["BEGIN"], [[0, 0, 0]]
        for store in range(3):
            lines.append(f"WORK 1 {store} PUT 'k','v'")
            wanted.append([2 if at == store else 0 for at in range(3)])
        lines += ["PREPARE 1", "DECIDE 1", "FINISH 1", "RECOVER"]
        wanted += [[2, 2, 2], [0, 0, 0], [1, 1, 1], [3, 3, 3]]
        with room() as served:
            for at in range(len(lines)):
                _, got = ask(served.server_port, "calls", {"lines": lines[:at + 1]})
                self.assertEqual(got["calls"], wanted[at], lines[at])


if __name__ == "__main__":
    unittest.main()
