"""The server's reading of a statement is the program's: the same texts, the same faults at the same bytes, and
canonical texts that mean the same."""
import random
import re
import subprocess

from support import PATIENCE, PROGRAM, Case

COUNT = 30_000
WORDS = ["XA", "xa", "START", "begin", "END", "Prepare", "COMMIT", "rollback", "RECOVER", "CONVERT", "XID", "ONE",
         "PHASE", "JOIN", "RESUME", "SUSPEND", "FOR", "MIGRATE", "GET", "put", "DEL", "DISCONNECTED", "_binari", "$"]
LITERALS = ["'a'", '"b"', "''", '""', "'it''s'", '"say ""so"""', r"'\0\b\t\n\r\Z\%\_\N\''", "X''", "x'41'", "X'4'",
            "X'4g'", "X'41", "0x41", "0x414", "0xfg", "0X41", "'\xff\xfe'", "'open", "'" + "v" * 64 + "'",
            "'" + "v" * 65 + "'", "X'" + "41" * 64 + "'", "X'" + "41" * 65 + "'", "0x" + "4" * 128, "0x" + "0" * 129,
            "'\\", "'\\'", "'''", "''''", "'\"'", "\"'\""]
NUMBERS = ["0", "1", "7", "007", "2147483647", "0x7fffffff", "0" * 30, "1x"]
SIGNS = [",", ",", ",", ";", "@", "?", "+", "\x00"]
BLANKS = ["", " ", "\t", "\r", "  "]


def any_statement(draw):
    """A statement with other spellings here and there."""

    def literal():
        return draw.choice(LITERALS[:12] if draw.random() < 0.9 else LITERALS)

    parts = ["XA", draw.choice(["START", "BEGIN", "END", "PREPARE", "COMMIT", "ROLLBACK"]), literal()]
    if draw.random() < 0.6:
        parts += [",", literal()]
        if draw.random() < 0.6:
            parts += [",", draw.choice(NUMBERS)]
    parts += draw.choice([[], [], ["ONE", "PHASE"], ["JOIN"], ["RESUME"], ["SUSPEND"], ["SUSPEND", "FOR", "MIGRATE"]])
    return draw.choice([parts, parts, ["GET", literal()], ["PUT", literal(), ",", literal()], ["DEL", literal()],
                        ["XA", "RECOVER"], ["XA", "RECOVER", "CONVERT", "XID"]]) + draw.choice([[], [";"]])


def any_text(draw):
    """A statement's tokens, maybe with one left out, doubled or changed, and blanks between them."""
    parts = any_statement(draw)
    if draw.random() < 0.5:
        place = draw.randrange(len(parts))
        parts[place:place + draw.randrange(2)] = draw.choices(WORDS + LITERALS + NUMBERS + SIGNS, k=draw.randrange(3))
    parts = [part.lower() if draw.random() < 0.1 and part.isalpha() else part for part in parts]
    text = ""
    for part in parts:
        needs = text[-1:].isalnum() and part[:1].isalnum() and draw.random() < 0.95
        text += (" " if needs else draw.choice(BLANKS)) + part
    return (text + draw.choice(BLANKS)).lstrip(" \t\r").encode("latin-1")


# How the server names a fault. The program calls all of them faults of syntax, at the same bytes.
FAULTS = {1048: "NULL", 1064: "syntax fault", 1366: "Incorrect value", 1406: "Data too long"}
FAULT = re.compile(r"(.*) at byte (\d+)(?:, where the text ends|, where the .* is wanted, a .*| near '.*')", re.DOTALL)


class Statements(Case):
    def test_agrees_with_the_program(self):
        """The program reads each text, and then what the server made of it for its store, each as a free session's
        first."""
        draw = random.Random(41)
        texts = [any_text(draw) for _ in range(COUNT)]
        server = self.serve()
        places = [self.place_of_fault(client, text) for client in [self.client(server)] for text in texts]
        server.end()
        calls = [line.partition(b" > ")[2] for line in server.record.read_bytes().splitlines() if b" > " in line]
        written = iter([call for call in calls if call != b"DISCONNECT"])
        readings = [b"" if place is not None else next(written) for place in places]
        self.assertEqual(list(written), [])
        answers = self.answers_to(
            b"".join(b"1 %s\n1 DISCONNECT\n1 %s\n1 DISCONNECT\n" % pair for pair in zip(texts, readings)))
        for text, place, reading, raw, again in zip(texts, places, readings, answers[::4], answers[2::4]):
            if place is not None:
                self.assertEqual(raw, b"1 ERROR 1064 (42000): syntax fault at byte %d" % place, text)
            else:
                self.assertEqual(raw, again, (text, reading))
                self.assertNotIn(b"1064", raw, (text, reading))
        faults = sum(place is not None for place in places)
        self.assertGreater(min(faults, COUNT - faults), COUNT // 6)

    def place_of_fault(self, client, text):
        """Where the server says that a text goes wrong, if it does. The client's branch is rolled back."""
        answer = client.ask(text)
        self.assertEqual(client.command(b"\x1f").kind, "ok")
        if answer.number not in FAULTS:
            return None
        found = FAULT.fullmatch(answer.text)
        self.assertEqual(found[1], FAULTS[answer.number], text)
        return int(found[2])

    def answers_to(self, asked):
        """The program's answers, without the rows of lists, which are empty here."""
        ran = subprocess.run([PROGRAM, "serve"], input=asked, stdout=subprocess.PIPE, timeout=PATIENCE)
        lines = ran.stdout.split(b"\n")
        self.assertEqual(len(lines), 1 + asked.count(b"\n"))
        return lines
