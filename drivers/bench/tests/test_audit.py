"""The account in Python: the text of its issue, the server's answers, and the program's job `audit`, on histories that
are drawn."""
import random
import subprocess
import tempfile
import unittest
from pathlib import Path

from support import PROGRAM

import reference_audit

HAS_JOB = subprocess.run([PROGRAM, "audit", "--quiet", "/dev/null"], stdout=subprocess.PIPE,
                         stderr=subprocess.DEVNULL).stdout.startswith(b"GLOBALS 0 ")
NAMES = ["'a'", "'a','b'", "'a','c'", "0x61,'b',7", "'',''", "'z',X'00ff',18446744073709551615"]
KEYS = ["'k'", "'l'", "0x6b"]
RUBBISH = ["17 GET 'k'", "1GET 'k'", "1 GET k", "x", "1 XA START 'a',", "1  XA START 'a' now", "01 GET 'k'",
           "1 PUT 'k'", "1 GET ''", "\x00"]


def drawn(draw, lines, rubbish=0.0):
    """A history: mostly what is accepted, and all else too."""
    text = []
    for _ in range(lines):
        session, name, key = draw.randint(1, 3), draw.choice(NAMES), draw.choice(KEYS)
        statement = draw.choice(
            [f"XA START {name}"] * 3 + [f"XA END {name}"] * 3 + [f"XA PREPARE {name}"] * 2 + [f"XA COMMIT {name}"] * 2
            + [f"XA COMMIT {name} ONE PHASE", f"XA ROLLBACK {name}", "DISCONNECT"] + [f"PUT {key},'v'"] * 2
            + [f"GET {key}", f"DEL {key}", "XA RECOVER", f"XA START {name} JOIN", f"XA END {name} SUSPEND", "",
               "# nothing", "  # nothing"])
        line = (f"{session}{draw.choice([' '] * 9 + [chr(9)])}{statement}" if statement and "#" not in statement
                else statement)
        text.append(draw.choice(RUBBISH) if draw.random() < rubbish else line)
    return "\n".join(text).encode() + draw.choice([b"", b"\n"])


def by_answers(history):
    """The ends of each branch's lives, by what the program answers to each line."""
    lines = [line for line in history.split(b"\n") if line.strip() and not line.strip().startswith(b"#")]
    answers = subprocess.run([PROGRAM, "run"], input=b"\n".join(lines), stdout=subprocess.PIPE,
                             check=True).stdout.splitlines()
    answers = [line
               for line in answers if line.split(b" ")[1:2] in ([b"OK"], [b"ERROR"], [b"NONE"], [b"VALUE"], [b"ROWS"])]
    own, wrote, lives = {}, set(), {}
    for line, answer in zip(lines, answers, strict=True):
        session, read = reference_audit.read_line(line)
        verb, *rest = read
        if b" ERROR " in answer:
            continue
        xid = rest[0] if rest and isinstance(rest[0], tuple) else None
        if verb == "START":
            own[session] = xid
            lives.setdefault(xid, []).append("OPEN")
        elif verb == "PREPARE":
            lives[own.pop(session)][-1] = "IN DOUBT"
        elif verb in ("PUT", "DEL") and session in own:
            wrote.add(own[session])
        elif verb in ("COMMIT", "ROLLBACK") or verb == "DISCONNECT" and session in own:
            xid = xid or own[session]
            own = {number: it for number, it in own.items() if it != xid}
            lives[xid][-1] = "COMMITTED" if verb == "COMMIT" else "ROLLED BACK" if xid in wrote else "EMPTY"
            wrote.discard(xid)
    return lives


class Audit(unittest.TestCase):
    def test_the_text(self):
        debit = (b"1 XA START 'transfer','debit'\n1 PUT 'a','1'\n1 XA END 'transfer','debit'\n"
                 b"1 XA PREPARE 'transfer','debit'\n2 XA COMMIT 'transfer','debit'\n")
        credit = b"# a comment\n\n1 XA START 'transfer','credit'\n1 PUT 'a','1'\n1 DISCONNECT\n1 XA START 'idle'\n"
        faults, found = reference_audit.audit([debit, credit])
        self.assertEqual(faults, [])
        self.assertEqual(reference_audit.text_of(found),
                         "GLOBAL 1 0x69646c65\nSTORE 2 X'' OPEN\nOPEN\nGLOBAL 1 0x7472616e73666572\n"
                         "STORE 1 0x6465626974 COMMITTED\nSTORE 2 0x637265646974 ROLLED BACK\nMIXED\n")
        self.assertEqual(reference_audit.last_line(found), "GLOBALS 2 ATOMIC 0 MIXED 1 IN DOUBT 0 OPEN 1\n")
        self.assertEqual(
            reference_audit.json_of(found[1:]),
            '{"globals":[{"format":1,"gtrid":"0x7472616e73666572","branches":['
            '{"store":1,"bqual":"0x6465626974","ends":["COMMITTED"]},'
            '{"store":2,"bqual":"0x637265646974","ends":["ROLLED BACK"]}],'
            '"verdict":"MIXED"}],"atomic":0,"mixed":1,"in_doubt":0,"open":0}\n')

    def test_lives(self):
        history = (b"1 XA START 'a'\n1 DISCONNECT\n1 XA START 'a'\n1 DEL 'k'\n1 XA END 'a'\n1 XA ROLLBACK 'a'\n"
                   b"1 XA START 'a'\n1 XA END 'a'\n1 XA COMMIT 'a' ONE PHASE\n1 XA START 'a'\n1 XA END 'a'\n"
                   b"1 XA PREPARE 'a'\n")
        (_, _, branches, verdict), = reference_audit.audit([history])[1]
        self.assertEqual((branches, verdict),
                         ([(1, b"", ["EMPTY", "ROLLED BACK", "COMMITTED", "IN DOUBT"])], "IN DOUBT"))

    def test_verdicts(self):
        for branches, verdict in (([["COMMITTED"], ["EMPTY"]], "ATOMIC"),
                                  ([["COMMITTED"], ["ROLLED BACK", "COMMITTED"]], "ATOMIC"),
                                  ([["COMMITTED", "ROLLED BACK"]], "ATOMIC"), ([["ROLLED BACK"], ["EMPTY"]], "ATOMIC"),
                                  ([["COMMITTED"], ["IN DOUBT"]], "IN DOUBT"),
                                  ([["COMMITTED"], ["ROLLED BACK"], ["IN DOUBT"]], "MIXED"),
                                  ([["OPEN"], ["IN DOUBT"]], "IN DOUBT"), ([["OPEN"], ["COMMITTED"]], "OPEN")):
            self.assertEqual(reference_audit.verdict_of(branches), verdict, branches)

    def test_lines_that_are_not_read(self):
        self.assertEqual(reference_audit.audit([b"1 GET 'k'\n", b"\n1 GET 'k'\n1 GET k\nx"])[0], [(2, 3, 4), (2, 4, 0)])

    def test_it_agrees_with_the_answers(self):
        """300 histories: the same statements are accepted, and end the same lives in the same way."""
        for seed in range(300):
            history = drawn(random.Random(seed), 60)
            _, found = reference_audit.audit([history])
            mine = {(format_id, gtrid, bqual): ends for format_id, gtrid, branches, _ in found
                    for _, bqual, ends in branches}
            self.assertEqual(mine, by_answers(history), f"seed {seed}")

    @unittest.skipUnless(HAS_JOB, "the program has no job audit")
    def test_it_agrees_with_the_program(self):
        """400 sets of histories, some with lines that aren't read: the same text to the byte, in each form."""
        with tempfile.TemporaryDirectory() as folder:
            for seed in range(400):
                draw = random.Random(seed)
                paths = []
                for number in range(draw.randint(1, 4)):
                    paths.append(Path(folder) / f"history.{number + 1}")
                    paths[-1].write_bytes(drawn(draw, draw.randint(0, 60), draw.choice([0, 0, 0.05])))
                account = reference_audit.audit([path.read_bytes() for path in paths])
                for options in ([], ["--json"], ["--quiet"], ["--text"], ["--json", "--text"], ["--json", "--quiet"]):
                    ran = subprocess.run([PROGRAM, "audit", *options, *paths], stdout=subprocess.PIPE)
                    text, status = reference_audit.written(*account, options)
                    self.assertEqual((ran.stdout, ran.returncode), (text.encode(), status), f"seed {seed} {options}")

    def test_the_command(self):
        """The reference as a program: what it writes of three histories, and its status."""
        counts = "GLOBALS {} ATOMIC 0 MIXED 0 IN DOUBT 0 OPEN {}\n"
        cases = ((b"", [], counts.format(0, 0), 0),
                 (b"1 XA START 'a'\n", ["--text"], "GLOBAL 1 'a'\nSTORE 1 '' OPEN\nOPEN\n" + counts.format(1, 1), 9),
                 (b"1 GET k\n", ["--json"], "STORE 1 LINE 1 ERROR 1064 (42000): syntax fault at byte 4\n", 6))
        with tempfile.TemporaryDirectory() as folder:
            path = Path(folder) / "history"
            for history, options, wanted, status in cases:
                path.write_bytes(history)
                ran = subprocess.run([reference_audit.__file__, *options, path], stdout=subprocess.PIPE, text=True)
                self.assertEqual((ran.stdout, ran.returncode), (wanted, status), history)
