"""The judge's picture: what is drawn for a record, that no byte of it is markup, the command that writes it, and how
the page shows and saves it."""
import os
import re
import subprocess
import tempfile
import unittest
import xml.etree.ElementTree as xml
from pathlib import Path

from support import PAGE, PATIENCE, PROGRAM, ROOT, ask, room, says, standing_in
from views import View, shown_bytes

from classroom.picture import picture

SVG = "{http://www.w3.org/2000/svg}"
DRAWN = {"svg", "title", "style", "rect", "g", "line", "path", "text", "tspan"}
RECORDS = {path.stem: path.read_bytes() for folder in ("examples/records", "cases/judge", "drivers/page/records")
           for path in sorted((ROOT / folder).glob("*.record"))}
DIRTY = RECORDS["dirty_read"]


def judged(record):
    return says("judge", record)[0]


class Drawn:
    """A picture as elements."""

    def __init__(self, record, chosen=None, verdict=None, is_narrow=False):
        self.text = picture(record, judged(record) if verdict is None else verdict, judged, chosen, is_narrow)
        self.root = xml.fromstring(self.text)

    def of(self, kind):
        return [it for it in self.root.iter() if kind in it.get("class", "").split()]

    def texts(self, kind):
        return ["".join(it.itertext()) for it in self.of(kind)]

    def heights(self):
        """Where the number of each drawn line stands."""
        return {int(it.text): float(it.get("y")) for it in self.of("line-number")}

    def ticks(self):
        """For each effect its number, its call's line, and where it stands."""
        return [(int(it.get("data-nth")), it.get("data-line"), float(it.find(f"{SVG}line").get("y1")))
                for it in self.of("effect")]


def events(record):
    """The lines of calls, and for each the line where it ends."""
    ends, opened = {}, {}
    for number, line in enumerate(record.split(b"\n"), 1):
        said = re.match(rb"\s*(\d+)\s+([<>!?])", line)
        if said and said[2] == b">":
            opened[said[1]] = number
            ends[number] = None
        elif said and said[1] in opened:
            ends[opened.pop(said[1])] = number
    return ends


class Pictures(unittest.TestCase):
    def test_every_record_is_drawn(self):
        for name, record in RECORDS.items():
            with self.subTest(record=name):
                drawn = Drawn(record, (1, record.count(b"\n") + 1))
                self.assertLessEqual({it.tag.removeprefix(SVG) for it in drawn.root.iter()}, DRAWN)
                if not judged(record).startswith(b"LINE"):
                    self.assertEqual([int(it.get("data-line")) for it in drawn.of("call")], list(events(record)))

    def test_strokes_stand_within_their_calls_in_the_order_of_the_verdict(self):
        for name, record in RECORDS.items():
            order = judged(record).split(b"\n")[1:-1]
            if not judged(record).startswith(b"LEGAL"):
                continue
            with self.subTest(record=name):
                drawn, ends = Drawn(record), events(record)
                ticks, heights = drawn.ticks(), drawn.heights()
                self.assertEqual([number for number, _, _ in ticks], list(range(1, len(order) + 1)))
                self.assertEqual([height for _, _, height in ticks], sorted({height for _, _, height in ticks}))
                for number, line, height in ticks:
                    if line is None:
                        self.assertTrue(order[number - 1].endswith(b" DISCONNECT"))
                        continue
                    self.assertEqual(order[number - 1].split()[0], record.split(b"\n")[int(line) - 1].split()[0])
                    self.assertGreater(height, heights[int(line)] - 5)
                    end = ends[int(line)]
                    if end and b"!" not in record.split(b"\n")[end - 1][:5]:
                        self.assertLess(height, heights[end])

    def test_overlapping_calls_have_the_only_order_that_there_is(self):
        """Session 2 reads before and after session 1's write, whose call is open all the time."""
        ticks = Drawn(b"1 > PUT 'k','v'\n2 > GET 'k'\n2 < NONE\n2 > GET 'k'\n2 < VALUE 'v'\n1 < OK\n").ticks()
        self.assertEqual([line for _, line, _ in ticks], ["2", "1", "4"])

    def test_a_lost_client_ends_its_lane_and_its_session_disconnects_later(self):
        drawn = Drawn(RECORDS["lost_client"])
        self.assertEqual(len(drawn.of("cross")), 1)
        self.assertEqual([line for _, line, _ in drawn.ticks()], ["2", "4", "7", None, "9"])

    def test_a_connection_found_closed_may_have_ended_since_its_last_return(self):
        drawn = Drawn(RECORDS["gone_branch_ended_before"])
        self.assertEqual([line for _, line, _ in drawn.ticks()], ["2", "4", None, "7"])
        self.assertLess(drawn.ticks()[2][2], drawn.heights()[8])
        above = RECORDS["gone_branch_ended_before"].replace(b"# The client", b"2 > GET 'k'\n2 < NONE\n# The client")
        self.assertEqual([line for _, line, _ in Drawn(above).ticks()][:4], ["2", "4", None, "7"])

    def test_a_call_whose_answer_is_unknown_has_a_stroke_or_none(self):
        self.assertEqual([line for _, line, _ in Drawn(RECORDS["unknown_took_effect"]).ticks()], ["2", "4"])
        self.assertEqual([line for _, line, _ in Drawn(RECORDS["unknown_took_no_effect"]).ticks()], ["4"])
        self.assertEqual([line for _, line, _ in Drawn(RECORDS["unknown_and_called_again"]).ticks()], ["4", "6"])

    def test_an_illegal_return_is_marked_with_what_could_be_and_explained_up_to_there(self):
        drawn = Drawn(DIRTY)
        self.assertEqual(drawn.texts("verdict"), ["ILLEGAL at line 7"])
        self.assertEqual([it.get("data-line") for it in drawn.of("marked")], ["7"])
        self.assertEqual([drawn.texts("said"), drawn.texts("could")], [["ILLEGAL at line 7"], ["COULD BE NONE"]])
        self.assertEqual([line for _, line, _ in drawn.ticks()][:2], ["2", "4"])
        self.assertEqual([it.get("data-line") for it in drawn.of("unjudged") if "call" in it.get("class")], ["8"])

    def test_an_undecided_line_and_faulty_lines_are_marked(self):
        drawn = Drawn(b"1 > GET 'k'\n1 < NONE\n", verdict=b"UNDECIDED line 2\n")
        self.assertEqual((drawn.texts("said"), drawn.ticks()), (["UNDECIDED at line 2"], []))
        drawn = Drawn(RECORDS["faulty_lines"])
        self.assertEqual([it.get("data-line") for it in drawn.of("marked")], ["4", "5", "6", "7", "8", "9"])
        self.assertEqual(drawn.texts("said")[:2], ["not a line of a record", "session 1 has an open call"])

    def test_an_order_of_other_calls_is_not_drawn(self):
        for order in (b"2 GET 0x6b\n", b"1 GET 0x6b\n1 GET 0x6b\n"):
            self.assertEqual(Drawn(b"1 > GET 'k'\n1 < NONE\n", verdict=b"LEGAL\n" + order).ticks(), [])

    def test_no_byte_of_a_record_is_markup(self):
        for text in (b"</text><script>alert(1)</script>", b"]]><!--", b"&lt;&amp;&#0;", b"'\" onload='x",
                     b"\x00\x01\x7f\xff\xfe", "\u202e\ufeff\uffff\u0301é漢".encode(), b"\xed\xa0\x80"):
            with self.subTest(text=text):
                drawn = Drawn(b"# " + text + b"\n1 > PUT " + text + b"\n1 < ERROR 1064 " + text + b"\n" + text
                              + b" is no line\n", verdict=b"LINE 4: " + text + b"\n")
                self.assertLessEqual({it.tag.removeprefix(SVG) for it in drawn.root.iter()}, DRAWN)
                self.assertFalse(any(name.startswith("on") for it in drawn.root.iter() for name in it.keys()))
                self.assertEqual(drawn.texts("said")[0].replace("\\", ""), shown_bytes(text).replace("\\", ""))

    def test_long_texts_and_lists_are_cut(self):
        drawn = Drawn(b"1 > PUT '" + b"k" * 60 + b"','v'\n1 < OK\n1 > XA RECOVER\n1 < ROWS 30\n"
                      + b"".join(b"%d 1 0 0x61\n" % at for at in range(30)))
        self.assertRegex(drawn.texts("statement")[0], "^PUT 'k+…$")
        self.assertIn("k" * 60, "".join(drawn.root.itertext()))
        self.assertIn("+ 22", drawn.texts("hint"))

    def test_a_long_record_is_drawn_around_its_mark_or_where_one_says(self):
        calls = b"".join(b"1 > PUT 'k','%d'\n1 < OK\n" % at for at in range(1000))
        self.assertEqual(list(Drawn(calls).heights()), list(range(1, 401)))
        marked = list(Drawn(calls + b"2 > GET 'k'\n2 < VALUE 'other'\n").heights())
        self.assertEqual((marked[-1], len(marked)), (2002, 400))
        early = list(Drawn(calls[:16] + b"2 > GET 'k'\n2 < VALUE 'other'\n" + calls[16:]).heights())
        self.assertEqual((early[0], len(early)), (1, 400))
        drawn = Drawn(b"2 > GET 'k'\n" + calls, (1001, 1010), b"LEGAL\n")
        self.assertEqual(list(drawn.heights()), list(range(1001, 1011)))
        self.assertIn("lines 1,001 to 1,010 of 2,001", drawn.texts("hint"))
        self.assertIn("GET 'k'", drawn.texts("statement"))

    def test_a_part_has_what_takes_effect_in_it_and_the_rest_of_a_list(self):
        record = RECORDS["lost_client"]
        self.assertEqual([line for _, line, _ in Drawn(record, (7, 10)).ticks()], ["7", None, "9"])
        self.assertEqual([line for _, line, _ in Drawn(RECORDS["lost_call_with_effect"], (4, 6)).ticks()][0], "2")
        part = Drawn(b"1 > XA RECOVER\n1 < ROWS 2\n1 1 0 0x61\n1 1 0 0x62\n", (3, 4))
        self.assertEqual(part.texts("text"), ["1 1 0 0x61", "1 1 0 0x62"])

    def test_sixteen_lanes(self):
        drawn = Drawn(b"".join(b"%d > GET 'k'\n%d < NONE\n" % (session, session) for session in range(1, 17)))
        self.assertEqual(drawn.texts("session"), [f"Session {session}" for session in range(1, 17)])

    def test_a_narrow_picture_has_one_column_beside_its_bars(self):
        """What is said there says whose it is. Nothing is wider than a telephone, whatever could have been answered."""
        record = RECORDS["dirty_read"]
        could = b"ILLEGAL line 7\nCOULD BE ERROR 1399 (XAE07): XAER_RMFAIL state ACTIVE\n"
        drawn = Drawn(record, verdict=could, is_narrow=True)
        self.assertEqual(drawn.texts("session"), ["1", "2"])
        said = [it for it in record.decode().splitlines() if ">" in it]
        self.assertEqual(drawn.texts("statement"), said)
        self.assertEqual(drawn.texts("reply"), ["1 < OK", "1 < OK", "2 < VALUE '9'", "1 < OK"])
        self.assertEqual(len({it.get("x") for it in [*drawn.of("statement"), *drawn.of("reply")]}), 1)
        width = float(drawn.root.get("width"))
        self.assertLessEqual(width, 350)
        for it in drawn.root.iter(f"{SVG}rect"):
            self.assertLessEqual(float(it.get("x") or 0) + float(it.get("width")), width)
        self.assertTrue(drawn.texts("could")[0].endswith("…"))
        self.assertEqual(Drawn(RECORDS["lost_client"], is_narrow=True).texts("refused"), ["1 ! LOST", "2 < ERROR 3572"])
        part = Drawn(b"1 > GET 'k'\n1 < NONE\n", (1, 1), b"LEGAL\n", True)
        self.assertIn("lines 1 to 1 of 2", part.texts("hint"))


class Command(unittest.TestCase):
    def run_it(self, *words, program=PROGRAM):
        return subprocess.run([PAGE / "picture", *words], capture_output=True,
                              env={**os.environ, "NIGBARU_PROGRAM": str(program)}, timeout=PATIENCE)

    def test_it_writes_what_the_page_shows(self):
        with room() as served:
            for name in ("dirty_read", "lost_client", "faulty_lines"):
                wanted = ask(served.server_port, "judge", {"record": RECORDS[name].decode()})[1]["picture"]
                path = next(path for folder in ("examples", "drivers/page")
                            if (path := ROOT / folder / "records" / f"{name}.record").exists())
                ran = self.run_it(path)
                self.assertEqual((ran.returncode, ran.stderr, ran.stdout.decode()), (0, b"", wanted))

    def test_a_call_that_is_not_a_statement_is_a_faulty_line(self):
        with tempfile.TemporaryDirectory() as folder:
            record = Path(folder) / "a.record"
            record.write_bytes(b"1 > SELECT * FROM t\n1 < ERROR 1064\n")
            ran = self.run_it(record)
            self.assertEqual((ran.returncode, ran.stderr), (0, b""))
            self.assertIn("not a statement", "".join(xml.fromstring(ran.stdout).itertext()))

    def test_a_page_without_a_verdict_has_no_picture(self):
        with standing_in("echo nothing") as program, room(program) as served:
            self.assertIsNone(ask(served.server_port, "judge", {"record": "1 > GET 'k'\n"})[1]["picture"])

    def test_where_there_is_no_picture_the_cause_is_said(self):
        with tempfile.TemporaryDirectory() as folder:
            record = Path(folder) / "a.record"
            record.write_bytes(DIRTY)
            for words, status, cause in [([Path(folder) / "none"], 1, b"No such file"), ([], 2, b"RECORD"),
                                         (["--lines", "9-3", record], 2, b"not lines"),
                                         (["--lines", "400-410", record], 1, b"lines, and none from 400 on"),
                                         (["--limit", "0", record], 2, b"from 1 to 1000000"),
                                         (["--limit", "1000001", record], 2, b"from 1 to 1000000"),
                                         (["--program", "/nowhere", record], 1, b"/nowhere")]:
                ran = self.run_it(*words)
                self.assertEqual((ran.returncode, ran.stdout), (status, b""))
                self.assertIn(cause, ran.stderr)
            for words, cause in [("echo 'xa_script: out of memory' >&2; exit 3", b"out of memory"),
                                 ("echo what", b"no verdict"), ("exit 3", b"status 3")]:
                with standing_in(words) as program:
                    ran = self.run_it(record, program=program)
                    self.assertEqual((ran.returncode, ran.stdout), (1, b""))
                    self.assertIn(cause, ran.stderr)


class Shown(View):
    view = "judge"

    def look(self, record):
        self.open(record=record, go=1)
        self.until(lambda: self.browser.text("#verdict"), "a verdict")

    def test_the_page_shows_the_picture_and_saves_it(self):
        self.look(DIRTY)
        drawn = Drawn(DIRTY)
        self.assertEqual(self.browser.texts("#picture .statement"), drawn.texts("statement"))
        self.assertEqual(self.browser.texts("#picture .marked text"), ["ILLEGAL at line 7", "COULD BE NONE"])
        self.assertEqual(self.browser.run("return document.querySelectorAll('#picture style').length"), 0)
        with tempfile.TemporaryDirectory() as folder:
            self.browser.driver.execute_cdp_cmd("Browser.setDownloadBehavior",
                                                {"behavior": "allow", "downloadPath": folder})
            self.browser.push("#save-picture")
            saved = Path(folder) / "record.svg"
            self.until(saved.exists, "the file is saved")
            self.until(lambda: saved.read_text() == drawn.text, "it is the picture")

    def test_light_and_dark(self):
        def colours():
            style = "const it = getComputedStyle(document.querySelector(arguments[0])); return [it.fill, it.color]"
            return [self.browser.run(style, f"#picture {kind}") for kind in (".paper", ".statement", ".call.s1")]

        found = {}
        for scheme in ("light", "dark"):
            self.browser.driver.execute_cdp_cmd("Emulation.setEmulatedMedia",
                                                {"features": [{"name": "prefers-color-scheme", "value": scheme}]})
            self.look(DIRTY)
            found[scheme] = colours()
        self.browser.driver.execute_cdp_cmd("Emulation.setEmulatedMedia", {"features": []})
        self.assertEqual(found["light"][0][0], "rgb(251, 250, 247)")
        self.assertEqual(found["dark"][0][0], "rgb(22, 25, 29)")
        for light, dark in zip(found["light"][1:], found["dark"][1:]):
            self.assertNotEqual(light, dark)

    def test_the_mark_is_in_sight(self):
        self.look(b"".join(b"1 > PUT 'k','%d'\n1 < OK\n" % at for at in range(300))
                  + b"16 > GET 'k'\n16 < VALUE 'other'\n")
        inside = """const at = document.querySelector("#picture .marked").getBoundingClientRect(), all = document.querySelector("#picture").getBoundingClientRect();
            return at.top >= all.top && at.bottom <= all.bottom && at.left >= all.left && at.right <= all.right"""
        self.assertTrue(self.browser.run(inside))


if __name__ == "__main__":
    unittest.main()
