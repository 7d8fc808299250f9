"""The sequence diagram: what it says of each scenario, and that nothing lies over anything else, as a file and in the
page."""
import base64
import os
import re
import subprocess
import sys
import tempfile
import unittest
import xml.etree.ElementTree as ET
from pathlib import Path

from support import PAGE, PATIENCE, PROGRAM, ask, room, says
from views import View, in_address

SCENARIOS = sorted((PAGE / "scenarios").glob("*.calls"))
SVG = "{http://www.w3.org/2000/svg}"
WORDS = ["coordinator", "participant", "vote", "decision", "in doubt", "presumed abort", "heuristic outcome"]
# Of each label and each line number where it lies; and of each its words.
BOXES = """return [...document.querySelectorAll('#sequence svg .label, #sequence svg .line-number, #sequence svg .head, #sequence svg .row')].map((it) => {
    const box = it.getBBox(); return [box.x, box.y, box.width, box.height, it.textContent]; })"""
# How many lines were given, whether the drawing is as wide as its room and has all statements, and its calls.
DRAWN = """const room = document.querySelector('#sequence'), svg = room.querySelector('svg');
    return [Number(room.dataset.given ?? 0),
            room.dataset.whole === 'true' && Number(svg?.getAttribute('width')) === Math.floor(room.clientWidth),
            [...room.querySelectorAll('.call[data-said]')].map((it) => it.dataset.said)]"""
# The lines that can't be removed, since something else takes the click.
COVERED = """return [...document.querySelectorAll('#sequence svg .remove')].filter((it) => {
    it.scrollIntoView({ block: 'center' });
    const box = it.getBoundingClientRect();
    return !it.contains(document.elementFromPoint(box.x + box.width / 2, box.y + box.height / 2));
}).map((it) => it.dataset.line)"""
# The colours of what is answered and of what waits, where the bands end, and where what waits begins.
WAITING = """const all = (css) => [...document.querySelectorAll(`#sequence svg ${css}`)];
    const top = Math.min(...all('.call.waiting .behind').map((it) => it.getBBox().y));
    const colours = (css, name) => [false, true].map((is) => [...new Set(all(css)
        .filter((it) => (it.getBBox().y >= top) === is).map((it) => getComputedStyle(it)[name]))]);
    return { top, labels: colours('.call :is(.label, .byte)', 'fill'), arrows: colours('.arrow', 'stroke'),
        heads: colours('.head-of', 'fill'), paper: getComputedStyle(all('.paper')[0]).fill,
        opacity: [...new Set(all('.call').map((it) => getComputedStyle(it).opacity))],
        bands: all('.band').map((it) => it.getBBox().y + it.getBBox().height) };"""
FONTS = """return [...new Set([...document.querySelectorAll('body *')].filter((it) => it.checkVisibility({ visibilityProperty: true }) &&
    [...it.childNodes].some((node) => node.nodeType === 3 && node.data.trim()) && it.getBoundingClientRect().width > 2)
    .map((it) => `${parseFloat(getComputedStyle(it).fontSize)} ${it.tagName} ${it.className.baseVal ?? it.className} ${it.id}`))]"""


def drawn(path, *words, calls=None):
    ran = subprocess.run([PAGE / "sequence", "--program", PROGRAM, *words, path], capture_output=True, timeout=PATIENCE,
                         input=None if calls is None else "\n".join(calls).encode())
    if ran.returncode:
        raise AssertionError(ran.stderr)
    return ET.fromstring(ran.stdout)


def story(*calls, stores=2):
    """The drawing of these calls."""
    return drawn("-", "--stores", str(stores), calls=calls)


def call(svg, line):
    return next(it for it in svg.iter(f"{SVG}g") if it.get("data-line") == str(line))


def said(element):
    """Its words, whatever lines they stand in."""
    return " ".join(" ".join("".join(text.itertext()) for text in element.iter(f"{SVG}text")).split())


def line_of(path, text):
    return 1 + path.read_text().splitlines().index(text)


def contrast(one, other):
    """Of two colours, as WCAG 2 has it."""
    def light(colour):
        parts = [int(part) / 255 for part in re.findall(r"\d+", colour)[:3]]
        linear = [part / 12.92 if part <= 0.03928 else ((part + 0.055) / 1.055) ** 2.4 for part in parts]
        return sum(weight * part for weight, part in zip((0.2126, 0.7152, 0.0722), linear))

    dark, pale = sorted((light(one), light(other)))
    return (pale + 0.05) / (dark + 0.05)


class Files(unittest.TestCase):
    """The command, without a browser."""

    def scenario(self, name):
        return next(path for path in SCENARIOS if name in path.stem)

    def test_each_scenario_is_answered_as_the_program_answers_it(self):
        for path in SCENARIOS:
            with self.subTest(scenario=path.stem):
                svg = drawn(path)
                answers = [it.get("data-answer") for it in svg.iter(f"{SVG}g") if it.get("data-answer") is not None]
                self.assertEqual("\n".join(answers) + "\n", says("coordinate", path.read_bytes(), "--text")[0].decode())
                self.assertFalse([it for it in svg.iter() if it.get("role") == "button"], "a file has no buttons")
                self.assertFalse([it for it in svg.iter() if it.get("class") == "current"], "nor a current line")
                for word in WORDS:
                    self.assertIn(word, said(svg))

    def test_votes_decision_and_acknowledgements(self):
        path = self.scenario("all_yes")
        svg = drawn(path)
        self.assertEqual(said(call(svg, line_of(path, "PREPARE 1"))).count("vote yes"), 2)
        self.assertIn("decision: commit", said(call(svg, line_of(path, "DECIDE 1"))))
        finish = said(call(svg, line_of(path, "FINISH 1")))
        self.assertEqual((finish.count("XA COMMIT"), finish.count("acknowledgement")), (2, 2))

    def test_a_no_vote_and_a_wrong_stage_with_its_reason(self):
        path = self.scenario("a_no_vote")
        svg = drawn(path)
        self.assertIn("which counts as no", said(call(svg, line_of(path, "PREPARE 1"))))
        decide = said(call(svg, line_of(path, "DECIDE 1")))
        self.assertIn("WRONG STAGE 1", decide)
        reason = re.search(r"transaction 1 .*", subprocess.run(
            [PROGRAM, "coordinate", "--verbose"], input=path.read_bytes(), capture_output=True).stderr.decode())
        self.assertIn(reason[0].split()[-1], decide)
        self.assertIn("transaction 1 has voted NO", decide)

    def test_a_crash_ends_the_lifeline_and_a_recovery_begins_it(self):
        path = self.scenario("crash_before")
        svg = drawn(path)
        crosses = [it for it in svg.iter(f"{SVG}path") if it.get("class") == "cross crash"]
        self.assertEqual(len(crosses), 1)
        lines = [it for it in svg.iter(f"{SVG}line") if it.get("class") == "lifeline"]
        coordinator = sorted(float(it.get("y1")) for it in lines
                             if [it.get("x1")] == [sorted({one.get("x1") for one in lines}, key=float)[1]])
        self.assertEqual(len(coordinator), 2, "before the crash, and from the recovery on")
        self.assertGreater(coordinator[1], float(crosses[0].get("d").split()[1].split("l")[0]))
        recover = said(call(svg, line_of(path, "RECOVER")))
        for words in ("new coordinator", "presumed abort", "roll back", "acknowledgement"):
            self.assertIn(words, recover)

    def test_a_heuristic_outcome(self):
        path = self.scenario("heuristic_mix")
        svg = drawn(path)
        rolled_back = line_of(path, "AT 1 XA ROLLBACK 0x630000000000000001,0x01,22593")
        self.assertIn("heuristic rollback", said(call(svg, rolled_back)))
        self.assertIn("heuristic outcome HAZARD 1", said(call(svg, line_of(path, "FINISH 1"))))

    def test_one_phase_and_two_at_once(self):
        path = self.scenario("one_phase")
        finish = said(call(drawn(path), line_of(path, "FINISH 1")))
        self.assertIn("commit in one phase", finish)
        bands = [it for it in drawn(self.scenario("two_transactions")).iter(f"{SVG}g") if it.get("class") == "doubt"]
        self.assertEqual(sorted(it.get("data-store") for it in bands), ["0", "1", "1", "2"])

    def test_a_recovery_names_no_transaction_that_had_ended(self):
        work, others = "WORK 1 1 PUT 'bob','110'", ["AT 1 XA ROLLBACK 0x630000000000000001,0x01,22593"]
        for ended in (["BEGIN", work, "PREPARE 1", "FINISH 1"], ["BEGIN", work, "ABANDON 1"], ["BEGIN", "PREPARE 1"],
                      ["BEGIN", "WORK 1 0 GET 'k'", work, "PREPARE 1", *others, "FINISH 1"]):
            with self.subTest(ended=ended):
                self.assertNotIn("presumed abort", said(call(story(*ended, "RECOVER"), len(ended) + 1)))
                both = [*ended, "BEGIN", "WORK 2 0 PUT 'carol','1'", "RECOVER"]
                self.assertIn("no decision for 2: rolled back", said(call(story(*both), len(both))))

    def test_a_refusal_is_put_down_to_doubt_only_where_that_is_sure(self):
        begun = ["BEGIN", "WORK 1 0 PUT 'a','1'", "WORK 1 1 PUT 'a','1'", "PREPARE 1", "BEGIN",
                 "WORK 2 0 PUT 'carol','1'"]
        refused = [("carol", False), ("a", True)]
        for more in ([], ["PREPARE 2"], ["STOP"]):
            svg = story(*begun, *more, *(f"AT 0 PUT '{row}','2'" for row, _ in refused))
            for at, (row, is_doubt) in enumerate(refused):
                answer = said(call(svg, len(begun) + len(more) + at + 1))
                self.assertIn("ERROR 3572", answer)
                self.assertEqual("is in doubt here" in answer, is_doubt, (more, row))
        svg = story(*begun, "ABANDON 2", "AT 0 DEL 'a'", "AT 0 PUT X'61','2'")
        for line in (8, 9):
            self.assertIn("is in doubt here", said(call(svg, line)), "no other branch is there")

    def test_nothing_is_sent_to_a_store_that_isnt_there(self):
        lines = ["BEGIN", "AT 7 PUT 'k','v'", "AT x GET 'k'", "WORK 1 7 GET 'k'", "FAIL 7 AFTER 0"]
        svg = story(*lines)
        self.assertEqual([it.get("class") for line in (2, 3) for it in call(svg, line).iter(f"{SVG}g")
                          if "message" in it.get("class").split()], [])
        last_store = max(float(it.get("x1")) for it in svg.iter(f"{SVG}line")
                         if it.get("class") == "lifeline" and float(it.get("x1")) < 0.8 * float(svg.get("width")))
        for frame in call(svg, 2).iter(f"{SVG}rect"):
            self.assertGreater(float(frame.get("x")), last_store, "it is the client's alone")
        for line in (2, 4, 5):
            self.assertIn("UNKNOWN STORE 7", said(call(svg, line)))
            self.assertIn("there are only the stores 0 and 1: ", said(call(svg, line)))
            self.assertIn(lines[line - 1], said(call(svg, line)))
        for stores, there in ((1, "there is only store 0: "), (3, "there are only the stores 0 to 2: ")):
            self.assertIn(there, said(call(story("AT 3 GET 'k'", stores=stores), 1)))

    def test_only_stores_with_work_are_participants(self):
        def roles(svg):
            return [sum(it.get("x") == role.get("x") for role in svg.iter(f"{SVG}text") if role.get("class") == "role")
                    for it in svg.iter(f"{SVG}text") if it.get("class") == "head"]

        lines = ["BEGIN", "WORK 1 1 PUT 'k','v'", "WORK 9 0 GET 'k'", "FAIL 2 AFTER 0", "WORK 1 2 GET 'k'",
                 "AT 3 GET 'k'"]
        self.assertEqual(roles(story(*lines, stores=4)), [0, 0, 0, 1, 0, 0, 0])
        self.assertEqual(roles(story(*lines[:3], "FAIL 2 AFTER 1", *lines[4:], stores=4)), [0, 0, 0, 1, 1, 0, 0])
        other = [f"AT 0 {statement}" for statement in ("XA START 'x'", "PUT 'k','v'", "XA END 'x'", "XA PREPARE 'x'")]
        self.assertEqual(roles(story(*other, "AT 1 XA PREPARE 'x'")), [1, 0, 0], "another manager's")

    def test_an_answer_of_several_lines_stands_in_its_order_above_its_arrow(self):
        lines = ["BEGIN", "WORK 1 0 GET 'k'", "WORK 1 1 GET 'k'", "PREPARE 1", "SHOW", "AT 1 XA RECOVER"]
        svg = story(*lines)
        show, row = ["STORE 0", "ROWS 1", "T1", "STORE 1", "ROWS 1", "T1", "UNDECIDED 1", "DECIDED", "CLOSED"], "T1"
        for line, answer in ((5, show), (6, ["ROWS 1"])):
            message = list(call(svg, line))[-1]
            labels = [("".join(it.itertext()), it) for it in message.iter(f"{SVG}text")]
            self.assertEqual([text for text, _ in labels][:len(answer)], answer)
            heights = [float(it.get("y")) for _, it in labels]
            self.assertEqual(heights, sorted(set(heights)), "one below the other")
            self.assertEqual(len({it.get("x") for _, it in labels}), 1, "beside one another")
            head = next(it.get("d") for it in message.iter(f"{SVG}path"))
            self.assertGreater(float(head.split("l")[0].split()[1]), heights[-1], "and then their arrow")
        self.assertGreater(float(labels[-1][1].get("x")), float(svg.get("width")) / 2, "near the other client")
        self.assertIn(row, labels[-1][0])

    def test_what_cant_be_drawn_is_one_line(self):
        for words in (["nothing.calls"], [SCENARIOS[0], "--program", "/nothing"], [SCENARIOS[0], "--program", "/"]):
            ran = subprocess.run([PAGE / "sequence", "--program", PROGRAM, *words], capture_output=True, text=True)
            self.assertEqual((ran.returncode, ran.stdout, len(ran.stderr.splitlines())), (1, "", 1), words)
            self.assertTrue(ran.stderr.startswith("sequence: "))
        for words in (["--stores", "17", SCENARIOS[0]], ["--width", "9", SCENARIOS[0]], []):
            self.assertEqual(subprocess.run([PAGE / "sequence", *words], capture_output=True).returncode, 2)

    def test_png_without_a_browser(self):
        with tempfile.TemporaryDirectory() as folder:
            file = Path(folder) / "drawn.png"
            command = [PAGE / "sequence", "--program", PROGRAM, "--png", file, SCENARIOS[0]]
            ran = subprocess.run(command, capture_output=True, text=True, timeout=PATIENCE)
            self.assertEqual((ran.returncode, ran.stdout, ran.stderr), (0, "", ""))
            picture = file.read_bytes()
            self.assertEqual(picture[:8], b"\x89PNG\r\n\x1a\n")
            wide, high = (int.from_bytes(picture[at:at + 4], "big") for at in (16, 20))
            svg = drawn(SCENARIOS[0])
            self.assertEqual((wide, high), (2 * int(svg.get("width")), 2 * int(svg.get("height"))))
            self.assertGreater(len(picture), 30_000, "it isn't blank")
            os.symlink(sys.executable, Path(folder) / "python3")
            without = subprocess.run(command, capture_output=True, text=True, timeout=PATIENCE, env={"PATH": folder})
            advice = ("sequence: there is no rsvg-convert: install librsvg2-bin, or leave out --png and save PNG in "
                      "the page\n")
            self.assertEqual((without.returncode, without.stderr), (1, advice))

    def test_a_page_that_has_little_time_asks_again(self):
        lines = SCENARIOS[0].read_text().splitlines()
        with room(probe_seconds=0) as served:
            status, got = ask(served.server_port, "sequence", {"lines": lines})
            self.assertEqual((status, got["whole"]), (200, False))
            early = got["rows"]
        with room(probe_seconds=PATIENCE) as served:
            status, got = ask(served.server_port, "sequence", {"lines": lines})
            self.assertEqual((status, got["whole"]), (200, True))
            self.assertGreater(len(got["rows"]), len(early))
            self.assertEqual([it for it in early if it not in got["rows"]], [], "what was shown early is so")
            for bad in ({"lines": lines, "at": 99}, {"lines": lines, "width": 1}, {"lines": lines, "size": True},
                        {"lines": lines, "file": 1}, {"lines": "BEGIN"}):
                self.assertEqual(ask(served.server_port, "sequence", bad)[0], 400)

    def test_in_a_quiz_a_remark_is_kept_back_until_its_call_is_answered(self):
        lines = ["# one", "BEGIN", "# two", "", "# three", "ABANDON 1", "# four", "BEGIN", "# five"]
        remarks = ["one", "two", "three", "four", "five"]
        with room(probe_seconds=PATIENCE) as served:
            # by how many lines were given, how many remarks stand above what is answered; at the end all are told
            for at, told in ((0, 0), (1, 0), (2, 1), (3, 1), (5, 1), (6, 3), (7, 3), (8, 5), (9, 5)):
                for quiz, asked in ((True, False), (True, True), (False, False)):
                    status, got = ask(served.server_port, "sequence",
                                      {"lines": lines, "at": at, "quiz": quiz, "asked": asked})
                    self.assertEqual(status, 200)
                    seen = [said(it) for it in ET.fromstring(got["svg"]).iter(f"{SVG}g")
                            if "remark" in (it.get("class") or "").split()]
                    self.assertEqual(seen, remarks[:told] if quiz else remarks, (at, quiz, asked))
            self.assertEqual(ask(served.server_port, "sequence", {"lines": lines, "quiz": 1})[0], 400)

    def test_refusals_of_many_lines_dont_hold_the_program_up(self):
        with room() as served:
            status, got = ask(served.server_port, "sequence", {"lines": ["what"] * 3000})
            self.assertEqual((status, got["whole"]), (200, True))


class Drawn(View):
    view = "commit"

    def given(self):
        return int(self.browser.run("return document.querySelector('#sequence').dataset.given ?? 0"))

    def assert_apart(self, where):
        """No two labels lie over one another, and none is outside the drawing, which is no wider than its room."""
        boxes = self.browser.run(BOXES)
        width = float(self.browser.run("return document.querySelector('#sequence svg').getAttribute('width')"))
        self.assertGreater(len(boxes), 5)
        for at, (x, y, wide, high, text) in enumerate(boxes):
            self.assertGreaterEqual(x, 0, (where, text))
            self.assertLessEqual(x + wide, width, (where, text))
            for other in boxes[at + 1:]:
                across = min(x + wide, other[0] + other[2]) - max(x, other[0])
                down = min(y + high, other[1] + other[3]) - max(y, other[1])
                self.assertFalse(across > 0.5 and down > high * 0.3, (where, text, other[4]))
        self.assertEqual(self.browser.run(
            "const room = document.querySelector('.lanes-room'); return room.scrollWidth - room.clientWidth"), 0, where)
        self.assertEqual(self.browser.run("return document.documentElement.scrollWidth > innerWidth"), False, where)

    def turn_to(self, path, stores, at):
        """Opens another scenario in the page that is open, and waits until all of it is drawn, as wide as its room."""
        said = [line.strip() for line in path.read_text().splitlines() if line.strip() and not line.startswith("#")]
        calls = in_address(path.read_bytes())
        self.browser.run("location.hash = arguments[0]", f"#commit?calls={calls}&stores={stores}&at={at}")
        self.until(lambda: self.browser.run(DRAWN) == [at, True, said], f"{path.stem} at line {at} is drawn")

    def test_no_label_lies_over_another(self):
        self.open()
        for width, height, stores in ((1280, 800, 2), (1280, 800, 5), (1920, 1080, 5), (390, 844, 5), (390, 844, 3)):
            self.sized(width, height)
            for path in SCENARIOS:
                for at in (0, len(path.read_text().splitlines())):
                    self.turn_to(path, stores, at)
                    self.assert_apart((width, stores, path.stem, at))
                    self.assertEqual(self.browser.run(COVERED), [], (width, stores, path.stem, at))

    def count(self, css):
        return len(self.browser.all(f"#sequence {css}"))

    def test_what_waits_is_pale_and_nothing_shines_through_it(self):
        path = next(path for path in SCENARIOS if "crash_after" in path.stem)
        lines = path.read_text().splitlines()
        given = 1 + lines.index("PREPARE 1")
        self.addCleanup(self.browser.driver.execute_cdp_cmd, "Emulation.setEmulatedMedia", {"features": []})
        for scheme in ("light", "dark"):
            self.browser.driver.execute_cdp_cmd(
                "Emulation.setEmulatedMedia", {"features": [{"name": "prefers-color-scheme", "value": scheme}]})
            self.open(calls=path.read_text(), at=given)
            self.until(lambda: self.given() == given and self.count(".call") == len(lines), "drawn")
            seen = self.browser.run(WAITING)
            for part in ("labels", "arrows", "heads"):
                self.assertEqual(len(seen[part][1]), 1, (scheme, part, "one colour of what waits"))
                self.assertNotIn(seen[part][1][0], seen[part][0], (scheme, part))
            self.assertGreaterEqual(contrast(seen["labels"][1][0], seen["paper"]), 4.5, scheme)
            self.assertEqual(seen["opacity"], ["1"], scheme)
            self.assertEqual(len(seen["bands"]), 2, "both are in doubt")
            for bottom in seen["bands"]:
                self.assertLessEqual(bottom, seen["top"], "they end at the cursor")
                self.assertGreater(bottom, seen["top"] - 20)

    def test_the_words_stand_beside_it(self):
        self.open()
        self.assertEqual(self.browser.texts("#legend dt"), WORDS)

    def test_pictures_are_saved(self):
        self.open(calls=SCENARIOS[3].read_text())
        self.until(lambda: self.given() > 10, "all is answered")
        self.browser.run("""window.saved = [];
            const real = URL.createObjectURL;
            URL.createObjectURL = (blob) => { window.saved.push(blob); return real.call(URL, blob); };
            HTMLAnchorElement.prototype.click = function () { window.names = [...(window.names ?? []), this.download]; };""")
        for button, name in (("#save-svg", "sequence.svg"), ("#save-png", "sequence.png")):
            if not self.browser.run("return document.querySelector('#commit .more').open"):
                self.browser.push("#commit .more summary")
            self.browser.push(button)
            self.until(lambda name=name: name in self.browser.run("return window.names ?? []"), f"{name} is saved")
        svg = self.browser.driver.execute_async_script("const done = arguments[0]; window.saved[0].text().then(done)")
        self.assertEqual([it.tag for it in ET.fromstring(svg).iter() if it.get("role") == "button"], [])
        png = self.browser.driver.execute_async_script("""const done = arguments[0], reader = new FileReader();
            reader.onload = () => done(reader.result.split(',')[1]); reader.readAsDataURL(window.saved.at(-1))""")
        picture = base64.b64decode(png)
        self.assertEqual(picture[:8], b"\x89PNG\r\n\x1a\n")
        self.assertGreater(len(picture), 30_000, "it isn't blank")


if __name__ == "__main__":
    unittest.main()
