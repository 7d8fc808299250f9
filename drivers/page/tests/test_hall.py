"""For a lecture hall: the projector, zoom, a clicker, the marked line, the quiz and the hand-out, and how much of it is
in sight on small and large screens."""
import re
import tempfile
import unittest
from itertools import permutations

from browser import the_browser
from racing import Racing, came, script_of
from selenium.webdriver.common.keys import Keys
from support import PAGE, ROOT, Page, says
from views import View

STORY = (ROOT / "cases/show/two_phase_commit.script").read_text()
CALLS = (PAGE / "scenarios/04_crash_after_the_decision.calls").read_text()
RECORD = (PAGE / "records/dirty_read.record").read_text()
LEAST = 28  # pixels of type on a projector of 1920
# The sizes of the letters that are seen, each with where they stand.
FONTS = """return [...document.querySelectorAll('body *')].filter((it) => it.checkVisibility({ visibilityProperty: true }) && !it.closest('.unseen') &&
    [...it.childNodes].some((node) => node.nodeType === 3 && node.data.trim()))
    .map((it) => [Math.round(10 * parseFloat(getComputedStyle(it).fontSize) * (it.getScreenCTM?.().a ?? 1)) / 10, `${it.tagName}.${it.className.baseVal ?? it.className} ${it.textContent.slice(0, 20)}`])"""
WIDE = "return document.documentElement.scrollWidth - document.documentElement.clientWidth"
# What can be moved sidewards, so that a part of it isn't seen.
SIDEWARDS = """return [...document.querySelectorAll('main:not([hidden]) :not(input, .unseen)')].filter((it) => it.checkVisibility()
    && it.scrollWidth > it.clientWidth + 1 && getComputedStyle(it).overflowX !== 'visible').map((it) => it.id || it.outerHTML.slice(0, 90))"""
IN_SIGHT = """return arguments[0].map((css) => {
    const box = document.querySelector(css).getBoundingClientRect();
    return box.width > 0 && box.left >= 0 && box.top >= 0 && box.right <= innerWidth + 1 && box.bottom <= innerHeight + 1; })"""
CONTROLS = """return [...document.querySelectorAll(`#${arguments[0]} > .tools > *`)].filter((it) => it.checkVisibility()).map((it) => {
    const box = it.getBoundingClientRect(); return (box.top + box.bottom) / 2; })"""

LEFT = "return document.querySelector('#race .left').scrollTop"
# How many pixels of a call's upper part are hidden by the heads or the tape of a telephone, or are above the screen.
OF_CALL = """const box = (css) => document.querySelector(css).getBoundingClientRect();
    const call = box(`#sequence .call[data-line="${arguments[0]}"]`);
    const [above, below] = [box('#sequence-heads svg').bottom, box('#commit .tape').top];
    const bottom = Math.min(call.bottom, call.top + (below - above));
    return Math.round(Math.max(0, above - call.top, bottom - below));"""
# Whether a message of a call, or the call where it has none or all are seen, begins between the heads and the words
# above the tape.
OF_MESSAGE = """const box = (css) => document.querySelector(css).getBoundingClientRect();
    const call = `#sequence .call[data-line="${arguments[0]}"]`, own = `${call} .message[data-step="${arguments[1]}"]`;
    const message = box(document.querySelector(own) ? own : call);
    const low = document.querySelector(own) ? message.bottom : message.top;
    return message.top >= box('#sequence-heads svg').bottom - 1 && low <= box('#commit-said').top + 1;"""


class Room(View):
    view = "sessions"

    def at(self, view, **state):
        self.view = view
        self.addCleanup(setattr, self, "view", "sessions")
        self.open(**state)

    def given(self):
        if self.view == "sessions":
            return len(self.browser.all("#given > li"))
        return int(self.browser.run("return document.querySelector('#sequence').dataset.given ?? 0"))

    def focused(self):
        return self.browser.run("return document.activeElement.dataset.do ?? document.activeElement.tagName")


class Hall(Room):
    def test_type_is_large_on_a_projector(self):
        self.sized(1920, 1080)
        for view, state, there in [("sessions", {"script": STORY, "at": 8}, "#given > li"),
                                   ("commit", {"calls": CALLS, "at": 9}, "#sequence .reply"),
                                   ("race", {"script": "1 PUT 'k','v'\n2 GET 'k'", "runs": 2, "go": 1},
                                    "#history .reply"), ("judge", {"record": RECORD, "go": 1}, "#picture svg")]:
            self.at(view, **state)
            self.until(lambda there=there: self.browser.all(there), f"{view} is drawn")
            self.browser.press("f")
            self.until(lambda: not self.browser.one("header").is_displayed(), "no tools")
            self.until(
                lambda view=view: not [it for it in self.browser.run(FONTS) if it[0] < LEAST],
                f"all type of {view} is large: " + str([it for it in self.browser.run(FONTS) if it[0] < LEAST][:5]))

    def test_a_blank_view_says_what_to_do_on_a_projector(self):
        self.sized(1920, 1080)
        for view, css in [("sessions", "#welcome"), ("race", "#race-welcome"), ("commit", "#commit-welcome"),
                          ("judge", "#judge-welcome"), ("server", "#server-welcome")]:
            self.at(view)
            self.until(lambda css=css: self.browser.one(css).is_displayed(), "it says what to do")
            self.browser.press("f")
            self.until(lambda: not self.browser.one("header").is_displayed(), "no tools")
            self.until(lambda css=css: self.browser.run(IN_SIGHT, [css]) == [True], f"{css} is seen")
            self.assertEqual([it for it in self.browser.run(FONTS) if it[0] < LEAST], [], view)
        for view, state, css in [("sessions", {"script": STORY}, "#welcome"),
                                 ("commit", {"calls": CALLS}, "#commit-welcome")]:
            self.at(view, **state)
            self.until(lambda: self.given() > 0, "something is open")
            self.browser.press("f")
            self.until(lambda: not self.browser.one("header").is_displayed(), "no tools")
            self.assertFalse(self.browser.one(css).is_displayed())

    def test_zoom(self):
        self.open(script=STORY, at=3)
        size = "return parseFloat(getComputedStyle(document.documentElement).fontSize)"
        before = self.browser.run(size)
        self.browser.press("+")
        self.until(lambda: self.browser.run(size) > before, "larger")
        self.browser.press("0")
        self.until(lambda: self.browser.run(size) == before, "as it was")
        self.browser.press("-")
        self.until(lambda: self.browser.run(size) < before, "smaller")
        self.browser.press("0")
        self.browser.type('#entry input[name="1"]', "+")
        self.assertEqual(self.browser.run(size), before, "in a text it is a letter")

    def test_a_question_mark_lists_all_keys(self):
        """Each key that a button says it has; and while they are listed, none does anything."""
        named = """return [...document.querySelectorAll('[aria-keyshortcuts]')].flatMap((it) =>
            it.getAttribute('aria-keyshortcuts').split(' ')).map((key) => key.replace('Arrow', ''))"""
        for view in ("sessions", "race", "commit", "judge", "server"):
            self.at(view)
            self.browser.press("?")
            self.until(lambda: self.browser.one("#keys").is_displayed(), f"they are listed in {view}")
            self.browser.press("?")
            self.until(lambda: not self.browser.one("#keys").is_displayed(), "it closes them")
        keys = {key for line in self.browser.texts("#keys dt") for key in line.split(", ")}
        self.assertLessEqual({"P", "X", "PageDown", "Alt+Down"}, set(self.browser.run(named)))
        self.assertLessEqual(set(self.browser.run(named)), keys)
        self.at("sessions", script=STORY, at=3)
        self.until(lambda: self.given() == 3, "three lines")
        self.browser.press("?")
        self.until(lambda: self.browser.one("#keys").is_displayed(), "they are listed")
        self.browser.press(Keys.PAGE_DOWN, "f", "+", Keys.ESCAPE)
        self.until(lambda: not self.browser.one("#keys").is_displayed(), "Escape closes them")
        self.assertEqual((self.given(), self.browser.one("header").is_displayed()), (3, True))
        self.browser.type('#entry input[name="1"]', "?")
        self.assertFalse(self.browser.one("#keys").is_displayed(), "in a text it is a letter")

    def place(self):
        """How many lines were given, and how many messages of the last one are seen, 0 for all."""
        return self.given(), int((re.search(r"&message=(\d+)", self.browser.run("return location.hash")) or "00")[1])

    def test_a_clicker_steps_in_every_mode(self):
        """By lines in Sessions, and by messages, of which a BEGIN has two, in Two-phase commit."""
        for view, state, places in [
                ("sessions", {"script": "1 PUT 'a','1'\n1 PUT 'a','2'\n1 PUT 'a','3'\n1 PUT 'a','4'", "at": 0},
                 [(1, 0), (2, 0), (1, 0), (0, 0)]),
                ("commit", {"calls": "BEGIN\nBEGIN\nBEGIN\nBEGIN", "at": 0}, [(1, 1), (1, 0), (1, 1), (0, 0)])]:
            self.at(view, **state)
            for mode in ("plain", "projected"):
                for key, wanted in zip((Keys.PAGE_DOWN, Keys.SPACE, Keys.PAGE_UP, Keys.PAGE_UP), places):
                    self.browser.press(key)
                    self.until(lambda wanted=wanted: self.place() == wanted, f"{view}, {mode}: {wanted}")
                self.browser.press("f")
            self.browser.focus(f"#{view} .tools select")
            self.browser.press(Keys.PAGE_DOWN)
            self.until(lambda: self.given() == 1, "also while a story is chosen")

    def test_a_clickers_space_steps_behind_a_click(self):
        """What was clicked last isn't pressed again."""
        lines = "\n".join(f"1 PUT 'k','{at}'" for at in range(6))
        for view, state, clicks in [
                ("sessions", {"script": lines}, [('#given > :nth-child(3) .here', 3), ('[data-do="back"]', 2),
                                                 ("#pending .remove", 2), *[('[data-do="quiz"]', 2)] * 2]),
                ("commit", {"calls": "BEGIN\n" * 5 + "BEGIN"}, [('.call[data-line="3"] .button.go', 3),
                                                              ('[data-do="back"]', 3), ('[data-do="back"]', 2),
                                                              *[('[data-do="quiz"]', 2)] * 2])]:
            self.at(view, **state, at=4)
            self.until(lambda: self.given() == 4, "four lines")
            for css, wanted in clicks:
                self.browser.click(f"#{view} {css}")
                self.until(lambda wanted=wanted: self.given() == wanted, f"{wanted} lines behind {css}")
                self.until(lambda: self.focused() == "step", f"Step has the focus behind {css}")
            self.browser.press(Keys.SPACE)
            self.until(lambda: self.given() == 3, "a step")
            self.browser.focus(f'#{view} [data-do="back"]')
            self.browser.press(Keys.SPACE)
            self.until(lambda: self.given() == 2, "a key's own button is pressed")
            self.assertEqual(self.focused(), "back", "and keeps the focus")

    def test_a_clickers_space_steps_behind_what_was_opened(self):
        for view, story in [("sessions", "#first-stories button"), ("commit", "#first-scenarios button")]:
            for opened in (self.browser.click, self.browser.push):
                self.at(view)
                self.until(lambda story=story: self.browser.all(story), "stories are offered")
                opened(f"{story}:first-child")
                self.until(lambda: self.focused() == "step", "Step has the focus")
                self.browser.press(Keys.SPACE)
                self.until(lambda: self.given() > 0, "a step")
        self.browser.push("#own-transfer summary")
        self.browser.click("#transfer-form .main")
        self.until(lambda: self.given() == 0 and self.focused() == "step", "the transfer is open")
        self.browser.press(Keys.SPACE)
        self.until(lambda: self.given() > 0, "a step in it")

    def test_the_current_line_is_marked(self):
        self.open(script=STORY, at=8)
        self.until(lambda: self.given() == 8, "eight lines")
        current = "return [...document.querySelectorAll('[aria-current=step]')].map((it) => it.dataset.line)"
        self.assertEqual(self.browser.run(current), ["8"])
        self.browser.press(Keys.PAGE_DOWN)
        self.until(lambda: self.browser.run(current) == ["9"], "it goes on")
        self.at("commit", calls=CALLS, at=5)
        self.until(lambda: self.browser.all("#sequence .current"), "it is marked")
        boxes = self.browser.run("""const box = (css) => document.querySelector(css).getBoundingClientRect();
            const [mark, call] = [box('#sequence .current'), box('#sequence .call[data-line="5"]')]; return [mark.top, call.top, call.bottom, mark.bottom]""")
        self.assertEqual(boxes, sorted(boxes))

    def test_a_story_is_in_sight_at_1280(self):
        self.sized(1280, 800)
        for view, state, needs in [
                ("sessions", {"script": STORY, "at": 9},
                 ["#heads", ".line.current", "#branches", "#rows", '#sessions [data-do="step"]', "#entry"]),
                ("commit", {"calls": CALLS, "at": 6}, ["#sequence-heads svg", '#sequence .call[data-line="6"]',
                                                       "#doubt", "#decisions", '#commit [data-do="step"]'])]:
            self.at(view, **state)
            self.until(lambda state=state: self.given() == state["at"], "it is answered")
            self.until(lambda needs=needs: self.browser.run(IN_SIGHT, needs) == [True] * len(needs), f"all of {needs}")
            self.assert_one_row(view)
            self.assertEqual(self.browser.run(WIDE), 0)

    def test_what_a_link_leads_to_is_below_the_heads(self):
        """Its statement too, though its answer is long."""
        script = (ROOT / "cases/show/lock_conflict.script").read_text()
        at = 1 + script.splitlines().index("2 PUT 'row','2'")
        for width, height in ((1280, 800), (1024, 768)):
            self.sized(width, height)
            self.at("sessions", script=script, at=at)
            self.until(lambda: self.given() == at, "it is answered")
            top, bottom = self.browser.run("""const box = (css) => document.querySelector(css).getBoundingClientRect();
                return [box('.line.current .statement').top, box('#heads').bottom];""")
            self.assertGreaterEqual(top, bottom)

    def assert_one_row(self, view):
        rows = self.browser.run(CONTROLS, view)
        self.assertLess(max(rows) - min(rows), 12, f"{view} has one row of tools")

    def test_the_tools_of_each_scenario_are_one_row_at_1280(self):
        """Also where its stops are offered."""
        self.sized(1280, 800)
        offered = 0
        for path in sorted((PAGE / "scenarios").glob("*.calls")):
            self.at("commit", calls=path.read_text(), at=2)
            self.until(lambda: self.given() == 2, "it is answered")
            stops = says("stops", path.read_bytes())[0].count(b"\nSTOP ")
            offered += stops > 0
            self.until(lambda stops=stops: len(self.browser.all("#stops option")) > stops, "its stops are offered")
            self.assert_one_row("commit")
        self.assertGreaterEqual(offered, 3)

    def test_a_telephone(self):
        self.sized(390, 844)
        for view, state in [("sessions", {}), ("sessions", {"script": STORY, "at": 9}), ("commit", {}),
                            ("commit", {"calls": CALLS, "at": 9}), ("race", {}),
                            ("race", {"script": "1 PUT 'k','v'\n2 GET 'k'", "runs": 2, "go": 1}), ("judge", {}),
                            ("judge", {"record": RECORD, "go": 1})]:
            self.at(view, **state)
            self.until(lambda: self.browser.run(WIDE) == 0, f"nothing of {view} is beside the screen")
            if state.get("at"):
                self.until(lambda: self.given() == 9, "it is answered")
                self.browser.press(Keys.PAGE_DOWN)
                self.until(lambda: self.given() > 9, "a step")
                current = (".line.current .cell" if view == "sessions"
                           else f'#sequence .call[data-line="{self.given()}"]')
                seen = [current, f'#{view} [data-do="step"]']
                self.until(lambda seen=seen: self.browser.run(IN_SIGHT, seen) == [True, True],
                           "what was answered is in sight, and Step")
                self.assertLessEqual(
                    *self.browser.run("""return [document.querySelector(arguments[0]).getBoundingClientRect().bottom,
                    document.querySelector(arguments[1]).closest('.tape').getBoundingClientRect().top + 1]""", *seen),
                    "the tools aren't over it")

    def test_three_sessions_are_cut_nowhere(self):
        """On a telephone, and on a projector of 1024 with its tools and without. Who turns the telephone sees lanes."""
        writers = (PAGE / "races/two_writers.script").read_text().partition("\n")[2]
        record = (PAGE / "records/handed_over.record").read_text()
        views = [("sessions", {"script": STORY}, "#given .reply"), ("commit", {"calls": CALLS}, "#sequence .reply"),
                 ("race", {"script": writers, "runs": 2, "go": 1}, "#history .s3"),
                 ("race", {"script": writers, "hand": "1.2.3"}, "#hand-lines .reply"),
                 ("judge", {"record": record, "go": 1}, "#picture .s3")]
        for width, height in ((1024, 768), (390, 844)):
            self.sized(width, height)
            for view, state, there in views:
                self.at(view, **state)
                self.until(lambda there=there: self.browser.all(there), f"{view} is drawn")
                for mode in ("plain", "projected") if width > 390 else ("plain",):
                    if mode == "projected":
                        self.browser.press("f")
                        self.until(lambda: not self.browser.one("header").is_displayed(), "no tools")
                    elif width > 390 and view in ("sessions", "commit"):
                        self.assert_one_row(view)
                    self.assertEqual((self.browser.run(WIDE), self.browser.run(SIDEWARDS)), (0, []),
                                     (width, view, mode))
        said = self.browser.texts("#picture .statement")
        self.assertEqual([it.partition(" > ")[0] for it in said], re.findall(r"(?m)^(\d) >", record))
        self.sized(844, 390)
        self.until(lambda: "Session 3" in self.browser.texts("#picture .session"), "a lane for each session")

    def test_a_step_of_calls_is_in_sight_on_a_telephone(self):
        """The page moves as a whole there, below the heads and above the tape."""
        self.sized(390, 844)
        self.at("commit", calls=CALLS)
        last = len(CALLS.splitlines())
        self.until(lambda: self.given() == last, "the end")
        self.until(lambda: self.browser.run(OF_CALL, last) == 0, "the last call is in sight")
        self.browser.click('#commit [data-do="start"]')
        self.until(lambda: self.given() == 0 and self.browser.run(OF_CALL, 1) == 0, "the first call is in sight")
        while self.given() < last:
            before = self.given()
            self.browser.click('#commit [data-do="call"]')
            self.until(lambda before=before: self.given() > before, "a call")
            self.until(lambda: self.browser.run(OF_CALL, self.given()) == 0, f"line {self.given()} is in sight")
        for _ in range(8):
            before = self.place()
            self.browser.click('#commit [data-do="back"]')
            self.until(lambda before=before: self.place() != before and self.browser.run(OF_MESSAGE, *self.place()),
                       f"back from line {before}, in sight")
        self.browser.push("#own-transfer summary")
        self.browser.push("#transfer-form .main")
        self.until(lambda: self.given() == 0 and self.browser.run(OF_CALL, 1) == 0, "a transfer is open, and seen")

    def test_a_race_by_hand_on_a_telephone(self):
        self.sized(390, 844)
        self.at("race", script="1 PUT 'k','1'\n2 GET 'k'\n3 GET 'k'", hand="0")
        self.until(lambda: len(self.browser.all("#hand-next .go-next")) == 3, "three sessions can go")
        for session in ("3", "1"):
            before = len(self.browser.all("#hand-lines .reply"))
            self.browser.push(f'#hand-next [data-session="{session}"]')
            self.until(lambda before=before: len(self.browser.all("#hand-lines .reply")) == before + 1,
                       "it is answered")
            self.until(lambda: self.browser.run(IN_SIGHT, ["#hand-lines .line.current .cell"]) == [True],
                       "the answer is in sight")
            self.assertEqual(self.browser.run(WIDE), 0)

    def test_a_quiz_in_sessions(self):
        self.open(script="1 PUT 'k','v'\n2 GET 'k'\n# It is locked.\n2 PUT 'j','1'\n1 XA END 'a'", at=0)
        self.browser.push('#sessions [data-do="quiz"]')
        self.browser.press(Keys.PAGE_DOWN)
        self.until(lambda: self.browser.one("#sessions .quiz").is_displayed(), "it asks")
        self.assertEqual((self.given(), self.browser.texts("#sessions .reply")), (0, []), "nothing is told")
        self.assertIn("What is line 1, 1 PUT 'k','v', answered?", self.browser.text("#sessions .quiz"))
        self.assertFalse(self.browser.one('#pending [data-line="3"]').is_displayed(), "nor a remark behind it")
        self.browser.type("#sessions .quiz input", "ok" + Keys.ENTER)
        self.until(lambda: self.browser.text("#sessions .quiz-said") == "Right. Line 1: OK (1 of 1)", "right")
        self.assertEqual(self.given(), 1)
        for guess, said in [("VALUE 'w'", "No. Line 2: VALUE 'v' (1 of 2)"), (None, "Line 4: OK"),
                            ("1399", "Right. Line 5: ERROR 1399")]:
            self.browser.push('#sessions [data-do="step"]')
            self.until(lambda: self.browser.one("#sessions .quiz").is_displayed(), "it asks")
            if guess is None:
                self.browser.push("#sessions .quiz .reveal")
            else:
                self.browser.type("#sessions .quiz input", guess + Keys.ENTER)
            self.until(lambda said=said: self.browser.text("#sessions .quiz-said").startswith(said), said)

    def remarks(self, *lines):
        """Which of them are seen."""
        return [self.browser.one(f'#sessions .caption[data-line="{line}"]').is_displayed() for line in lines]

    def test_a_quiz_hides_remarks_that_wait(self):
        """Also the one above what is asked, until the answer is told."""
        self.open(script="# Both.\n1 PUT 'k','v'\n# It is locked.\n2 PUT 'k','w'\n# So it was.\n2 GET 'k'", at=2)
        self.until(lambda: self.given() == 2, "two lines")
        self.assertEqual(self.remarks(1, 3, 5), [True, True, True], "without a quiz they are read")
        self.browser.push('#sessions [data-do="quiz"]')
        self.assertEqual(self.remarks(1, 3, 5), [True, False, False])
        self.browser.press(Keys.PAGE_DOWN)
        self.until(lambda: self.browser.all("#sessions .line.asked"), "it asks")
        self.assertEqual(self.remarks(1, 3, 5), [True, False, False])
        self.browser.press(Keys.PAGE_DOWN)
        self.until(lambda: self.given() == 4, "it is told")
        self.assertEqual(self.remarks(1, 3, 5), [True, True, False])
        self.browser.push('#sessions [data-do="quiz"]')
        self.assertEqual(self.remarks(5), [True], "the quiz is over")

    def test_a_drawing_is_told_of_the_quiz(self):
        """So that it leaves out the remarks that wait."""
        self.at("commit", calls="BEGIN\n# It is unknown.\nPREPARE 2", at=1)
        self.until(lambda: self.given() == 1, "a line")
        self.browser.run("""window.told = [];
            const ask = window.fetch;
            window.fetch = (address, what) => {
                if (address.endsWith('sequence')) window.told.push(JSON.parse(what.body).quiz);
                return ask(address, what); };""")
        for wanted in ([True], [True, False]):
            self.browser.push('#commit [data-do="quiz"]')
            self.until(lambda wanted=wanted: self.browser.run("return window.told") == wanted, "it is drawn anew")

    def test_what_a_quiz_asks_about_is_in_sight(self):
        self.sized(1280, 800)
        self.open(script=STORY, at=6)
        self.until(lambda: self.given() == 6, "six lines")
        self.browser.push('#sessions [data-do="quiz"]')
        self.browser.press(Keys.PAGE_DOWN)
        self.until(lambda: self.browser.all("#sessions .line.asked"), "it asks")
        bottoms = """return ['#sessions .line.asked .cell', '#sessions .columns']
            .map((css) => document.querySelector(css).getBoundingClientRect().bottom)"""
        self.until(lambda: self.browser.run(bottoms)[0] < self.browser.run(bottoms)[1], "all of the line")

    def test_what_a_quiz_of_calls_asks_about_is_in_sight(self):
        calls = (PAGE / "scenarios/02_a_no_vote.calls").read_text()
        for size in ((1280, 800), (390, 844)):
            self.sized(*size)
            self.at("commit", calls=calls, at=12)
            self.until(lambda: self.given() == 12, "twelve lines")
            self.browser.push('#commit [data-do="quiz"]')
            self.browser.press(Keys.PAGE_DOWN)
            self.until(lambda: "what is it answered?" in self.browser.text("#sequence"), "it asks")
            edges = """const box = (css) => document.querySelector(css).getBoundingClientRect();
                const asked = box('#sequence .call[data-line="14"]'), tape = box('#commit .tape');
                const end = innerWidth > 640 ? box('.lanes-room').bottom : tape.top;
                return [box('#sequence-heads svg').bottom, asked.top, asked.bottom, end]"""
            self.until(lambda edges=edges: sorted(self.browser.run(edges)) == self.browser.run(edges),
                       f"all of it, at {size}")

    def test_what_a_quiz_asks_is_heard(self):
        for view, state in [("sessions", {"script": "1 PUT 'k','v'"}), ("commit", {"calls": "BEGIN"})]:
            self.at(view, **state, at=0)
            said = f'#{view} .quiz-said[aria-live="polite"]'
            line = next(iter(state.values()))
            self.browser.push(f'#{view} [data-do="quiz"]')
            self.browser.press(Keys.PAGE_DOWN)
            self.until(lambda said=said, line=line: self.browser.text(said).strip() == f"What is line 1, {line}, "
                       "answered?", "the question")
            self.assertLessEqual(self.browser.one(said).size["height"], 1, "it is seen beside the box alone")
            self.browser.press(Keys.PAGE_DOWN)
            self.until(lambda said=said: self.browser.text(said).startswith("Line 1: "), "the answer")
            self.assertGreater(self.browser.one(said).size["height"], 1)

    def test_the_hint_in_the_box_of_guesses_is_read_to_its_end(self):
        self.sized(1280, 800)
        for view, state in [("sessions", {"script": STORY, "at": 6}), ("commit", {"calls": CALLS, "at": 4})]:
            self.at(view, **state)
            self.until(lambda state=state: self.given() == state["at"], "it is answered")
            self.browser.push(f'#{view} [data-do="quiz"]')
            self.browser.press(Keys.PAGE_DOWN)
            self.until(lambda view=view: self.browser.one(f"#{view} .quiz").is_displayed(), "it asks")
            needs, has = self.browser.run("""const box = document.querySelector(`#${arguments[0]} .quiz input`);
                const style = getComputedStyle(box), pen = document.createElement('canvas').getContext('2d');
                pen.font = `${style.fontSize} ${style.fontFamily}`;
                const inside = box.clientWidth - parseFloat(style.paddingLeft) - parseFloat(style.paddingRight);
                return [pen.measureText(box.placeholder).width, inside];""", view)
            self.assertGreater(needs, 100)
            self.assertLessEqual(needs, has, view)

    def test_a_guess_of_an_answers_name_is_right(self):
        """The numbers behind it needn't be guessed; a name that isn't the answer's is wrong."""
        self.at("commit", calls="BEGIN\nDECIDE 1\nRECOVER\nBEGIN", at=0)
        self.until(lambda: self.browser.all("#sequence .call"), "it is drawn")
        self.browser.push('#commit [data-do="quiz"]')
        for guess, said in [("transaction", "Right. Line 1: TRANSACTION 1 (1 of 1)"),
                            ("wrong stage", "Right. Line 2: WRONG STAGE 1"), ("recovered", "Right. Line 3: RECOVERED"),
                            ("ready", "No. Line 4: TRANSACTION 2 (3 of 4)")]:
            self.browser.press(Keys.PAGE_DOWN)
            self.until(lambda: self.browser.one("#commit .quiz").is_displayed(), "it asks")
            self.browser.type("#commit .quiz input", guess + Keys.ENTER)
            self.until(lambda said=said: self.browser.text("#commit .quiz-said").startswith(said), said)
            self.browser.focus('#commit [data-do="quiz"]')

    def test_a_race_by_hand_on_a_projector(self):
        """Who goes next is asked there too, and a digit answers; a clicker steps if one session alone is left, and
        back."""
        self.sized(1920, 1080)
        self.at("race", script="1 PUT 'k','1'\n2 GET 'k'\n2 GET 'k'", hand="0")
        self.until(lambda: len(self.browser.all("#hand-next .go-next")) == 2, "two sessions can go")
        self.browser.press("f")
        self.until(lambda: not self.browser.one("header").is_displayed(), "no tools")
        self.until(lambda: self.browser.run(IN_SIGHT, ["#hand-next .go-next"]) == [True], "it is asked")
        self.assertFalse(self.browser.one("#race .left").is_displayed())
        self.assertEqual([it for it in self.browser.run(FONTS) if it[0] < LEAST], [])
        self.browser.press("9")
        self.browser.press("2")
        self.until(lambda: self.as_printed("#hand-lines .reply") == ["NONE"], "session 2")
        self.browser.press("1")
        self.until(lambda: self.as_printed("#hand-lines .reply") == ["NONE", "OK"], "session 1")
        self.browser.press(Keys.PAGE_DOWN)
        self.until(lambda: self.as_printed("#hand-lines .reply") == ["NONE", "OK", "VALUE 0x31"], "what is left")
        self.browser.press(Keys.PAGE_UP)
        self.until(lambda: self.as_printed("#hand-lines .reply") == ["NONE", "OK"], "one back")

    def test_a_clicker_goes_through_outcomes(self):
        """Where a script has parts there are no histories to go through."""
        self.sized(1920, 1080)
        self.at("race", script="BESIDE\n1 PUT 'k','1'\n1 GET 'k'\n2 PUT 'k','2'\n2 GET 'k'\n3 GET 'k'", runs=5, go=1)
        self.until(lambda: self.browser.text("#race-progress") == "5 of 5 runs", "all runs came back")
        self.until(lambda: len(self.browser.all("#possible > li")) > 5, "the outcomes")
        self.browser.press("f")
        self.until(lambda: not self.browser.one("header").is_displayed(), "no tools")
        down = 0
        for key in (Keys.PAGE_DOWN, Keys.SPACE):
            self.browser.press(key)
            self.until(lambda down=down: self.browser.run(LEFT) > down + 100, "further down")
            down = self.browser.run(LEFT)
        self.browser.press(Keys.PAGE_UP)
        self.until(lambda: self.browser.run(LEFT) < down, "and up")

    def test_a_quiz_of_two_phase_commit(self):
        self.at("commit", calls=CALLS, at=7)
        self.until(lambda: self.given() == 7, "seven lines")
        self.browser.push('#commit [data-do="quiz"]')
        self.browser.press(Keys.PAGE_DOWN)
        self.until(lambda: "what is it answered?" in self.browser.text("#sequence"), "it asks")
        self.assertNotIn("vote yes", self.browser.text("#sequence"))
        self.browser.press(Keys.PAGE_DOWN)
        self.until(lambda: "vote yes" in self.browser.text("#sequence"), "it is told when it is asked for")
        self.assertEqual(self.browser.text("#commit .quiz-said"), "Line 8: READY")

    def test_a_hand_out(self):
        for view, state, css, count in [("sessions", {"script": STORY, "at": 3}, "#given > li",
                                         len(STORY.splitlines())),
                                        ("commit", {"calls": CALLS * 2, "at": 3}, "#sequence-pages svg > svg", 2)]:
            self.at(view, **state)
            self.until(lambda: self.given() == 3, "three lines")
            self.browser.run(
                f"""window.print = () => {{ window.handedOut = document.querySelectorAll({css!r}).length; }};""")
            self.browser.push(f"#{view} .more summary")
            self.browser.push(f'#{view} [data-do="print"]')
            self.until(lambda: self.browser.run("return window.handedOut ?? 0") >= count, "the whole story is printed")
            self.until(lambda: self.given() == 3, "and the page is where it was")
        dark = [{"name": "prefers-color-scheme", "value": "dark"}]
        self.browser.driver.execute_cdp_cmd("Emulation.setEmulatedMedia", {"media": "print", "features": dark})
        self.addCleanup(self.browser.driver.execute_cdp_cmd, "Emulation.setEmulatedMedia",
                        {"media": "", "features": []})
        self.assertFalse(self.browser.one("#commit .tools").is_displayed())
        self.assertTrue(self.browser.one("#sequence-pages svg").is_displayed())
        self.assertFalse(self.browser.one("#calls-form").is_displayed())
        style = "return getComputedStyle(document.querySelector(arguments[0]))[arguments[1]]"
        self.assertEqual(self.browser.run(style, "#sequence-pages .paper", "fill"), "rgb(255, 255, 255)",
                         "no ink for paper")
        self.assertEqual(self.browser.run(style, "#sequence-pages .statement", "fill"), "rgb(29, 33, 38)",
                         "dark on it, also if the screen is dark")
        self.assertIn("hatching", self.browser.run(style, "#sequence-pages .band", "fill"),
                      "what is in doubt is hatched")
        self.assertEqual(len(self.browser.all("#sequence #hatching .doubt-stripe")), 1, "and the stripes are there")
        self.at("sessions", script=STORY)
        self.until(lambda: self.given() == len(STORY.splitlines()), "all is answered")
        self.assertTrue(self.browser.one("#given .here").is_displayed(), "a hand-out has the lines' numbers")
        self.assertFalse(self.browser.one("#story-remark").is_displayed(), "the remark is among the lines")

    def test_no_page_of_a_hand_out_cuts_what_is_drawn(self):
        self.at("commit", calls=(PAGE / "scenarios/09_two_transactions_at_once.calls").read_text(), at=3, stores=5)
        self.until(lambda: self.given() == 3, "three lines")
        self.browser.run("""window.print = () => {
            document.querySelector('#sequence-pages').style.display = 'block'; // what isn't drawn has no size
            const pages = [...document.querySelectorAll('#sequence-pages svg > svg')];
            const parts = pages.map((it) => it.getAttribute('viewBox').split(' ').map(Number));
            window.ends = parts.slice(0, -1).map(([, top, , height]) => top + height);
            window.remarks = [...pages[0].querySelectorAll('.call.remark')].map((it) => Number(it.dataset.bottom));
            window.boxes = [...pages[0].querySelectorAll('.note-box, .label')].map((it) => it.getBBox())
                .map((box) => [box.y, box.y + box.height]); };""")
        self.browser.push("#commit .more summary")
        self.browser.push('#commit [data-do="print"]')
        self.until(lambda: self.browser.run("return window.boxes?.length ?? 0") > 20, "it is printed")
        ends, boxes, remarks = self.browser.run("return [window.ends, window.boxes, window.remarks]")
        self.assertGreaterEqual(len(ends), 1, "two pages or more")
        self.assertGreater(min(bottom - top for top, bottom in boxes), 5)
        self.assertEqual([(end, box) for end in ends for box in boxes if box[0] + 0.5 < end < box[1] - 0.5], [])
        self.assertEqual([end for end in ends if min(abs(end - it) for it in remarks) < 10], [],
                         "a remark stays with what follows it")


class Raced(Room):
    """Histories, which are what the test says."""

    @classmethod
    def setUpClass(cls):
        folder = tempfile.TemporaryDirectory()
        cls.addClassCleanup(folder.cleanup)
        cls.racing = Racing(folder.name)
        cls.page = Page(program=cls.racing.program)
        cls.addClassCleanup(cls.page.end)
        cls.browser = the_browser()
        cls.addClassCleanup(cls.browser.leave)

    def test_they_are_as_the_program_prints_them(self):
        self.assertEqual(says("race", script_of((1, 1)).encode())[0].decode(), came((1, 1)))

    def test_a_clickers_space_goes_on_behind_race_and_judge(self):
        self.racing.gives([(1, 2), (2, 1)])
        self.at("race", script=script_of((1, 2)), runs=2, seed=1)
        self.browser.click("#race-form .main")
        self.until(lambda: self.browser.text("#race-progress") == "2 of 2 runs", "all runs came back")
        self.assertEqual(self.focused(), "BODY")
        self.browser.press(Keys.SPACE)
        second = '#histories .history:nth-child(2)[aria-pressed="true"]'
        self.until(lambda: self.browser.all(second), "the next history")
        self.assertIn("&go=1&", self.browser.run("return location.hash"), "it isn't raced again")
        self.browser.click("#histories .history:first-child")
        self.until(lambda: not self.browser.all(second), "the first one is picked")
        self.browser.press(Keys.SPACE)
        self.until(lambda: self.browser.all(second), "the next one")
        self.at("judge", record=RECORD)
        self.browser.click("#judge-form .main")
        self.until(lambda: self.browser.all("#picture svg"), "it is judged")
        self.assertEqual(self.focused(), "BODY")

    def test_a_clicker_goes_through_histories_and_along_a_record(self):
        self.racing.gives([(1, 2), (2, 1), (2, 1)])
        self.at("race", script=script_of((1, 2)), runs=3, seed=1, go=1)
        self.until(lambda: self.browser.text("#race-progress") == "3 of 3 runs", "all runs came back")
        self.assertEqual(len(self.browser.all("#histories .history")), 2)
        pressed = (
            "return [...document.querySelectorAll('#histories .history')].map((it) => it.getAttribute('aria-pressed'))")
        for key, wanted in [(Keys.PAGE_DOWN, ["false", "true"]), (Keys.PAGE_UP, ["true", "false"])]:
            self.browser.press(key)
            self.until(lambda wanted=wanted: self.browser.run(pressed) == wanted, "the next one, and back")
        self.sized(1280, 800)
        self.at("judge", record=RECORD + "1 > GET 'k'\n1 < NONE\n" * 30, go=1)
        self.until(lambda: self.browser.all("#picture svg"), "it is drawn")
        down = "return document.querySelector('#picture').scrollTop"
        self.browser.press(Keys.PAGE_DOWN)
        self.until(lambda: self.browser.run(down) > 100, "further down")
        self.browser.press(Keys.PAGE_UP)
        self.until(lambda: self.browser.run(down) == 0, "and up")

    def test_a_clicker_keeps_the_marked_history_in_sight(self):
        """And behind the last one it goes on to the outcomes."""
        self.sized(1920, 700)
        orders = sorted(set(permutations((1, 1, 1, 2, 2, 2))))
        self.racing.gives(orders)
        self.at("race", script=script_of(orders[0]), runs=len(orders), seed=1, go=1)
        self.until(lambda: self.browser.text("#race-progress") == f"{len(orders)} of {len(orders)} runs",
                   "all runs came back")
        self.until(lambda: self.browser.all("#possible li"), "the outcomes")
        self.browser.press("f")
        self.until(lambda: not self.browser.one("header").is_displayed(), "no tools")
        count = len(self.browser.all("#histories .history"))
        marked = "#histories .history:nth-child({})[aria-pressed=true]"
        self.assertEqual(self.browser.run(IN_SIGHT, [f"#histories .history:nth-child({count})"]), [False],
                         "they are more than the screen holds")
        down = [(Keys.PAGE_DOWN, at) for at in range(2, count + 1)]
        up = [(Keys.PAGE_UP, at) for at in range(count - 1, 0, -1)]
        for key, at in [*down, *up, *down]:
            self.browser.press(key)
            self.until(lambda at=at: self.browser.all(marked.format(at)), f"history {at}")
            self.assertEqual(self.browser.run(IN_SIGHT, [marked.format(at)]), [True], f"history {at} is seen")
        before = self.browser.run(LEFT)
        self.browser.press(Keys.PAGE_DOWN)
        self.until(lambda: self.browser.run(LEFT) > before, "the outcomes below it")


if __name__ == "__main__":
    unittest.main()
