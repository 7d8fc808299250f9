"""Playing a story: one step is one message, at a pace; what is said of it; and who wants no motion has none."""
import unittest

from selenium.webdriver.common.keys import Keys
from support import PAGE, says
from views import View, in_address

CALLS = (PAGE / "scenarios/01_all_yes.calls").read_text()
BLOCKING = (PAGE / "scenarios/05_in_doubt_and_blocking.calls").read_text()
LINES = CALLS.splitlines()
FINISH = 1 + LINES.index("FINISH 1")
PREPARE = 1 + LINES.index("PREPARE 1")
# The messages of a call that are seen: those above the curtain.
SEEN = """const curtain = document.querySelector('#sequence .curtain');
    const top = curtain ? Number(curtain.getAttribute('y')) : Infinity;
    return [...document.querySelectorAll(`#sequence .call[data-line="${arguments[0]}"] .message`)]
        .filter((it) => it.getBBox().y < top).length;"""
# The rows beside lifelines at a call that nothing covers.
ON_TOP = """return [...document.querySelectorAll(`#sequence .call[data-line="${arguments[0]}"] .rows`)].flatMap((it) => {
    const box = it.querySelector('.rows-box').getBoundingClientRect();
    const seen = document.elementFromPoint(box.left + 4, box.bottom - 4)?.closest('.rows');
    return seen ? [[...seen.querySelectorAll('.row')].map((one) => one.textContent).join('')] : []; })"""
# Who stands otherwise than well, by the heads that stay.
HEADS = """return [...document.querySelectorAll('#sequence-heads :is(.in-doubt, .gone)')].map((it) =>
    `${it.querySelector('title').textContent}: ${it.matches('.gone') ? 'gone' : 'in doubt'}`)"""
# Counts what moves from now on.
WATCH = """window.moved = [];
    const real = Element.prototype.animate;
    Element.prototype.animate = function (...all) {
        window.moved.push(this.getAttribute('class')); return real.apply(this, all); };"""
# Keeps the steps of a story that plays until they are asked for, however fast the machine is.
HOLD = """const [set, clear] = [setTimeout, clearTimeout], paces = [350, 1000, 2200, 4000];
    window.held = null;
    window.setTimeout = (does, after, ...more) => {
        if (!paces.includes(after)) return set(does, after, ...more);
        window.held = [does, after];
        return -1; };
    window.clearTimeout = (timer) => { if (timer === -1) window.held = null; else clear(timer); };"""
GO_ON = "const held = window.held; window.held = null; held?.[0](); return held?.[1] ?? null"
# Keeps questions of this name from being answered until that is asked for.
LATE = """const ask = window.fetch;
    window.late = [];
    window.fetch = async (address, what) => {
        if (address.endsWith(arguments[0])) await new Promise((go) => window.late.push(go));
        return ask(address, what); };"""
ANSWER = "for (const go of window.late.splice(0)) go(); return document.querySelector('#progress-said').textContent"
# What is seen beside the drawing of rows, of what is in doubt, and how high each of these is.
BESIDE = """return ['#store-rows', '#doubt'].map((css) => {
    const room = document.querySelector(css);
    return [[...room.children].filter((it) => it.checkVisibility({ visibilityProperty: true }))
        .map((it) => it.matches('.hint') ? it.textContent : it.tagName), room.offsetHeight]; })"""
MAKING = "The drawing is being made."
# No drawing is made.
REFUSED = """const ask = window.fetch;
    window.fetch = (address, what) => address.endsWith('sequence')
        ? Promise.resolve(new Response('it was refused', { status: 503 })) : ask(address, what);"""
ROWS = """return [...document.querySelectorAll('#store-rows tbody')].map((store) => [...store.querySelectorAll('tr:not(.store)')]
    .map((row) => (row.matches('.changed') ? '*' : '') + [...row.children].map((it) => it.textContent).join(' ')).join())"""


class Playing(View):
    view = "commit"

    def place(self):
        """How many lines were given, and how many messages of the last one are shown, 0 for all."""
        return tuple(self.browser.run("""const found = new URLSearchParams(location.hash.split('?')[1]);
            const given = Number(document.querySelector('#sequence').dataset.given ?? 0);
            return [given, Number(found.get('message') ?? 0)]"""))

    def at(self, given, message=0):
        self.until(lambda: self.place() == (given, message), f"line {given}, message {message}: {self.place()}")

    def step(self, *wanted):
        self.browser.press(Keys.PAGE_DOWN)
        self.at(*wanted)

    def pace(self, name):
        self.browser.run("""const list = document.querySelector('#commit [data-pace]');
            list.value = [...list.options].find((it) => it.textContent === arguments[0]).value;
            list.dispatchEvent(new Event('change'));""", name)

    def go_on(self):
        """Has the step come that a story waits with which plays. How long it would have waited; None if none does."""
        waited = self.browser.run(GO_ON)
        self.browser.rest()
        return waited

    def moving(self, wanted):
        """Has the browser say that motion is wanted, or that it isn't."""
        self.browser.driver.execute_cdp_cmd("Emulation.setEmulatedMedia", {
            "features": [{"name": "prefers-reduced-motion", "value": "no-preference" if wanted else "reduce"}]})
        self.addCleanup(self.browser.driver.execute_cdp_cmd, "Emulation.setEmulatedMedia", {"features": []})

    def test_one_step_is_one_message(self):
        self.open(calls=CALLS, at=FINISH - 1)
        self.at(FINISH - 1)
        for message in range(1, 6):
            self.step(FINISH, message)
            self.until(lambda message=message: self.browser.run(SEEN, FINISH) == message, "it is seen, and no more")
            self.assertIn(f"message {message} of 6", self.browser.text("#progress-said"))
        self.step(FINISH)
        self.assertEqual(self.browser.run(SEEN, FINISH), 6)
        self.browser.press(Keys.PAGE_UP)
        self.at(FINISH, 5)
        self.browser.chord(Keys.ALT, Keys.ARROW_DOWN)
        self.at(FINISH)
        self.browser.press(Keys.PAGE_UP, Keys.PAGE_UP)
        self.at(FINISH, 4)
        self.reopen()
        self.at(FINISH, 4)
        self.until(lambda: self.browser.run(SEEN, FINISH) == 4, "the address has it")
        for message in (3, 2, 1):
            self.browser.press(Keys.PAGE_UP)
            self.at(FINISH, message)
        self.browser.press(Keys.PAGE_UP)
        self.until(lambda: self.place()[0] < FINISH, "the call before it")

    def test_alice_loses_10_before_bob_has_them(self):
        """Beside the drawing, as in it. A store that has heard how it ends is in doubt no more."""
        self.open(calls=CALLS, at=FINISH - 1)
        self.at(FINISH - 1)
        locked = ["alice 100 T1 makes it 90", "bob 100 T1 makes it 110"]
        self.until(lambda: self.browser.run(ROWS) == locked, "both are locked")
        for message, rows, doubt in [
                (1, locked, 2), (2, ["*alice 100 90 free", locked[1]], 1), (3, ["alice 90 free", locked[1]], 1),
                (4, ["alice 90 free", "*bob 100 110 free"], 0), (5, ["alice 90 free", "bob 110 free"], 0)]:
            self.step(FINISH, message)
            self.until(lambda rows=rows: self.browser.run(ROWS) == rows, f"{message}: {rows}")
            self.assertEqual(len(self.browser.all("#doubt .card")), doubt, message)
            self.assertEqual(self.browser.texts("#sequence-heads .in-doubt .role"), ["in doubt"] * doubt, message)

    def turn_to(self, calls, at):
        """Opens these calls in the page that is open."""
        self.browser.run("location.hash = arguments[0]", f"#commit?calls={in_address(calls.encode())}&at={at}")
        self.browser.rest()

    def test_what_stores_hold_is_said_once_it_is_drawn(self):
        """Until then, that the drawing is being made."""
        making, none = [MAKING], ["No store was asked for a row yet."]
        for calls, at, seen in (("BEGIN", 1, none), (CALLS, FINISH, ["TABLE"]), (CALLS, 0, none)):
            self.open()
            self.assertEqual(self.browser.run(BESIDE)[0][0], none, "no calls are open")
            self.browser.run(LATE, "sequence")
            self.turn_to(calls, at)
            self.until(lambda: self.browser.run("return window.late.length"), "a drawing is asked for")
            self.assertEqual(self.browser.run(BESIDE)[0][0], making)
            self.assertEqual(self.browser.one("#store-rows").get_attribute("aria-busy"), "true")
            self.browser.run(ANSWER)
            self.until(lambda seen=seen: self.browser.run(BESIDE)[0][0] == seen, f"{at}: {seen}")
            self.assertEqual(self.browser.one("#store-rows").get_attribute("aria-busy"), "false")

    def test_a_step_that_isnt_drawn_yet_says_so_and_moves_nothing(self):
        self.open(calls=CALLS, at=FINISH - 1)
        self.at(FINISH - 1)
        before = self.browser.run(BESIDE)
        self.assertEqual([seen for seen, _ in before], [["TABLE"], ["P", "P"]], "two rows are locked, and in doubt")
        self.browser.run(LATE, "sequence")
        self.browser.press(Keys.PAGE_DOWN)
        late = [[[MAKING], high] for _, high in before]
        self.until(lambda: self.browser.run(BESIDE) == late, "nothing else is said, and nothing has moved")
        self.browser.run(ANSWER)
        self.at(FINISH, 1)
        self.until(lambda: self.browser.run(BESIDE) == before, "as before: a message to a store changes nothing in it")

    def test_another_size_leaves_what_is_known(self):
        self.open(calls=CALLS, at=FINISH)
        self.at(FINISH)
        self.browser.run(LATE, "sequence")
        self.addCleanup(self.browser.press, "0")
        self.browser.press("+")
        self.until(lambda: self.browser.run("return window.late.length"), "it is drawn anew")
        self.assertEqual(self.browser.run(BESIDE)[0][0], ["TABLE"])
        self.assertEqual(self.browser.one("#store-rows").get_attribute("aria-busy"), "false")
        self.browser.run(ANSWER)

    def test_a_drawing_that_couldnt_be_made_is_told(self):
        self.open()
        self.browser.run(REFUSED)
        self.turn_to(CALLS, FINISH)
        self.until(lambda: "it was refused" in self.browser.text("#notices"), "why")
        self.assertEqual(self.browser.run(BESIDE)[0][0], ["The drawing couldn't be made."])

    def test_rows_are_seen_with_the_message_that_changed_them(self):
        """Though they stand beside the next one, which isn't seen yet."""
        self.open(calls=CALLS, at=FINISH - 1)
        self.at(FINISH - 1)
        self.step(FINISH, 1)
        self.assertEqual(self.browser.run(ON_TOP, FINISH), [])
        for message, rows in ((2, ["alice10090"]), (4, ["alice10090", "bob100110"])):
            self.browser.press(Keys.PAGE_DOWN)
            if message > 2:
                self.at(FINISH, 3)
                self.browser.press(Keys.PAGE_DOWN)
            self.at(FINISH, message)
            self.until(lambda rows=rows: self.browser.run(ON_TOP, FINISH) == rows, f"{message}: {rows}")

    def test_heads_say_who_is_in_doubt_and_who_is_gone(self):
        lines = BLOCKING.splitlines()
        prepare, stop, recover = (1 + lines.index(call) for call in ("PREPARE 1", "STOP", "RECOVER"))
        self.open(calls=BLOCKING, at=prepare - 1)
        self.at(prepare - 1)
        self.assertEqual(self.browser.run(HEADS), [])
        for _ in range(3):
            self.browser.press(Keys.PAGE_DOWN)
        self.at(prepare, 3)
        self.until(lambda: self.browser.run(HEADS) == ["Store 0: in doubt"], "it has voted")
        both = ["Store 0: in doubt", "Store 1: in doubt"]
        for given, wanted in ((prepare, both), (stop, ["Coordinator: gone", *both]), (recover, [])):
            self.browser.push(f'#sequence .call[data-line="{given}"] .go')
            self.at(given)
            self.until(lambda wanted=wanted: self.browser.run(HEADS) == wanted, f"line {given}: {wanted}")

    def test_a_scenario_leads_to_the_next_one(self):
        self.open(calls=CALLS, at=FINISH - 1)
        self.at(FINISH - 1)
        self.assertFalse(self.browser.one("#next-scenario").is_displayed(), "it isn't over")
        self.browser.chord(Keys.ALT, Keys.END)
        self.until(lambda: self.browser.text("#next-scenario") == "Next: a no vote", "it is")
        self.browser.push("#next-scenario")
        self.until(lambda: "vote" in self.browser.text("#calls-remark") and self.place() == (0, 0), "it begins")
        self.assertFalse(self.browser.one("#next-scenario").is_displayed())

    def test_each_message_is_said(self):
        self.open(calls=CALLS, at=PREPARE - 1)
        self.until(lambda: self.place()[0] == PREPARE - 1, "before the votes")
        said = "#commit-said[aria-live=polite]"
        for message, words in enumerate(["asks for votes", "asks store 0 to prepare", "Store 0 votes yes",
                                         "asks store 1 to prepare", "Store 1 votes yes"], 1):
            self.step(PREPARE, message)
            self.until(lambda words=words: words in self.browser.text(said), words)
            self.assertTrue(self.browser.one(said).is_displayed())
        self.assertEqual(self.browser.texts("#legend dt.now"), ["vote", "in doubt"], "its words are marked")
        self.step(PREPARE)
        self.until(lambda: self.browser.text(said) == f"Line {PREPARE}: PREPARE 1: READY. Branches in doubt: 2", "all")

    def test_it_plays_to_its_end_and_again(self):
        self.open(calls="BEGIN\nBEGIN", at=0)
        self.browser.run(HOLD)
        self.pace("very fast")
        play = '#commit [data-do="play"]'
        self.browser.listen(play)
        self.browser.push(play)
        for place in ((1, 1), (1, 0), (2, 1)):
            self.at(*place)
            self.assertEqual(self.go_on(), 350)
        self.at(2)
        self.assertEqual(self.browser.heard(), ["Pause", "Play"], "it has come to its end")
        self.pace("slow")
        self.browser.press("p")
        self.at(1, 1)  # it begins anew
        self.browser.press("p")
        self.assertEqual(self.browser.text(play), "Play", "it pauses")
        self.assertIsNone(self.go_on())
        self.assertEqual(self.place(), (1, 1))
        self.browser.press("p")
        self.at(1)
        self.assertEqual(self.browser.text(play), "Pause", "it goes on")
        self.assertEqual(self.go_on(), 4000)
        self.at(2, 1)
        self.browser.press(Keys.PAGE_UP)
        self.at(1)
        self.assertEqual(self.browser.text(play), "Play", "who steps plays no more")
        self.assertIsNone(self.go_on())

    def test_sessions_play_too(self):
        self.browser.go(f"{self.page.address}#sessions?script=1+PUT+'k','v'%0a2+GET+'k'%0a1+GET+'k'&at=0")
        self.until(lambda: len(self.browser.all("#pending > li")) == 3, "three lines wait")
        self.browser.run("sessionStorage.setItem('pace', 3)")
        self.browser.press("p")
        self.until(lambda: len(self.browser.all("#given > li")) == 3, "all were played")
        self.until(lambda: self.browser.text('#sessions [data-do="play"]') == "Play", "and that was all")

    def test_an_arrow_travels_but_not_where_no_motion_is_wanted(self):
        for wanted in (True, False):
            self.moving(wanted)
            self.open(calls=CALLS, at=FINISH - 1)
            self.at(FINISH - 1)
            self.browser.run(WATCH)
            self.step(FINISH, 1)
            self.step(FINISH, 2)
            if wanted:
                self.until(lambda: len(self.browser.run("return window.moved")) >= 5, "arrows, heads and the rows")
                moved = self.browser.run("return window.moved")
                self.assertEqual(len([it for it in moved if it.startswith("arrow")]), 2)
                self.assertEqual(len([it for it in moved if it.startswith("head-of")]), 2)
                self.assertIn("rows", moved)
            else:
                self.assertEqual(self.browser.run("return window.moved"), [])

    def crash(self, by_pointer):
        if by_pointer:
            self.browser.click('#sequence-heads .lane-head[data-lane="1"]')
        else:
            self.browser.press("x")

    def test_a_crash_at_the_message_that_is_shown(self):
        """By X and by a click on the coordinator: the calls are those of a stop, of which the program itself says what
        is recovered. Once more, and the coordinator recovers."""
        listed = says("stops", CALLS.encode())[0].decode().splitlines()
        recovered = {line: listed[at + 1] for at, line in enumerate(listed) if line.startswith("STOP ")}
        for line, message, statements, fails, by_pointer in [
                (PREPARE, 1, 0, "FAIL 0 AFTER 0", False), (PREPARE, 2, 2, "FAIL 1 AFTER 0", True),
                (FINISH, 3, 1, "FAIL 1 AFTER 0", False), (FINISH, 1, 0, "FAIL 0 AFTER 0", True)]:
            with self.subTest(line=line, message=message):
                self.open(calls=CALLS, at=line - 1)
                self.at(line - 1)
                for shown in range(1, message + 1):
                    self.step(line, shown)
                self.crash(by_pointer)
                self.at(line + 2)
                self.until(lambda: "Coordinator: gone" in self.browser.run(HEADS), "it is gone")
                given = self.browser.run("return new URLSearchParams(location.hash.split('?')[1]).get('calls')")
                self.assertEqual(given.splitlines(), [*LINES[:line - 1], fails, LINES[line - 1], "STOP", *LINES[line:]])
                self.crash(by_pointer)
                self.at(line + 3, 1)
                self.assertNotIn("Coordinator: gone", self.browser.run(HEADS))
                self.browser.chord(Keys.ALT, Keys.ARROW_DOWN)
                self.at(line + 3)
                self.assertEqual(self.browser.text("#calls-printed").splitlines()[0],
                                 recovered[f"STOP {line} {statements}"])
                self.assertEqual(self.browser.run(HEADS), [], "nothing is in doubt")

    def test_a_crash_behind_a_whole_call_and_none_without_calls(self):
        self.open()
        self.until(lambda: self.browser.one("#commit-welcome").is_displayed(), "nothing is open")
        self.browser.press("x")
        self.assertNotIn("STOP", self.browser.run("return location.hash"))
        self.open(calls=CALLS, at=PREPARE)
        self.at(PREPARE)
        self.browser.press("x")
        self.at(PREPARE + 1)
        self.until(lambda: self.browser.run(HEADS) == ["Coordinator: gone", "Store 0: in doubt", "Store 1: in doubt"],
                   "both have voted")

    def test_progress_leads_to_a_call(self):
        self.open(calls=CALLS, at=0)
        self.until(lambda: self.browser.text("#progress-said") == "0 of 9", "nothing is given")
        self.browser.focus("#progress")
        self.browser.press(Keys.ARROW_RIGHT, Keys.ARROW_RIGHT, Keys.ARROW_RIGHT)
        self.until(lambda: self.browser.text("#progress-said") == "3 of 9", "three calls")
        self.at(5)

    def test_progress_goes_on_from_where_it_was_moved(self):
        """Also while what it was moved to before is still to be answered."""
        self.open(calls=CALLS, at=0)
        self.browser.focus("#progress")
        self.browser.run(LATE, "talk")
        self.browser.press(Keys.ARROW_RIGHT)
        self.browser.press(Keys.ARROW_RIGHT)
        self.assertEqual(self.browser.run(ANSWER), "0 of 9", "nothing was answered")
        self.until(lambda: self.browser.text("#progress-said") == "1 of 9", "the first one is")
        self.browser.press(Keys.ARROW_RIGHT)
        self.until(lambda: self.browser.run(ANSWER) == "3 of 9", "three calls")
        self.at(5)
        self.assertEqual(self.browser.one("#progress").get_property("value"), "3")

    def test_a_quiz_asks_for_whole_calls_and_isnt_played(self):
        self.open(calls=CALLS, at=FINISH - 1)
        self.at(FINISH - 1)
        self.browser.push('#commit [data-do="quiz"]')
        self.until(lambda: not self.browser.one('#commit [data-do="play"]').is_enabled(), "it isn't played")
        self.browser.press(Keys.PAGE_DOWN)
        self.until(lambda: self.browser.one("#commit .quiz").is_displayed(), "it asks")
        self.browser.press(Keys.PAGE_DOWN)
        self.at(FINISH)

    def test_the_whole_of_each_choice_is_seen(self):
        """Of what is chosen, in every view, on a small screen too; and what it is about stands beside it."""
        fits = """const all = [...document.querySelectorAll('main:not([hidden]) select')];
            return all.filter((it) => it.checkVisibility()).flatMap((it) => {
            const pen = document.createElement('canvas').getContext('2d'), style = getComputedStyle(it);
            pen.font = `${style.fontSize} ${style.fontFamily}`;
            const room = it.clientWidth - parseFloat(style.paddingLeft) - parseFloat(style.paddingRight);
            return [...it.options].map((one) => one.textContent).filter((text) => pen.measureText(text).width > room + 1); })"""
        for size in ((1280, 800), (390, 844)):
            self.sized(*size)
            for view in ("sessions", "race", "judge", "commit"):
                self.browser.go(f"{self.page.address}#{view}")
                self.assertEqual(self.browser.run(fits), [], (size, view))
            self.open(calls=CALLS, at=0)
            self.until(lambda: len(self.browser.all("#stops option")) > 1 or self.browser.text("#stops"), "stops")
            self.assertEqual(self.browser.run(fits), [], (size, "stops"))
            self.assertEqual(self.browser.text("#calls-remark"), LINES[0].removeprefix("# "))


if __name__ == "__main__":
    unittest.main()
