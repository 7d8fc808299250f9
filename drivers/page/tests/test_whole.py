"""The whole text of a label that is cut: by a finger and by keys, without a pointer that lies over it."""
import itertools
import unittest
import xml.etree.ElementTree as ET

from selenium.webdriver.common.keys import Keys
from support import PATIENCE, ask, room
from test_sequence import SVG, story
from views import View

LONG = "WORK 1 1 PUT 'key','" + "long " * 12 + "'"
CALLS = ["BEGIN", "WORK 1 0 GET 'k'", LONG, "PREPARE 1", "DECIDE 1", "FINISH 1", "AT 1 GET 'key'", f"AT 2 {LONG[9:]}"]
GIVEN = 4
SIZES = ((1280, 800), (390, 844))
FRAME = "#whole-text"
CUT = "#sequence .whole"
FIRST = f'{CUT}[data-line="3"]'
# Where all that can be pressed lies, and the drawing and its heads; and what lies on top there, if it is seen.
LAID = """const parts = document.querySelectorAll(`#commit :is(button, select, input, summary), header :is(a, button),
        #sequence > svg, #sequence-heads > svg, #commit aside > *, #commit-said`);
    return [...parts].filter((it) => it.checkVisibility({ visibilityProperty: true })).map((it) => {
        const { x, y, width, height } = it.getBoundingClientRect();
        const top = it.matches('#sequence > svg') ? null : document.elementFromPoint(x + width / 2, y + height / 2);
        return [it.tagName, it.id, x, y, width, height, top && `${top.tagName} ${top.id} ${top.textContent}`]; })"""
# Whether all of the frame is on the screen and on top of what lies there, and how it lies to its label.
SEEN = """const box = document.querySelector('#whole-text').getBoundingClientRect();
    const label = document.querySelector(arguments[0]).getBoundingClientRect();
    const isTop = (x, y) => Boolean(document.elementFromPoint(x, y)?.closest('#whole-text'));
    return [[[box.left + 3, box.top + 3], [box.right - 3, box.bottom - 3]].every(([x, y]) => isTop(x, y)),
        box.bottom <= label.top || box.top >= label.bottom]"""
IN_SIGHT = "document.querySelector(arguments[0]).scrollIntoView({ block: arguments[1] ?? 'center' })"
MOVING = "return document.querySelector('#whole-text').getAnimations({ subtree: true }).length"


class Whole(View):
    view = "commit"

    def shown(self):
        return self.browser.text(FRAME)

    def is_expanded(self, css):
        return self.browser.one(css).get_attribute("aria-expanded")

    def drawn(self, at=GIVEN, calls=CALLS):
        self.open(calls="\n".join(calls), at=at)
        self.until(lambda: self.browser.run("return document.querySelector('#sequence').dataset.whole") == "true",
                   "all is drawn")
        self.assertEqual(self.shown(), "")

    def tap(self, css):
        """Taps what is moved to the middle of the screen first, as a hand does."""
        self.browser.run(IN_SIGHT, css)
        self.browser.tap(css)

    def test_it_is_a_button_that_has_the_text(self):
        with room(probe_seconds=PATIENCE) as served:
            _, got = ask(served.server_port, "sequence", {"lines": CALLS, "width": 400})
        svg = ET.fromstring(got["svg"])
        buttons = [it for it in svg.iter(f"{SVG}g") if it.get("role") == "button"]
        whole = [it for it in buttons if it.get("data-act") == "whole"]
        for it in whole:
            self.assertTrue(it.get("aria-label").endswith("long '"))
            self.assertEqual((it.get("tabindex"), it.get("aria-expanded")), ("0", "false"))
            self.assertEqual(it.find(f"{SVG}title").text, it.get("aria-label"))
            self.assertTrue("".join(list(it.iter(f"{SVG}text"))[-1].itertext()).endswith("\N{HORIZONTAL ELLIPSIS}"))
        self.assertIn(LONG, [it.get("aria-label") for it in whole])
        self.assertIn(f"work XA START, {LONG[9:]}", [it.get("aria-label") for it in whole], "without the scissors")
        self.assertEqual([inner for it in buttons for inner in it.iter(f"{SVG}g") if inner is not it], [],
                         "no button is in another one")
        self.assertEqual([it for it in story(*CALLS).iter(f"{SVG}g") if it.get("role")], [], "a file has none")

    def test_a_tap_shows_it_and_another_takes_it_away(self):
        for width, height in SIZES:
            with self.subTest(width=width):
                self.sized(width, height)
                self.drawn()
                self.tap(FIRST)
                self.assertEqual((self.shown(), self.is_expanded(FIRST)), (LONG, "true"))
                self.browser.tap(FIRST)
                self.assertEqual((self.shown(), self.is_expanded(FIRST)), ("", "false"))
                self.browser.tap(FIRST)
                self.browser.tap(FRAME)
                self.assertEqual(self.shown(), LONG, "the frame itself may be touched")
                self.browser.tap("#sequence-heads")
                self.assertEqual((self.shown(), self.is_expanded(FIRST)), ("", "false"), "a tap elsewhere")
                self.browser.tap(FIRST)
                self.browser.press(Keys.ESCAPE)
                self.assertEqual((self.shown(), self.is_expanded(FIRST)), ("", "false"), "Escape")
                self.browser.tap(FIRST)
                self.browser.tap('#commit [data-do="step"]')
                self.assertEqual(self.shown(), "", "another message is shown")
                self.assertIn(f"at={GIVEN + 1}", self.browser.run("return location.hash"), "the tap was a step, too")

    def test_one_is_shown_at_a_time(self):
        self.sized(1280, 800)
        self.drawn()
        other = f'{CUT}[data-line="8"]'
        self.tap(FIRST)
        self.tap(other)
        self.assertEqual((self.shown(), self.is_expanded(FIRST), self.is_expanded(other)),
                         (CALLS[-1], "false", "true"))

    def test_keys_show_it(self):
        self.sized(390, 844)
        self.drawn()
        self.browser.listen(FRAME)
        for key in (Keys.ENTER, Keys.SPACE):
            self.browser.focus(FIRST)
            self.browser.press(key)
            self.assertEqual((self.shown(), self.is_expanded(FIRST)), (LONG, "true"))
            self.browser.press(key)
            self.assertEqual((self.shown(), self.is_expanded(FIRST)), ("", "false"))
            self.browser.press(key, Keys.ESCAPE)
            self.assertEqual(self.shown(), "")
            self.assertTrue(self.browser.run("return document.activeElement.matches(arguments[0])", FIRST),
                            "the focus stays where it was")
            self.browser.press(key)
            self.browser.press(Keys.TAB)
            self.assertEqual(self.shown(), "", "it isn't left over what has the focus now")
        self.assertEqual(self.browser.heard(), [LONG] * 6, "and a reader of the screen says it")
        frame = self.browser.one(FRAME)
        self.assertEqual((frame.get_attribute("role"), frame.get_attribute("aria-live")), ("status", "polite"))
        self.assertEqual(self.browser.text("#cut-says"), "", "nothing is to be cut there")
        self.assertIn(f"at={GIVEN}", self.browser.run("return location.hash"), "Space is no clicker's there")

    def test_escape_closes_it_alone(self):
        self.sized(1280, 800)
        self.drawn()
        self.browser.press("f")
        self.until(lambda: not self.browser.one("header").is_displayed(), "for a projector")
        self.tap(FIRST)
        self.assertEqual(self.shown(), LONG)
        self.browser.press(Keys.ESCAPE)
        self.assertEqual((self.shown(), self.browser.one("header").is_displayed()), ("", False))
        self.browser.press(Keys.ESCAPE)
        self.assertTrue(self.browser.one("header").is_displayed())

    def test_nothing_moves_and_no_tool_is_covered(self):
        for width, height in SIZES:
            self.sized(width, height)
            self.drawn(len(CALLS))
            count = len(self.browser.all(CUT))
            self.assertGreaterEqual(count, 3)
            for at, block in itertools.product(range(count), ("start", "center", "end")):
                self.browser.run("""for (const [at, it] of document.querySelectorAll(arguments[0]).entries())
                    it.setAttribute('data-at', at);""", CUT)
                css = f'{CUT}[data-at="{at}"]'
                self.browser.run(IN_SIGHT, css, block)
                before = self.browser.run(LAID)
                self.browser.tap(css)
                with self.subTest(width=width, label=at, block=block):
                    self.assertEqual(self.browser.run(LAID), before)
                    self.assertEqual(self.browser.run(SEEN, css), [True, True], "all of it, beside its label")
                    self.assertEqual(self.browser.run("return document.documentElement.scrollWidth > innerWidth"),
                                     False)
                self.browser.press(Keys.ESCAPE)

    def test_it_doesnt_move(self):
        self.addCleanup(self.browser.driver.execute_cdp_cmd, "Emulation.setEmulatedMedia", {"features": []})
        self.sized(390, 844)
        for wanted in ("reduce", "no-preference"):
            self.browser.driver.execute_cdp_cmd(
                "Emulation.setEmulatedMedia", {"features": [{"name": "prefers-reduced-motion", "value": wanted}]})
            self.drawn()
            self.tap(FIRST)
            self.assertEqual((self.shown(), self.browser.run(MOVING)), (LONG, 0), wanted)

    def test_what_is_too_long_for_the_screen_moves_in_it(self):
        self.sized(390, 844)
        self.drawn(1, ["AT 0 PUT 'k','" + "long " * 400 + "'"])
        down = f"return document.querySelector('{FRAME}').scrollTop"
        self.browser.run(IN_SIGHT, CUT)
        self.browser.focus(CUT)
        self.browser.press(Keys.ENTER)
        before = self.browser.run(f"return [scrollY, {down[7:]}]")
        self.browser.press(Keys.ARROW_DOWN)
        self.assertEqual(self.browser.run("return scrollY"), before[0], "not the page")
        self.assertGreater(self.browser.run(down), before[1])
        self.browser.press(Keys.ARROW_UP)
        self.assertEqual(self.browser.run(down), 0)


if __name__ == "__main__":
    unittest.main()
