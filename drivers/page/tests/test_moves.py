"""Where the page is after a story is chosen, after Back and Forward, and what is said to somebody who hears it."""
import unittest

from selenium.webdriver.common.keys import Keys
from support import PAGE, ROOT
from views import View

STORY = (ROOT / "cases/show/two_phase_commit.script").read_text()
CALLS = (PAGE / "scenarios/04_crash_after_the_decision.calls").read_text()
DOWN = "return document.querySelector(arguments[0]).scrollTop"


class Moves(View):
    view = "sessions"

    def given(self):
        return len(self.browser.all("#given > li"))

    def drawn(self):
        return int(self.browser.run("return document.querySelector('#sequence').dataset.given ?? 0"))

    def test_start_and_another_story_scroll_to_the_step(self):
        self.sized(1100, 640)
        self.open(script=STORY)
        self.until(lambda: self.given() == len(STORY.splitlines()) and self.browser.run(DOWN, ".columns") > 0,
                   "the end is in sight")
        self.browser.chord(Keys.ALT, Keys.HOME)
        self.until(lambda: self.browser.run(DOWN, ".columns") == 0, "the start is in sight")
        self.view = "commit"
        self.addCleanup(setattr, self, "view", "sessions")
        self.open(calls=CALLS)
        self.until(lambda: self.browser.run(DOWN, ".lanes-room") > 0, "the end is in sight")
        self.browser.choose("#calls-example", "all")
        self.until(lambda: self.browser.run(DOWN, ".lanes-room") == 0, "the start of another scenario is in sight")

    def test_back_and_forward_keep_the_position(self):
        self.open(script=STORY, at=5)
        self.until(lambda: self.given() == 5, "five lines")
        self.browser.press(Keys.PAGE_DOWN)
        self.until(lambda: self.given() == 6, "six lines")
        self.browser.run("""const list = document.querySelector('#story');
            list.value = [...list.options].find((it) => it.textContent.startsWith('lock')).value;
            list.dispatchEvent(new Event('change', { bubbles: true }));""")
        self.until(lambda: self.given() == 0 and self.browser.all("#pending > li"), "another story")
        self.browser.press(Keys.PAGE_DOWN)
        self.until(lambda: self.given() > 0, "a step in it")
        there = self.given()
        self.browser.push('nav [data-view="commit"]')
        self.until(lambda: self.browser.one("#commit").is_displayed(), "another view")
        self.browser.run("history.back()")
        self.until(lambda: self.browser.one("#sessions").is_displayed() and self.given() == there,
                   "back at the same step")
        self.browser.run("history.go(-1)")
        self.until(lambda: self.given() == 6, "back at the first story's step")
        self.browser.run("history.forward()")
        self.until(lambda: self.given() == there, "forward to the other's")

    def test_a_button_copies_the_link(self):
        """Also that to a transfer of one's own, whose calls it has."""
        self.view = "commit"
        self.addCleanup(setattr, self, "view", "sessions")
        self.open()
        self.browser.push("#own-transfer summary")
        self.browser.replace("#amount", "30")
        self.browser.push('#transfer-form button[type="submit"]')
        self.until(lambda: self.browser.all("#sequence .call.waiting"), "its calls wait")
        self.browser.listen("#copy-link")
        self.browser.push("#copy-link")
        self.until(lambda: "Copied" in self.browser.heard(), "it is copied")
        self.browser.replace("#any-call", "")
        self.browser.chord(Keys.CONTROL, "v")
        link = self.browser.one("#any-call").get_property("value")
        self.assertEqual(link, self.browser.run("return location.href"))
        self.browser.go(link)
        self.until(lambda: "WORK 1 0 PUT 'alice','70'" in self.browser.text("#sequence"),
                   "who gets the link sees the calls")

    def test_the_focus_goes_to_step_once_a_story_is_chosen(self):
        self.open()
        self.browser.choose("#story", "lock")
        self.until(lambda: self.browser.all("#pending > li"), "the story waits")
        self.browser.press(Keys.ENTER)
        self.until(lambda: self.browser.run("return document.activeElement.dataset.do") == "step", "the focus")
        self.browser.press(Keys.ENTER)
        self.until(lambda: self.given() > 0, "a step")

    def test_answers_are_announced(self):
        self.open(script="1 PUT 'k','v'\n2 GET 'k'", at=2)
        said = "#sessions-said[aria-live=polite]"
        self.until(lambda: self.browser.text(said) == "Line 2, session 2: GET 'k': VALUE 'v'", "the answer")
        self.view = "commit"
        self.addCleanup(setattr, self, "view", "sessions")
        self.open(calls=CALLS, at=8)
        self.until(lambda: self.browser.text("#commit-said[aria-live=polite]") == "Line 8: PREPARE 1: READY. Branches "
                   "in doubt: 2", "the answer, and what is in doubt")
        self.browser.go(f"{self.page.address}#race?script=1+PUT+'k','v'%0a2+GET+'k'&hand=1")
        self.until(lambda: self.browser.text("#hand-left[aria-live=polite]").startswith("Session 1: OK. "),
                   "the answer of a race by hand")
        self.browser.go(f"{self.page.address}#judge?record=1+>+GET+'k'%0a1+<+VALUE+'v'&go=1")
        self.until(lambda: self.browser.text("#verdict[role=status]").startswith("ILLEGAL at line 2"), "the verdict")


if __name__ == "__main__":
    unittest.main()
