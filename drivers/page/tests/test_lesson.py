"""The lesson of drivers/page/README.md#a-lesson-of-half-an-hour, step by step, by keys alone: what it says is what is
seen."""
import re
import unittest
from pathlib import Path

from selenium.webdriver.common.keys import Keys
from views import View

RUNS = 50
ROOT = Path(__file__).resolve().parents[3]
PAGE = (ROOT / "drivers/page/README.md").read_text(encoding="utf-8")
LESSON = PAGE.partition("\n## A lesson of half an hour\n")[2].partition("\n## ")[0]
# what the page tells a teacher to choose, to type and to see, and what the steps below do
NAMED = ["`two phase commit`", "At line 5 ", "After line 8 ", "Run to line 10.", "`GET 'alice'`", "`GET 'bob'`",
         "session 3: `VALUE '90'` and `NONE`", "`lock conflict`, and run to line 4.", "`two writers`",
         f"race it {RUNS} times", "`transfer`", "`17.0`", "`PREPARE 1`", "`19.0`", "`DECIDE 1`", "`FINISH`", "`SHOW`",
         "`STOP`", "`RECOVER`", "`dirty read`", "`lost while committing`"]


class Text(unittest.TestCase):
    def test_names(self):
        for words in NAMED:
            self.assertIn(" ".join(words.split()), " ".join(LESSON.split()))


class Lesson(View):
    view = "sessions"

    def given(self, view):
        if view == "sessions":
            return len(self.browser.all("#given > li"))
        return int(self.browser.run("return document.querySelector('#sequence').dataset.given ?? 0"))

    def run_to(self, view, line):
        self.browser.push(f'#{view} [data-line="{line}"] :is(.here, .go)')
        self.until(lambda: self.given(view) == line, f"run to line {line}")

    def say(self, session, statement):
        before = self.given("sessions")
        self.browser.type(f'#entry input[name="{session}"]', statement + Keys.ENTER)
        self.until(lambda: self.given("sessions") == before + 1, f"{statement} is answered")
        return self.browser.texts("#given .reply")[-1]

    def calls(self):
        return self.browser.run("return [...document.querySelectorAll('#sequence .call:not(.remark, "
                                ".blank)')].map((it) => it.dataset.said)")

    def replies(self):
        return self.browser.run(
            "return [...document.querySelectorAll('#sequence .call[data-answer]')].map((it) => it.dataset.answer)")

    def cards(self):
        return self.browser.run("""return [...document.querySelectorAll('#branches .card')].map((it) =>
            ['.xid', '.phase', '.owner'].map((part) => it.querySelector(part).textContent))""")

    def test_what_a_branch_holds(self):
        self.open()
        self.browser.choose("#story", "two phase commit")
        self.until(lambda: self.browser.all("#pending > li"), "the story waits")
        for line in range(2, 6):
            self.browser.chord(Keys.ALT, Keys.ARROW_RIGHT)
            self.until(lambda line=line: self.given("sessions") == line, "a step")
        self.assertEqual([card[0] for card in self.cards()], ["'transfer','credit',1", "'transfer','debit',1"],
                         "two branches of one transaction")
        self.run_to("sessions", 8)
        self.assertIn(["'transfer','debit',1", "PREPARED", "no owner"], self.cards())
        self.assertEqual(self.browser.text("#heads .s1 .seat"), "free")
        self.assertIn("'alice'", self.browser.text("#branches .card.prepared"), "it keeps its row")
        self.run_to("sessions", 10)
        self.assertEqual(self.say(3, "GET 'alice'"), "VALUE '90'")
        self.assertEqual(self.say(3, "GET 'bob'"), "NONE")

    def test_a_lock(self):
        self.open()
        self.browser.choose("#story", "lock conflict")
        self.until(lambda: self.browser.all("#pending > li"), "the story waits")
        self.run_to("sessions", 4)
        self.assertEqual(self.browser.texts("#given .rule"), [])
        self.browser.push('#sessions [data-do="step"]')
        self.until(lambda: self.given("sessions") == 5, "line 5")
        cell = re.search(r"^\| PUT, DEL \|[^|]*\| ([^|]*) \|",
                         (ROOT / "docs/STATEMENTS.md").read_text(encoding="utf-8"), re.MULTILINE)[1]
        self.assertTrue(cell.startswith("3572 "), cell)
        self.assertEqual(self.browser.text("#given li:last-child .rule .table"), f"PUT, DEL, ACTIVE: {cell}")

    def test_one_history(self):
        self.browser.go(f"{self.page.address}#race")
        self.browser.choose("#race-example", "two writers")
        self.until(lambda: self.browser.one("#race-script").get_property("value"), "the script")
        self.browser.replace("#runs", str(RUNS))
        self.browser.push('#race-form button[type="submit"]')
        self.until(lambda: self.browser.text("#race-progress") == f"{RUNS} of {RUNS} runs", "all runs came back")
        self.assertTrue(self.browser.one("#race-example").get_property("value"), "the example is named")
        self.browser.push("#histories .history:last-child")
        refused = self.browser.run(
            """return [...document.querySelectorAll('#history .hung')].filter((it) => it.querySelector('.refused'))
            .map((it) => it.querySelector('.statement').textContent.split(' ')[0])""")
        entered = sum(" PUT " in line for line in self.browser.text("#race-printed").split("\n") if "0x726f77" in line)
        self.assertEqual(entered + refused.count("PUT"), 2, "a PUT that is missing was refused")
        reads = self.browser.run("return [...document.querySelectorAll('#history .hung.s3')].map((it) => "
                                 "it.querySelector('.statement').textContent)")
        self.assertEqual(reads, ["GET 'row'"] * 2)
        self.browser.push("#open-order")
        self.until(lambda: self.given("sessions") == 12, "twelve statements in one order")

    def test_a_crash(self):
        self.browser.go(f"{self.page.address}#commit")
        self.browser.choose("#calls-example", "transfer")
        self.until(lambda: self.browser.texts("#stops optgroup option"), "the example is open")
        self.browser.choose("#stops", "17.0")
        self.until(lambda: self.calls() and self.calls()[-1].startswith("RECOVER"), "the stop's calls are open")
        prepare = self.browser.run("return [...document.querySelectorAll('#sequence .call')].find((it) => "
                                   "it.textContent.includes('PREPARE 1')).dataset.line")
        self.run_to("commit", int(prepare))
        self.assertEqual(len(self.browser.all("#sequence .doubt")), 3)
        self.browser.chord(Keys.ALT, Keys.END)
        self.until(lambda: self.browser.text("#doubt") == "No branch is in doubt.", "it is over")
        self.until(lambda: "RECOVERED committed 0 rolled back 3 missing 0" in self.replies(), "all is rolled back")
        self.browser.choose("#stops", "19.0")
        self.until(lambda: self.given("commit") == 0 and self.calls(), "the other stop's calls are open")
        self.browser.chord(Keys.ALT, Keys.END)
        self.until(lambda: "RECOVERED committed 3 rolled back 0 missing 0" in self.replies(), "all commits")

    def test_a_crash_of_ones_own(self):
        self.browser.go(f"{self.page.address}#commit")
        self.browser.push('#calls-form button[value="BEGIN"]')
        self.until(lambda: self.given("commit") == 1, "BEGIN")
        for store in "01":
            self.browser.replace("#k", store)
            before = self.given("commit")
            self.browser.push('#calls-form button[value="WORK n k s"]')
            self.until(lambda before=before: self.given("commit") == before + 1, "WORK")
        for call in ("PREPARE n", "DECIDE n", "FINISH n"):
            before = self.given("commit")
            self.browser.push(f'#calls-form button[value="{call}"]')
            self.until(lambda before=before: self.given("commit") == before + 1, call)
        cut = '#sequence [data-line="6"] .fail[data-store="1"]'
        self.until(lambda: self.browser.all(cut), "the calls of FINISH")
        self.browser.push(cut)
        self.until(lambda: self.given("commit") == 7, "it is carried out again")
        self.assertTrue(self.replies()[-1].startswith("UNFINISHED 1"))
        self.assertEqual(self.browser.texts("#doubt .card"), ["transaction 1, store 1"])
        for call, answer in [("SHOW", "CLOSED"), ("STOP", "STOPPED"),
                             ("RECOVER", "RECOVERED committed 1 rolled back 0 missing 0")]:
            before = self.given("commit")
            self.browser.push(f'#calls-form button[value="{call}"]')
            self.until(lambda before=before: self.given("commit") == before + 1, call)
            self.assertTrue(self.replies()[-1].endswith(answer), call)

    def test_who_may_say_so(self):
        self.browser.go(f"{self.page.address}#judge")
        self.browser.choose("#record-example", "dirty read")
        self.until(lambda: self.browser.one("#record").get_property("value"), "the record")
        self.browser.push('#judge-form button[type="submit"]')
        self.until(lambda: self.browser.text("#verdict").startswith("ILLEGAL at line 7:"), "the verdict")
        self.assertEqual(self.browser.texts("#record-lines .marked .could"), ["could be NONE"])
        self.browser.choose("#record-example", "lost while committing")
        self.until(lambda: "LOST" in self.browser.one("#record").get_property("value"), "the other record")
        self.browser.push('#judge-form button[type="submit"]')
        self.until(lambda: self.browser.text("#verdict").startswith("LEGAL"), "the verdict")
        self.browser.push("#play-order")
        self.until(lambda: self.browser.texts("#given .reply") == ["OK", "OK", "OK", "NONE", "OK", "VALUE '9'"],
                   "the order is played")


if __name__ == "__main__":
    unittest.main()
