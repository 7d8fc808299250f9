"""The view of races, driven by keys."""
import re
import unittest
from urllib.parse import unquote_plus

from selenium.webdriver.common.keys import Keys
from support import ROOT, help_of, says
from views import View, replies

WRITERS = (ROOT / "drivers/page/races/two_writers.script").read_bytes().partition(b"\n")[2]  # without its remark
CAUSE = re.findall(r"^\| 1399 \|.*\| ([^|]*?) \|$", (ROOT / "docs/STATEMENTS.md").read_text(encoding="utf-8"),
                   re.MULTILINE)[0].replace("`", "")
HUNG = """return [...document.querySelectorAll('#history .hung')].map((it) => [Number(it.dataset.session), Number(it.dataset.place),
    it.querySelector('.statement').textContent, it.querySelector('.reply').dataset.printed ?? it.querySelector('.reply').textContent])"""
PLAYED = """return [...document.querySelectorAll('#given .cell')].map((it) =>
    [Number(it.style.getPropertyValue('--column')), it.querySelector('.statement').textContent, it.querySelector('.reply').dataset.printed ?? it.querySelector('.reply').textContent])"""
ENTRIES = ("return [...document.querySelectorAll('#history tr.entry')].map((it) => [Number(it.dataset.place), "
           "it.querySelector('.canonical').title])")


class Race(View):
    view = "race"

    def race(self, times):
        self.browser.replace("#runs", str(times))
        self.browser.push('#race-form button[type="submit"]')
        self.until(lambda: self.browser.text("#race-progress") == f"{times} of {times} runs", "all runs came back")

    def bars(self):
        return [int(count) for count in self.browser.run(
            "return [...document.querySelectorAll('#histories .history')].map((it) => it.dataset.count)")]

    def opened(self):
        """The lines of the script that the address has in Sessions, or None elsewhere."""
        found = re.fullmatch(r"#sessions\?script=(.*)", self.browser.run("return location.hash"))
        return unquote_plus(found[1]).splitlines() if found else None

    def assert_drawn(self):
        """What is drawn is what the program printed: each entry at its place, each answer at its own, in its session's
        column."""
        text = self.browser.text("#race-printed")
        head, *lines = text.splitlines()
        count = int(head.removeprefix("HISTORY "))
        entries = [line.split(" ", 2) for line in lines[:count]]
        self.assertEqual(self.browser.run(ENTRIES), [[int(place), statement] for place, _, statement in entries])
        answers = [line.split(" ", 2) for line in lines[count:]]
        wanted = sorted([int(session), int(place), reply] for session, place, reply in answers)
        self.assertEqual(sorted([session, place, reply] for session, place, _, reply in self.browser.run(HUNG)), wanted)
        return text

    def test_histories_are_counted(self):
        self.open()
        self.browser.choose("#race-example", "first come")
        self.until(lambda: self.browser.one("#race-script").get_property("value").startswith("1 XA START 'a'"),
                   "the script")
        self.race(30)
        bars = self.bars()
        self.assertEqual(sum(bars), 30)
        self.assertEqual(bars, sorted(bars, reverse=True))
        self.assertIn(len(bars), (1, 2), "one of the two sessions is first")
        self.assert_drawn()

    def test_each_history_is_drawn_and_opened_as_one_order(self):
        self.open(script=WRITERS, runs=25, go=1)
        self.until(lambda: self.browser.text("#race-progress") == "25 of 25 runs", "all runs came back")
        self.assertEqual(sum(self.bars()), 25)
        self.pictures(height=1800)
        for at in range(min(3, len(self.bars()))):
            self.browser.push(f"#histories .history:nth-child({at + 1})")
            self.until(lambda at=at: self.browser.all(f"#histories .history:nth-child({at + 1})[aria-pressed=true]"),
                       "it is picked")
            self.assert_drawn()
            raced = sorted((session, statement, reply) for session, _, statement, reply in self.browser.run(HUNG))
            address = self.browser.run("return location.href")
            self.browser.push("#open-order")
            self.until(lambda: [f"{session} {statement}" for session, statement, _ in self.browser.run(PLAYED)]
                       == self.opened(), "the order is played")
            played = self.browser.run(PLAYED)
            self.assertEqual(sorted(map(tuple, played)), raced, "each statement is answered as in the race")
            order = "".join(f"{session} {statement}\n" for session, statement, _ in played).encode()
            self.assertEqual([reply for _, _, reply in played], replies(says("run", order)[0].decode()))
            self.browser.run("history.back()")
            self.until(lambda: self.browser.run("return location.href") == address, "back at the race")

    def test_a_history_stands_beside_its_bar(self):
        """Also that of the last bar, which is far down."""
        self.open(script=WRITERS, runs=40, go=1)
        self.until(lambda: self.browser.text("#race-progress") == "40 of 40 runs", "all runs came back")
        self.browser.push("#histories .history:last-child")
        self.until(lambda: self.browser.all("#histories .history:last-child[aria-pressed=true]"), "it is picked")
        places = """return ['#histories .history:last-child', '#history tbody tr'].map((it) => document.querySelector(it).getBoundingClientRect())
            .map((it) => it.top >= 0 && it.top < innerHeight)"""
        self.assertEqual(self.browser.run(places), [True, True])

    def test_one_session_has_one_history(self):
        """What enters nothing hangs before the entry at its place, and so it is played."""
        script = ["XA END 'a'", "XA START 'a'", "GET 'k'", "GET 'k'", "PUT 'k','v'", "XA PREPARE 'a'", "XA END 'a'",
                  "XA RECOVER", "XA PREPARE 'a'", "XA RECOVER CONVERT XID", "XA COMMIT 'a'", "GET 'k'"]
        enter = [False, True, True, False, True, False, True, False, True, False, True, False]
        self.open(script="\n".join(f"1 {statement}" for statement in script), runs=3, go=1)
        self.until(lambda: self.bars() == [3], "the same history three times")
        rows = self.browser.run("""return [...document.querySelectorAll('#history tbody tr')].map((row) =>
            [row.classList.contains('entry'), [...row.querySelectorAll('.statement')].map((it) => it.textContent)])""")
        self.assertEqual(rows, [[enters, [statement]] for enters, statement in zip(enter, script)])
        self.assertEqual(self.browser.texts("#history .rule"), [CAUSE] * 2, "a race doesn't say the state")
        self.browser.push("#open-order")
        self.until(lambda: len(self.browser.all("#given > li")) == len(script), "the order is played")
        self.assertEqual([statement for _, statement, _ in self.browser.run(PLAYED)], script)
        self.assertEqual(self.browser.texts("#given pre.rows"), ["1 1 0 0x61"])

    def test_its_state_is_in_the_address(self):
        self.open()
        self.browser.replace("#race-script", "1 PUT 'k','v'\n2 PUT 'k','w'")
        self.browser.replace("#capacity", "7")
        self.race(2)
        self.reopen()
        self.until(lambda: self.browser.text("#race-progress") == "2 of 2 runs", "it is raced anew")
        self.assertEqual(self.browser.one("#race-script").get_property("value"), "1 PUT 'k','v'\n2 PUT 'k','w'")
        self.assertEqual(self.browser.one("#capacity").get_property("value"), "7")

    def test_what_was_raced_is_there_on_return_and_gone_with_its_script(self):
        self.open(script=WRITERS, runs=3, go=1)
        self.until(lambda: sum(self.bars()) == 3, "all runs came back")
        seen = (self.bars(), self.browser.text("#race-printed"))
        self.browser.push('nav [data-view="judge"]')
        self.until(lambda: self.browser.one("#judge").is_displayed(), "another view")
        self.browser.push('nav [data-view="race"]')
        self.until(lambda: self.browser.one("#race").is_displayed(), "back")
        self.assertEqual((self.bars(), self.browser.text("#race-printed")), seen)
        self.assertEqual(self.browser.one("#race-script").get_property("value").encode(), WRITERS)
        self.browser.choose("#race-example", "first come")
        self.until(lambda: self.bars() == [], "these were another script's")
        self.assertFalse(self.browser.one("#one-history").is_displayed())

    def test_what_is_typed_is_in_the_address_before_it_is_raced(self):
        self.open()
        self.browser.replace("#race-script", "1 GET 'k'")
        self.browser.focus("#runs")
        self.assertEqual(self.browser.run("return location.hash"),
                         "#race?script=1+GET+'k'&seed=1&runs=50&capacity=1024")
        self.reopen()
        self.assertEqual(self.browser.one("#race-script").get_property("value"), "1 GET 'k'")
        self.assertEqual(self.bars(), [])

    def test_the_history_that_is_looked_at_is_in_the_address(self):
        script = "1 XA START 'a'\n2 XA START 'a'"
        self.open(script=script, runs=2, go=1)
        self.until(lambda: sum(self.bars()) == 2, "both runs came back")
        self.browser.push("#histories .history:last-child")
        looked_at = self.browser.text("#race-printed").split("HISTORY 1\n")[1].splitlines()[0]
        self.assertRegex(self.browser.run("return location.hash"), r"&go=1&history=[0-9a-f]{8}$")
        self.reopen()
        self.until(lambda: sum(self.bars()) == 2, "it is raced anew")
        said = self.browser.text("#notices")
        self.assertEqual(self.browser.text("#race-printed").splitlines()[1] == looked_at, said == "")
        self.open(script=script, runs=1, go=1, history="0")
        self.until(lambda: "didn't come in these runs" in self.browser.text("#notices"), "no history has that name")

    def test_faulty_lines_are_shown_as_the_program_names_them(self):
        script = b"1 XA START 'a'\nwhat <script>window.hacked=1</script>\n2 XA COMIT 'a'\n1 PUT '\xff'"
        self.open(script=script, go=1)
        self.until(lambda: self.browser.all("#race-faults li"), "the faulty lines")
        wanted = [f"{fault}: {line}" for fault, line in zip(says("race", script)[0].decode().splitlines(),
                                                            ["what <script>window.hacked=1</script>", "2 XA COMIT 'a'",
                                                             "1 PUT 'ff'"])]
        self.assertEqual(self.browser.texts("#race-faults li"), wanted)
        self.assertEqual(self.bars(), [])

    def test_a_full_history_is_said_so(self):
        self.open(script="1 PUT 'k','v'\n1 PUT 'k','w'", capacity=1, go=1)
        self.until(lambda: "status 3" in self.browser.text("#notices"), "the status")
        self.assertIn("log full", self.browser.text("#notices"))
        self.assertEqual(self.bars(), [])

    def test_the_options_are_the_programs(self):
        """Each option is passed on: where the program lacks it, that is said."""
        known = help_of("race")
        for option, box in [("--together", "#together"), ("--renew", "#renew"), ("--shuffle", "#shuffled")]:
            with self.subTest(option=option):
                self.open(script="1 PUT 'k','v'\n2 PUT 'k','w'", runs=3, seed="none")
                self.browser.focus(box)
                self.browser.press(Keys.SPACE)
                self.browser.push('#race-form button[type="submit"]')
                if option in known:
                    self.until(lambda: self.browser.text("#race-progress") == "3 of 3 runs", "it is raced")
                    self.assertEqual(sum(self.bars()), 3)
                    self.assert_drawn()
                else:
                    self.until(lambda: "status 2" in self.browser.text("#notices"), "the program's refusal")
                    self.assertRegex(self.browser.text("#notices"), re.escape(option))

    def test_remarks_and_parts_are_taken(self):
        """Remarks are left out, and a script in parts is raced by its outcomes, each shown with its statements."""
        script = "# Both write.\n1 PUT 'k','1'\n\nBESIDE\n1 GET 'k'\n2 PUT 'k','2'\nAFTER\n3 GET 'k'"
        self.open(script=script, runs=20, go=1)
        self.until(lambda: self.browser.text("#race-progress") == "20 of 20 runs"
                   and self.browser.all("#possible li.came"), "all runs came back")
        came = [int(count) for count in self.browser.run(
            "return [...document.querySelectorAll('#possible li.came')].map((it) => it.dataset.came)")]
        self.assertEqual(sum(came), 20)
        form, outcomes = self.browser.run("""const box = (css) => document.querySelector(css).getBoundingClientRect();
            return [box('#race-form').right, box('#all-outcomes').left]""")
        self.assertLessEqual(form, outcomes + 1, "the outcomes stand beside the form")
        listed = self.browser.run("return [...document.querySelectorAll('#possible > li')].map((it) => "
                                  "[...it.querySelectorAll('.answered li')].map((line) => line.textContent))")
        explored = says("explore", script.encode(), "--text")[0].decode()
        self.assertEqual(["\n".join(f"{line.split(' ')[0]} {line.rsplit(' ', 2 if 'VALUE' in line else 1)[1]}"
                                    for line in lines).split("\n")[0] for lines in listed], ["1 OK"] * len(listed))
        self.assertEqual(explored.count("\nOUTCOME "), len(listed))
        self.assertIn("1 GET 'k' VALUE '1'", [line for lines in listed for line in lines])
        self.assertIn("BESIDE or AFTER parts this script", self.browser.text("#race-parts"))
        self.browser.push("#possible li.came button")
        self.until(lambda: self.opened() and len(self.opened()) == 4, "its lines are opened in one order")
        self.assertEqual((self.opened()[0], self.opened()[-1]), ("1 PUT 'k','1'", "3 GET 'k'"))

    def test_what_came_once_is_said_so(self):
        self.open(script="1 GET 'k'", runs=1, go=1)
        self.until(lambda: self.browser.all("#possible li.came"), "the outcome")
        self.assertEqual(self.browser.texts("#possible .count"), ["came once"])
        self.assertRegex(self.browser.one("#histories .history").get_attribute("aria-label"), ": came once$")

    def test_a_faulty_line_behind_a_remark_has_its_own_number(self):
        self.open(script="# Two lines.\n1 PUT 'k','1'\n1 PUTT 'k'", go=1)
        self.until(lambda: self.browser.texts("#race-faults li"), "it is named")
        self.assertTrue(self.browser.texts("#race-faults li")[0].startswith("LINE 3 ERROR 1064"))

    def test_a_race_by_hand(self):
        script = "# Both want it.\n1 PUT 'k','1'\nBESIDE\n1 GET 'k'\n2 PUT 'k','2'\n2 GET 'k'\nAFTER\n3 GET 'k'"
        self.open(script=script)
        self.browser.push("#by-hand-begin")
        self.until(lambda: len(self.browser.all("#hand-next .go-next")) == 2, "two sessions can go")
        self.assertEqual(self.browser.texts("#hand-lines .reply"), ["OK"], "what comes first has come")
        self.assertIn("2 of 2 possible outcomes agree", self.browser.text("#hand-left"))
        self.browser.push('#hand-next [data-session="2"]')
        self.until(lambda: len(self.browser.all("#hand-lines .reply")) == 2, "session 2")
        self.browser.push('#hand-next [data-session="1"]')
        self.until(lambda: len(self.browser.all("#hand-lines .reply")) == 3, "session 1")
        self.assertEqual(self.as_printed("#hand-lines .reply")[-1], "VALUE 0x32")
        self.assertRegex(self.browser.text("#hand-left"), "1 of 2 possible outcomes agree")
        self.reopen()
        self.until(lambda: len(self.browser.all("#hand-lines .reply")) == 3, "the address has the order")
        self.browser.push('#hand-next [data-session="2"]')
        self.until(lambda: len(self.browser.all("#hand-lines .reply")) == 5, "the last, and what comes after")
        self.assertRegex(self.browser.text("#hand-left"), "This is outcome [12] of 2.")
        order = "1 PUT 'k','1'\n2 PUT 'k','2'\n1 GET 'k'\n2 GET 'k'\n3 GET 'k'\n"
        self.assertEqual(self.as_printed("#hand-lines .reply"), replies(says("run", order.encode())[0].decode()))
        self.browser.push("#hand-back")
        self.until(lambda: len(self.browser.all("#hand-lines .reply")) == 3, "one back")
        self.browser.push("#hand-again")
        self.until(lambda: len(self.browser.all("#hand-lines .reply")) == 1, "from the start")

    def test_a_race_by_hand_of_another_script_begins_anew(self):
        self.open(script="1 PUT 'k','1'\n2 GET 'k'", hand="1")
        self.until(lambda: self.as_printed("#hand-lines .reply") == ["OK"], "a step")
        self.browser.replace("#race-script", "3 PUT 'j','1'\n4 GET 'j'")
        self.browser.focus("#runs")
        self.until(lambda: self.browser.all('#hand-next [data-session="3"]'), "the new script's sessions")
        self.assertEqual(self.browser.texts("#hand-lines .reply"), [])
        self.assertRegex(self.browser.run("return location.hash"), r"\?script=3\+PUT.*&hand=0$")
        self.browser.push('#hand-next [data-session="4"]')
        self.until(lambda: self.as_printed("#hand-lines .reply") == ["NONE"], "a step in it")
        self.browser.replace("#runs", "7")
        self.browser.focus("#capacity")
        self.assertEqual(self.as_printed("#hand-lines .reply"), ["NONE"], "how often it is raced changes no step")
        self.assertRegex(self.browser.run("return location.hash"), r"&runs=7&.*&hand=4$")

    def test_a_session_that_is_pressed_behind_another_script_is_the_new_ones(self):
        """The box of the script loses the focus by the same click."""
        self.open(script="1 PUT 'k','1'\n2 GET 'k'", hand="0")
        self.until(lambda: len(self.browser.all("#hand-next .go-next")) == 2, "two sessions can go")
        self.browser.replace("#race-script", "1 GET 'j'\n2 GET 'k'")
        self.browser.click('#hand-next [data-session="1"]')
        self.until(lambda: "GET 'j'" in self.browser.text("#by-hand"), "the new script")
        self.assertNotIn("PUT", self.browser.text("#by-hand"))

    def test_a_blank_view_says_what_to_do(self):
        self.open()
        self.assertTrue(self.browser.one("#race-welcome").is_displayed())
        self.assertFalse(self.browser.one("#histories-title").is_displayed(), "no heading over nothing")
        self.browser.go(f"{self.page.address}#judge")
        self.assertTrue(self.browser.one("#judge-welcome").is_displayed())
        self.browser.go(f"{self.page.address}#commit")
        self.assertTrue(self.browser.one("#commit-welcome").is_displayed())
        self.browser.push("#first-scenarios button:first-child")
        self.until(lambda: self.browser.all("#sequence .call"), "a scenario is open")
        self.assertFalse(self.browser.one("#commit-welcome").is_displayed())

    def test_an_example_can_be_raced_at_once(self):
        self.open()
        self.assertEqual(self.browser.one("#race-script").get_property("value"), "1 XA START 'a'\n2 XA START 'a'")
        self.browser.push('#race-form button[type="submit"]')
        self.until(lambda: self.browser.text("#race-progress") == "50 of 50 runs", "all runs came back")
        self.assertEqual(sum(self.bars()), 50)

    def test_remarks_of_a_story_are_left_out(self):
        self.open()
        self.browser.choose("#race-example", "own writes")
        self.until(lambda: self.browser.one("#race-script").get_property("value").startswith("1 PUT 'k','old'"),
                   "the script without its remark")
        self.race(1)
        self.assert_drawn()


if __name__ == "__main__":
    unittest.main()
