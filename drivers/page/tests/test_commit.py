"""The view of two-phase commit, driven by keys, against the stored transcripts and the program's own lists."""
import re
import unittest

from selenium.webdriver.common.keys import Keys
from support import ROOT, says
from views import View

TRANSFER = (ROOT / "examples/stops/transfer.calls").read_text()
ROW = re.compile(r"(\d+) (\d+) \d+ 0x([0-9a-f]*)")


def in_doubt(calls, stores):
    """What `SHOW` lists behind these calls, for each store."""
    text = says("coordinate", "\n".join([*calls, "SHOW"]).encode() + b"\n", "--stores", str(stores))[0].decode()
    found = []
    for line in text[text.rindex("STORE 0"):].splitlines():
        row = ROW.fullmatch(line)
        if line.startswith("STORE "):
            found.append([])
        elif row:
            digits, split = row[3], 2 * int(row[2])
            parts = [f"0x{part}" if part else "X''" for part in (digits[:split], digits[split:])]
            found[-1].append(",".join([*parts, row[1]]))
    return found


class Commit(View):
    view = "commit"

    def given(self):
        return int(self.browser.run("return document.querySelector('#sequence').dataset.given ?? 0"))

    def waiting(self):
        return len(self.browser.all("#sequence .call.waiting"))

    def answers(self):
        """What the program printed for each call, its values as texts."""
        return self.browser.run(
            "return [...document.querySelectorAll('#sequence .call[data-answer]')].map((it) => it.dataset.answer)")

    def doubt(self):
        """The identifiers of the cards in doubt."""
        return self.browser.run("return [...document.querySelectorAll('#doubt .card')].map((it) => it.dataset.xid)")

    def marked(self, stores):
        """The branches whose bands reach over the end of each call: for each call the identifiers of each store, in
        order."""
        return self.browser.run("""const bands = [...document.querySelectorAll('#sequence .doubt')].map((it) => [it.dataset, it.querySelector('rect').getBBox()]);
            return [...document.querySelectorAll('#sequence .call')].map((call) => Array.from({ length: arguments[0] }, (_, store) =>
                bands.filter(([data, box]) => Number(data.store) === store && box.y < call.dataset.bottom && box.y + box.height > call.dataset.bottom - 1)
                    .map(([data]) => data.xid)))""", stores)

    def sessions(self, line):
        """What a line asked the stores for, and what they answered: the store, the statements and the last answer."""
        return self.browser.run("""const call = document.querySelector(`#sequence .call[data-line="${arguments[0]}"]`);
            const all = [...(call?.querySelectorAll('.message') ?? [])];
            const text = (it, css) => [...it.querySelectorAll(css)].map((part) => part.textContent).join(' ')
                .replace(/  +/g, ' ').replace(/^ack /, 'acknowledgement ');
            return all.filter((it) => it.matches('.inner')).map((it) => {
                const answer = it.matches('.broken') ? it : all[all.indexOf(it) + 1];
                return [Number(it.dataset.to) - 2, text(it, '.statement').split(', '),
                    text(answer, '.term.good, .term.bad, .reply, .bad')]; })""", line)

    def push(self, call):
        before = self.given()
        self.browser.push(f'#calls-form button[value="{call}"]')
        self.until(lambda: self.given() == before + 1, f"{call} is answered")

    def listed(self):
        """The stops that can be chosen."""
        return self.browser.texts("#stops optgroup option")

    def test_every_stop_is_shown(self):
        """Each stop that the program lists is offered, and the calls that show it are answered with what it
        recovers."""
        printed = says("stops", TRANSFER.encode())[0].decode().splitlines()
        stops = [(line.split()[1:], printed[at + 1]) for at, line in enumerate(printed) if line.startswith("STOP ")]
        self.open(calls=TRANSFER, at=0)
        self.until(lambda: len(self.listed()) == len(stops), "all stops are offered")
        for place, recovered in stops:
            with self.subTest(stop=place):
                self.open(calls=TRANSFER, at=0)
                self.until(lambda: len(self.listed()) == len(stops), "all stops are offered")
                self.browser.choose("#stops", ".".join(place))
                self.until(lambda: self.texts_of_last().startswith("RECOVER"), "its calls are open")
                self.browser.chord(Keys.ALT, Keys.END)
                self.until(lambda: self.given() and not self.waiting(), "all is answered")
                self.assertEqual(self.answers()[-1], recovered)
                self.assertEqual(len(self.listed()), len(stops), "the other stops are still offered")

    def texts_of_last(self):
        found = self.browser.run("return [...document.querySelectorAll('#sequence .call:not(.remark, "
                                 ".blank)')].map((it) => it.dataset.said)")
        return found[-1] if found else ""

    def test_calls_with_crashes_have_no_stops(self):
        self.open(calls="BEGIN\nFAIL 0 AFTER 0")
        self.until(lambda: self.given() == 2, "all is answered")
        self.assertEqual(self.listed(), [])

    def test_branches_are_shaded_from_the_vote_to_their_end(self):
        calls = ["BEGIN", "FAIL 1 AFTER 4", *[f"WORK 1 {store} PUT 'k','v'" for store in range(3)], "PREPARE 1",
                 "DECIDE 1", "FINISH 1", "STOP", "RECOVER", "SHOW"]
        self.open(calls="\n".join(calls))
        self.until(lambda: self.given() == len(calls) and len(self.sessions(6)) == 3, "all is answered")
        marks = self.marked(3)
        self.assertEqual(marks, [in_doubt(calls[:at + 1], 3) for at in range(len(calls))])
        some = [at for at, mark in enumerate(marks) if any(mark)]
        self.assertEqual(calls[some[0]], "PREPARE 1")
        self.assertEqual(calls[some[-1] + 1], "RECOVER")
        self.browser.push(f'#sequence .call[data-line="{some[0] + 1}"] .go')
        self.until(lambda: self.given() == some[0] + 1, "run to the vote")
        self.assertEqual(self.doubt(), [f"0x630000000000000001,0x0{store},22593" for store in range(3)])
        self.pictures()

    def test_a_transaction_by_buttons(self):
        self.open()
        self.push("BEGIN")
        self.push("WORK n k s")
        self.browser.replace("#k", "1")
        self.push("WORK n k s")
        self.push("PREPARE n")
        self.assertEqual(len(self.doubt()), 2)
        self.push("DECIDE n")
        self.assertEqual(self.browser.texts("#decisions dd"), ["none", "1", "none"])
        self.push("FINISH n")
        self.assertEqual(self.doubt(), [])
        self.browser.replace("#statement", "GET 'k'")
        self.push("AT k s")
        self.push("SHOW")
        self.push("BEGIN")
        self.assertEqual(self.browser.one("#n").get_property("value"), "2")
        self.push("ABANDON n")
        self.browser.type("#any-call", "  PREPARE 77 \n")
        self.until(lambda: self.given() == 11, "any call")
        calls = ["BEGIN", "WORK 1 0 PUT 'k','v'", "WORK 1 1 PUT 'k','v'", "PREPARE 1", "DECIDE 1", "FINISH 1",
                 "AT 1 GET 'k'", "SHOW", "BEGIN", "ABANDON 2", "PREPARE 77"]
        self.assertEqual("\n".join(self.answers()) + "\n",
                         says("coordinate", "\n".join(calls).encode() + b"\n", "--text")[0].decode())

    def test_a_crash_at_each_arrow_of_the_second_phase(self):
        """FAIL at the arrow to store 1, STOP behind its answer, RECOVER: decided, so the rest commits."""
        calls = ["BEGIN", *[f"WORK 1 {store} PUT 'k','v'" for store in range(3)], "PREPARE 1", "DECIDE 1", "FINISH 1"]
        self.open(calls="\n".join(calls))
        self.until(lambda: len(self.sessions(7)) == 3, "the calls of the second phase")
        self.assertEqual(self.sessions(2), [[0, ["XA START", "PUT 'k','v'"], "OK"]])
        self.assertEqual(self.sessions(5), [[store, ["XA END", "XA PREPARE"], "vote yes OK"] for store in range(3)])
        self.assertEqual(self.sessions(7), [[store, ["XA COMMIT"], "acknowledgement OK"] for store in range(3)])
        cut = '#sequence .call[data-line="7"] .fail[data-store="1"]'
        self.browser.focus(cut)
        self.assertEqual(self.browser.text("#cut-says"), self.browser.one(cut).get_attribute("aria-label"))
        self.assertEqual(self.browser.text("#cut-says"),
                         "Cut here: XA COMMIT doesn't reach store 1, nor does a later call of this session "
                         "(FAIL 1 AFTER 0 before line 7)")
        self.browser.press(Keys.ENTER)
        self.until(lambda: self.given() == 8, "the call fails")
        self.assertEqual(self.answers()[-2:], ["OK", "UNFINISHED 1: out of memory"])
        self.until(lambda: self.sessions(8) == [[0, ["XA COMMIT"], "acknowledgement OK"],
                                                [1, ["XA COMMIT"], "stopped: no answer"]], "the arrow is broken")
        self.assertIn("UNFINISHED 1: stopped", self.browser.text('#sequence .call[data-line="8"]'),
                      "it is said what happened")
        self.assertEqual(self.browser.run("return document.activeElement.dataset.line"), "7",
                         "the focus stays at the line")
        self.assertEqual(len(self.doubt()), 2)
        self.browser.focus('#sequence .call[data-line="8"] .stop')
        self.assertEqual(self.browser.text("#cut-says"), "Cut here: the coordinator crashes after line 8 (STOP)")
        self.browser.push('#sequence .call[data-line="8"] .stop')
        self.until(lambda: self.given() == 9, "the coordinator is stopped")
        self.assertEqual(len(self.browser.all("#sequence .cross.crash")), 1)
        self.push("RECOVER")
        self.assertEqual(self.answers()[-1], "RECOVERED committed 2 rolled back 0 missing 0")
        self.assertEqual(self.doubt(), [])
        self.assertIn("new coordinator", self.browser.text('#sequence .call[data-line="10"]'))
        found = ([["DISCONNECT", "XA RECOVER"], "1 prepared"], [["XA COMMIT of 1"], "acknowledgement OK"],
                 [["XA RECOVER"], "none"])
        none = [["DISCONNECT", "XA RECOVER"], "0 prepared"], [["XA RECOVER"], "none"]
        self.assertEqual(self.sessions(10),
                         [[store, *part] for store, parts in enumerate([none, found, found]) for part in parts])
        self.assertEqual("\n".join(self.answers()) + "\n",
                         says("coordinate", "\n".join([*calls[:6], "FAIL 1 AFTER 0", calls[6], "STOP",
                                                       "RECOVER"]).encode() + b"\n")[0].decode())

    def test_its_state_is_in_the_address(self):
        self.open()
        self.browser.replace("#stores", "5\n")
        self.browser.replace("#k", "4")
        for call in ("BEGIN", "WORK n k s", "PREPARE n"):
            self.push(call)
        self.assertEqual(len(self.browser.all("#sequence .head")), 3, "store 4 alone takes part")
        self.browser.push('#sequence .call[data-line="2"] .go')
        self.until(lambda: self.given() == 2, "one back")
        seen = (self.answers(), self.waiting())
        self.reopen()
        self.until(lambda: self.given() == 2, "what was seen")
        self.assertEqual((self.answers(), self.waiting()), seen)
        self.assertEqual(len(self.browser.all("#sequence .head")), 3)

    def test_a_store_that_isnt_there_is_said_so(self):
        self.open(calls="BEGIN")
        self.until(lambda: self.given() == 1, "begun")
        for wanted in ("3", "", "-1"):
            self.browser.replace("#k", wanted)
            self.browser.push('#calls-form button[value="WORK n k s"]')
            self.until(lambda: "There are 3 stores, 0 to 2." in self.browser.text("#notices"), "it is said")
            self.assertEqual(self.given(), 1, "nothing is given")
        for wanted, taken in (("17", "16"), ("0", "1")):
            self.browser.replace("#stores", f"{wanted}\n")
            self.until(lambda taken=taken: "There are 1 to 16 stores" in self.browser.text("#notices") and
                       self.browser.one("#stores").get_property("value") == taken, "the nearest is taken")

    def test_a_transfer_of_ones_own_is_kept_in_its_address(self):
        self.open()
        self.browser.push("#own-transfer summary")
        self.browser.replace("#from-name", "carol's")
        self.browser.replace("#to-store", "4")
        self.browser.replace("#amount", "30")
        self.browser.choose("#crash", "within")
        self.browser.push('#transfer-form button[type="submit"]')
        self.until(lambda: self.waiting() > 5, "the calls wait")
        self.reopen()
        self.until(lambda: self.waiting() > 5, "they are in the address")
        self.browser.chord(Keys.ALT, Keys.END)
        self.until(lambda: self.given() and not self.waiting(), "all is answered")
        self.assertEqual(self.answers()[-2:], ["VALUE '70'", "VALUE '130'"])
        self.assertEqual(self.answers()[-3], "RECOVERED committed 1 rolled back 0 missing 0")

    def fill_transfer(self, **parts):
        """Opens the form of a transfer, and asks for the calls of one that has these in place of what stands there."""
        self.open()
        self.browser.push("#own-transfer summary")
        for name, text in parts.items():
            self.browser.replace(f"#{name.replace('_', '-')}", text)
        self.browser.push('#transfer-form button[type="submit"]')

    def assert_no_transfer(self, part, said, **parts):
        """The part of the form at which it says what to do has the focus, and there are no calls."""
        with self.subTest(**parts):
            self.fill_transfer(**parts)
            self.until(lambda: self.browser.run("return document.activeElement.id") == part, f"the focus is at {part}")
            self.assertEqual(self.browser.run("return document.activeElement.validationMessage"), said)
            self.assertNotIn("calls", self.browser.run("return location.hash"))

    def test_a_form_says_why_it_is_no_transfer(self):
        self.assert_no_transfer("amount", "The payer has 5. Give a smaller amount, or let the payer have more.",
                                from_has="5")
        self.assert_no_transfer("to-name", "This is the payer's own row. Give another name or store.",
                                to_name="alice", to_store="0")
        self.assert_no_transfer("from-name", "A name has at most 64 bytes, and this one has 80. Give a shorter one.",
                                from_name="ä" * 40)
        self.assert_no_transfer("to-name", "Give a name.", to_name="")
        for amount in ("0", "-3", "1.5", "10.00000001", "1000001", ""):
            self.assert_no_transfer("amount", "Give a whole number from 1 to 1000000.", amount=amount)
        self.assert_no_transfer("to-has", "Give a whole number from 0 to 1000000.", to_has="-1")
        self.assert_no_transfer("to-store", "Give a whole number from 0 to 15.", to_store="0.00000001")

    def test_a_form_that_was_mended_is_a_transfer(self):
        self.assert_no_transfer("amount", "The payer has 9. Give a smaller amount, or let the payer have more.",
                                from_has="9")
        self.browser.replace("#from-has", "10")
        self.assertTrue(self.browser.run("return document.querySelector('#transfer-form').checkValidity()"))
        self.browser.push('#transfer-form button[type="submit"]')
        self.until(lambda: self.waiting() > 5, "the calls wait")

    def test_a_transfer_of_all_to_the_same_longest_name_in_another_store(self):
        self.fill_transfer(from_name="ä" * 32, to_name="ä" * 32, amount="100")
        self.until(lambda: self.waiting() > 5, "the calls wait")
        self.browser.chord(Keys.ALT, Keys.END)
        self.until(lambda: self.given() and not self.waiting(), "all is answered")
        self.assertEqual(self.answers()[-2:], ["VALUE '0'", "VALUE '200'"])

    def test_bytes_of_any_kind_are_shown_as_text(self):
        text = b"<img src=x onerror=window.hacked=1>\xff\n"
        xid = f"X'{text.hex()}',X''"
        calls = [f"AT 0 XA START {xid}", f"AT 0 XA END {xid}", f"AT 0 XA PREPARE {xid}", "AT 0 XA RECOVER",
                 "<b>what</b>", "# <script>window.hacked=1</script>"]
        self.open(calls="\n".join(calls))
        self.until(lambda: self.given() == len(calls), "all is answered")
        self.assertEqual(self.doubt(), [f"0x{text.hex()},X'',1"])
        self.assertIn("<img src=x onerror=window.hacked=1>\\ff", self.answers()[3])
        self.assertEqual(self.answers()[4], "ERROR 1064 (42000): syntax fault at byte 0")
        self.assertEqual(self.browser.all("#sequence img, #sequence b, #sequence script"), [])


if __name__ == "__main__":
    unittest.main()
