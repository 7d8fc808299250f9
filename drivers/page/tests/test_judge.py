"""The view of the judge: each form of a verdict from a program that gives it, and the built program's own where it has
the job."""
import re
import tempfile
import unittest

from browser import the_browser
from judging import Judging
from support import ROOT, Page, help_of, says
from views import View

RECORDS = {path.stem: path.read_bytes() for path in sorted((ROOT / "drivers/page/records").glob("*.record"))}
HAS_THE_JOB = bool(re.search(r"^ +judge ", help_of(), re.MULTILINE))


class Verdicts(View):
    """How a verdict is shown."""

    view = "judge"

    @classmethod
    def setUpClass(cls):
        folder = tempfile.TemporaryDirectory()
        cls.addClassCleanup(folder.cleanup)
        cls.judging = Judging(folder.name)
        cls.page = Page(program=cls.judging.program)
        cls.addClassCleanup(cls.page.end)
        cls.browser = the_browser()
        cls.addClassCleanup(cls.browser.leave)

    def judge(self, record, verdict, status):
        self.judging.gives(verdict, status)
        self.open(record=record, go=1)
        self.until(lambda: self.browser.text("#verdict"), "a verdict")
        self.assertEqual(self.browser.text("#judge-printed").encode(), verdict)
        return self.browser.text("#verdict")

    def marked(self):
        return self.browser.run(
            "return [...document.querySelectorAll('#record-lines .marked')].map((it) => Number(it.dataset.line))")

    def test_a_legal_record_is_played(self):
        """Three statements that overlap, and the one order in which they can have been."""
        record = b"1 > PUT 'k','v'\n2 > GET 'k'\n2 < NONE\n1 < OK\n2 > GET 'k'\n2 < VALUE 'v'\n"
        order = b"2 GET 0x6b\n1 PUT 0x6b,0x76\n2 GET 0x6b\n"
        self.assertRegex(self.judge(record, b"LEGAL\n" + order, 0), "^LEGAL")
        self.assertEqual(self.marked(), [])
        self.browser.push("#play-order")
        self.until(lambda: len(self.browser.all("#given > li")) == 3, "the order is played")
        self.assertEqual(self.browser.text("#printed"), "2 VALUE 0x76\n  ROW 0x6b VALUE 0x76\n")
        self.assertEqual(self.browser.texts("#given .statement"), ["GET 'k'", "PUT 'k','v'", "GET 'k'"])
        self.assertEqual(self.browser.texts("#given .reply"), ["NONE", "OK", "VALUE 'v'"])
        self.assertEqual(self.as_printed("#given .reply"),
                         [line.split(" ", 1)[1] for line in says("run", order)[0].decode().splitlines()])

    def test_an_illegal_line_is_marked_with_what_could_have_been_answered(self):
        record = RECORDS["dirty_read"]
        place = record.split(b"\n").index(b"2 < VALUE '9'") + 1
        got = self.judge(record, b"ILLEGAL line %d\nCOULD BE NONE\n" % place, 4)
        self.assertRegex(got, f"^ILLEGAL at line {place}:")
        self.assertEqual(self.marked(), [place])
        self.assertEqual(self.browser.texts("#record-lines .marked .could"), ["could be NONE"])
        self.assertFalse(self.browser.one("#play-order").is_displayed())
        self.pictures()

    def test_lists_that_could_have_been_answered(self):
        could = b"COULD BE ROWS 0\nCOULD BE ROWS 1\n1 1 0 0x61\nCOULD BE ERROR 1399 (XAE07): XAER_RMFAIL state ACTIVE\n"
        self.judge(b"1 > XA RECOVER\n1 < ROWS 1\n1 1 0 0x62\n", b"ILLEGAL line 2\n" + could, 4)
        self.assertEqual(self.marked(), [2])
        self.assertEqual(self.browser.texts("#record-lines .could"),
                         ["could be ROWS 0", "could be ROWS 1\n1 1 0 0x61",
                          "could be ERROR 1399 (XAE07): XAER_RMFAIL state ACTIVE"])

    def test_an_undecided_line_is_marked(self):
        self.assertRegex(self.judge(b"1 > GET 'k'\n1 < NONE\n", b"UNDECIDED line 2\n", 5), "^UNDECIDED at line 2:")
        self.assertEqual(self.marked(), [2])

    def test_a_record_in_which_nothing_happens_is_said_so(self):
        self.assertRegex(self.judge(b"# nothing yet\n\n", b"EMPTY\n", 7), "^EMPTY: nothing happens")
        self.assertEqual(self.marked(), [])
        self.assertFalse(self.browser.one("#play-order").is_displayed())

    def test_faulty_lines_are_marked_with_their_causes(self):
        record = b"1 > GET 'k'\n1 > GET 'k'\nwhat <script>window.hacked=1</script>\n"
        got = self.judge(record, b"LINE 2: session 1 has an open call\nLINE 3: not a line of a record\n", 6)
        self.assertRegex(got, "^No verdict")
        self.assertEqual(self.marked(), [2, 3])
        self.assertEqual(self.browser.texts("#record-lines .fault"),
                         ["session 1 has an open call", "not a line of a record"])

    def test_a_program_that_ends_is_said_so(self):
        self.assertIn("status 3", self.judge(b"1 > GET 'k'\n", b"", 3))

    def test_bytes_go_as_they_are(self):
        record = b"1 > PUT '\xff\xfe<b>','\x01'\n1 < OK\n# <script>window.hacked=1</script>"
        self.judge(record, b"LEGAL\n1 PUT 0xfffe3c623e,0x01\n", 0)
        given, words = self.judging.was_given()
        self.assertEqual((given, words), (record, ["judge", "--quiet", "--strict-calls", "--limit", "100000"]))
        self.assertEqual(self.browser.texts("#record-lines li")[0], "1 > PUT 'fffe<b>','01'")

    def test_an_example_can_be_judged_at_once(self):
        self.judging.gives(b"ILLEGAL line 7\nCOULD BE NONE\n", 4)
        self.open()
        record = (ROOT / "drivers/page/records/dirty_read.record").read_text()
        self.assertEqual(self.browser.one("#record").get_property("value"), record)
        self.assertIn(self.browser.text("#record-remark"), record.splitlines()[0])
        self.browser.push('#judge-form button[type="submit"]')
        self.until(lambda: self.browser.text("#verdict").startswith("ILLEGAL at line 7:"), "the verdict")

    def test_an_example_is_judged_by_keys_and_its_state_is_in_the_address(self):
        self.judging.gives(b"UNDECIDED line 3\n", 5)
        self.open()
        self.browser.choose("#record-example", "handed over")
        self.until(lambda: self.browser.one("#record").get_property("value").startswith("# Session 1 prepares"),
                   "the record")
        self.browser.replace("#limit", "7")
        self.browser.push('#judge-form button[type="submit"]')
        self.until(lambda: self.marked() == [3], "the verdict")
        self.assertEqual(self.judging.was_given(),
                         (RECORDS["handed_over"], ["judge", "--quiet", "--strict-calls", "--limit", "7"]))
        self.reopen()
        self.until(lambda: self.marked() == [3], "the verdict again")
        self.assertEqual(self.browser.one("#limit").get_property("value"), "7")


class Program(View):
    """What the built program says."""

    view = "judge"

    def test_the_program_judges_or_says_that_it_cannot(self):
        for name, record in RECORDS.items():
            with self.subTest(record=name):
                self.open(record=record, go=1)
                self.until(lambda: self.browser.text("#verdict"), "a verdict")
                if not HAS_THE_JOB:
                    self.assertEqual(self.browser.text("#verdict"), "This program has no job that judges records.")
                    continue
                wanted, _ = says("judge", record)
                self.assertEqual(self.browser.text("#judge-printed").encode(), wanted)
                verdict = "ILLEGAL" if name == "dirty_read" else "LEGAL"
                self.assertTrue(self.browser.text("#verdict").startswith(verdict))


if __name__ == "__main__":
    unittest.main()
