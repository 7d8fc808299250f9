"""The view of sessions, driven by keys, against what the program itself prints."""
import os
import re
import signal
import unittest

from browser import SIZE
from selenium.webdriver.common.keys import Keys
from support import ROOT, says
from views import View, replies, shown_bytes

STORY = (ROOT / "cases/show/shared_rows.script").read_bytes()
TENTH = 0.1


def blocks(script):
    """What `show` prints for each line: all up to it, without all up to the one before."""
    lines, found, before = script.splitlines(), [], b""
    for at in range(len(lines)):
        now = says("show", b"\n".join(lines[:at + 1]) + b"\n")[0]
        found.append(now[len(before):])
        before = now
    return found


def as_literal(text):
    """How the page writes these bytes in a statement: in quotes where all of them can be seen, and else in digits."""
    plain = text.decode("utf-8", "replace")
    if plain.isprintable() and "\ufffd" not in plain:
        return "'" + plain.replace("\\", "\\\\").replace("'", "''") + "'"
    return f"0x{text.hex()}"


class Sessions(View):
    view = "sessions"

    def given(self):
        return len(self.browser.all("#given > li"))

    def answers(self):
        return self.as_printed("#given .reply")

    def printed(self):
        return self.browser.text("#printed")

    def cards(self):
        return self.browser.run("""return [...document.querySelectorAll('#branches .card')].map((card) => [card.dataset.xid,
            card.querySelector('.phase').textContent, card.querySelector('.owner').textContent, [...card.querySelectorAll('li')].map((it) => it.textContent)])""")

    def say(self, session, statement):
        before = self.given()
        self.browser.type(f'#entry input[name="{session}"]', statement + Keys.ENTER)
        self.until(lambda: self.given() == before + 1, f"{statement} is answered")

    def assert_store(self, block):
        """The cards and rows are those that the program lists behind its answer."""
        listed = re.findall(r"^  BRANCH (\S+) (\w+)(?: SESSION (\d+))?$", block, re.MULTILINE)
        self.assertEqual([card[:3] for card in self.cards()],
                         [[xid, phase, f"session {owner}" if owner else "no owner"] for xid, phase, owner in listed])
        for key, value in re.findall(r"^  ROW (\S+) (?:VALUE (\S+)|NONE)$", block, re.MULTILINE):
            cells = self.browser.run("return [...document.querySelector(`#rows "
                                     "tr[data-key=\"${arguments[0]}\"]`).cells].map((it) => it.textContent)", key)
            wanted = "none" if value == "" else "X''" if value == "X''" else f"'{bytes.fromhex(value[2:]).decode()}'"
            self.assertEqual(cells[1], wanted)

    def test_a_story_step_by_step(self):
        self.open()
        wanted = blocks(STORY)
        self.browser.choose("#story", "shared rows")
        self.until(lambda: len(self.browser.all("#pending > li")) == len(wanted), "the story waits")
        self.assertEqual(self.browser.text("#story-remark"), STORY.split(b"\n")[0][2:].decode())
        self.browser.focus('#sessions [data-do="step"]')
        for at, block in enumerate(wanted):
            if STORY.splitlines()[at].startswith(b"#"):
                continue  # a caption is read in passing
            self.browser.press(Keys.ENTER)
            self.until(lambda at=at: self.given() == at + 1, "a step")
            self.assertEqual(self.printed(), block.decode())
            self.assert_store(block.decode())
        self.assertEqual(self.answers(), replies(b"".join(wanted).decode()))
        self.assertTrue(self.browser.one('#sessions [data-do="step"]').get_property("disabled"))
        self.browser.push('#sessions [data-do="start"]')
        self.until(lambda: self.given() == 0, "the start")

    def test_somebody_with_nothing_open_is_offered_three_stories_and_a_statement(self):
        self.open()
        self.assertEqual(len(self.browser.all("#first-stories button")), 3)
        self.browser.push("#sample")
        self.assertEqual(self.browser.run("return [document.activeElement.name, document.activeElement.value]"),
                         ["1", self.browser.text("#sample")])
        self.browser.press(Keys.ENTER)
        self.until(lambda: self.answers() == ["OK"], "the sample is answered")
        self.assertFalse(self.browser.one("#welcome").is_displayed())
        self.open()
        self.browser.push("#first-stories button:first-child")
        self.until(lambda: self.browser.all("#pending > li"), "the story waits")
        self.assertEqual(self.given(), 0)

    def test_the_projector(self):
        self.open(script=STORY, at=0)
        size = "return parseFloat(getComputedStyle(document.documentElement).fontSize)"
        before = self.browser.run(size)
        self.browser.press("f")
        self.until(lambda: not self.browser.one("#sessions .tools").is_displayed(), "the tools are gone")
        self.assertGreater(self.browser.run(size), before)
        self.browser.press(Keys.ARROW_RIGHT)
        self.until(lambda: self.given() > 0, "a step")
        self.browser.driver.set_window_size(1280, 800)
        self.addCleanup(self.browser.driver.set_window_size, *SIZE)
        room = "const room = document.querySelector('.columns'); return room.scrollWidth - room.clientWidth"
        self.until(lambda: self.browser.run(room) == 0, "all sessions are seen")
        self.browser.press("f")
        self.until(lambda: self.browser.one("#sessions .tools").is_displayed(), "the tools are back")

    def test_a_story_that_a_pointer_chose_leaves_the_keys_to_the_projector(self):
        self.open()
        self.browser.run("""const list = document.querySelector('#story');
            list.dispatchEvent(new PointerEvent('pointerdown', { bubbles: true }));
            list.focus();
            list.selectedIndex = 1;
            list.dispatchEvent(new Event('change', { bubbles: true }));""")
        self.until(lambda: self.browser.all("#pending > li"), "the story waits")
        self.browser.press("f")
        self.until(lambda: not self.browser.one("#sessions .tools").is_displayed(), "the tools are gone")
        self.browser.press("f")
        self.until(lambda: self.browser.one("#sessions .tools").is_displayed(), "the tools are back")

    def test_a_story_opens_with_its_first_line_in_view(self):
        self.open(script=STORY, at=0)
        self.until(lambda: self.browser.all("#pending > li"), "the story waits")
        edges = ("return [document.querySelector('#entry').getBoundingClientRect().bottom, "
                 "document.querySelector('#pending').getBoundingClientRect().top]")
        box, first = self.browser.run(edges)
        self.assertLessEqual(box, first, "the boxes hide nothing")

    def test_run_to_here_and_take_back(self):
        wanted = blocks(STORY)
        self.open(script=STORY, at=0)
        for line in (12, 5, len(wanted), 2):
            self.browser.push(f'#sessions li[data-line="{line}"] .here')
            self.until(lambda line=line: self.given() == line, f"line {line}")
            self.assertEqual(self.printed(), wanted[line - 1].decode())
            self.assertEqual(self.browser.run("return document.activeElement.getAttribute('aria-label')"),
                             f"Run to here: line {line}")
        self.browser.chord(Keys.ALT, Keys.END)
        self.until(lambda: self.given() == len(wanted), "the end")
        self.browser.chord(Keys.ALT, Keys.ARROW_LEFT)
        self.until(lambda: self.given() == len(wanted) - 1, "one back")
        self.assertEqual(self.printed(), wanted[-2].decode())
        self.assert_store(wanted[-2].decode())
        self.browser.push("#sessions .more summary")
        self.browser.push('#sessions [data-do="drop"]')
        self.until(lambda: not self.browser.all("#pending > li"), "nothing waits")

    def test_statements_are_typed_and_answered(self):
        self.open()
        lines = ["1 XA START 'transfer','debit',7", "1 PUT 'alice','90'", "2 GET 'alice'", "2 PUT 'alice','0'",
                 "2 XA COMIT 'x'", "1 XA END 'transfer','debit',7", "1 XA PREPARE 'transfer','debit',7",
                 "2 XA RECOVER CONVERT XID", "2 XA COMMIT 'transfer','debit',7", "2 GET 'alice'"]
        for line in lines:
            self.say(*line.split(" ", 1))
            if "CONVERT" in line:
                self.pictures()
        script = "\n".join(lines).encode() + b"\n"
        self.assertEqual("\n".join(f"{reply}" for reply in self.answers()),
                         "\n".join(reply.split("\n")[0] for reply in replies(says("serve", script)[0].decode())))
        self.assertEqual(self.browser.text("#given pre.rows"),
                         replies(says("serve", script)[0].decode())[7].split("\n", 1)[1])
        self.assertEqual(self.browser.text("#given mark.fault"), "C")

    def test_a_refusal_says_its_rule_in_the_words_of_the_table(self):
        table = (ROOT / "docs/STATEMENTS.md").read_text()
        unknown = "no branch on which this statement could act has this identifier"
        wrong_state = "the session isn't in a state that allows this statement; the message names the state"
        wanted = [
            ("1 XA COMMIT 'a'", unknown, "XA COMMIT, Free: 1397 if the branch isn't PREPARED, else OK"),
            ("1 xa commit 'a' one phase;", unknown,
             "XA COMMIT .. ONE PHASE, Free: 1397 if the branch isn't PREPARED, else 1399 PREPARED"),
            ("1 XA END 'a'", wrong_state, "XA END, Free: 1399 NON-EXISTING"),
            ("1 XA BEGIN 'a'", None, None),
            ("2 XA BEGIN 'a'", "a branch has the identifier already",
             "XA START, Free: 1440 if a branch has the identifier, else OK"),
            ("1 XA PREPARE'a'", wrong_state, "XA PREPARE, ACTIVE: 1399 ACTIVE"),
            ("1 XA END 'b'", unknown, "XA END, ACTIVE: 1397 if not own, else OK"),
            ("1 XA END 'a'", None, None),
            ("1 GET 'k'", wrong_state, "GET, IDLE: 1399 IDLE"),
            ("1 XA ROLLBACK 'b'", wrong_state, "XA ROLLBACK, IDLE: 1399 IDLE if not own, else OK"),
            ("1 XA START 'a' JOIN", "the statement has a clause that isn't supported",
             "JOIN, RESUME, SUSPEND, IDLE: 1398"),
            ("3 XA START 'c'", None, None),
            ("3 PUT 'k','v'", None, None),
            ("2 DEL 'k'", "another branch has an exclusive lock on the row, or for PUT and DEL any lock",
             "PUT, DEL, Free: 3572 if held, else OK"),
            ("4 what", "the text isn't a statement", None),
        ]
        self.open(script="\n".join(line for line, _, _ in wanted))
        self.until(lambda: self.given() == len(wanted), "all is answered")
        found = self.browser.run("""return [...document.querySelectorAll('#given > li')].map((it) =>
            ['.where', '.table'].map((part) => it.querySelector(`.rule ${part}`)?.textContent ?? null))""")
        self.assertEqual(found, [[where, rule] for _, where, rule in wanted])
        for _, where, rule in wanted:
            self.assertIn((where or "").replace("PUT and DEL", "`PUT` and `DEL`"), table)
            self.assertIn((rule or "").split(": ", 1)[-1], table)

    def test_its_state_is_in_the_address(self):
        self.open(script=STORY, at=9)
        self.until(lambda: self.given() == 9, "nine lines")
        self.browser.chord(Keys.ALT, Keys.ARROW_RIGHT)
        self.until(lambda: self.given() == 10, "ten lines")
        self.say(3, "GET 'other'")
        seen = (self.answers(), self.printed(), self.cards(), len(self.browser.all("#pending > li")))
        self.reopen()
        self.until(lambda: self.given() == 11, "what was seen")
        self.assertEqual((self.answers(), self.printed(), self.cards(), len(self.browser.all("#pending > li"))), seen)

    def test_bytes_of_any_kind_are_shown_as_text(self):
        hostile = [b"<script>window.hacked=1</script>", b"<img src=x onerror=window.hacked=1>", b"\xff\xfe\xc3\x28",
                   b"line\nfeed", bytes(range(0, 64)), bytes(range(192, 256)), b"'; quotes \\ and \"",
                   "\u202eturned\u200b".encode(), "é ü 日本".encode(), b"&amp;&lt;", b"${window.hacked=1}", b"\0"]
        literals = [f"X'{text.hex()}'" for text in hostile]
        lines = [line for it in literals for line in (f"1 XA START {it},{it}", f"1 PUT {it},{it}",
                                                      f"1 XA END {it},{it}", f"1 XA PREPARE {it},{it}")]
        prepared = len(lines) + 1
        lines += ["2 XA RECOVER", *[f"2 XA COMMIT {it},{it}" for it in literals], *[f"2 GET {it}" for it in literals]]
        self.open(script="\n".join(lines), at=prepared)
        self.until(lambda: self.given() == prepared, "all branches are prepared")
        readable = {text: as_literal(text) for text in hostile}
        cards = self.browser.run("""return [...document.querySelectorAll('#branches .card')].map((it) =>
            ['.xid', '.literal'].map((part) => [...it.querySelectorAll(part)].map((text) => text.textContent)))""")
        self.assertEqual(sorted(cards), sorted([[f"{it},{it},1"], [it, it]] for it in readable.values()))
        head, _, rest = says("serve", "\n".join(lines[:prepared]).encode())[0].removeprefix(
            b"1 OK\n" * (prepared - 1)).partition(b"\n")
        self.assertEqual(head, b"2 ROWS %d" % len(hostile))
        self.assertEqual(self.browser.text("#given pre.rows"), shown_bytes(rest.removesuffix(b"\n")))
        self.browser.chord(Keys.ALT, Keys.END)
        self.until(lambda: self.given() == len(lines), "all are committed and read")
        self.assertEqual(self.answers()[-len(hostile):], [f"VALUE 0x{text.hex()}" for text in hostile])
        self.assertEqual(sorted(self.browser.texts("#rows th[scope=row]")), sorted(readable.values()))
        self.assertEqual(self.browser.text("#branches"), "There is no branch.")

    def test_lines_of_any_bytes_are_shown_as_text(self):
        script = (b"1 PUT '\xff\xfe<b>','\x01'\n1 GET '\xff\xfe<b>'\n\xc3\x28 <script>window.hacked=1</script>\n"
                  b"#\xff<i>\n17 GET 'k'")
        self.open(script=script)
        self.until(lambda: self.given() == 5, "all is answered")
        self.assertEqual(self.browser.texts("#given .statement"),
                         ["PUT 'fffe<b>','01'", "GET 'fffe<b>'", "c3( <script>window.hacked=1</script>", "ff<i>",
                          "17 GET 'k'"])
        self.assertEqual(self.answers(), replies(says("show", script)[0].decode("latin-1")))
        self.reopen()
        self.until(lambda: self.given() == 5, "the address has every byte")

    def test_a_child_that_ends_is_said_so_and_the_page_goes_on(self):
        self.open()
        self.say(1, "PUT 'k','v'")
        for child in self.page.children():
            os.kill(child, signal.SIGKILL)
        self.browser.type('#entry input[name="1"]', "GET 'k'" + Keys.ENTER)
        self.until(lambda: "signal 9" in self.browser.text("#notices"), "it is said")
        self.assertEqual(self.given(), 1)
        self.browser.chord(Keys.ALT, Keys.ARROW_RIGHT)
        self.until(lambda: self.given() == 2, "it goes on")
        self.assertEqual(self.answers(), ["OK", "VALUE 0x76"])
        self.assertEqual(self.browser.text("#notices"), "")

    def test_a_page_that_is_left_ends_its_child(self):
        self.open()
        self.say(1, "PUT 'k','v'")
        self.until(lambda: len(self.page.children()) == 1, "those of pages that were left before have ended")
        self.browser.driver.get("about:blank")
        self.until(lambda: not self.page.children(), "its child has ended")
        self.open()

    def test_sixteen_sessions(self):
        self.open()
        for session in range(3, 17):
            self.browser.push("#add-session")
            self.assertEqual(len(self.browser.all("#heads .head")), session)
        self.say(16, "XA START 'a'")
        self.assertIn("ACTIVE", self.browser.text("#heads .s16"))
        self.browser.push("#add-session")
        self.assertEqual(len(self.browser.all("#heads .head")), 16)

    def test_a_waiting_line_can_be_removed_and_all_cleared(self):
        self.open(script="1 GET 'a'\n1 GET 'b'\n1 GET 'c'", at=1)
        self.until(lambda: self.given() == 1, "one line")
        self.browser.push('#sessions li[data-line="2"] .remove')
        self.until(lambda: self.browser.texts("#pending .statement") == ["GET 'c'"], "it is gone")
        self.browser.push("#sessions .more summary")
        self.browser.push('#sessions [data-do="clear"]')
        self.until(lambda: self.given() == 0 and not self.browser.all("#pending > li"), "all is gone")
        self.assertEqual(self.browser.run("return location.hash"), "#sessions")

    def test_how_soon_an_answer_is_seen(self):
        """Measured, and not judged: the machine may be busy."""
        self.open()
        for at in range(20):
            self.say(1 + at % 2, f"PUT 'k{at}','v'")
        self.until(lambda: self.browser.run("return performance.getEntriesByName('answer shown').length") >= 20,
                   "all were measured")
        for name, since in [("question answered", "the question"), ("answer shown", "the answer had returned")]:
            took = sorted(self.browser.run(
                "return performance.getEntriesByName(arguments[0]).map((it) => it.duration / 1000)", name))
            print(f"an answer was on the screen {took[len(took) // 2]:.3f} s after {since}, {took[-1]:.3f} s at most "
                  f"of {len(took)}{'' if took[-1] <= TENTH else ': longer than a tenth of a second'}")


if __name__ == "__main__":
    unittest.main()
