"""What a sequence diagram has beside its lifelines: the rows and locks of stores, the signs of branches, and a manager
that the bench tests; and that labels keep to their way."""
import unittest
import xml.etree.ElementTree as ET

from support import PAGE, PATIENCE, ask, room
from test_sequence import SVG, call, drawn, said, story

TRANSFER = ["AT 0 PUT 'alice','100'", "AT 1 PUT 'bob','100'", "BEGIN", "WORK 1 0 PUT 'alice','90'",
            "WORK 1 1 PUT 'bob','110'", "PREPARE 1", "DECIDE 1", "FINISH 1"]
TESTED = ["#@ manager Tested manager", "AT 1 XA START 'order','a'", "AT 1 PUT 'row','90'", "AT 1 XA END 'order','a'",
          "AT 1 XA PREPARE 'order','a'", "#@ unanswered 1 The manager never gets the answer.",
          "#@ crash The manager is killed.", "#@ restart Recovery 1 begins.", "AT 1 XA RECOVER",
          "#@ lost 1 XA ROLLBACK 'order','a' | The store never gets it.", "#@ outage 1 The store is restarted.",
          "#@ other", "AT 1 GET 'row'", "#@ verdict IN DOUBT: left in store 1"]


def boxes(svg, line):
    """The rows beside lifelines at a call: of each box its rows, a changed one with a star."""
    found = []
    for box in call(svg, line).iter(f"{SVG}g"):
        if box.get("class") == "rows":
            marked = [float(it.get("y")) for it in box if it.get("class") == "changed"]
            rows = {}
            for text in box.iter(f"{SVG}text"):
                rows.setdefault(float(text.get("y")), []).append(text.text)
            found.append([("*" if any(abs(y - at) < 20 and y < at for y in marked) else "") + " ".join(rows[at])
                          for at in sorted(rows)])
    return found


def heads(svg):
    return [it.find(f"{SVG}title").text for it in svg.iter(f"{SVG}text") if it.get("class") == "head"]


def lifeline(svg, lane):
    """The parts of a lifeline, each from where to where."""
    return [(float(it.get("y1")), float(it.get("y2"))) for it in svg.iter(f"{SVG}line")
            if it.get("class") == "lifeline" and it.get("data-lane") == str(lane)]


def messages(svg, line):
    """Who sends to whom at a call, by lifelines."""
    return [(int(it.get("data-from")), int(it.get("data-to"))) for it in call(svg, line).iter(f"{SVG}g")
            if (it.get("class") or "").startswith("message")]


class Rows(unittest.TestCase):
    def test_alice_loses_before_bob_gets(self):
        svg = story(*TRANSFER)
        self.assertEqual(boxes(svg, 1), [["*alice 100"]])
        self.assertEqual(boxes(svg, 4), [["*alice 100 \N{RIGHTWARDS ARROW}90 T1"]], "locked, and still 100")
        self.assertEqual(boxes(svg, 5), [["*bob 100 \N{RIGHTWARDS ARROW}110 T1"]])
        self.assertEqual(boxes(svg, 6), [], "a vote changes no row")
        self.assertEqual(boxes(svg, 8), [["*alice 100 90"], ["*bob 100 110"]], "one after the other")
        self.assertEqual([it.text for it in call(svg, 8).iter(f"{SVG}text") if it.get("class") == "row old"],
                         ["100", "100"])

    def test_a_lock_that_others_read_through_and_a_rollback(self):
        svg = story("AT 0 PUT 'k','1'", "AT 0 PUT 'j','2'", "BEGIN", "WORK 1 0 GET 'k'", "WORK 1 0 DEL 'j'", "ABANDON 1")
        self.assertEqual(boxes(svg, 2), [["*j 2", "k 1"]], "what didn't change isn't marked")
        self.assertEqual(boxes(svg, 4), [["j 2", "*k 1 T1"]])
        self.assertEqual(boxes(svg, 5), [["*j 2 \N{RIGHTWARDS ARROW}none T1", "k 1 T1"]])
        self.assertEqual(boxes(svg, 6), [["*j 2", "*k 1"]], "free again")

    def test_a_crash_leaves_what_was_done(self):
        svg = story(*TRANSFER[:-1], "FAIL 1 AFTER 0", "FINISH 1", "STOP", "RECOVER")
        self.assertEqual(boxes(svg, 9), [["*alice 100 90"]])
        self.assertEqual(boxes(svg, 10), [])
        self.assertEqual(boxes(svg, 11), [["*bob 100 110"]], "the recovery's commit")

    def test_each_step_is_a_message_and_says_what_it_does(self):
        with room(probe_seconds=PATIENCE) as served:
            status, got = ask(served.server_port, "sequence", {"lines": TRANSFER, "stores": 2})
        self.assertEqual((status, got["whole"]), (200, True))
        steps = {it["line"]: it for it in got["steps"]}
        self.assertEqual([len(steps[line]["says"]) for line in range(1, 9)], [2, 2, 2, 4, 4, 6, 2, 6])
        for it in got["steps"]:
            self.assertEqual(len(it["ends"]), len(it["says"]))
            self.assertEqual(it["ends"], sorted(it["ends"]))
        self.assertIn("In store 0 alice was 100 and is 90 now.", steps[8]["says"][1])
        self.assertIn("T1 has locked bob: it is 100 still, and will be 110 if T1 commits", steps[5]["says"][1])
        committed = [(it["line"], it["step"], it["store"], it["rows"][0]["value"]) for it in got["rows"]][-2:]
        self.assertEqual(committed, [(8, 2, 0, "90"), (8, 4, 1, "110")])

    def test_what_isnt_known_isnt_shown(self):
        """A program whose `show` answers otherwise than its `coordinate` is believed in nothing about rows."""
        from classroom.exchanges import exchanges, read_shown
        from classroom.states import states
        found = exchanges([b"AT 0 PUT 'k','v'"], [(b"OK\n", read_shown(b""))], [[]])
        for output, count in ((b"2 OK\n  ROW 0x6b VALUE 0x76\n", 1), (b"2 ERROR 3572 (HY000): x\n  ROW 0x6b NONE\n", 0),
                              (b"", 0)):
            self.assertEqual(len(states(lambda _, output=output: output, found, 1)), count, output)


class Lanes(unittest.TestCase):
    def test_only_who_takes_part_has_a_lifeline(self):
        self.assertEqual(heads(story("BEGIN", stores=5)), ["Transaction manager", "Coordinator"])
        self.assertEqual(heads(story("BEGIN", "WORK 1 3 GET 'k'", stores=5)),
                         ["Transaction manager", "Coordinator", "Store 3"])
        self.assertEqual(heads(story("AT 2 GET 'k'", stores=5)), ["Store 2", "Other client"])

    def test_a_store_that_a_recovery_only_asks_has_none(self):
        svg = story(*TRANSFER[:-1], "STOP", "RECOVER", stores=3)
        self.assertEqual(heads(svg), ["Transaction manager", "Coordinator", "Store 0", "Store 1", "Other client"])
        self.assertIn("store 2 takes no part, and nothing is prepared there", said(call(svg, 9)))
        self.assertEqual(heads(story(*TRANSFER[2:5], "AT 2 XA START 'a'", "AT 2 XA END 'a'", "AT 2 XA PREPARE 'a'", "STOP",
                                     "RECOVER", stores=4))[2:5], ["Store 0", "Store 1", "Store 2"])

    def test_lifelines_stay_where_they_are(self):
        """However many lines are given."""
        places = set()
        with room(probe_seconds=PATIENCE) as served:
            for at in range(len(TRANSFER) + 1):
                _, got = ask(served.server_port, "sequence", {"lines": TRANSFER, "stores": 2, "at": at})
                places.add(tuple(sorted({it.get("x1") for it in ET.fromstring(got["svg"]).iter(f"{SVG}line")
                                         if it.get("class") == "lifeline"})))
        self.assertEqual(len(places), 1, places)

    def test_a_label_is_no_longer_than_its_way(self):
        """It is put in lines, and cut if they are many; the whole of it is at hand."""
        long = "WORK 1 1 PUT 'key','" + "long " * 60 + "'"
        for width in ("400", "1000"):
            svg = drawn("-", "--stores", "2", "--width", width, calls=["BEGIN", "WORK 1 0 GET 'k'", long, "PREPARE 1"])
            at = {it.get("data-lane"): float(it.get("x1")) for it in svg.iter(f"{SVG}line")
                  if it.get("class") == "lifeline"}
            for group in svg.iter(f"{SVG}g"):
                if not (group.get("class") or "").startswith("message"):
                    continue
                ends = sorted((at[group.get("data-from")], at[group.get("data-to")]))
                for behind in group.iter(f"{SVG}rect"):
                    self.assertGreaterEqual(float(behind.get("x")), ends[0])
                    self.assertLessEqual(float(behind.get("x")) + float(behind.get("width")), ends[1] + 1, width)
            message = next(it for it in call(svg, 3) if (it.get("class") or "").startswith("message"))
            self.assertTrue(said(message).endswith("…"), said(message))
            self.assertEqual(message.find(f"{SVG}title").text, long)


class Tested(unittest.TestCase):
    """A manager that the bench tests, in the manager's place."""

    def test_its_statements_come_from_the_managers_place(self):
        svg = story(*TESTED, stores=2)
        self.assertEqual(heads(svg), ["Tested manager", "Store 1", "Other client"])
        self.assertEqual(messages(svg, 3), [(0, 3), (3, 0)])
        self.assertEqual(messages(svg, 13), [(4, 3), (3, 4)], "but for another's")

    def test_branches_have_signs_and_a_legend(self):
        svg = story(*TESTED, stores=2)
        self.assertEqual(said(call(svg, 2)), "2 XA START A1 OK")
        self.assertEqual(said(call(svg, 9)), "9 XA RECOVER ROWS 1 A1")
        self.assertIn("A1 is the branch 'order','a'", said(svg))
        self.assertEqual(said(svg).count("'order'"), 1, "its name stands there alone")
        more = story(*TESTED, "AT 0 XA START 'order','b'", "AT 0 XA END X'6f72646572','b'", "AT 0 XA START 'other'",
                     stores=2)
        for line, sign in ((15, "A2"), (16, "A2"), (17, "B1")):
            self.assertIn(sign, said(call(more, line)).split())

    def test_a_crash_ends_its_lifeline_and_a_restart_begins_it_again(self):
        svg = story(*TESTED, stores=2)
        crosses = [it for it in svg.iter(f"{SVG}path") if it.get("class") == "cross crash"]
        self.assertEqual(len(crosses), 2, "the manager's, and the store's")
        for lane in (0, 3):
            (_, ended), (begun, _) = sorted(lifeline(svg, lane))
            self.assertGreater(begun, ended, "there is none in between")
        self.assertEqual(messages(svg, 10), [(0, 3)], "what is lost")
        self.assertEqual(len(list(call(svg, 10).iter(f"{SVG}path"))), 1, "ends in a cross")
        self.assertIn("broken", next(it for it in list(call(svg, 5).iter(f"{SVG}g"))[::-1]
                                     if (it.get("class") or "").startswith("message")).get("class"))

    def test_it_ends_with_its_verdict(self):
        svg = story(*TESTED, stores=2)
        self.assertEqual(said(call(svg, 14)), "14 Verdict: IN DOUBT left in store 1")
        (box,) = [it for it in svg.iter(f"{SVG}rect") if (it.get("class") or "").startswith("verdict-box")]
        self.assertEqual(box.get("class"), "verdict-box bad")
        right = story("#@ manager", "AT 0 GET 'k'", "#@ verdict atomic:")
        self.assertEqual(heads(right), ["Tested manager", "Store 0"])
        (box,) = [it for it in right.iter(f"{SVG}rect") if (it.get("class") or "").startswith("verdict-box")]
        self.assertEqual(box.get("class"), "verdict-box good")

    def test_markup_in_what_is_told_is_text(self):
        hostile = "<script>window.hacked=1</script>"
        svg = story(f"#@ manager {hostile}", f"AT 0 XA START '{hostile}'", f"#@ crash {hostile}",
                    f"#@ lost 0 XA COMMIT '{hostile}' | {hostile}", f"#@ verdict {hostile}: {hostile}")
        self.assertIsInstance(svg, ET.Element)
        self.assertEqual([it.tag for it in svg.iter() if it.tag.endswith("script")], [])

    def test_no_scenario_has_a_manager_of_its_own(self):
        for path in sorted((PAGE / "scenarios").glob("*.calls")):
            self.assertNotIn("#@", path.read_text())


if __name__ == "__main__":
    unittest.main()
