"""How a store's record becomes the steps of a story, by records that are written here."""
import unittest

from breaker.points import HOLD, PAUSES
from breaker.rows import ANY, DELETED
from breaker.story import Step, rows_said, steps_of
from breaker.trial import Outcome

XID = "0x6f,0x31,1"


def asked(session, text, reply="OK"):
    """A statement, counted by a fault that disturbs nothing."""
    kind = " ".join(text.split(" ")[:2])
    return [f"# session {session}: the fault {kind} 1 stall 0, at {text}: it is held",
            f"{session} > {text}", f"{session} < {reply}"]


def steps(*parts):
    """What the steps of a record are: a statement's session and text, and a fault that disturbs."""
    return [(it.session, it.text if not it.what else it.what)
            for it in steps_of("".join(f"{line}\n" for part in parts for line in part)) if not it.what or
            it.is_disturbing()]


class Ends(unittest.TestCase):
    """Where the end of a connection stands."""

    def test_one_that_is_seen_late(self):
        """The manager's next connection asked before the server saw the end of the first."""
        self.assertEqual(
            steps(asked(3, f"XA START {XID}"), asked(3, f"XA END {XID}"),
                  asked(5, f"XA ROLLBACK {XID}", "ERROR 1397"), ["3 > DISCONNECT", "3 < OK"]),
            [("3", f"XA START {XID}"), ("3", f"XA END {XID}"), ("3", "DISCONNECT"), ("5", f"XA ROLLBACK {XID}")])

    def test_one_that_is_seen_at_once(self):
        self.assertEqual(
            steps(asked(3, f"XA START {XID}"), ["3 > DISCONNECT", "3 < OK"],
                  asked(5, f"XA ROLLBACK {XID}", "ERROR 1397"), ["5 > DISCONNECT", "5 < OK"]),
            [("3", f"XA START {XID}"), ("3", "DISCONNECT"), ("5", f"XA ROLLBACK {XID}"), ("5", "DISCONNECT")])

    def test_one_behind_a_kill(self):
        """It stays behind what is said of the kill."""
        killed = f"# connection 3: the fault XA PREPARE 1 stall 3600, at XA PREPARE {XID}: it is held"
        self.assertEqual(
            steps(asked(3, f"XA START {XID}"), [killed], asked(5, "GET 0x6d", "NONE"),
                  ["3 > DISCONNECT", "3 < OK"]),
            [("3", f"XA START {XID}"), ("3", "stall"), ("3", "DISCONNECT"), ("5", "GET 0x6d")])


class Told(unittest.TestCase):
    """What is told of a fault."""

    def told(self, what, number="0"):
        return list(Step("3", f"XA COMMIT {XID}", what=what, number=str(number)).told(2))

    def test_a_statement_that_the_store_never_gets(self):
        asked = "#@ lost 2 XA COMMIT 'o','1',1 | "
        self.assertEqual(self.told("close-before"), [f"{asked}It is lost on its way, and the connection is cut."])
        self.assertEqual(self.told("error", 1402), [f"{asked}The manager is told 1402, and the store never gets it."])
        self.assertEqual(self.told("stall", HOLD), [f"{asked}The store never gets it.",
                                                    "#@ crash The manager is killed."])
        self.assertEqual(self.told("outage", 0.3), [f"{asked}All connections are cut, and the store never gets it.",
                                                    "#@ outage 2 The store is restarted."])

    def test_an_answer_that_the_manager_never_gets(self):
        self.assertEqual(self.told("close-after"), ["#@ unanswered 2 The answer is lost: the connection is cut."])
        self.assertEqual(self.told("stall-after", HOLD), ["#@ unanswered 2 The manager never gets the answer.",
                                                          "#@ crash The manager is killed."])

    def test_somebody_elses_rollback(self):
        self.assertEqual(self.told("stall", PAUSES[0]),
                         ["# While XA COMMIT is on its way, somebody else rolls the branch back."])


class Rows(unittest.TestCase):
    """The rows that a verdict names."""

    def said(self, *rows):
        """Of the rows of stores 1, 2, ..: what each has, and what a commit writes."""
        return rows_said(Outcome(None, rows=[{} if left is None else {b"0x6b": left} for left, _ in rows],
                                 wanted=[{b"0x6b": wanted} for _, wanted in rows]))

    def test_rows_that_differ_come_first(self):
        self.assertEqual(self.said((b"0x31", b"0x31"), (None, b"0x31")),
                         "row 'k' of store 2 is as it was before, and a commit makes it '1'; "
                         "row 'k' of store 1 is '1', as a commit leaves it")
        self.assertEqual(self.said((b"0x32", b"0x31"), (None, DELETED), (None, ANY)),
                         "row 'k' of store 1 is '2', and a commit makes it '1'; row 'k' of store 2 is as it was before, "
                         "and a commit deletes it; row 'k' of store 3 is as it was before, and a commit writes it")

    def test_rows_that_agree_are_said_together(self):
        self.assertEqual(self.said((b"0x31", b"0x31"), (b"0x32", ANY)), "each row is as a commit leaves it")
        self.assertEqual(self.said((None, b"0x31"), (None, DELETED)), "each row is as it was before")
        self.assertEqual(self.said(), "")


if __name__ == "__main__":
    unittest.main()
