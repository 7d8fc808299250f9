"""`cas` and `txn` as statements: one that does and shows the same, or a branch; else they are refused."""
import unittest

from support import Converted, converted, history, says

ADVICE = (
    ", so no statements stand for it; let one process at a time use a row, "
    "or judge the history by a checker that knows "
)
CAS, TXN = ADVICE + "cas, such as Knossos", ADVICE + "txn, such as Elle"


def whole(process, name, value, returned=None):
    """A call that nothing overlaps."""
    return (process, "invoke", name, value), (process, "ok", name, value if returned is None else returned)


def branch(session, name, *steps):
    """The lines of a branch in a record: its steps are pairs of a statement and its answer."""
    all_steps = [(f"XA START {name}", "OK"), *steps, (f"XA END {name}", "OK"), (f"XA COMMIT {name} ONE PHASE", "OK")]
    return [line for statement, answer in all_steps for line in (f"{session} > {statement}", f"{session} < {answer}")]


class Cas(Converted):
    def test_one_is_a_branch_that_reads_and_writes(self):
        wanted = [
            "1 > PUT 'x','1'",
            "1 < OK",
            *branch(2, "'line 3','',1", ("GET 'x'", "VALUE '1'"), ("PUT 'x','2'", "OK")),
            "1 > GET 'x'",
        ]
        for seen, verdict in ((2, "LEGAL"), (1, "ILLEGAL line 14")):
            got = self.record(history(*whole(0, "write", 1), *whole(1, "cas", [1, 2]), *whole(0, "read", None, seen)))
            self.assertEqual(got, [*wanted, f"1 < VALUE '{seen}'"])
            self.judged(got, verdict)

    def test_one_that_found_what_nobody_wrote_is_illegal_at_its_read(self):
        got = self.record(history(*whole(0, "write", 1), *whole(1, "cas", [3, 2])))
        self.assertEqual(got[5], "2 < VALUE '3'", "the sixth line")
        self.judged(got, "ILLEGAL line 6")

    def test_a_key_beside_the_values_and_a_row_that_has_none(self):
        got = self.record(history(*whole(0, "cas", ["k", [None, "a"]])))
        self.assertEqual(got, branch(1, "'line 1','',1", ("GET 'k'", "NONE"), ("PUT 'k','a'", "OK")))
        self.judged(got, "LEGAL")

    def test_one_that_changes_nothing_is_a_read(self):
        """So it may overlap others."""
        text = history(
            *whole(0, "write", 1),
            (1, "invoke", "cas", [1, 1]),
            (0, "invoke", "write", 2),
            (0, "ok", "write", 2),
            (1, "ok", "cas", [1, 1]),
        )
        got = self.record(text)
        self.assertEqual(
            got, ["1 > PUT 'x','1'", "1 < OK", "2 > GET 'x'", "1 > PUT 'x','2'", "1 < OK", "2 < VALUE '1'"]
        )
        self.judged(got, "LEGAL")

    def test_one_that_failed_is_left_out(self):
        for more in ({}, {"error": 3572}):
            text = history(
                *whole(0, "write", 1),
                (1, "invoke", "cas", [5, 2]),
                (1, "fail", "cas", [5, 2], more),
                *whole(0, "read", None, 1),
            )
            self.assertEqual(self.record(text), ["1 > PUT 'x','1'", "1 < OK", "1 > GET 'x'", "1 < VALUE '1'"])

    def test_one_that_overlaps_others_on_its_row_is_refused(self):
        """It would have to be done at one moment, which may be any. Other rows and unanswered reads don't matter."""
        for name, value in (("write", 9), ("read", None), ("cas", [2, 3]), ("txn", [["w", "x", 1], ["w", "y", 1]])):
            text = history(
                (0, "invoke", "cas", [1, 2]),
                (1, "invoke", name, value),
                (1, "ok", name, value),
                (0, "ok", "cas", [1, 2]),
            )
            self.refused(text, "line 1: the cas of process 0 overlaps line 2, which is about the same row" + CAS)
        for name, value, end in (
            ("write", ["y", 9], "ok"),
            ("read", None, "info"),
            ("start", "a", "ok"),
            ("write", 9, "fail"),
        ):
            text = history(
                (0, "invoke", "cas", [None, 2]),
                (1, "invoke", name, value),
                (1, end, name, value),
                (0, "ok", "cas", [None, 2]),
            )
            self.judged(self.record(text), "LEGAL")

    def test_one_behind_a_write_without_an_answer_is_refused(self):
        text = history((0, "invoke", "write", 1), (0, "info", "write", 1), *whole(1, "cas", [1, 2]))
        self.refused(
            text,
            "line 3: the cas of process 1 is about the same row as line 1, and nobody knows whether that was done"
            + CAS,
        )

    def test_one_without_an_answer_is_left_out_where_nobody_sees_it(self):
        lost = ((1, "invoke", "cas", [1, 2]), (1, "info", "cas", [1, 2]))
        got, said, status = converted(history(*whole(0, "write", 1), *lost, *whole(0, "read", ["y"], ["y", None])))
        self.assertEqual((said, status), ("", 0))
        self.assertEqual(
            got.splitlines(),
            [
                "# Session 1 is process 0.",
                "1 > PUT 'x','1'",
                "1 < OK",
                "# The cas of line 3 is left out: nobody can see whether it was done.",
                "1 > GET 'y'",
                "1 < NONE",
            ],
        )
        self.assertEqual(self.record(history((1, "invoke", "cas", [1, 2]))), [], "nor one without an end")
        self.refused(
            history(*whole(0, "write", 1), *lost, *whole(0, "read", None, 1)),
            "line 3: nobody knows whether the cas of process 1 was done, and line 5 is about the same row" + CAS,
        )

    def test_one_in_a_branch_is_refused(self):
        text = history(*whole(0, "start", "a"), *whole(0, "cas", [1, 2]))
        self.refused(text, "line 3: the cas of process 0 stands in a branch: log its steps as operations of their own")
        ended = history(
            *whole(0, "start", "a"), *whole(0, "end", "a"), *whole(0, "prepare", "a"), *whole(0, "cas", [None, 2])
        )
        self.judged(self.record(ended), "LEGAL")

    def test_its_identifier_is_nobody_elses(self):
        text = history(
            *whole(0, "start", "line 9"),
            *whole(0, "end", "line 9"),
            *whole(0, "prepare", "line 9"),
            (0, "invoke", "read", None),
            (0, "ok", "read", None),
            *whole(1, "cas", [None, 2]),
        )
        got = self.record(text)
        self.assertEqual(got[8:], branch(2, "'line 9','',2", ("GET 'x'", "NONE"), ("PUT 'x','2'", "OK")))
        self.judged(got, "LEGAL")

    def test_values_that_are_none_of_a_cas(self):
        for value in (None, 1, [1], [1, 2, 3], ["k", [1]], ["k", 1.5]):
            _, said, status = converted(history((0, "invoke", "cas", value)))
            self.assertEqual((status, said.startswith("from_history: line 1: a ")), (2, True), said)
        self.refused(
            history((0, "invoke", "cas", [1, 2]), (0, "ok", "cas", [1, 3])), "line 2: the cas isn't that of the call"
        )


class Txn(Converted):
    def test_one_over_two_rows_is_a_branch(self):
        wrote, read = [["w", "a", 1], ["w", "b", 1]], [["r", "a", None], ["r", "b", None]]
        for b, verdict in ((1, "LEGAL"), (None, "ILLEGAL line 16")):
            got = self.record(history(*whole(0, "txn", wrote), *whole(1, "txn", read, [["r", "a", 1], ["r", "b", b]])))
            seen = "NONE" if b is None else "VALUE '1'"
            self.assertEqual(
                got,
                [
                    *branch(1, "'line 1','',1", ("PUT 'a','1'", "OK"), ("PUT 'b','1'", "OK")),
                    *branch(2, "'line 3','',1", ("GET 'a'", "VALUE '1'"), ("GET 'b'", seen)),
                ],
            )
            self.judged(got, verdict)

    def test_over_one_row_it_is_one_statement_where_that_shows_the_same(self):
        """So it may overlap others: here a write, before or behind which it was done."""
        for steps, statement, answer in [
            ([["r", "x", 1]], "GET 'x'", "VALUE '1'"),
            ([["r", "x", 1], ["r", "x", 1]], "GET 'x'", "VALUE '1'"),
            ([["w", "x", 7]], "PUT 'x','7'", "OK"),
            ([["w", "x", 6], ["w", "x", 7], ["r", "x", 7]], "PUT 'x','7'", "OK"),
            ([["r", "x", 1], ["w", "x", 5], ["w", "x", 1]], "GET 'x'", "VALUE '1'"),
        ]:
            asked = [[f, key, None if f == "r" else value] for f, key, value in steps]
            got = self.record(
                history(
                    *whole(0, "write", 1),
                    (1, "invoke", "txn", asked),
                    (0, "invoke", "write", 2),
                    (0, "ok", "write", 2),
                    (1, "ok", "txn", steps),
                )
            )
            self.assertEqual(
                got, ["1 > PUT 'x','1'", "1 < OK", f"2 > {statement}", "1 > PUT 'x','2'", "1 < OK", f"2 < {answer}"]
            )
            self.judged(got, "LEGAL")

    def test_one_that_contradicts_itself_is_illegal(self):
        for steps, line in (([["w", "x", 1], ["r", "x", 2]], 6), ([["r", "x", None], ["r", "x", 1]], 6)):
            asked = [[f, key, None if f == "r" else value] for f, key, value in steps]
            self.judged(
                self.record(history((0, "invoke", "txn", asked), (0, "ok", "txn", steps))), f"ILLEGAL line {line}"
            )

    def test_one_without_an_answer(self):
        """What it read isn't known, so over one row it is a write that may have been done."""
        text = history(
            (1, "invoke", "txn", [["r", "x", None], ["w", "x", 3]]),
            (1, "info", "txn", None),
            *whole(0, "read", None, 3),
        )
        got = self.record(text)
        over = "1 ? ERROR a later answer shows that it is over"
        self.assertEqual(got, ["1 > PUT 'x','3'", "2 > GET 'x'", over, "2 < VALUE '3'"])
        self.judged(got, "LEGAL")
        two = [["w", "a", 1], ["w", "b", 1]]
        self.refused(
            history((1, "invoke", "txn", two), (1, "info", "txn", two), *whole(0, "read", ["b"], ["b", 1])),
            "line 1: nobody knows whether the txn of process 1 was done, and line 3 is about the same row" + TXN,
        )

    def test_two_over_different_rows_overlap(self):
        text = history(
            (0, "invoke", "txn", [["w", "a", 1], ["w", "b", 1]]),
            (1, "invoke", "txn", [["w", "c", 1], ["r", "d", None]]),
            (0, "ok", "txn", [["w", "a", 1], ["w", "b", 1]]),
            (1, "ok", "txn", [["w", "c", 1], ["r", "d", None]]),
        )
        got = self.record(text)
        self.assertEqual(
            got,
            [
                *branch(1, "'line 1','',1", ("PUT 'a','1'", "OK"), ("PUT 'b','1'", "OK")),
                *branch(2, "'line 2','',1", ("PUT 'c','1'", "OK"), ("GET 'd'", "NONE")),
            ],
        )
        self.judged(got, "LEGAL")

    def test_two_that_only_read_a_row_overlap(self):
        read = [["r", "a", None], ["r", "b", None]]
        text = history(
            (0, "invoke", "txn", read), (1, "invoke", "txn", read), (0, "ok", "txn", read), (1, "ok", "txn", read)
        )
        self.judged(self.record(text), "LEGAL")

    def test_one_without_steps_is_nothing(self):
        self.assertEqual(self.record(history(*whole(0, "txn", []))), [])
        lost = self.record(
            history(*whole(0, "read", None), (0, "invoke", "txn", []), (0, "info", "txn", []), *whole(0, "read", None))
        )
        self.assertEqual(lost, ["1 > GET 'x'", "1 < NONE", "2 > GET 'x'", "2 < NONE"], "its process is a new session")

    def test_one_step_that_was_refused_is_a_refusal(self):
        text = history((0, "invoke", "txn", [["w", "x", 1]]), (0, "fail", "txn", [["w", "x", 1]], {"error": 3572}))
        self.assertEqual(self.record(text), ["1 > PUT 'x','1'", "1 < ERROR 3572"])
        self.judged(self.record(text), "ILLEGAL line 2")
        for steps in ([["r", "x", None], ["w", "x", 1]], [["w", "x", 1], ["w", "y", 1]]):
            refused = history((0, "invoke", "txn", steps), (0, "fail", "txn", steps, {"error": 3572}))
            self.assertEqual(self.record(refused), [], "of more it isn't known which")

    def test_steps_that_no_statement_does(self):
        self.refused(
            history((0, "invoke", "txn", [["append", "x", 1]])),
            "line 1: a step of a txn is 'append', and statements read and write rows only: "
            "judge the history by a checker that knows it, such as Elle",
        )
        for value in (3, [1], [["r", "x"]], [["r", "", None]], [["w", "x", None]]):
            _, said, status = converted(history((0, "invoke", "txn", value)))
            self.assertEqual((status, said.startswith("from_history: line 1: a ")), (2, True), said)
        self.refused(
            history((0, "invoke", "txn", [["r", "x", None]]), (0, "ok", "txn", [["r", "y", 1]])),
            "line 2: the txn isn't that of the call",
        )

    def test_maps_of_edn(self):
        text = "\n".join(
            f"{{:process 0, :type :{kind}, :f :txn, :value [[:w 1 2] [:r 2 nil]]}}" for kind in ("invoke", "ok")
        )
        got = self.record(text)
        self.assertEqual(got, branch(1, "'line 1','',1", ("PUT '1','2'", "OK"), ("GET '2'", "NONE")))
        self.assertEqual(says("judge", "\n".join(got).encode())[1], 0)


if __name__ == "__main__":
    unittest.main()
