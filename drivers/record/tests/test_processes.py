"""More than sixteen processes: a session is another's once nobody needs it any more."""
import unittest

from support import NO_SESSION, Converted, converted, history

UNSEEN = "nobody sees any more whether it was done"


def whole(process, name, value, returned=None):
    return (process, "invoke", name, value), (process, "ok", name, value if returned is None else returned)


class Processes(Converted):
    def test_one_after_another(self):
        """Forty processes, each of which writes what the one before it left; two overlap at a time."""
        operations = []
        for process in range(40):
            operations += [(process, "invoke", "write", process)]
            if process:
                operations += [(process - 1, "ok", "write", process - 1)]
        got = self.record(history(*operations, (39, "ok", "write", 39), *whole(40, "read", None, 39)))
        self.assertLessEqual({int(line.split()[0]) for line in got}, set(range(1, 17)))
        self.assertEqual(len(got), 82)
        self.judged(got, "LEGAL")
        wrong = self.record(history(*operations, (39, "ok", "write", 39), *whole(40, "read", None, 37)))
        self.judged(wrong, "ILLEGAL line 82")

    def test_a_session_is_said_to_be_anothers(self):
        text = history(*[it for process in range(17) for it in whole(process, "read", ["k"], ["k", None])])
        record, said, status = converted(text)
        self.assertEqual((said, status), ("", 0))
        self.assertEqual(record.splitlines()[-3:], ["# Session 1 is process 16.", "1 > GET 'k'", "1 < NONE"])

    def test_sixteen_that_go_on_and_no_more(self):
        begun = [it for process in range(16) for it in whole(process, "read", ["k"], ["k", None])]
        again = [it for process in range(16) for it in whole(process, "read", ["k"], ["k", None])]
        self.refused(
            history(*begun, *whole(16, "read", ["k"], ["k", None]), *again),
            f"line 33: process 16 would be session 17{NO_SESSION}",
        )

    def test_a_session_with_a_branch_is_kept(self):
        """A branch that was prepared is nobody's, and one that was ended is none; others stay with their sessions."""
        started = [it for process in range(16) for it in whole(process, "start", process)]
        self.refused(
            history(*started, *whole(16, "read", None)), f"line 33: process 16 would be session 17{NO_SESSION}"
        )
        for ends in (("end", "prepare"), ("end", "rollback"), ("end", "commit-one-phase")):
            ended = [it for name in ends for it in whole(3, name, 3)]
            got = self.record(history(*started, *ended, *whole(16, "read", None)))
            self.assertEqual(got[-2:], ["4 > GET 'x'", "4 < NONE"], "session 4 was process 3")
            self.judged(got, "LEGAL")
        self.assertEqual(
            self.record(history(*started, *whole(5, "disconnect", None), *whole(16, "read", None)))[-2:],
            ["6 > GET 'x'", "6 < NONE"],
        )
        self.refused(
            history(*started, *whole(3, "end", 3), *whole(3, "commit", 4), *whole(16, "read", None)),
            f"line 37: process 16 would be session 17{NO_SESSION}",
        )

    def lost(self, name, value, row="k"):
        """Sixteen processes of which the third is lost in a call, and another one that reads."""
        others = [it for process in range(16) if process != 2 for it in whole(process, "start", process)]
        return history(
            *others[:4],
            (2, "invoke", name, value),
            (2, "info", name, value),
            *others[4:],
            *whole(16, "read", [row], [row, None]),
        )

    def test_a_call_that_changes_nothing_and_has_no_answer_is_left_out(self):
        """Its process goes on as any other, and needs no session for it."""
        for name, value in (("read", ["k"]), ("recover", None), ("disconnect", None), ("txn", [["r", "k", None]])):
            for end in ((), ((0, "info", name, value),), ((0, "info", name, value, {"error": 2013}),)):
                text = history(
                    *whole(0, "write", ["k", 1]), (0, "invoke", name, value), *end, *whole(1, "read", ["k"], ["k", 1])
                )
                record, said, status = converted(text)
                self.assertEqual((said, status), ("", 0))
                self.assertEqual(
                    record.splitlines()[3:],
                    [
                        f"# The {name} of line 3 is left out: nobody saw what it was answered, and it changes nothing.",
                        "# Session 2 is process 1.",
                        "2 > GET 'k'",
                        "2 < VALUE '1'",
                    ],
                )
        got = self.record(self.lost("read", ["k"]))
        self.assertEqual([line for line in got if line.startswith("16 ")], ["16 > GET 'k'", "16 < NONE"])

    def test_forty_reads_without_an_answer_make_no_record_longer_or_dearer(self):
        """Each is of a process of its own, while another one writes and reads."""
        operations = []
        for process in range(1, 41):
            operations += [(process, "invoke", "read", ["k"]), *whole(0, "write", ["k", process])]
            operations += [(process, "info", "read", None), *whole(0, "read", ["k"], ["k", process])]
        got = self.record(history(*operations))
        self.assertEqual(
            got,
            [
                line
                for value in range(1, 41)
                for line in (f"1 > PUT 'k','{value}'", "1 < OK", "1 > GET 'k'", f"1 < VALUE '{value}'")
            ],
        )
        self.judged(got, "LEGAL")

    def test_a_read_in_a_branch_may_lock_its_row_also_without_an_answer(self):
        """So it explains that another one's write was refused, and the record has it."""
        text = history(
            *whole(0, "start", "a"),
            (0, "invoke", "read", ["k"]),
            (0, "info", "read", ["k"]),
            (1, "invoke", "write", ["k", 1]),
            (1, "fail", "write", ["k", 1], {"error": 3572}),
        )
        got = self.record(text)
        self.assertEqual(got[2:], ["1 > GET 'k'", "1 ! LOST", "2 > PUT 'k','1'", "2 < ERROR 3572"])
        self.judged(got, "LEGAL")

    def test_a_lost_write_leaves_its_session_once_its_row_is_looked_at_no_more(self):
        got = self.record(self.lost("write", ["j", 1]))
        self.assertEqual(
            [line for line in got if line.startswith("3 ")],
            ["3 > PUT 'j','1'", f"3 ? ERROR {UNSEEN}", "3 > GET 'k'", "3 < NONE"],
        )
        self.judged(got, "LEGAL")
        self.refused(self.lost("write", ["k", 1]), f"line 33: process 16 would be session 17{NO_SESSION}")

    def test_what_a_lost_write_may_have_done_before_is_judged(self):
        """Its row is read before its session is another's: 1 and nothing may be seen, and 2 may not."""
        others = [it for process in range(14) for it in whole(process, "start", process)]
        for seen, verdict in (1, "LEGAL"), (None, "LEGAL"), (2, "ILLEGAL line 31"):
            lost, sees = ((20, "invoke", "write", ["k", 1]), (20, "info", "write", ["k", 1])), whole(
                21, "read", ["k"], ["k", seen]
            )
            got = self.record(
                history(
                    *lost,
                    *others,
                    *sees,
                    *whole(22, "read", ["j"], ["j", None]),
                    *whole(21, "read", ["i"], ["i", None]),
                )
            )
            self.assertEqual(got[0], "1 > PUT 'k','1'")
            seen_over, unseen = "1 ? ERROR a later answer shows that it is over", f"1 ? ERROR {UNSEEN}"
            ends = [seen_over, "16 < VALUE '1'"] if seen == 1 else [got[-6], unseen]
            self.assertEqual(got[-6:-2], [*ends, "1 > GET 'j'", "1 < NONE"])
            self.judged(got, verdict)

    def test_a_lost_call_of_a_session_with_a_branch_keeps_it(self):
        others = [it for process in range(15) for it in whole(process, "start", process)]
        self.refused(
            history(
                *whole(20, "start", "a"),
                (20, "invoke", "read", ["k"]),
                (20, "info", "read", ["k"]),
                *others,
                *whole(21, "read", ["j"], ["j", None]),
            ),
            f"line 35: process 21 would be session 17{NO_SESSION}",
        )

    def test_a_connection_that_the_server_closed_is_gone(self):
        """Its branch may be rolled back before the call: another session has its row, which is LEGAL only so."""
        for number, word in ((2006, "GONE"), (2013, "GONE"), (1927, "GONE"), (1205, "LOST"), (70000, "LOST")):
            text = history(
                *whole(0, "start", "a"),
                *whole(0, "write", ["k", 1]),
                (0, "invoke", "read", ["k"]),
                *whole(1, "read", ["k"], ["k", None]),
                (0, "info", "read", None, {"error": number}),
            )
            got = self.record(text)
            self.assertEqual(got[4:], ["1 > GET 'k'", f"1 ! {word}", "2 > GET 'k'", "2 < NONE"])
        begun = [*whole(0, "start", "a"), *whole(0, "write", ["k", 1]), *whole(1, "write", ["k", 2])]
        for number, verdict in ((2013, "LEGAL"), (1205, "ILLEGAL line 6")):
            self.judged(
                self.record(
                    history(*begun, (0, "invoke", "read", ["k"]), (0, "info", "read", None, {"error": number}))
                ),
                verdict,
            )


if __name__ == "__main__":
    unittest.main()
