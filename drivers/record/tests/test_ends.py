"""Lost sessions of which later answers show that they are over: the record says so, and means the same."""
import random
import sys
import unittest
from unittest import mock

from support import ROOT, Converted, history, says

sys.dont_write_bytecode = True
sys.path.insert(0, str(ROOT / "drivers/record"))

from histories import history as histories  # noqa: E402

TRIES = 1000
OVER = "? ERROR a later answer shows that it is over"


def whole(process, name, value, returned=None):
    return (process, "invoke", name, value), (process, "ok", name, value if returned is None else returned)


def refused(process, name, value, number):
    return (process, "invoke", name, value), (process, "fail", name, value, {"error": number})


def lost(process, name, value, number=None):
    return (process, "invoke", name, value), (process, "info", name, value, {"error": number})


HELD = (*whole(0, "start", "a"), *whole(0, "write", ["k", 1]))  # four lines of session 1


class Ends(Converted):
    def after(self, *operations, begun=HELD):
        """The record of operations behind others, of which the record has as many lines."""
        got = self.record(history(*begun, *operations))
        self.judged(got, "LEGAL")
        return got[len(begun) :]

    def test_a_start_of_the_same_branch_shows_that_the_lost_one_was_ended(self):
        for error in (None, 2013):
            self.assertEqual(
                self.after(*lost(0, "read", ["k"], error), *whole(1, "start", "a")),
                ["1 > GET 'k'", f"1 {OVER}", "1 > DISCONNECT", "2 > XA START 'a','',1", "1 < OK", "2 < OK"],
            )

    def test_a_write_of_a_locked_row_shows_it(self):
        """Also one in a branch, and of a row that was only read."""
        read = (*whole(0, "start", "a"), *whole(0, "read", ["k"], ["k", None]))
        for begun in (HELD, read):
            self.assertEqual(
                self.after(*lost(0, "end", "a"), *whole(1, "write", ["k", 2]), begun=begun),
                ["1 > XA END 'a','',1", f"1 {OVER}", "1 > DISCONNECT", "2 > PUT 'k','2'", "1 < OK", "2 < OK"],
            )
        got = self.after(
            *lost(0, "end", "a"),
            *whole(1, "start", "b"),
            *refused(1, "write", ["k", 2], 3572),
            *whole(1, "delete", ["k"]),
        )
        self.assertEqual(got[5:], [f"1 {OVER}", "1 > DISCONNECT", "2 > DEL 'k'", "1 < OK", "2 < OK"])

    def test_the_end_may_come_at_any_time_since_the_call_that_shows_it(self):
        """The write's value is read before the write has returned, so the branch was ended before that."""
        got = self.after(
            *lost(0, "read", ["k"]),
            (1, "invoke", "write", ["k", 2]),
            *whole(2, "read", ["k"], ["k", 2]),
            (1, "ok", "write", ["k", 2]),
        )
        self.assertEqual(
            got[1:],
            [f"1 {OVER}", "1 > DISCONNECT", "2 > PUT 'k','2'", "3 > GET 'k'", "3 < VALUE '2'", "1 < OK", "2 < OK"],
        )

    def test_a_free_read_shows_nothing(self):
        """It never waits for a lock."""
        self.assertEqual(
            self.after(*lost(0, "read", ["k"]), *whole(1, "read", ["k"], ["k", None])),
            ["1 > GET 'k'", "1 ! LOST", "2 > GET 'k'", "2 < NONE"],
        )

    def test_a_read_of_a_branch_shows_it_of_a_row_that_was_written(self):
        got = self.after(*lost(0, "read", ["k"]), *whole(1, "start", "b"), *whole(1, "read", ["k"], ["k", None]))
        self.assertEqual(got[3:], [f"1 {OVER}", "1 > DISCONNECT", "2 > GET 'k'", "1 < OK", "2 < NONE"])

    def test_a_call_that_may_end_the_branch_itself_stays_lost(self):
        for name in ("prepare", "commit-one-phase", "rollback"):
            got = self.after(*lost(0, name, "a"), *whole(1, "write", ["j", 2]))
            self.assertEqual(got[1], "1 ! LOST")

    def test_where_an_unknown_call_may_have_needed_the_end_before_it_stays_lost(self):
        """The lost write of k may have been done behind the branch's end, and before the start that shows this."""
        got = self.after(
            *lost(0, "read", ["k"]),
            *whole(2, "read", ["k"], ["k", 7]),
            *whole(1, "start", "a"),
            begun=(*HELD, (3, "invoke", "write", ["k", 7]), *whole(4, "read", ["j"], ["j", None])),
        )
        self.assertEqual(got[1], "1 ! LOST")

    def test_where_the_lost_call_may_have_locked_more_others_may_have_met_that(self):
        """Session 3 was refused since the lost call had locked j; it was done while session 2 called."""
        got = self.after(
            *lost(0, "write", ["j", 1]),
            (1, "invoke", "write", ["k", 2]),
            *refused(2, "write", ["j", 2], 3572),
            (1, "ok", "write", ["k", 2]),
        )
        self.assertEqual(got[:2], ["1 > PUT 'j','1'", "1 ! LOST"])

    def test_a_connection_that_may_have_been_closed_before_an_earlier_write_stays_gone(self):
        got = self.after(
            *whole(1, "write", ["k", 2]),
            *lost(0, "read", ["k"], 2013),
            *whole(1, "start", "a"),
        )
        self.assertEqual(got[2:4], ["1 > GET 'k'", "1 ! GONE"])

    def test_a_lost_write_that_was_read_may_have_needed_that_end(self):
        """The connection was closed before session 2's write, which the lock of session 1's branch would have refused:
        that is the only order."""
        got = self.record(history(
            *HELD,
            *lost(1, "write", ["k", 7]),
            *whole(2, "read", ["k"], ["k", 7]),
            *lost(0, "end", "a", 2013),
            *whole(2, "start", "a"),
        ))
        self.judged(got, "LEGAL")
        self.assertIn("1 ! GONE", got)

    def test_a_read_of_its_value_shows_that_a_lost_write_is_over(self):
        reads = (*whole(1, "read", ["k"], ["k", None]), *whole(1, "read", ["k"], ["k", 7]))
        operations = (*lost(0, "write", ["k", 7]), *reads)
        self.assertEqual(
            self.after(*operations, begun=()),
            ["1 > PUT 'k','7'", "2 > GET 'k'", "2 < NONE", "2 > GET 'k'", f"1 {OVER}", "2 < VALUE '7'"],
        )
        for other in (whole(2, "write", ["k", 7]), lost(2, "write", ["k", 7])):
            got = self.after(*operations, *other, begun=())
            self.assertEqual(got[1], "1 ! LOST", "another one writes the value too")

    def test_forty_processes_that_are_lost_one_after_another(self):
        for error in (None, 2013):
            branches, writes = [], []
            for process in range(40):
                branches += [*whole(process, "start", "b"), *whole(process, "write", ["k", process])]
                branches += lost(process, "read", ["k"], error)
                writes += [*lost(process, "write", ["k", process], error), *whole(99, "read", ["k"], ["k", process])]
            for operations, wrong in ((branches, 2), (writes, 3)):
                got = self.record(history(*operations))
                self.judged(got, "LEGAL")
                self.judged([*got, "16 > GET 'k'", f"16 < VALUE '{wrong}'"], f"ILLEGAL line {len(got) + 2}")


class Store:
    """A store of the rules with what the histories of this file need of them."""

    def __init__(self):
        self.rows, self.branches = {}, {}  # of a branch, by its session: its identifier, its locks and its writes

    def conflict(self, session, key, alone):
        return any(
            key in locks and (alone or locks[key])
            for other, (_, locks, _) in self.branches.items()
            if other != session
        )

    def does(self, session, name, value):
        """The answer: None for OK, a number, or what was read as a list."""
        mine = self.branches.get(session)
        if name == "start":
            if mine or any(value == xid for xid, _, _ in self.branches.values()):
                return 1399 if mine else 1440
            self.branches[session] = (value, {}, {})
            return None
        key, alone = value[0], name == "write"
        if (mine or alone) and self.conflict(session, key, alone):
            return 3572
        if mine:
            mine[1][key] = alone or mine[1].get(key, False)
        target = mine[2] if mine else self.rows
        if alone:
            target[key] = value[1]
            return None
        return [key, target.get(key, self.rows.get(key))]

    def leave(self, session):
        self.branches.pop(session, None)


def operations_of(draw, processes, count):
    """Operations of processes, of which some are lost, and their branches ended later or never."""
    store, lines, open_calls, leaving, session = Store(), [], {}, [], dict(enumerate(range(processes)))
    wrong = draw.choice((0, 0.1))  # how many answers aren't the store's
    while count or open_calls:
        if leaving and draw.random() < 0.2:
            leaving_call = leaving.pop(draw.randrange(len(leaving)))
            if draw.random() < 0.5:
                store.does(*leaving_call)
            store.leave(leaving_call[0])
        process = draw.randrange(processes)
        if process not in open_calls:
            if count:
                count -= 1
                name = draw.choice(("start", "start", "read", "write", "write"))
                value = draw.choice("ab") if name == "start" else [draw.choice("kj")]
                value = [*value, draw.choice((1, 2, 100 + count))] if name == "write" else value
                open_calls[process] = [name, value, None, False]
                lines.append((process, "invoke", name, value))
            continue
        name, value, answer, is_done = open_calls[process]
        if not is_done and draw.random() < 0.2:
            lines.append((process, "info", name, None if name == "read" else value, {"error": draw.choice((0, 2013))}))
            leaving.append((session[process], name, value))
            session[process] = max(session.values()) + 1
        elif not is_done:
            open_calls[process][2:] = [store.does(session[process], name, value), True]
            continue
        else:
            if draw.random() < wrong:
                answer = [value[0], draw.choice((None, 1, 2))] if name == "read" else draw.choice((None, 3572, 1440))
            if isinstance(answer, int):
                lines.append((process, "fail", name, value, {"error": answer}))
            else:
                lines.append((process, "ok", name, value if answer is None else answer))
        del open_calls[process]
    return lines


def verdict_of(record):
    """The first word of the judge, and the answer of the line that it names."""
    found = says("judge", record)[0].decode().split("\n")[0].split()
    return found[0], record.split(b"\n")[int(found[2]) - 1].split(b" ", 1)[1] if len(found) > 1 else None


class Agreement(unittest.TestCase):
    def test_the_record_means_what_it_means_with_all_of_them_lost(self):
        found = {"LEGAL": 0, "ILLEGAL": 0}
        for at in range(TRIES):
            lines = operations_of(random.Random(f"ends {at}"), 3, 20)
            record = histories.History(history(*lines).encode(), b"x").record()
            with mock.patch.object(histories, "ends_of", lambda events: {}):
                plain = histories.History(history(*lines).encode(), b"x").record()
            if record != plain:
                wanted = verdict_of(plain)
                self.assertEqual(verdict_of(record), wanted, "\n".join(map(str, lines)))
                found[wanted[0]] += 1
        self.assertGreater(min(found.values()), TRIES // 50, found)


if __name__ == "__main__":
    unittest.main()
