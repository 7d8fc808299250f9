"""Which rows a manager's transactions left, by histories that are written here, and which of them are missing."""
import unittest

from breaker.rows import ANY, DELETED, expected, lost, rows_of

OWN, OTHER = "0x6f", "0x66"  # gtrids


def rows(*lines):
    return rows_of("".join(f"{line}\n" for line in lines).encode(), lambda gtrid: gtrid == b"o")


def branch(session, gtrid, *work):
    xid = f"{gtrid},0x31,1"
    return [f"{session} XA START {xid}", *(f"{session} {it}" for it in work), f"{session} XA END {xid}"]


class Left(unittest.TestCase):
    def test_how_a_branch_ends(self):
        """Only what commits counts, whoever commits it."""
        begun = branch(1, OWN, "PUT 0x6b,0x76")
        prepared = [*begun, f"1 XA PREPARE {OWN},0x31,1"]
        for lines, left in ((begun, {}), ([*begun, "1 DISCONNECT"], {}), ([*begun, f"1 XA ROLLBACK {OWN},0x31,1"], {}),
                            (prepared, {}), ([*prepared, f"2 XA ROLLBACK {OWN},0x31,1"], {}),
                            ([*prepared, f"2 XA COMMIT {OWN},0x31,1"], {b"0x6b": b"0x76"}),
                            ([*begun, f"1 XA COMMIT {OWN},0x31,1 ONE PHASE"], {b"0x6b": b"0x76"})):
            self.assertEqual(rows(*lines), left, lines)

    def test_whose_rows_count(self):
        """Those of the manager's branches: not another manager's, and none that was written outside a branch."""
        lines = [*branch(1, OTHER, "PUT 0x61,0x76"), f"1 XA COMMIT {OTHER},0x31,1 ONE PHASE", "2 PUT 0x62,0x76",
                 *branch(1, OWN, "PUT 0x63,X''"), "2 PUT 0x64,0x76", f"1 XA COMMIT {OWN},0x31,1 ONE PHASE",
                 "1 PUT 0x65,0x76"]
        self.assertEqual(rows(*lines), {b"0x63": b"X''"})

    def test_the_last_value_counts(self):
        """Within a branch, and of the branch that commits last. An identifier that is used again has written nothing
        yet."""
        one = [*branch(1, OWN, "PUT 0x6b,0x31", "PUT 0x6b,0x32", "DEL 0x6c"), f"1 XA COMMIT {OWN},0x31,1 ONE PHASE"]
        self.assertEqual(rows(*one), {b"0x6b": b"0x32", b"0x6c": DELETED})
        self.assertEqual(rows(*one, *branch(1, OWN, "PUT 0x6c,0x33"), f"1 XA COMMIT {OWN},0x31,1 ONE PHASE"),
                         {b"0x6b": b"0x32", b"0x6c": b"0x33"})


class Missing(unittest.TestCase):
    def test_what_a_run_has_to_leave(self):
        """What two runs wrote: a value that differs may be any, and a key that only one has isn't wanted."""
        self.assertEqual(expected([{b"a": b"1", b"b": b"2", b"c": b"3"}, {}],
                                  [{b"a": b"1", b"b": b"4", b"d": b"3"}, {b"a": b"1"}]), [{b"a": b"1", b"b": ANY}, {}])

    def test_what_is_missing(self):
        wanted = [{b"a": b"1", b"b": ANY}, {b"c": DELETED}]
        self.assertEqual(lost(wanted, [{b"a": b"1", b"b": b"9", b"z": b"0"}, {b"c": DELETED}]), [])
        self.assertEqual(lost(wanted, [{b"a": b"2", b"b": b"9"}, {}]), [(1, b"a"), (2, b"c")])
        self.assertEqual(lost(wanted, [{b"a": b"1"}, {b"c": b"1"}]), [(1, b"b"), (2, b"c")])


if __name__ == "__main__":
    unittest.main()
