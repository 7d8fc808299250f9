"""Histories of operations as records: what becomes of each operation, what the judge says of it, and which lines are
refused."""
import json
import subprocess
import unittest

from support import COMMAND, NO_SESSION, Converted, converted, history, says


class FromHistory(Converted):
    def call(self, name, value, returned=None):
        return self.record(history((0, "invoke", name, value),
                                   (0, "ok", name, value if returned is None else returned)))

    def test_each_statement(self):
        for name, value, statement in [
                ("write", ["k", "v"], "PUT 'k','v'"), ("put", [7, 8], "PUT '7','8'"), ("w", 3, "PUT 'x','3'"),
                ("delete", ["k"], "DEL 'k'"), ("del", None, "DEL 'x'"),
                ("start", "a", "XA START 'a','',1"), ("begin", ["a", "b"], "XA START 'a','b',1"),
                ("xa-end", ["a", "b", 9], "XA END 'a','b',9"),
                ("prepare", 5, "XA PREPARE '5','',1"), ("XA_commit", "a", "XA COMMIT 'a','',1"),
                ("commit-one-phase", "a", "XA COMMIT 'a','',1 ONE PHASE"),
                ("commit_one_phase", "a", "XA COMMIT 'a','',1 ONE PHASE"), ("rollback", "a", "XA ROLLBACK 'a','',1"),
                ("disconnect", None, "DISCONNECT")]:
            with self.subTest(name=name, value=value):
                self.assertEqual(self.call(name, value), [f"1 > {statement}", "1 < OK"])

    def test_what_is_read(self):
        self.assertEqual(self.call("read", None, 4), ["1 > GET 'x'", "1 < VALUE '4'"])
        self.assertEqual(self.call("get", ["k", None], ["k", "v"]), ["1 > GET 'k'", "1 < VALUE 'v'"])
        self.assertEqual(self.call("r", ["k"], ["k", None]), ["1 > GET 'k'", "1 < NONE"])
        self.assertEqual(self.call("recover", None, ["a", ["b", "c", 7]]),
                         ["1 > XA RECOVER", "1 < ROWS 2", "1 1 0 0x61", "7 1 1 0x6263"])
        self.assertEqual(self.record(history((0, "invoke", "read", None), (0, "ok", "read", None)), "--key", "k"),
                         ["1 > GET 'k'", "1 < NONE"])

    def test_bytes_that_a_quoted_literal_does_not_have(self):
        for text, wanted in [("it's", "X'69742773'"), ("a\\b", "X'615c62'"), ("a\nb", "X'610a62'"), ("é", "X'c3a9'"),
                             ('"', "X'22'"), ("<&>", "'<&>'"), ("", "''")]:
            self.assertEqual(self.call("write", ["k", text])[0], f"1 > PUT 'k',{wanted}")

    def test_refusals(self):
        for error in (1399, "1399", "ERROR 1399 (XAE07): XAER_RMFAIL", ["rmfail", 1399], {"code": 1399}):
            self.assertEqual(self.record(history((0, "invoke", "end", "a"), (0, "fail", "end", "a", {"error": error}))),
                             ["1 > XA END 'a','',1", "1 < ERROR 1399"])

    def test_a_fail_without_a_number_is_left_out_with_its_call(self):
        for more in ({}, {"error": "not sent"}, {"error": None}, {"error": ["no", "number"]}):
            self.assertEqual(self.record(history((0, "invoke", "write", 1), (0, "fail", "write", 1, more),
                                                 (0, "invoke", "read", None), (0, "ok", "read", None))),
                             ["1 > GET 'x'", "1 < NONE"])

    def test_an_unknown_outcome_is_a_lost_client_and_its_process_a_new_session(self):
        text = history((3, "invoke", "write", 1), (4, "invoke", "read", None),
                       (3, "info", "write", 1, {"error": "timeout"}), (4, "ok", "read", None),
                       (3, "invoke", "read", None), (3, "ok", "read", None), ("nemesis", "info", "kill", None),
                       (4, "invoke", "write", 2))
        self.assertEqual(self.record(text), ["1 > PUT 'x','1'", "1 ! LOST", "2 > GET 'x'", "2 < NONE", "3 > GET 'x'",
                                             "3 < NONE", "2 > PUT 'x','2'", "2 ! LOST"])
        record, _, _ = converted(text)
        self.assertEqual([line for line in record.splitlines() if line.startswith("#")],
                         ["# Session 1 is process 3.", "# Session 2 is process 4.", "# Session 3 is process 3."])
        self.assertEqual(says("judge", record.encode())[1], 0)

    def test_the_judge_reads_what_is_written(self):
        steps = [("start", "a", None), ("write", ["k", "v"], None), ("end", "a", None), ("prepare", "a", None)]
        prepared = [it for name, value, _ in steps for it in ((0, "invoke", name, value), (0, "ok", name, value))]
        listed = [(1, "invoke", "recover", None), (1, "ok", "recover", ["a"]), (1, "invoke", "read", ["k"])]
        for seen, verdict in ((None, b"LEGAL"), ("v", b"ILLEGAL line 15")):
            record, _, _ = converted(history(*prepared, *listed, (1, "ok", "read", ["k", seen])))
            self.assertEqual(says("judge", record.encode())[0].splitlines()[0], verdict)

    def test_maps_of_edn(self):
        text = """{:type :invoke, :f :write, :value [5 "a;\\"b"], :process 0, :time 12} ; said
            #jepsen.history.Op{:index 1, :type :ok, :f :write, :value [5 "a;\\"b"], :process 0, :more #{1 2.5 (nil true)}}
            {:type :invoke, :f :read, :value [5 nil], :process :one}
            {:process :nemesis, :type :info, :f :partition, :value {:a "b"}}
            {:type :ok, :f :read, :value [5 :on], :process :one}"""
        self.assertEqual(self.record(text), ["1 > PUT '5',X'613b2262'", "1 < OK", "2 > GET '5'", "2 < VALUE 'on'"])

    def test_sixteen_sessions_and_no_more(self):
        begins, ends = ([(process, kind, "read", None) for process in range(17)] for kind in ("invoke", "ok"))
        self.assertEqual(len(self.record(history(*begins[:16], *ends[:16]))), 32)
        self.refused(history(*begins, *ends), f"line 17: process 16 would be session 17{NO_SESSION}")

    def test_lines_that_are_refused(self):
        begun = history((0, "invoke", "read", None))
        for line, cause in [
                ("what", "not a map"), ("{", "neither JSON nor EDN"), ('{"process": 0', "neither JSON nor EDN"),
                ("\udcff", "neither JSON nor EDN"), ("[1]", "not a map"), ("[" * 9999, "neither JSON nor EDN"),
                ('{"type": "ok"}', "process is a whole number or a text"),
                ('{"process": 1, "type": "done", "f": "read"}', "type is invoke, ok, fail or info"),
                ('{"process": 1, "type": "invoke", "f": "txn"}', "a txn has a list of steps"),
                ('{"process": 1, "type": "invoke", "f": "add"}', "f is 'add', and no statement does that: log it as "
                 "reads and writes of rows, or judge the history by a checker that knows it"),
                ('{"process": 0, "type": "invoke", "f": "read"}', "process 0 has an open call"),
                ('{"process": 1, "type": "ok", "f": "read"}', "process 1 has no open call"),
                ('{"process": 0, "type": "ok", "f": "write"}', "f is 'write', and process 0 called 'read'"),
                ('{"process": 0, "type": "ok", "f": "read", "value": ["k", 1]}', "the row isn't that of the call"),
                ('{"process": 0, "type": "ok", "f": "read", "value": 1.5}', "a value is a text or a whole number"),
                ('{"process": 1, "type": "invoke", "f": "write", "value": ["", 1]}',
                 "a key has 1 to 64 bytes, and this one has 0"),
                (json.dumps({"process": 1, "type": "invoke", "f": "write", "value": ["k", "é" * 33]}),
                 "a value has 0 to 64 bytes, and this one has 66"),
                ('{"process": 1, "type": "invoke", "f": "write", "value": ["\\ud800", 1]}',
                 "a key isn't a text of Unicode"),
                ('{"process": 1, "type": "invoke", "f": "start", "value": ["a", "b", -1]}',
                 "a formatID is a whole number from 0 to 2^64-1"),
                ('{"process": 0, "type": "fail", "f": "read", "error": 65536}', "an error's number is 0 to 65,535")]:
            with self.subTest(line=line[:60]):
                self.refused(f"{begun}\n{line}\n{begun}", f"line 3: {cause}")

    def test_a_file_that_is_not_there(self):
        record, said, status = converted("", "/nowhere")
        self.assertEqual((record, status), ("", 2))
        self.assertIn("/nowhere", said)

    def test_a_standard_input_that_is_closed(self):
        ran = subprocess.run(["sh", "-c", 'exec "$@" <&-', "sh", *COMMAND], capture_output=True, text=True, timeout=600)
        self.assertEqual(
            (ran.returncode, ran.stdout, ran.stderr),
            (2, "", "from_history: the standard input is closed; give it the history, or name its file\n"),
        )


if __name__ == "__main__":
    unittest.main()
