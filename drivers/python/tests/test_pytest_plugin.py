"""The plugin of pytest: its example passes, and tests that use it wrongly, or find something, fail as they should."""
import os
import shutil
import subprocess
import sys
import tempfile
import textwrap
import unittest
from pathlib import Path

DRIVER = Path(__file__).resolve().parents[1]
EXAMPLE = DRIVER / "examples/transfer"
HEAD = """\
import sys
import pytest
from nigbaru import DatabaseError, Xid

pytestmark = pytest.mark.nigbaru(stores=2)
CLIENT = "import os, sys; from nigbaru import Remote; c = Remote(int(os.environ['PORT1'])).connect(); " \\
         "[c.ask(text) for text in sys.argv[1:]]"


def prepare(server, store, *xid):
    with server.connect(store) as connection:
        connection.tpc_begin(connection.xid(*xid))
        connection.put("k", "v")
        connection.tpc_prepare()

"""


class Plugin(unittest.TestCase):
    def pytest(self, *words, environment=None):
        environment = environment or {**os.environ, "NIGBARU_PROGRAM": os.environ["XA_SCRIPT"]}
        with tempfile.TemporaryDirectory() as folder:
            ran = subprocess.run([sys.executable, "-m", "pytest", "-p", "no:cacheprovider", "--basetemp",
                                  f"{folder}/base", *words], stdout=subprocess.PIPE, stderr=subprocess.STDOUT,
                                 text=True, env=environment, cwd=folder)  # (python takes packages from there)
        return ran.returncode, ran.stdout

    def outcome_of(self, text):
        """Runs a file of tests."""
        with tempfile.TemporaryDirectory() as folder:
            file = Path(folder, "test_it.py")
            file.write_text(HEAD + textwrap.dedent(text))
            return self.pytest("-p", "nigbaru.pytest_plugin", "--strict-markers", "--rootdir", folder, file)

    def test_the_example(self):
        status, said = self.pytest(EXAMPLE)
        self.assertEqual(status, 0, said)
        self.assertIn("4 passed", said)

    def test_the_example_with_the_programs_of_a_wheel(self):
        with tempfile.TemporaryDirectory() as folder:
            package = shutil.copytree(DRIVER / "nigbaru", Path(folder, "nigbaru"))
            (package / "built").mkdir()
            for name, variable in (("xa_script", "XA_SCRIPT"), ("nigbaru-server", "NIGBARU_SERVER")):
                (package / "built" / name).symlink_to(os.environ[variable])
            status, said = self.pytest(EXAMPLE, environment={"PATH": "/nowhere", "PYTHONPATH": folder,
                                                             "PYTHONDONTWRITEBYTECODE": "1"})
        self.assertEqual(status, 0, said)
        self.assertIn("4 passed", said)

    def test_faults_and_commands(self):
        status, said = self.outcome_of('''
            def test_empty(nigbaru_server):
                assert nigbaru_server.get(1, "k") is None
                assert nigbaru_server.in_doubt() == [[], []]
                assert nigbaru_server.verdicts() == ["LEGAL", "LEGAL"]

            def test_counts(nigbaru_server):
                for _ in range(2):
                    nigbaru_server.put(1, "k", "v")
                    nigbaru_server.fault("STORE 1 PUT 2 error 1205")
                    nigbaru_server.put(1, "k", "v")
                    with pytest.raises(DatabaseError) as refused:
                        nigbaru_server.put(1, "k", "v")
                    assert refused.value.number == 1205
                nigbaru_server.fault("PUT 1 error 1205")
                nigbaru_server.fault()
                nigbaru_server.put(1, "k", "v")

            def test_wrong_line(nigbaru_server):
                nigbaru_server.fault("PUT 1 error 1205")
                with pytest.raises(ValueError, match="^line 2: not as in"):
                    nigbaru_server.fault("GET 1 close-after", "GET close-after")
                with pytest.raises(DatabaseError):
                    nigbaru_server.put(1, "k", "v")
                with pytest.raises(ValueError, match="there is no store 3"):
                    nigbaru_server.get(3, "k")

            def test_run(nigbaru_server):
                one, two = nigbaru_server.ports
                ended = nigbaru_server.run("sh", "-c", "echo $PORTS $PORT2; touch journal; exit 3")
                assert ended == (3, f"{one} {two} {two}\\n")
                assert nigbaru_server.run("ls") == (0, "journal\\n")

            def test_kills(nigbaru_server):
                client = (sys.executable, "-c", CLIENT)
                branch = (*client, "XA START 'a'", "PUT 'k','v'", "XA END 'a'", "XA PREPARE 'a'")
                nigbaru_server.kill_before("STORE 1 XA PREPARE 1", *branch)
                nigbaru_server.put(1, "k", "w")
                assert nigbaru_server.in_doubt() == [[], []]
                nigbaru_server.kill_after("XA PREPARE 1", *branch)
                assert nigbaru_server.in_doubt() == [[Xid(1, b"a", b"")], []]
                nigbaru_server.kill_after("XA COMMIT 1", *client, "XA COMMIT 'a'")
                assert nigbaru_server.in_doubt() == [[], []]
                assert nigbaru_server.get(1, "k") == b"v"
                assert nigbaru_server.verdicts() == ["LEGAL", "LEGAL"]

            def test_what_is_found(nigbaru_server):
                for number in (1, 2):
                    prepare(nigbaru_server, 1, 1, f"g{number}", "1")
                    prepare(nigbaru_server, 2, 1, f"g{number}", "2") if number == 1 else None
                    with nigbaru_server.connect(1) as connection:
                        connection.tpc_commit(connection.xid(1, f"g{number}", "1"))
                with nigbaru_server.connect(2) as connection:
                    connection.tpc_rollback(connection.xid(1, "g1", "2"))
                prepare(nigbaru_server, 2, 1, "g3", "2")
                nigbaru_server.fault("STORE 2 XA COMMIT 1 error 1397")
                with nigbaru_server.connect(2) as connection, pytest.raises(DatabaseError):
                    connection.tpc_commit(connection.xid(1, "g3", "2"))
                assert nigbaru_server.audit() == {"ATOMIC": 1, "MIXED": 1, "IN DOUBT": 1}
                one, two = nigbaru_server.verdicts()
                assert one == "LEGAL" and two.startswith("ILLEGAL line ")

            @pytest.mark.nigbaru()
            def test_one_store(nigbaru_server):
                assert len(nigbaru_server.ports) == 1
                assert nigbaru_server.audit() == {}
                assert nigbaru_server.verdicts() == ["EMPTY"]
            ''')
        self.assertEqual(status, 0, said)
        self.assertIn("7 passed", said)

    def test_what_fails(self):
        status, said = self.outcome_of('''
            def test_not_reached(nigbaru_server):
                nigbaru_server.kill_before("XA COMMIT 1", "sh", "-c", "echo none; exit 7")

            @pytest.mark.nigbaru(options=["--no-such"])
            def test_not_started(nigbaru_server):
                pass
            ''')
        self.assertEqual(status, 1, said)
        self.assertIn("1 failed, 1 error", said)
        for wanted in ("it ended with status 7, and the fault XA COMMIT 1 stall 600 was not reached: sh -c echo none",
                       "It wrote: none", "the server's log, the records and histories, and what commands wrote, are in",
                       "the server doesn't start: ", "--no-such"):
            self.assertIn(wanted, said)


if __name__ == "__main__":
    unittest.main()
