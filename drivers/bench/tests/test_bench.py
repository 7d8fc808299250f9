"""The bench itself: its options, its reports, and managers that misbehave."""
import contextlib
import html
import importlib.machinery
import importlib.util
import json
import os
import random
import re
import shlex
import shutil
import signal
import socket
import subprocess
import tempfile
import time
import unittest
import xml.etree.ElementTree
from pathlib import Path
from unittest import mock
from urllib.parse import unquote_plus

from support import BENCH, FOLDER, PROGRAM, PYTHON, bench, found, manager, name_of

PATIENCE = 240  # seconds: a machine may be busy with other work
SLEEP = f"sleep 600.{os.getpid():07}"  # no other process's
REFERENCE = f"{PYTHON} {FOLDER}/managers/reference.py"


def running(words):
    """Processes whose command line begins with these words."""
    found = []
    for path in Path("/proc").glob("[0-9]*/cmdline"):
        with contextlib.suppress(OSError):  # it may have ended
            if path.read_bytes().replace(b"\0", b" ").decode(errors="replace").startswith(words):
                found.append(path.parent.name)
    return found


def wait_for(holds, what):
    deadline = time.monotonic() + PATIENCE
    while not holds():
        if time.monotonic() > deadline:
            raise AssertionError(f"it didn't come: {what}")
        time.sleep(0.02)


def neighbours():
    """Two free ports next to each other, below those that the system gives to others; the first."""
    while True:
        port = random.randrange(20_000, 30_000)
        with contextlib.suppress(OSError), socket.socket() as one, socket.socket() as other:
            one.bind(("127.0.0.1", port))
            other.bind(("127.0.0.1", port + 1))
            return port


def of_manager(record):
    """What a store was asked by the manager, or about its branches, and replied: neither the bench's looks and plants,
    nor lists, nor what the store never got."""
    found, calls, refused = [], {}, set()
    for line in record.read_text().splitlines():
        session, sign, text = (line.split(" ", 2) + ["", ""])[:3]
        if line.startswith("# connection") and " error " in line:
            refused.add(line.split(", at ")[1].rpartition(": ")[0])
        elif sign == ">":
            calls[session] = text
        elif (sign == "<" and not re.match(r"GET|XA RECOVER|DISCONNECT", calls[session])
              and f"0x{b'another manager'.hex()}"[2:] not in calls[session] and calls[session] not in refused):
            found.append((calls[session], text))
    return found


class Reports(unittest.TestCase):
    def test_files_and_the_command_that_repeats(self):
        """What a manager that never decides has at one statement: the table, three files, and a command that gives the
        same again."""
        with tempfile.TemporaryDirectory() as folder:
            said, points = bench(*manager("wrong.py", "never-decides"), "--only", "store 2 XA COMMIT 1", "--junit",
                                 f"{folder}/j.xml", "--tap", f"{folder}/t.tap", "--keep", f"{folder}/kept", status=1)
            names = [name_of(point) for point in points]
            self.assertEqual(len(points), 1 + 9)
            self.assertEqual(names[0], "without a fault")
            wrong = found(points)
            self.assertIn("store 2 XA COMMIT 1, manager killed before: MIXED", wrong)
            self.assertIn(f"{len(points)} points: ", said)
            suite = xml.etree.ElementTree.parse(f"{folder}/j.xml").getroot()
            self.assertEqual([case.get("name") for case in suite], names)
            self.assertEqual([case.get("name") for case in suite if case.find("failure") is not None],
                             [line.rpartition(": ")[0] for line in wrong])
            self.assertEqual((suite.get("tests"), suite.get("failures")), (str(len(points)), str(len(wrong))))
            tap = Path(f"{folder}/t.tap").read_text().splitlines()
            self.assertEqual(tap[:2], ["TAP version 13", f"1..{len(points)}"])
            self.assertEqual(sum(line.startswith("not ok ") for line in tap), len(wrong))
            if shutil.which("prove"):  # Perl's own reader of this form
                read = subprocess.run(["prove", "-e", "cat", f"{folder}/t.tap"], stdout=subprocess.PIPE,
                                      stderr=subprocess.STDOUT, text=True)
                self.assertIn(f"Tests: {len(points)} Failed: {len(wrong)})", read.stdout)
            kept = Path(folder) / "kept" / "store-2-XA-COMMIT-1-manager-killed-before"
            self.assertLessEqual({"faults", "record.1", "record.2", "history.1", "history.2", "server.log", "run.out",
                                  "recovery1.out", "work", "story.calls", "story.html"},
                                 {path.name for path in kept.iterdir()})
            self.assertIn("STORE 2 XA COMMIT 1 stall 600\n", (kept / "faults").read_text())
            self.assertIn(f"    its records are in {kept}, and story.html there opens it in the classroom", said)
            (again,) = [line.strip() for line in said.splitlines()
                        if line.startswith("    ") and "'store 2 XA COMMIT 1, manager killed before'" in line]
            words = shlex.split(again)
            ran = subprocess.run([PYTHON, *words], stdout=subprocess.PIPE, text=True)
            self.assertEqual(ran.returncode, 1, ran.stdout)
            self.assertRegex(ran.stdout, r"\nstore 2 XA COMMIT 1 +manager killed before +1 in doubt +MIXED ")
            self.assertRegex(ran.stdout, r"\n2 points: 1 atomic, 1 mixed; ")

    def test_list(self):
        said, _ = bench(*manager("reference.py"), "--stores", "3", "--list", status=0)
        lines = said.splitlines()
        self.assertEqual(lines[0], "store 1 XA START 1, lost on its way")
        self.assertEqual(len(lines), len(set(lines)))
        self.assertEqual(sum(line.startswith("store 3 ") for line in lines), len(lines) // 3)

    def test_repeat_and_side_by_side(self):
        """The same points in the same order each time, however many run side by side. What each time left is kept."""
        chosen = ["store 1 XA PREPARE 1, answer lost", "store 2 XA COMMIT 1, branch rolled back",
                  "redo store 1 XA RECOVER 1, answer lost"]
        only = [word for point in chosen for word in ("--only", point)]
        with tempfile.TemporaryDirectory() as folder:
            for jobs, keep in (("1", []), ("3", ["--keep", folder])):
                _, points = bench(*manager("reference.py"), *only, "--repeat", "2", "--jobs", jobs, *keep, status=0)
                self.assertEqual([name_of(point) for point in points[1:]], chosen * 2)
            kept = sorted(str(path.relative_to(folder)) for path in Path(folder).glob("[12]/*"))
            folders = [point.replace(",", "").replace(" ", "-") for point in chosen]
            self.assertEqual(kept, sorted(f"{turn}/{name}" for turn in "12" for name in folders))

    def test_a_name_that_no_point_has(self):
        """It is told in one line, before anything else, with names that are near to it. What can be no name is told
        before the manager is run."""
        false = ["--run", "false", "--recover", "false"]
        for words, name, nearest in ((false, "store 1 XA COMIT 1", "store 1 XA COMMIT 1"),
                                     (false, "store 3 XA COMMIT 1", "store 1 XA COMMIT 1"),
                                     (false, "store 1 XA COMMIT 1, answers lost", "store 1 XA COMMIT 1, answer lost"),
                                     (false, "branch roled back", "branch rolled back"),
                                     (manager("reference.py"), "store 1 XA COMMIT 2", "store 1 XA COMMIT 1"),
                                     (manager("reference.py"), "redo store 2 XA ROLLBACK 1", "redo store 2 XA")):
            said, points = bench(*words, "--only", name, "--only", "answer lost", status=2)
            self.assertEqual(len(said.splitlines()), 1, said)
            self.assertTrue(said.startswith(f"bench: no point is named '{name}'; the nearest: "), said)
            self.assertIn(f"'{nearest}", said)
            self.assertEqual(points, [])

    def test_the_story_of_a_point(self):
        """What it says of each store is what the store's record says, and the job `coordinate` gives the same replies.
        The page has it as a link."""
        points = ["store 2 XA COMMIT 1, manager killed before", "store 1 XA COMMIT 1, branch rolled back",
                  "store 2 PUT 1, answer lost", "store 2 XA PREPARE 1, refused 1402",
                  "store 1 XA PREPARE 1, store restarted", "redo store 1 XA COMMIT 1, answer lost"]
        with tempfile.TemporaryDirectory() as folder:
            bench(*manager("wrong.py", "never-decides"), *(word for point in points[:-1] for word in ("--only", point)),
                  "--keep", folder, status=1)
            bench(*manager("reference.py"), "--only", points[-1], "--keep", folder, status=0)
            for point in points:
                with self.subTest(point=point):
                    self.check_story(Path(folder) / point.replace(",", "").replace(" ", "-"), point)

    def check_story(self, kept, point):
        calls = (kept / "story.calls").read_text().splitlines()
        self.assertTrue(calls[0].startswith(f"# {point}: "), calls)
        verdict = calls[0].removeprefix(f"# {point}: ").partition(", store")[0]
        self.assertTrue(calls[-1].startswith(f"#@ verdict {verdict}: "), calls)
        ran = subprocess.run([PROGRAM, "coordinate", "--stores", "3", "--file", kept / "story.calls"],
                             stdout=subprocess.PIPE, text=True, check=True)
        replies = [line
                   for line in ran.stdout.splitlines() if line.startswith(("OK", "NONE", "VALUE", "ROWS", "ERROR"))]
        asked = [line for line in calls if line.startswith("AT ")]
        self.assertEqual(len(replies), len(asked))
        for store in (1, 2):
            # A record has an error's number, and not its text.
            told = [(line.split(" ", 2)[2].split(" 'ref")[0], reply.partition(" (")[0])
                    for line, reply in zip(asked, replies)
                    if line.startswith(f"AT {store} ") and "DISCONNECT" not in line]
            seen = [(text.split(" 0x")[0].replace("PUT", "PUT 'row','90'"), reply)
                    for text, reply in of_manager(kept / f"record.{store}")]
            self.assertEqual([it for it in told[:-1] if "RECOVER" not in it[0]], seen, calls)
            self.assertEqual(told[-1][0], "GET 'row'")
        page = (kept / "story.html").read_text()
        self.assertEqual(
            unquote_plus(html.unescape(page.partition('calls=')[2].partition("&amp;stores=3")[0])).split("\n"), calls)

    def test_one_store(self):
        """With one store nothing can be mixed, and all else is the same."""
        _, points = bench(*manager("wrong.py", "one-phase"), "--stores", "1", "--only", "store 1 ONE PHASE 1", "--only",
                          "store 1 XA COMMIT 1", status=0)
        self.assertIn("store 1 ONE PHASE 1, answer lost", [name_of(point) for point in points])


class Servers(unittest.TestCase):
    def test_which_is_taken(self):
        """The one that is named; else a release's, a clone's that is built, or the one on PATH, and without one it says
        what to do. The help says so."""
        loader = importlib.machinery.SourceFileLoader("bench", str(BENCH))
        module = importlib.util.module_from_spec(importlib.util.spec_from_loader("bench", loader))
        loader.exec_module(module)
        words = ["--run", "true", "--recover", "true", "--program", PROGRAM]
        with tempfile.NamedTemporaryFile() as built:
            Path(built.name).chmod(0o755)
            with mock.patch.dict(os.environ, PATH=str(Path(built.name).parent)):
                module.SERVERS = (Path("/nowhere") / Path(built.name).name,)
                self.assertEqual(module.server_of(module.parser_of().parse_args(words)), [built.name])
            for paths in ((Path(built.name), Path("/nowhere")), (Path("/nowhere"), Path(built.name)),
                          (Path("/nowhere"),)):
                module.SERVERS = paths
                if len(paths) == 2:
                    self.assertEqual(module.server_of(module.parser_of().parse_args(words)), [built.name])
                else:
                    with self.assertRaisesRegex(module.Fails, "no server at /nowhere: build it by server/build"):
                        module.server_of(module.parser_of().parse_args(words))
                self.assertEqual(module.server_of(module.parser_of().parse_args([*words, "--server", "a 'b c'"])),
                                 ["a", "b c"])
        said = subprocess.run([PYTHON, BENCH, "--help"], stdout=subprocess.PIPE, text=True, check=True).stdout
        self.assertRegex(re.sub(r"\s+", " ", said), "by default bin/nigbaru-server of a release, "
                         "server/target/release/nigbaru- ?server of a clone, or the one on PATH")


class Managers(unittest.TestCase):
    def test_one_that_fails_without_a_fault(self):
        with tempfile.TemporaryDirectory() as folder:
            for run, words in (("false", "with status 1"), ("true", "nothing is committed"),
                               ("no-such-command", "status 127")):
                said, points = bench("--run", run, "--recover", "true", "--keep", folder, status=2)
                self.assertIn(words, said)
                self.assertIn("--folder", said)
                self.assertEqual(points, [])

    def test_one_that_hangs(self):
        """A run that doesn't end is killed at the limit, and its recovery goes on."""
        _, points = bench("--run", f"{REFERENCE} run 90 || {SLEEP}", "--recover", f"{REFERENCE} recover",
                          "--limit", "60", "--only", "store 2 XA PREPARE 1, answer lost", status=0)
        self.assertEqual(points[1]["statuses"][:2], [None, 0])
        self.assertGreater(points[1]["seconds"], 60)
        wait_for(lambda: not running(SLEEP), "the end of what was killed")

    def test_a_whole_group_is_killed(self):
        """The manager is a child of the command, and dies with it."""
        _, points = bench("--run", f"{REFERENCE} run 90 & wait $!", "--recover", f"{REFERENCE} recover", "--only",
                          "store 1 XA COMMIT 1, manager killed before", status=0)
        self.assertEqual((points[1]["in_between"], points[1]["statuses"]), (2, [None, 0]))

    def test_one_that_says_that_it_committed(self):
        _, points = bench("--run", f"{REFERENCE} run 90; true", "--recover", f"{REFERENCE} recover", "--only",
                          "store 1 PUT 1, lost on its way", status=1)
        self.assertEqual(points[1]["verdict"], "UNTRUE")

    def test_one_that_leaves_out_a_store(self):
        """It commits in the first store where the second can't be reached: nothing is mixed for the histories, but a
        store is missing."""
        script = f"{REFERENCE} run 90 || PORTS=$PORT1 {REFERENCE} run 90"
        _, points = bench("--run", script, "--recover", f"{REFERENCE} recover", "--only",
                          "store 2 XA START 1, lost on its way", status=1)
        self.assertIn(points[1]["verdict"], ("PARTIAL", "MIXED"))

    def test_one_that_recovers_nothing(self):
        _, points = bench("--run", f"{REFERENCE} run 90", "--recover", "true", "--only",
                          "store 1 XA COMMIT 1, manager killed before", status=1)
        self.assertEqual((points[1]["verdict"], len(points[1]["statuses"])), ("IN DOUBT", 4))

    def test_fixed_ports(self):
        port = neighbours()
        run = f"PORTS='{port} {port + 1}' {REFERENCE}"
        _, points = bench("--run", f"{run} run 90", "--recover", f"{run} recover", "--port", str(port), "--only",
                          "store 2 XA COMMIT 1, answer lost", status=0)
        self.assertEqual(points[1]["verdict"], "atomic")

    def test_a_rollback_that_comes_too_late(self):
        """A point at which somebody else rolls back is tried again, with more time, if the branch was committed
        first. Here somebody waits for that where there is no time."""
        server = os.environ.get("SERVER", f"{FOLDER.parent.parent}/server/target/release/nigbaru-server")
        usual = "PAUSES = (1.5, 6, 24)\n"
        begins = '"""Somebody else rolls back what the manager has prepared in a store."""\n'
        waits = ("        while not self.pause:\n"
                 "            with Client(self.server.ports[store - 1]) as client:\n"
                 "                if not self._prepared(client):\n"
                 "                    break\n")
        for pauses, verdict in (("(0,)", "atomic"), ("(0, 30)", "heuristic, told")):
            with tempfile.TemporaryDirectory() as folder:
                shutil.copy(BENCH, folder)
                shutil.copytree(FOLDER / "breaker", f"{folder}/breaker")
                for name, old, new in (("points", usual, f"PAUSES = {pauses}\n"),
                                       ("trial", begins, begins + waits)):
                    path = Path(folder) / f"breaker/{name}.py"
                    text = path.read_text()
                    self.assertEqual(text.count(old), 1)
                    path.write_text(text.replace(old, new))
                words = [*manager("reference.py"), "--only", "store 1 XA COMMIT 1, branch rolled back", "--json",
                         f"{folder}/it"]
                ran = subprocess.run([PYTHON, f"{folder}/bench", "--program", PROGRAM, "--server", server, *words],
                                     stdout=subprocess.PIPE, stderr=subprocess.STDOUT, text=True)
                self.assertEqual(ran.returncode, 0, ran.stdout)
                found = json.loads(Path(f"{folder}/it").read_text())["points"]
                self.assertEqual(found[1]["verdict"], verdict, ran.stdout)

    def test_a_folder(self):
        """Each point has a copy of its own, so that no journal is seen twice."""
        with tempfile.TemporaryDirectory() as folder:
            (Path(folder) / "run.sh").write_text(f"[ -e decisions ] && exit 9\nexec {REFERENCE} run 90\n")
            _, points = bench("--run", "sh run.sh", "--recover", f"{REFERENCE} recover", "--folder", folder, "--only",
                              "store 2 XA COMMIT 1, answer lost", status=0)
            self.assertEqual(points[1]["statuses"][0], 0)
            self.assertEqual([path.name for path in Path(folder).iterdir()], ["run.sh"])

    def test_it_ends_by_a_signal(self):
        """At once, with all that it started."""
        for number in (signal.SIGTERM, signal.SIGINT):
            process = subprocess.Popen([PYTHON, BENCH, "--program", PROGRAM, "--run", SLEEP, "--recover",
                                        "true"], stdout=subprocess.PIPE, stderr=subprocess.STDOUT)
            wait_for(lambda: running(SLEEP), "a run")
            process.send_signal(number)
            said, _ = process.communicate(timeout=PATIENCE)
            self.assertIn(process.returncode, (130, 143), said)
            wait_for(lambda: not running(SLEEP), "the end of what was killed")

    def test_what_is_wrong_in_the_command(self):
        ran = subprocess.run([PYTHON, BENCH, "--program", "/nowhere", "--run", "true", "--recover", "true"],
                             stderr=subprocess.PIPE, text=True)
        self.assertEqual(ran.returncode, 2)
        self.assertIn("no program at /nowhere", ran.stderr)
        ran = subprocess.run([PYTHON, BENCH, "--program", PROGRAM, "--server", "true", "--run", "true", "--recover",
                              "true"], stderr=subprocess.PIPE, text=True)
        self.assertEqual(ran.returncode, 2)
        self.assertIn("the server doesn't start", ran.stderr)


if __name__ == "__main__":
    unittest.main()
