"""Managers that are right at all points, and those that are wrong, each found at the points of its rule, and at no
other.

With --long these are whole tables; without it a part of each, as rules.py chooses it.
"""
import shutil
import subprocess
import sys
import tempfile
import unittest
from pathlib import Path

from rules import COMMIT, LOST, RESTARTED, RULES, TOLD, Rule, is_at, is_refused, told
from support import FOLDER, HERE, IS_LONG, bench, found, manager, name_of, verdicts

sys.path.insert(0, str(FOLDER / "managers"))
from wrong import WRONG  # noqa: E402

WITHOUT = "without a fault"
RIGHT = Rule("It is atomic at each point, and says so where somebody else ends a branch.", lambda _: False)
SHELL = FOLDER / "managers/shell/transfer.sh"
IN_SHELL = ["--run", f"sh {SHELL.name} 90", "--recover", f"sh {SHELL.name}"]
OVER = "# The run is over."  # where the page plants a fault
SITES = [f"store {store} XA {verb} 1" for store in (1, 2) for verb in ("PREPARE", "COMMIT")]
PART = [word for site in SITES for word in ("--only", site)]
JARS = ":".join(f"/usr/share/java/{jar}.jar"
                for jar in ("btm", "mariadb-java-client", "geronimo-jta-1.2-spec", "geronimo-jms_1.1_spec"))


class Right(unittest.TestCase):
    def check(self, words, is_whole):
        """All of its points, or some, are atomic, but those at which it has to tell."""
        said, points = bench(*words, *([] if is_whole else PART), status=0)
        seen = verdicts(points)
        self.assertEqual(seen.pop(WITHOUT), "atomic")
        wanted = {str(point): TOLD if str(point) in told(RIGHT.points()) else "atomic" for point in RIGHT.points()}
        if is_whole:
            self.assertEqual(seen, wanted, said)
        else:
            self.assertEqual(seen, {name: wanted[name] for name in seen}, said)
            self.assertEqual(len(seen), 2 * (8 + 9))

    def test_the_reference(self):
        self.check(manager("reference.py"), True)

    def test_three_stores(self):
        only = ["--only", "store 2 XA COMMIT 1", "--only", "store 3 XA PREPARE 1"]
        said, points = bench(*manager("reference.py"), "--stores", "3", *only, status=0)
        self.assertEqual(found(points), [], said)
        self.assertEqual(len(points), 1 + 9 + 8)

    def test_zope(self):
        self.check(manager("zope.py"), IS_LONG)

    def test_the_monitor_in_c(self):
        with tempfile.TemporaryDirectory() as folder:
            program = f"{folder}/monitor"
            subprocess.run([FOLDER / "managers/monitor/build", program], check=True)
            self.check(["--run", f"{program} run 90", "--recover", f"{program} recover"], IS_LONG)


    def test_the_one_in_shell(self):
        with tempfile.TemporaryDirectory() as folder:
            shutil.copy(SHELL, folder)
            self.check([*IN_SHELL, "--folder", folder], IS_LONG)


class Planted(unittest.TestCase):
    """What the page plants into the manager in shell: it forgets its decision when the run ends."""

    def test_it_is_found(self):
        """At each commit that is given up, where the branch stays prepared and the other store commits; and at no
        other."""
        wanted = {str(point): "MIXED" if is_given_up(point) else "atomic" for point in RIGHT.points()}
        wanted.update({name: TOLD for name in told(RIGHT.points())})
        chosen = [] if IS_LONG else ["--only", "store 2 XA COMMIT 1", "--only", "store 1 XA COMMIT 1, answer lost",
                                     "--only", "store 1 XA COMMIT 1, refused 1399", "--only",
                                     "store 2 XA PREPARE 1, answer lost"]
        with tempfile.TemporaryDirectory() as folder:
            text = SHELL.read_text()
            self.assertEqual(text.count(OVER), 1)
            (Path(folder) / SHELL.name).write_text(text.replace(OVER, "rm -f decided"))
            said, points = bench(*IN_SHELL, "--folder", folder, *chosen, status=1)
        seen = verdicts(points)
        self.assertEqual(seen.pop(WITHOUT), "atomic")
        self.assertEqual(seen, wanted if IS_LONG else {name: wanted[name] for name in seen}, said)
        self.assertEqual(len(seen), len(wanted) if IS_LONG else 9 + 3)


class Wrong(unittest.TestCase):
    def test_each_has_a_rule(self):
        self.assertEqual(set(WRONG), set(RULES))

    def test_what_each_changes(self):
        """One line of the reference, or one that is moved."""
        reference = (FOLDER / "managers/reference.py").read_text().splitlines()
        for name in WRONG:
            words = [sys.executable, "-c", f"import wrong; print(wrong.text_of({name!r}), end='')"]
            ran = subprocess.run(words, cwd=FOLDER / "managers", stdout=subprocess.PIPE, text=True, check=True)
            text = ran.stdout.splitlines()
            self.assertNotEqual(text, reference, name)
            self.assertLessEqual(len(set(text) - set(reference)), 1, name)

    def test_rules_differ(self):
        """Two managers that are found at the same points do the same harm: a rule that a table can't tell from
        another's says so."""
        same = [{one, other} for one in RULES for other in RULES
                if one < other and RULES[one].found() == RULES[other].found()]
        self.assertEqual(same, [{"never-decides", "recovery-rolls-back-all"}])


def is_given_up(point):
    """The commit doesn't reach the store, and the manager in shell doesn't try again in the same run."""
    return is_at(point, COMMIT) and (point.action in (LOST, RESTARTED) or is_refused(point))


def test_of(name):
    rule = RULES[name]

    def test(self):
        chosen = [] if IS_LONG else [word for point in rule.part() for word in ("--only", point)]
        said, points = bench(*manager("wrong.py", name), *chosen, status=1)
        self.assertEqual(verdicts(points)[WITHOUT], "FOREIGN" if name == "foreign" else "atomic", said)
        names = {name_of(point) for point in points} - {WITHOUT}
        self.assertEqual(names, set(map(str, rule.points())) if IS_LONG else set(rule.part()), said)
        wanted = [f"{point}: {verdict}" for point, verdict in rule.found().items() if point in names]
        self.assertEqual(sorted(line for line in found(points) if not line.startswith(WITHOUT)), sorted(wanted), said)
        self.assertEqual([name_of(point) for point in points if point["verdict"] == "not reached"], [])
    return test


for one in RULES:
    setattr(Wrong, f"test_{one.replace('-', '_')}", test_of(one))


class Bitronix(unittest.TestCase):
    """What the page's table says of it, which was seen and follows from no rule; all points with --long."""

    def test_what_the_page_says(self):
        with tempfile.TemporaryDirectory() as folder:
            for path in (FOLDER / "managers/bitronix").iterdir():
                shutil.copy(path, folder)
            subprocess.run(["javac", "-cp", JARS, "Transfer.java"], cwd=folder, check=True)
            lines = (HERE / "bitronix.txt").read_text().splitlines()[1:]
            some = [lines[0].rpartition(": ")[0], "store 1 XA COMMIT 1, manager killed before",
                    "store 2 XA PREPARE 1, answer lost"]
            chosen = [] if IS_LONG else [word for name in some for word in ("--only", name)]
            words = ["--run", "sh run.sh 90", "--recover", "sh run.sh", "--folder", folder]
            said, points = bench(*words, *chosen, status=1)
            names = {name_of(point) for point in points}
            wanted = [line for line in lines if line.rpartition(": ")[0] in names]
            self.assertEqual(sorted(found(points)), sorted(wanted), said)
            self.assertGreaterEqual(len(names), len(some))


if __name__ == "__main__":
    unittest.main()
