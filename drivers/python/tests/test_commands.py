"""How the program is found, and what is said where it isn't; the package, installed; the example."""
import os
import pathlib
import re
import subprocess
import sys
import tempfile
import unittest
from unittest import mock

import nigbaru
from nigbaru import OperationalError, ProgrammingError, Server

PROGRAM = os.environ["XA_SCRIPT"]
DRIVER = pathlib.Path(__file__).resolve().parents[1]


class Commands(unittest.TestCase):
    def setUp(self):
        clean = mock.patch.dict(os.environ, {"PATH": "/nowhere"})
        clean.start()
        self.addCleanup(clean.stop)
        os.environ.pop("NIGBARU_PROGRAM", None)
        folder = tempfile.TemporaryDirectory()
        self.addCleanup(folder.cleanup)
        self.folder = folder.name

    def serves(self, *words, **named):
        with Server(*words, **named) as server, server.connect() as one:
            one.put("k", "v")
            self.assertEqual(one.get("k"), b"v")
        with nigbaru.connect(*words, **named) as one:
            self.assertIsNone(one.get("k"))

    def test_the_program_is_found_by_argument_variable_or_path(self):
        self.assertRaisesRegex(OperationalError, "no xa_script on PATH: pass program=PATH", Server)
        self.serves(program=PROGRAM)
        self.serves(program=pathlib.Path(PROGRAM))
        self.serves([PROGRAM, "serve"])
        self.serves((pathlib.Path(PROGRAM), "serve"))
        os.symlink(PROGRAM, f"{self.folder}/xa_script")
        os.environ["PATH"] = self.folder
        self.serves()
        os.environ["NIGBARU_PROGRAM"] = "/nowhere/xa_script"
        self.assertRaisesRegex(OperationalError, "/nowhere/xa_script, named by NIGBARU_PROGRAM", Server)
        self.serves(program=PROGRAM)
        os.environ["PATH"] = "/nowhere"
        os.environ["NIGBARU_PROGRAM"] = PROGRAM
        self.serves()

    def test_what_cannot_be_started_is_told(self):
        text = pathlib.Path(self.folder, "text")
        text.write_text("no program")
        for program in ("/nowhere/xa_script", self.folder, text):
            self.assertRaisesRegex(OperationalError, f"no program at {program}.*pass program=PATH", Server,
                                   program=program)
            self.assertRaisesRegex(OperationalError, "can't be started", Server, [program, "serve"])
        text.chmod(0o755)
        self.assertRaisesRegex(OperationalError, "can't be started", Server, program=text)

    def test_what_is_no_command_is_told(self):
        for command in (f"{PROGRAM} serve", PROGRAM, pathlib.Path(PROGRAM), b"xa_script", [], [5], [PROGRAM, None]):
            self.assertRaisesRegex(ProgrammingError, r'a list of words, as \["xa_script", "serve"\]', Server, command)
            self.assertRaises(ProgrammingError, nigbaru.connect, command)
        self.assertRaises(ProgrammingError, Server, [PROGRAM, "serve"], program=PROGRAM)
        self.assertRaises(ProgrammingError, Server, program=5)

    def test_a_command_that_serves_nothing_is_told(self):
        with Server([PROGRAM, "--version"]) as server, self.assertRaises((OperationalError, nigbaru.InterfaceError)):
            server.connect().get("k")
        with Server(["/bin/sh", "-c", "exit 7"]) as server:
            self.assertRaisesRegex(OperationalError, "status 7", server.connect().get, "k")


class Installed(unittest.TestCase):
    def test_pip_installs_it_without_a_network(self):
        with tempfile.TemporaryDirectory() as folder:
            clean = {name: value for name, value in os.environ.items() if not name.startswith(("PIP_", "PYTHON"))}

            def run(*words, **named):
                ran = subprocess.run(words, cwd=folder, env={**clean, **named}, stdout=subprocess.PIPE,
                                     stderr=subprocess.STDOUT, text=True)
                self.assertEqual(ran.returncode, 0, ran.stdout)
                return ran.stdout

            def left():
                return [path for path in sorted(DRIVER.rglob("*")) if "__pycache__" not in path.parts]
            before = left()
            run(sys.executable, "-m", "venv", "here")
            run("here/bin/python", "-m", "pip", "install", "--no-index", "--disable-pip-version-check", str(DRIVER))
            self.assertEqual(left(), before, "nothing is left in the folder")
            text = ("import nigbaru, importlib.metadata as it\n"
                    "with nigbaru.connect() as one: one.put('k', 'v'); print(one.get('k'))\n"
                    "print(nigbaru.__version__ == it.version('nigbaru'), it.requires('nigbaru'), nigbaru.__file__)")
            said = run("here/bin/python", "-c", text, NIGBARU_PROGRAM=PROGRAM)
            self.assertRegex(said,
                             rf"^b'v'\nTrue None {re.escape(folder)}/here/lib/.*/site-packages/nigbaru/__init__.py\n$")
            self.assertIn("No broken requirements", run("here/bin/python", "-m", "pip", "check"))

    def test_a_wheels_command_that_finds_a_package_without_programs_ends(self):
        with tempfile.TemporaryDirectory() as folder:
            for name, function in (("xa_script", "xa_script"), ("nigbaru-server", "nigbaru_server")):
                command = pathlib.Path(folder, name)
                command.write_text(f"#!{sys.executable}\nfrom nigbaru.programs import {function}\n{function}()\n")
                command.chmod(0o755)
                ran = subprocess.run([command, "--version"], env={"PATH": folder, "PYTHONPATH": str(DRIVER)},
                                     capture_output=True, text=True, timeout=240)
                self.assertEqual((ran.returncode, ran.stdout), (1, ""))
                self.assertRegex(ran.stderr, f"^{name}: .* from {re.escape(str(DRIVER))}/nigbaru, which has no "
                                             r"programs; does PYTHONPATH name it\?\n$")

    def test_the_versions_agree(self):
        said = subprocess.run([PROGRAM, "--version"], capture_output=True, text=True, check=True).stdout
        self.assertEqual(said, f"xa_script {nigbaru.__version__}\n")
        self.assertIn(f'version = "{nigbaru.__version__}"\n', (DRIVER / "pyproject.toml").read_text())


class Example(unittest.TestCase):
    def test_no_sale_is_lost(self):
        ran = subprocess.run([sys.executable, DRIVER / "examples/stock.py", "--program", PROGRAM, "--clerks", "6",
                              "--sales", "50"], stdout=subprocess.PIPE, text=True, timeout=1200, check=True)
        self.assertRegex(ran.stdout, r"^300 were to be sold; 0 are left\na row was locked \d+ times, and the sale was "
                         r"tried again\n$")


if __name__ == "__main__":
    unittest.main()
