"""Which program is run where none is named, and whether one is the built program."""
import os
import shutil
from pathlib import Path

from .child import Child, Trouble

ROOT = Path(__file__).resolve().parents[3]
NAME = b"xa_script"
SECONDS, MOST_BYTES = 10, 1 << 16  # of what a program says of its version


def usual_program():
    """What NIGBARU_PROGRAM has, a release's, a checkout's, or the one on PATH."""
    built = [ROOT / "bin/xa_script", ROOT / "crates/xa_script/out/xa_script"]
    found = (os.environ.get("NIGBARU_PROGRAM") or next((it for it in built if it.is_file()), None)
             or shutil.which("xa_script"))
    return Path(found or built[1])


def is_executable(path):
    return not path.is_dir() and os.access(path, os.X_OK)


def is_built_program(path):
    """Whether a program's version says so. Its memory isn't bounded here: a bound that is too small for it doesn't make
    it another program."""
    child = Child(path, ["--version"], "unlimited")
    try:
        return child.exchange(b"", None, SECONDS, MOST_BYTES).startswith(NAME)
    except Trouble:
        return False
    finally:
        child.end()


def no_program(path):
    """What is wrong with a path that should be the program, in one line, with what to do."""
    wrong = ("is a folder" if path.is_dir() else "isn't there" if not path.exists()
             else "isn't xa_script" if is_executable(path) else "isn't executable")
    return (f"the program {path} {wrong}: build it by scripts/build, install a release, or name a built "
            "xa_script by --program")
