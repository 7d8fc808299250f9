"""The programs and the library that are in the wheel of a release, and in no other."""
from __future__ import annotations

import os
import shutil
import sys
from pathlib import Path
from typing import Optional

from .errors import OperationalError

FOLDER = Path(__file__).resolve().parent / "built"


def bundled(name: str) -> Optional[str]:
    """Where this package has a file that was built; None if it was installed without it."""
    path = FOLDER / name
    return str(path) if path.is_file() else None


def path_of(name: str) -> str:
    """Where a program of Nigbaru is, as `nigbaru-server`: this package's own, or else the one on PATH.
    OperationalError if there is none."""
    path = bundled(name) or shutil.which(name)
    if not path:
        raise OperationalError(f"there is no {name} in this package or on PATH: install a release, or put it there")
    return path


def _become(name: str) -> None:
    path = bundled(name)  # (not what PATH has, which may be the command that called this)
    if not path:
        sys.exit(f"{name}: Python takes the package nigbaru from {FOLDER.parent}, which has no programs; does "
                 "PYTHONPATH name it?")
    os.execv(path, [name, *sys.argv[1:]])


def xa_script() -> None:
    """The command xa_script of an environment in which the wheel is installed."""
    _become("xa_script")


def nigbaru_server() -> None:
    """The command nigbaru-server, likewise."""
    _become("nigbaru-server")
