"""Starts the page as `serve` does, with more patience for the program: the machine may be busy with other work."""
import runpy
import sys
from dataclasses import dataclass
from pathlib import Path

PAGE = Path(__file__).resolve().parent.parent
PATIENCE = 240  # seconds
sys.dont_write_bytecode = True
sys.path.insert(0, str(PAGE))

from classroom import limits, program  # noqa: E402


@dataclass(frozen=True)
class Patient(limits.Limits):
    answer_seconds: float = PATIENCE
    judge_seconds: float = PATIENCE


if __name__ == "__main__":
    limits.Limits = Patient
    program.SECONDS = PATIENCE
    runpy.run_path(str(PAGE / "serve"), run_name="__main__")
