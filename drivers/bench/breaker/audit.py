"""What became of each global transaction, by `xa_script audit`; by the reference in Python while a program hasn't that
job."""
import importlib.util
import json
import subprocess
from collections.abc import Sequence
from dataclasses import dataclass
from pathlib import Path

REFERENCE = Path(__file__).resolve().parents[1] / "reference_audit.py"
NOT_ATOMIC = 9  # the status where some transaction isn't atomic


@dataclass(frozen=True)
class Branch:
    store: int
    bqual: bytes
    ends: Sequence[str]  # of each of its lives


@dataclass(frozen=True)
class Global:
    format_id: int
    gtrid: bytes
    branches: Sequence[Branch]
    verdict: str

    def committed(self) -> set[int]:
        """The stores that committed some branch of it."""
        return {branch.store for branch in self.branches if "COMMITTED" in branch.ends}


def data(text: str) -> bytes:
    return b"" if text == "X''" else bytes.fromhex(text[2:])


def reference():
    """The account in Python, as a module."""
    spec = importlib.util.spec_from_file_location("reference_audit", REFERENCE)
    module = importlib.util.module_from_spec(spec)
    spec.loader.exec_module(module)
    return module


class Auditor:
    def __init__(self, program: str) -> None:
        has_job = subprocess.run([program, "audit", "--quiet", "/dev/null"], stdin=subprocess.DEVNULL,
                                 stdout=subprocess.PIPE, stderr=subprocess.DEVNULL).stdout.startswith(b"GLOBALS 0 ")
        self._reference = None if has_job else reference()
        self._program = program

    def __str__(self) -> str:
        return "reference_audit.py" if self._reference else "xa_script audit"

    def _text(self, histories: Sequence[Path]) -> str:
        """The account as JSON."""
        if self._reference:
            faults, found = self._reference.audit([path.read_bytes() for path in histories])
            if faults:
                raise ValueError(f"the histories can't be audited: {faults}")
            return self._reference.json_of(found)
        ran = subprocess.run([self._program, "audit", "--json", *map(str, histories)], stdin=subprocess.DEVNULL,
                             stdout=subprocess.PIPE, stderr=subprocess.PIPE, text=True)
        if ran.returncode not in (0, NOT_ATOMIC):
            raise ValueError(f"the histories can't be audited: {ran.stdout}{ran.stderr}")
        return ran.stdout

    def globals(self, histories: Sequence[Path]) -> list[Global]:
        """Each global transaction of the histories, one for each store."""
        return [Global(it["format"], data(it["gtrid"]),
                       [Branch(branch["store"], data(branch["bqual"]), branch["ends"]) for branch in it["branches"]],
                       it["verdict"]) for it in json.loads(self._text(histories))["globals"]]
