"""What `xa_script judge` prints."""
import re
from dataclasses import dataclass, field
from typing import Optional

from .record_lines import lines_of

FIRST = re.compile(rb"(LEGAL|ILLEGAL|UNDECIDED|EMPTY)(?: line (\d+))?")
FAULT = re.compile(rb"LINE (\d+): (.*)", re.S)
EFFECT = re.compile(rb"(\d+) ?(.*)", re.S)
COULD_BE = b"COULD BE "


@dataclass
class Verdict:
    # LEGAL, ILLEGAL, UNDECIDED, EMPTY or FAULTY; none where it is none of these
    kind: Optional[str] = None
    line: Optional[int] = None                  # of ILLEGAL and UNDECIDED
    could: list = field(default_factory=list)   # what could have been answered there, each with its rows below it
    order: list = field(default_factory=list)   # of LEGAL: sessions and statements
    faults: dict = field(default_factory=dict)  # for the number of each faulty line its cause


def read_verdict(text):
    lines = lines_of(text)
    first = FIRST.fullmatch(lines[0]) if lines else None
    if first:
        found = Verdict(first[1].decode(), int(first[2]) if first[2] else None)
        if found.kind == "LEGAL":
            found.order = [(int(effect[1]), effect[2]) for effect in map(EFFECT.fullmatch, lines[1:]) if effect]
        elif found.kind == "ILLEGAL":
            found.could = could_be(lines[1:])
        return found
    faults = [FAULT.fullmatch(line) for line in lines]
    if faults and all(faults):
        return Verdict("FAULTY", faults={int(fault[1]): fault[2] for fault in faults})
    return Verdict()


def could_be(lines):
    """Each answer begins with COULD BE; the rows of a list stand below it."""
    found = []
    for line in lines:
        if line.startswith(COULD_BE):
            found.append(line[len(COULD_BE):])
        elif found:
            found[-1] += b"\n" + line
    return found
