"""What the page may take."""
from dataclasses import dataclass


@dataclass(frozen=True)
class Limits:
    request_bytes: int = 1 << 20    # of the body of a request
    connections: int = 64           # that are answered at a time
    children: int = 32              # child processes at a time
    idle_seconds: float = 600       # after which a child that nobody asks is ended
    memory_kib: object = 1 << 20    # of a child's address space, or "unlimited"
    judged_kib: int = 30            # of the judge's child beside that, for each configuration that it may keep
    answer_seconds: float = 10      # for the answer to a line, and for a run of a race
    # for which a diagram asks how many statements its calls make; the page asks again for the rest
    probe_seconds: float = 3
    judge_seconds: float = 60       # for a verdict
    output_bytes: int = 8 << 20     # of what a child may answer to one request
    status_bytes: int = 8 << 20     # of the file of a server that is watched
    runs: int = 200                 # of a race
    ways: int = 10_000              # that may be kept at once where the outcomes of a race's script are listed
    batch: int = 25                 # runs of a race for one request, so that the page can show how far it is

    def judge_kib(self, configurations):
        """Of the address space of a child that judges, and may keep so many configurations."""
        return self.memory_kib if self.memory_kib == "unlimited" else self.memory_kib + self.judged_kib * configurations
