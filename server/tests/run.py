"""Runs the tests whose names hold one of the given words, or all, some side by side, and says how long each took.

    run.py [--jobs N] [WORD..]

Each test is a process of its own. What one printed is shown if it failed, or printed anything beside its name.
"""
import concurrent.futures
import os
import re
import subprocess
import sys
import tempfile
import time
import unittest
from pathlib import Path

HERE = Path(__file__).resolve().parent
# Those that take longest begin first.
FIRST = ["test_manager_that_is_killed", "mutated", "killed_at_a_fault", "faults_at_the", "test_go", "Programs",
         "ten_thousand", "thousand", "silence", "reads_nothing", "Bitronix", "Java"]
PATIENCE = 1800  # seconds for one test


def tests_of(suite):
    for it in suite:
        if isinstance(it, unittest.TestSuite):
            yield from tests_of(it)
        else:
            yield it.id()


def rank(name):
    return next((index for index, word in enumerate(FIRST) if word in name), len(FIRST))


def ran(name):
    """Runs a test; its name, seconds, whether it passed or was left out, and what it printed."""
    began = time.monotonic()
    try:
        done = subprocess.run([sys.executable, "-W", "error::ResourceWarning", "-m", "unittest", name], cwd=HERE,
                              stdin=subprocess.DEVNULL, stdout=subprocess.PIPE, stderr=subprocess.STDOUT,
                              timeout=PATIENCE)
        said, passed = done.stdout.decode(errors="replace"), done.returncode == 0
    except subprocess.TimeoutExpired as fault:
        said, passed = (fault.output or b"").decode(errors="replace") + f"\nno end after {PATIENCE} seconds\n", False
    return name, time.monotonic() - began, passed, re.search(r"^OK \(skipped=", said, re.MULTILINE) is not None, said


def main(words):
    jobs = os.cpu_count() or 1
    if words[:1] == ["--jobs"]:
        jobs, words = int(words[1]), words[2:]
    loader = unittest.TestLoader()
    names = [name for name in tests_of(loader.discover(str(HERE))) if not words or any(word in name for word in words)]
    began, took, failed, left_out = time.monotonic(), [], [], []
    with tempfile.TemporaryDirectory() as classes, concurrent.futures.ThreadPoolExecutor(jobs) as pool:
        os.environ["NIGBARU_CLASSES"] = classes
        for done in concurrent.futures.as_completed([pool.submit(ran, name) for name in sorted(names, key=rank)]):
            name, seconds, passed, skipped, said = done.result()
            took.append((seconds, name))
            (left_out if skipped else [] if passed else failed).append(name)
            printed = re.sub(r"^(\.|s)?$|^-+$|^Ran 1 test in .*|^OK.*", "", said, flags=re.MULTILINE).strip()
            print(f"{'left out' if skipped else 'ok' if passed else 'FAILED':8} {seconds:6.1f} s  {name}"
                  + (f"\n{said if not passed else printed}" if printed else ""), flush=True)
    print(f"{len(took)} tests in {time.monotonic() - began:.0f} s, {len(left_out)} of them left out, {len(failed)} "
          "failed; the longest:")
    for seconds, name in sorted(took, reverse=True)[:12]:
        print(f"{seconds:6.1f} s  {name}")
    for name in failed:
        print(f"FAILED: {name}")
    sys.exit(bool(failed) or not took)


if __name__ == "__main__":
    main(sys.argv[1:])
