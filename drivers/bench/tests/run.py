"""Runs the tests side by side, each in a process of its own, and says how long each took.

    run.py [WORD..]    all, or those whose names hold one of the words
"""
import os
import subprocess
import sys
import time
import unittest
from concurrent.futures import ThreadPoolExecutor, as_completed

LONGEST = ("test_the_reference", "test_what_the_page_says", "test_one_that_hangs", "test_zope", "test_the_monitor",
           "test_foreign")  # these begin first
LANES = min(len(os.sched_getaffinity(0)), 8) + 1  # one more than processors, since a test waits now and then


def tests_in(suite):
    for it in suite:
        if isinstance(it, unittest.TestSuite):
            yield from tests_in(it)
        else:
            yield it.id()


def place(name):
    """Where a test stands in the order."""
    return next((number for number, word in enumerate(LONGEST) if word in name), len(LONGEST))


def go(name):
    began = time.monotonic()
    words = [sys.executable, "-W", "error::ResourceWarning", "-m", "unittest", name]
    ran = subprocess.run(words, stdin=subprocess.DEVNULL, stdout=subprocess.PIPE, stderr=subprocess.STDOUT, text=True)
    return name, ran.returncode == 0, ran.stdout, time.monotonic() - began


def main(words):
    began = time.monotonic()
    loader = unittest.TestLoader()
    loader.testNamePatterns = [f"*{word}*" for word in words] or None
    names = sorted(tests_in(loader.discover(".")), key=place)
    if loader.errors or not names:
        sys.exit("\n".join(loader.errors) or f"no test's name holds {' or '.join(words)}")
    failed = []
    with ThreadPoolExecutor(LANES) as pool:
        for done in as_completed([pool.submit(go, name) for name in names]):
            name, is_right, said, seconds = done.result()
            print(f"{seconds:6.1f} s  {name} ... {'ok' if is_right else 'FAILED'}", flush=True)
            if not is_right:
                failed.append(name)
                print(said, flush=True)
    result = f"failed: {', '.join(failed)}" if failed else "all ok"
    print(f"{len(names)} tests in {time.monotonic() - began:.0f} s, {LANES} side by side: {result}")
    return bool(failed)


if __name__ == "__main__":
    sys.exit(main(sys.argv[1:]))
