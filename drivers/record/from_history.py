#!/usr/bin/env python3
"""Writes a history of operations as a record that `xa_script judge` reads.

    from_history.py [--key KEY] [HISTORY] > RECORD

A history has an operation's begin or end on each line, with process, type (invoke, ok, fail or info), f and value: an
object of JSON, or a map of EDN as Jepsen writes it. drivers/record/JEPSEN.md says what becomes of each. If
HISTORY isn't given it is the standard input. The status is 0 if a record was written; else 2, with the cause on the
standard error. It needs Python 3.9. Nothing of it is proved.
"""
import argparse
import sys

sys.dont_write_bytecode = True

from histories.fault import Fault  # noqa: E402
from histories.history import History  # noqa: E402
from histories.operation import key_of  # noqa: E402
from written import write_out  # noqa: E402


def read(path):
    if not path:
        if sys.stdin is None:  # Python's, where it was closed already when the program began
            raise Fault("the standard input is closed; give it the history, or name its file")
        return sys.stdin.buffer.read()
    with open(path, "rb") as file:
        return file.read()


def main():
    parser = argparse.ArgumentParser(prog="from_history.py", description=__doc__.split("\n", maxsplit=1)[0])
    parser.add_argument(
        "--key", default="x", help="the key of the one row that a history without keys is about; x where it isn't given"
    )
    parser.add_argument("history", nargs="?", metavar="HISTORY", help="the standard input where it isn't given")
    found = parser.parse_args()
    try:
        record = History(read(found.history), key_of(found.key)).record()
    except (OSError, Fault) as fault:
        sys.exit(refusal(fault))
    try:
        write_out(record)
    except OSError as fault:
        sys.exit(refusal(f"the record can't be written: {fault.strerror}"))


def refusal(why):
    print(f"from_history: {why}", file=sys.stderr)
    return 2


if __name__ == "__main__":
    main()
