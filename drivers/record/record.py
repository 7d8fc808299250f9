#!/usr/bin/python3
"""Runs the sessions of a script against a MySQL, MariaDB or PostgreSQL server at the same time, and writes what they \
saw as a record.

    record.py --socket PATH | --address HOST:PORT [--postgresql [--isolation LEVEL] [--wait MS]] [--user NAME]
              [--password WORD] [--database NAME] [--in-turn | --pauses SEED] [--first N] [--any-text]
              [--timeout SECONDS] [--lose S:N ..] [--cut S:N ..] SCRIPT > RECORD

Each session of the script has a thread and a connection of its own. All begin together, and each gives its statements
in order, as fast as they are answered. The lines of the record stand in the order in which they were seen
(docs/HISTORIES.md). README.md, beside this file, says how rows are kept, and what is recorded for what.

It needs Python 3.9, and PyMySQL or psycopg2 (Debian's python3-pymysql, python3-psycopg2). Nothing of it is proved.
"""
import argparse
import re
import sys

sys.dont_write_bytecode = True  # where it is installed, nothing is left beside it

from databases import add_places, mysql, postgresql  # noqa: E402
from faults import Fault  # noqa: E402
from sessions import end, run_in_turn, run_together, sessions_of  # noqa: E402
from spelling import row_statement  # noqa: E402
from statements import first_stranger  # noqa: E402
from written import write_out  # noqa: E402

LINE = re.compile(rb"([1-9]|1[0-6])(?:[ \t\r]+(.*))?", re.S)
PAIR = re.compile(r"(\d+):(\d+)")
BLANKS = b" \t\r\n"


def read_script(path):
    """The lines of a script: where each stands, its session, and its statement."""
    try:
        with open(path, "rb") as file:
            text = file.read()
    except OSError as error:
        raise Fault(f"{path}: {error.strerror}") from error
    lines = []
    for place, line in enumerate(text.split(b"\n"), 1):
        line = line.strip(BLANKS)
        if not line or line.startswith(b"#"):
            continue
        found = LINE.fullmatch(line)
        if not found:
            raise Fault(f"{path}, line {place}: not a session, 1 to 16, and a statement")
        lines.append((place, int(found[1]), (found[2] or b"").strip(BLANKS)))
    return lines


def check_statements(lines, path):
    """A line that isn't a statement is a mistake of who wrote the script, as a rule."""
    stranger = first_stranger([statement for _, _, statement in lines])
    if stranger is not None:
        raise Fault(f"{path}, line {lines[stranger][0]}: not a statement; mend it, or send it as it is by --any-text")


def check_lengths(lines, path):
    """A key or a value that is longer or shorter than it may be."""
    for place, _, statement in lines:
        row = row_statement(statement)
        for text, least, name in zip(row[1:] if row else (), (1, 0), ("a key is 1", "a value is 0")):
            if text is not None and not least <= len(text) <= 64:
                raise Fault(f"{path}, line {place}: {name} to 64 bytes, and this one has {len(text)}")


def pairs(given, lines, flag):
    """For each session that is to go, after how many statements."""
    found = {}
    for word in given:
        pair = PAIR.fullmatch(word)
        if not pair:
            raise Fault(f"{flag} {word}: not a session and a number, as 2:3")
        session, count = int(pair[1]), int(pair[2])
        if not 1 <= count <= sum(one == session for _, one, _ in lines):
            raise Fault(f"{flag} {word}: the script has no such statement of session {session}")
        found[session] = count
    return found


def record_of(options):
    """The lines of the record."""
    lines = read_script(options.script)
    if not options.any_text:
        check_statements(lines, options.script)
    check_lengths(lines, options.script)
    options.lose, options.cut = pairs(options.lose, lines, "--lose"), pairs(options.cut, lines, "--cut")
    if not re.fullmatch(r"\w+", options.database):
        raise Fault(f"--database {options.database}: not a name of letters, digits and _")
    database = (postgresql if options.postgresql else mysql).Database(options)
    record, sessions = sessions_of(lines, options, database)
    for session in sessions.values():
        session.open()
    first = len(lines) if options.in_turn else options.first
    run_in_turn(sessions, lines[:first])
    if lines[first:]:
        run_together(sessions, lines[first:], options)
    end(sessions)
    return record.lines


def count_of(word):
    """A count on the command line."""
    if not word.isdecimal():
        raise argparse.ArgumentTypeError(f"not a count: {word!r}")
    return int(word)


def seconds_of(word):
    """A time on the command line."""
    if not re.fullmatch(r"[0-9]{1,6}(\.[0-9]{1,6})?", word):
        raise argparse.ArgumentTypeError(f"not seconds: {word!r}")
    return float(word)


def parser_of():
    """The command line."""
    parser = argparse.ArgumentParser(description=__doc__.split("\n", maxsplit=1)[0])
    add_places(parser, required=True)
    parser.add_argument("--postgresql", action="store_true", help="the server is a PostgreSQL, no MySQL or MariaDB")
    parser.add_argument("--isolation", choices=postgresql.LEVELS, metavar="LEVEL",
                        help="the isolation of PostgreSQL's transactions: read-committed where it isn't given, "
                        "repeatable-read or serializable")
    parser.add_argument("--wait", type=count_of, default=0, metavar="MS", help="milliseconds that PostgreSQL waits for "
                        "a row's lock; where it isn't given, a lock that isn't free is refused at once")
    parser.add_argument("--user", metavar="NAME", help="root where it isn't given, and postgres with --postgresql")
    parser.add_argument("--password", default="", metavar="WORD", help="none where it isn't given")
    parser.add_argument("--database", default="judged", metavar="NAME",
                        help="where the table `judged` is made anew; judged where it isn't given")
    manner = parser.add_mutually_exclusive_group()
    manner.add_argument("--in-turn", action="store_true",
                        help="give the statements in the script's order, each once the one before it has returned")
    parser.add_argument("--first", type=count_of, default=0, metavar="N",
                        help="give the script's first N statements in turn, before the sessions begin together")
    manner.add_argument("--pauses", type=int, metavar="SEED", help="have each session pause before each statement, for "
                        "0 to 4 ms, by a generator of this seed")
    parser.add_argument("--any-text", action="store_true", help="send lines that aren't statements, too")
    parser.add_argument("--timeout", type=seconds_of, metavar="SECONDS",
                        help="an answer that comes later isn't looked at; the session goes on")
    parser.add_argument("--lose", action="append", default=[], metavar="S:N",
                        help="cut session S off once its Nth statement has returned")
    parser.add_argument("--cut", action="append", default=[], metavar="S:N",
                        help="cut session S off once its Nth statement is sent, without its answer")
    parser.add_argument("script", metavar="SCRIPT",
                        help="lines of a session, 1 to 16, and a statement; # begins a remark")
    return parser


def main():
    parser = parser_of()
    options = parser.parse_args()
    if (options.isolation or options.wait) and not options.postgresql:
        parser.error("--isolation and --wait go with --postgresql only")
    try:
        lines = record_of(options)
    except Fault as fault:
        sys.exit(f"record: {fault}")
    try:
        write_out(b"".join(line + b"\n" for line in lines))
    except OSError as fault:
        sys.exit(f"record: the record can't be written: {fault.strerror}")


if __name__ == "__main__":
    main()
