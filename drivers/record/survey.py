#!/usr/bin/python3
"""Draws loads of 2 to 16 clients, records each on a database, judges the records, and says how many there are of each \
verdict.

    survey.py mariadb|postgresql|mysql [--socket PATH | --address HOST:PORT] [--count N] [--first N] [--seed SEED]
              [--allow FILE] [--seconds N] [--jobs N] [--record-only] FOLDER

A load is statements of two-phase commits, in two phases. Clients of the first phase are lost in some loads, and in some
the server is killed and started again. FOLDER gets each load's record. One that is there already isn't recorded again,
so that a survey that was stopped goes on. Beside an ILLEGAL record, as 7.record, is 7.shrunk, what `judge --explain
--shrink` says of it.

Without --socket and --address a server is started, for which Debian's packages are needed: mariadb-server and
python3-pymysql, or postgresql and python3-psycopg2. Nothing of it is proved but the judge.
"""
import argparse
import re
import subprocess
import sys
import tempfile
import threading
from collections import Counter
from concurrent.futures import ThreadPoolExecutor
from pathlib import Path
from types import SimpleNamespace

sys.dont_write_bytecode = True

from databases import add_places, mysql, postgresql  # noqa: E402
from faults import Fault  # noqa: E402
from loads import Traits, load_of  # noqa: E402
from servers import MariaDb, PostgreSql  # noqa: E402
from sessions import Record, end, run_together, sessions_of  # noqa: E402
from statements import is_executable, usual_program  # noqa: E402

EXAMPLES = Path(__file__).resolve().parents[2] / "examples/records"
KINDS = {
    "mariadb": (mysql, MariaDb, Traits(is_free_once_prepared=False, keeps_all_locks=False)),
    "postgresql": (postgresql, PostgreSql, Traits(levels=tuple(postgresql.LEVELS), waits=(0, 0, 50))),
    "mysql": (mysql, None, Traits()),
}
# what a verdict's line is grouped by: its words, without the numbers of lines, identifiers and rows
CALL = re.compile(r"^CALL line \d+ \d+ > (XA \w+|\w+).*?( ONE PHASE)?$", re.M)
SEEN = re.compile(r"^SEEN \d+ < (ERROR \d+|\w+)", re.M)
COULD_BE = re.compile(r"^COULD BE (ERROR \d+|\w+)", re.M)


class Counting(Record):
    """A record that calls something once so many calls have returned."""

    def __init__(self, count, then):
        super().__init__()
        self.count, self.then = count, then

    def add(self, *lines):
        super().add(*lines)
        if self.count and b" > " not in lines[0]:
            self.count -= 1
            if not self.count:
                self.then.set()


def record_load(load, seed, server, database):
    """The lines of a load's record."""
    options = SimpleNamespace(lose=load.lose, cut=load.cut, timeout=None,
                              pauses=seed if load.pauses else None)
    killing = threading.Event()
    record, sessions = sessions_of(load.phases[0] + load.phases[1], options, database,
                                   Counting(load.killed_after if server else 0, killing))
    for number in {number for _, number, _ in load.phases[0]}:
        sessions[number].open()
    killer = threading.Thread(target=kill, args=(killing, server, database))
    if load.killed_after and server:
        killer.start()
    run_together(sessions, load.phases[0], options)
    if load.killed_after and server:
        killing.set()
        killer.join()
        start_again(server, database, sessions)
    for session in sessions.values():
        session.settle()
    run_together(sessions, load.phases[1], options)
    end(sessions)
    return record.lines


def kill(killing, server, database):
    """Kills the server once that is asked for."""
    killing.wait()
    database.is_killed = True
    server.kill()


def start_again(server, database, sessions):
    """Every client that was there finds its connection closed; then the server is started."""
    for session in sessions.values():
        if session.client is not None:
            if not session.lost:
                session.lose(b"GONE")
            session.client = None
    server.start()
    database.open()
    database.is_killed = False


def record_all(chosen, numbers, server):
    """Records loads, each into a file."""
    module, _, traits = KINDS[chosen.database]
    options = SimpleNamespace(socket=server.socket if server else chosen.socket, user=None, password="",
                              database="judged", isolation=None, wait=0)
    database = module.Database(options)
    for number in numbers:
        seed = f"{chosen.seed} {number}"
        load = load_of(seed, traits)
        options.isolation, options.wait = load.level, load.wait
        lines = record_load(load, seed, server, database)
        how = "".join([f", {load.level}" if load.level else "", f", waits {load.wait} ms" if load.wait else "",
                       ", killed" if load.killed_after and server else ""])
        head = f"# {database.version}, load {number} of seed {chosen.seed}{how}\n".encode()
        path = path_of(chosen, number)
        part = path.with_suffix(".part")
        part.write_bytes(head + b"".join(line + b"\n" for line in lines))
        part.rename(path)
    database.close()


def path_of(chosen, number):
    return chosen.folder / f"{number}.record"


def record_missing(chosen):
    """Records the loads that have no record yet, on the server that is named, or on one that is started for it."""
    chosen.folder.mkdir(parents=True, exist_ok=True)
    numbers = [number for number in chosen.numbers if not path_of(chosen, number).exists()]
    if not numbers:
        return
    if chosen.socket:
        record_all(chosen, numbers, None)
        return
    with tempfile.TemporaryDirectory(dir="/tmp") as room:  # (a folder that TMP names may be closed to postgres)
        server = KINDS[chosen.database][1](room)
        try:
            record_all(chosen, numbers, server)
        finally:
            server.stop()


def judge(path, chosen, *words):
    """The verdict's lines; none if it takes too long."""
    allow = ["--allow", chosen.allow] if chosen.allow else []
    try:
        ran = subprocess.run([usual_program(), "judge", "--strict-calls", "--text", *allow, *words, "--file", path],
                             stdout=subprocess.PIPE, stderr=subprocess.DEVNULL, timeout=chosen.seconds)
    except subprocess.TimeoutExpired:
        return []
    return ran.stdout.decode("latin1").splitlines()


def verdict_of(path, chosen):
    """The verdict's first word, and for ILLEGAL what its line is about; keeps the smaller record."""
    lines = judge(path, chosen)
    word = lines[0].split()[0] if lines else f"longer than {chosen.seconds} seconds"
    if word != "ILLEGAL":
        return word, ""
    said = judge(path, chosen, "--explain", "--shrink") or judge(path, chosen, "--explain")
    text = "\n".join(said)
    path.with_suffix(".shrunk").write_text(text + "\n", encoding="latin1")
    call, seen = CALL.search(text), SEEN.search(text)
    if not (call and seen):
        return word, "see its file"
    return word, f"{call[1]}{call[2] or ''}: {seen[1]}, could be {' or '.join(sorted(set(COULD_BE.findall(text))))}"


def table(chosen):
    """Judges the records, and prints how many there are of each verdict."""
    paths = [path_of(chosen, number) for number in chosen.numbers]
    with ThreadPoolExecutor(chosen.jobs) as pool:
        verdicts = list(pool.map(lambda path: verdict_of(path, chosen), paths))
    print(f"{paths[0].read_text(encoding='latin1').split(',')[0][2:]}: {len(paths)} records")
    groups = {}
    for path, found in zip(paths, verdicts):
        groups.setdefault(found, []).append(path.stem)
    for word, count in Counter(word for word, _ in verdicts).most_common():
        print(f"{count:6} {word}")
        for (of, about), names in sorted(groups.items()):
            if about and of == word:
                print(f"{len(names):6}    {about}: {' '.join(names)}")


def options_of():
    parser = argparse.ArgumentParser(description=__doc__.split("\n", maxsplit=1)[0])
    parser.add_argument("database", choices=KINDS, help="whose differences the loads keep clear of")
    parser.add_argument("folder", metavar="FOLDER", type=Path, help="where the records are kept")
    add_places(parser, required=False)
    parser.add_argument("--count", type=int, default=100, metavar="N", help="how many loads; 100 if it isn't given")
    parser.add_argument("--first", type=int, default=1, metavar="N", help="the first load's number; 1 if not given")
    parser.add_argument("--seed", default="1", metavar="SEED", help="what the loads are drawn by; 1 if it isn't given")
    parser.add_argument("--allow", metavar="FILE", help="the differences that are allowed; what examples/records has "
                        "for the database, where it isn't given")
    parser.add_argument("--seconds", type=int, default=60, metavar="N", help="the longest that a verdict may take")
    parser.add_argument("--jobs", type=int, default=1, metavar="N", help="how many records are judged at a time")
    parser.add_argument("--record-only", action="store_true", help="judge nothing")
    return parser


def main():
    parser = options_of()
    chosen = parser.parse_args()
    if not chosen.socket and not KINDS[chosen.database][1]:
        parser.error("name a server by --socket or --address")
    chosen.numbers = range(chosen.first, chosen.first + chosen.count)
    usual = EXAMPLES / f"{chosen.database}.allow"
    chosen.allow = chosen.allow or (usual if usual.exists() else None)
    try:
        if not (chosen.record_only or is_executable(usual_program())):
            raise Fault(f"no program at {usual_program()}: build it by scripts/build, install a release, or name it by "
                        "NIGBARU_PROGRAM")
        record_missing(chosen)
        if not chosen.record_only:
            table(chosen)
    except (Fault, OSError) as fault:
        sys.exit(f"survey: {fault}")


if __name__ == "__main__":
    main()
