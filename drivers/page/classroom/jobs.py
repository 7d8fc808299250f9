"""What the page asks for: each function takes the page's question, as JSON has it, and gives what is sent back.

Bytes go both ways as strings of the characters U+0000 to U+00FF, one a byte.
"""
import functools

from .child import Trouble
from .diagram import FILE_WIDTH, diagram
from .picture import picture
from .probe import calls_in
from .talk import Talk, remark, unknown_transaction


class BadQuestion(Exception):
    """A question that the page doesn't ask."""


def field(question, name, kind, default=None):
    found = question.get(name, default)
    if type(found) is not kind:
        raise BadQuestion(f"{name} is missing, or of another kind")
    return found


def number(question, name, least, most, default):
    found = field(question, name, int, default)
    if not least <= found <= most:
        raise BadQuestion(f"{name} is from {least} to {most}")
    return found


def as_bytes(text, name):
    try:
        return text.encode("latin-1")
    except UnicodeEncodeError:
        raise BadQuestion(f"{name} has characters that aren't bytes") from None


def script(question, name):
    return as_bytes(field(question, name, str), name)


def lines_in(question):
    lines = [as_bytes(line, "lines") if type(line) is str else b"\n" for line in field(question, "lines", list)]
    if any(b"\n" in line for line in lines):
        raise BadQuestion("lines are texts without line feeds")
    return lines


def coordinate_words(question):
    stores, capacity = number(question, "stores", 1, 16, 3), number(question, "capacity", 1, 1024, 1024)
    return ["coordinate", "--stores", str(stores), "--capacity", str(capacity)]


def talk(pool, question):
    """Gives the lines to a child that answers each, and sends back the answers from `known` on."""
    name, job = field(question, "talk", str), field(question, "job", str)
    lines = lines_in(question)
    if not 1 <= len(name) <= 64:
        raise BadQuestion("a talk has a name of 1 to 64 characters")
    known = number(question, "known", 0, len(lines), 0)
    if job == "show":
        words, marker, after = ["show"], remark, []
    elif job == "coordinate":
        words, marker, after = coordinate_words(question), unknown_transaction, [b"SHOW"]
    else:
        raise BadQuestion("a talk's job is show or coordinate")
    found = pool.talk(f"{name} {' '.join(words)}", lambda: Talk(pool, words, marker, after)).ask(lines, known)
    found["answers"] = [[part.decode("latin-1") for part in answer] for answer in found["answers"]]
    return found


def run_once(pool, words, text, seconds, memory_kib=None):
    """One child that reads the whole text: what it writes, and how it ends."""
    child = pool.start(words, memory_kib)
    try:
        output = child.exchange(text, None, seconds, pool.limits.output_bytes)
        return {"output": output.decode("latin-1"), **child.how_it_ended()}
    except Trouble as trouble:
        return {"output": "", "status": None, "error": str(trouble)}
    finally:
        pool.end(child)


def race(pool, question):
    """Races a script so often, each time in a child of its own, and sends back what each wrote; where it has parts, one
    child counts the outcomes of all."""
    text, times = script(question, "script"), number(question, "times", 1, pool.limits.batch, 1)
    words = ["race", "--capacity", str(number(question, "capacity", 1, 1024, 1024))]
    words += [f"--{option}" for option in ("together", "renew") if field(question, option, bool, False)]
    seed = question.get("seed")
    if seed is not None:
        seed = number(question, "seed", 0, 2 ** 53, 0)
    if field(question, "parts", bool, False):
        shuffled = [] if seed is None else ["--shuffle", str(seed)]
        return {"words": words, "ran": [run_once(pool, [*words, *shuffled, "--runs", str(times)], text,
                                                 pool.limits.answer_seconds, pool.limits.judge_kib(pool.limits.ways))]}
    ran = []
    for turn in range(times):
        shuffled = [] if seed is None else ["--shuffle", str(seed + turn)]
        ran.append(run_once(pool, words + shuffled, text, pool.limits.answer_seconds))
        if ran[-1]["status"] != 0:
            break
    return {"words": words, "ran": ran}


def outcomes(pool, question):
    """All that a race's script can be answered, in a child that may use what its limit needs."""
    ways = pool.limits.ways
    return run_once(pool, ["explore", "--limit", str(ways)], script(question, "script"), pool.limits.answer_seconds,
                    pool.limits.judge_kib(ways))


def calls(pool, question):
    """How many calls the last of the lines makes in each store."""
    words, lines = coordinate_words(question), lines_in(question)
    if not lines:
        raise BadQuestion("there is no line to look at")

    def run(text):
        return run_once(pool, words, text, pool.limits.answer_seconds)["output"].encode("latin-1")

    return {"calls": [calls_in(run, lines, store) for store in range(int(words[2]))]}


def sequence(pool, question):
    """The calls as a sequence diagram, those from `at` on waiting, and whether all of it is known: else the page asks
    once more."""
    words, lines, limits = coordinate_words(question), lines_in(question), pool.limits
    at = number(question, "at", 0, len(lines), len(lines))
    drawing = {"width": number(question, "width", 200, 8000, FILE_WIDTH), "size": number(question, "size", 8, 120, 14),
               "asked": field(question, "asked", bool, False), "is_file": field(question, "file", bool, False),
               "quiz": field(question, "quiz", bool, False)}

    def run(more, text):
        ran = run_once(pool, [*words, *more], text, limits.answer_seconds)
        return ran["output"].encode("latin-1"), ran["error"].encode()

    def show(text):
        return run_once(pool, ["show"], text, limits.answer_seconds)["output"].encode("latin-1")

    drawn, is_whole = diagram(run, show, pool.counts, lines, int(words[2]), limits.probe_seconds, at, **drawing)
    return {**drawn, "whole": is_whole}


def stops(pool, question):
    """Every stop of a coordinator within these lines."""
    words, lines = coordinate_words(question), lines_in(question)
    return run_once(pool, ["stops", *words[1:]], b"".join(line + b"\n" for line in lines), pool.limits.answer_seconds)


def judge(pool, question):
    """Judges a record, in a child that may use what its limit needs, and draws it where there is a verdict. A call that
    isn't a statement is a mistake in a record that was typed, so it is a faulty line."""
    limit, record = number(question, "limit", 1, 1_000_000, 100_000), script(question, "record")

    def run(text):
        return run_once(pool, ["judge", "--quiet", "--strict-calls", "--limit", str(limit)], text,
                        pool.limits.judge_seconds, pool.limits.judge_kib(limit))

    @functools.cache
    def explained(text):
        return run(text)["output"].encode("latin-1")

    ran = run(record)
    drawn = {name: picture(record, ran["output"].encode("latin-1"), explained, is_narrow=name == "narrow")
             for name in ("picture", "narrow")}
    return {**ran, **drawn}


def server(pool, _):
    """What the server that is watched does just now; nothing where none is."""
    return pool.status.look() if pool.status else {}


def program(pool, _):
    """The program's version, and the help that lists its jobs."""
    seconds = pool.limits.answer_seconds
    return {"version": run_once(pool, ["--version"], b"", seconds)["output"].strip(),
            "help": run_once(pool, ["--help"], b"", seconds)["output"]}


def end(pool, question):
    """The page is gone, or has begun anew: the children of this name end."""
    pool.forget(field(question, "talk", str) + " ")
    return {}


JOBS = {"talk": talk, "calls": calls, "sequence": sequence, "stops": stops, "race": race, "outcomes": outcomes,
        "judge": judge, "server": server, "program": program, "end": end}
