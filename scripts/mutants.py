"""Mutants of functions, made by rules, and a sample of them that is drawn by a seed. Used by scripts/edits.

A rule changes one place of a function's body: its clauses, its attributes and its comments stay as they are. Whether a
mutant compiles, and whether it means something else than the function, no rule knows.
"""
import hashlib
import os
import random
import re
from typing import Callable, Iterator, NamedTuple

FUNCTION = re.compile(
    r"""( *)(?:pub(?:\([^)]*\))?\s+)?(?:const\s+)?(?:unsafe\s+)?(?:extern\s+"[^"]*"\s+)?fn\s+(\w+)""")
HIDDEN = re.compile(r"""//[^\n]*|"(?:[^"\\]|\\.)*"|b?'(?:[^'\\\n]|\\[^\n']+|\\')'|\#\[[^\n]*""", re.DOTALL)
CLAUSE = re.compile(r"\b(?:requires|ensures|keeps)\b[^{}\n]*\{")
SIGNED = re.compile(r"-> (.*?)(?:\s+(?:requires|ensures|where|ghost|keeps)\b.*|\s*\{)?$", re.DOTALL)


class Function(NamedTuple):
    """A function of a crate: its file, its name, the name by which a check knows it, the line of its head, its text
    from there on, where in it the body begins, and the type of what it gives."""
    crate: str
    path: str
    name: str
    full: str
    line: int
    text: str
    body: int
    gives: str


class Mutant(NamedTuple):
    """A function changed by a rule: which rule, at which line of its file, and the function's new text."""
    function: Function
    rule: str
    line: int
    text: str


def masked(text):
    """The text with its comments, literals of text, attributes and clauses blanked out: rules look at this."""
    blank = lambda found: re.sub(r"[^\n]", "~", found[0])
    text = HIDDEN.sub(blank, text)
    for found in reversed(list(CLAUSE.finditer(text))):
        depth, at = 1, found.end()
        while depth and at < len(text):
            depth += {"{": 1, "}": -1}.get(text[at], 0)
            at += 1
        text = text[: found.start()] + re.sub(r"[^\n]", "~", text[found.start(): at]) + text[at:]
    return text


def is_test(folder, path):
    """Whether a file holds tests, stands among them, or is declared as one of theirs."""
    name = path.removesuffix(".rt").split("/")
    if "tests" in name or name[-1].endswith("_tests"):
        return True
    roots = [it for it in (f"{folder}/src/main.rt", f"{folder}/src/lib.rt") if os.path.exists(it)]
    own, root = (open(it, encoding="utf-8").read() for it in (f"{folder}/src/{path}", roots[0]))
    return "#[test]" in own or bool(re.search(rf"#\[cfg\(test\)\]\n\s*(?:pub )?mod {name[0]};", root))


OWNER = re.compile(r"(?:unsafe )?impl\b|(?:pub(?:\([^)]*\))? )?trait\b")
HEAD = re.compile(r".*?(impl|trait)\b((?:<[^{]*?> (?=[\w&]))?)([^{]*?)(?: for ([^{]*?))?(?:\s+where\b[^{]*)?\s*\{",
                  re.DOTALL)


def owner(lines):
    """What a check calls the last impl or trait that begins in these lines: the type's name and then those of the trait
    and of what is in its brackets, but for parameters. A type that is itself a parameter is called Any."""
    at = max(it for it, line in enumerate(lines) if OWNER.match(line))
    head = HEAD.match("\n".join(lines[at:]) + "{")
    free = set(re.findall(r"[<,] ?([A-Z]\w*)\s*[:,>]", head[2]))
    named = lambda given: [it for it in re.findall(r"\b[A-Z]\w*", given) if it not in free]
    if head[1] == "trait" or not head[4]:
        return "+".join(re.findall(r"\b[A-Z]\w*", head[3])) if head[3].count("<") > 1 else named(head[3])[0]
    return "".join([(named(head[4]) or ["Any"])[0], *named(head[3])])


def body_of(lines, at, margin):
    """The lines in which the body begins and ends of the function whose head is at a line. None if it has none. The
    layout is that of `rt fmt`: a body ends at a brace in the column of its head; it begins at such a brace, or where
    the head ends with one."""
    opened = None
    for here, line in enumerate(lines[at:], at):
        if opened is not None:
            if line == margin + "}":
                return opened, here
        elif line == margin + "{" or line.endswith(" {") and not re.match(r" *(?:requires|ensures|keeps)\b", line):
            opened = here
        elif line == margin + "{}" or line.endswith((";", ") {}")):
            return None
    return None


def functions_in(crate, path, text):
    """The functions of a file that have a body with something in it."""
    lines = text.split("\n")
    modules = [it for it in path.removesuffix(".rt").split("/") if it not in ("lib", "main", "mod")]
    for at, line in enumerate(lines):
        head = FUNCTION.match(line)
        found = body_of(lines, at, head[1]) if head else None
        if not found:
            continue
        before = "\n".join(lines[at: found[0] + 1])
        gives = SIGNED.search(before.rstrip("{").rstrip())
        full = "::".join([*([owner(lines[:at])] if head[1] else modules), head[2]])
        yield Function(crate, f"src/{path}", head[2], full, at + 1, "\n".join(lines[at: found[1] + 1]), len(before),
                       gives[1].strip() if gives else "()")


def functions_of_crate(folder, crate):
    """The functions of a crate outside its tests, in the order of its files."""
    for below, _, names in sorted(os.walk(f"{folder}/src")):
        for name in sorted(it for it in names if it.endswith(".rt")):
            path = os.path.relpath(f"{below}/{name}", f"{folder}/src")
            if not is_test(folder, path):
                with open(f"{folder}/src/{path}", encoding="utf-8") as file:
                    yield from functions_in(crate, path, file.read())


# A rule: the body as it is looked at, and the function, to changes (from, to, new text). Places are within the body.
Changes = Iterator[tuple[int, int, str]]


def replaced(pattern: str, news: Callable[[re.Match], list[str]]):
    """The rule that puts each of these texts in the place of what the pattern's group 1 matches."""
    def rule(seen: str, _function: Function) -> Changes:
        for found in re.finditer(pattern, seen):
            for new in news(found):
                yield found.start(1), found.end(1), new
    return rule


def other_numbers(found):
    value = int(found[1].replace("_", ""))
    return [str(value + 1), *([str(value - 1)] if value else [])]


OPPOSITE = {"true": "false", "false": "true", "<": "<=", "<=": "<", ">": ">=", ">=": ">", "==": "!=", "!=": "==",
            "&&": "||", "||": "&&", "+": "-", "-": "+", "..": "..=", "..=": ".."}


def opposite(found):
    return [OPPOSITE[found[1]]]


def negated(found):
    given = found[1]
    return [given[1:]] if re.fullmatch(r"![\w.:]+(?:\([^()]*\))?", given) else [f"!({given})"]


def alike(one, other):
    """Whether two arguments may be of one type, as far as their texts tell."""
    kinds = [(re.match(r"(?:&(?:mut )?)?", it)[0], "~" in it, it[:1].isdigit()) for it in (one, other)]
    return one != other and kinds[0] == kinds[1] and not {one, other} & {"alloc", "self.alloc", "rt", "SeqCst", "_"}


def swapped_arguments(seen: str, function: Function) -> Changes:
    body = function.text[function.body:]
    for found in re.finditer(r"(?<=\w\()([^(),{}|\n]+), ([^(),{}|\n]+)(?=[,)])", seen):
        if alike(found[1], found[2]):
            one, other = (body[found.start(it): found.end(it)] for it in (1, 2))
            yield found.start(), found.end(), f"{other}, {one}"


def swapped_arms(seen: str, function: Function) -> Changes:
    """Two arms of a match that stand one below the other, each in a line, and name nothing of their own patterns."""
    body = function.text[function.body:]
    named = lambda given: set(re.findall(r"\b[a-z_]\w*", given))
    for found in re.finditer(r"(?<=\n)( *[^\n]*? => )([^\n{}]+),\n(\s*[^\n]*? => )([^\n{}]+),(?=\n)", seen):
        head, one, second, other = (body[found.start(it): found.end(it)] for it in (1, 2, 3, 4))
        if one != other and not (named(head) ^ named(second)) & (named(one) | named(other)):
            yield found.start(), found.end(), f"{head}{other},\n{second}{one},"


def statements(seen):
    """Where each statement of one line or more begins and ends that isn't a `let`, a return or a block."""
    for found in re.finditer(r"(?<=[;{}]\n)([ ~\n]*)(?!let |return|break|continue|use |if |for |while |match |loop )"
                             r"(\*?[a-z_][\w:.]*[^;{}]*;)(?=\n)", seen):
        if found[2].count("(") == found[2].count(")"):
            yield found.start(2), found.end(2)


def left_out(seen: str, _function: Function) -> Changes:
    for start, end in statements(seen):
        yield start, end, re.sub(r"[^\n]", "", seen[start:end])


def givens(gives):
    """Values of a type that a body could give up with."""
    inner = re.fullmatch(r"Result<(.*), [^,]+>", gives)
    if inner:
        return [f"Ok({it})" for it in givens(inner[1]) or []] if inner[1] != "()" else ["Ok(())"]
    if re.fullmatch(r"[ui](?:8|16|32|64|128|size)", gives):
        return ["0"]
    return {"()": [""], "bool": ["false", "true"]}.get(gives, ["None"] if gives.startswith("Option<") else [])


def early_return(seen: str, function: Function) -> Changes:
    """A return before one of the body's own statements, if the body doesn't end there with the same value."""
    first = len(function.text) - len(function.text.lstrip(" ")) + 4
    for found in re.finditer(rf"(?<=\n) {{{first}}}(?=[\w*(\[!&])(?!return)", seen):
        for value in givens(function.gives):
            if seen[found.end():].strip("} \n") != value:
                yield found.end(), found.end(), f"return {value}; ".replace("return ;", "return;")


RULES = {
    "constant": replaced(r"(?<!\w)(?<![^.]\.)(\d[\d_]*)(?!\w)(?!\.\d)", other_numbers),
    "truth": replaced(r"\b(true|false)\b", opposite),
    "comparison": replaced(r" (<=|>=|==|!=|<|>) ", opposite),
    "condition": replaced(r"\b(?:if|while) (?!let\b)([^\n{}]+?) (?:\{|=>)", negated),
    "connective": replaced(r" (&&|\|\|) ", opposite),
    "operator": replaced(r" (\+|-) ", opposite),
    "off by one": replaced(r"( [+-] 1)\b(?!\.)", lambda _: [""]),
    "range": replaced(r"(?<=[\w)])(\.\.=?)(?=[\w(])", opposite),
    "arguments": swapped_arguments,
    "arms": swapped_arms,
    "left out": left_out,
    "early return": early_return,
}


def mutants_of(function, mixer):
    """All mutants of a function in a mixed order, in which each rule that makes one comes first as likely."""
    seen, body = masked(function.text)[function.body:], function.text[function.body:]
    by_rule = []
    for rule, changes in RULES.items():
        made = [Mutant(function, rule, function.line + function.text[: function.body + start].count("\n"),
                       function.text[: function.body] + body[:start] + new + body[end:])
                for start, end, new in changes(seen, function)]
        mixer.shuffle(made)
        by_rule.append(made)
    mixer.shuffle(by_rule)
    rounds = max(map(len, by_rule))
    return [made[turn] for turn in range(rounds) for made in by_rule if turn < len(made)]


def in_drawn_order(functions, seed):
    """The functions in the order in which the seed draws them: a change of one leaves the others in their order."""
    mark = lambda it: hashlib.sha256(f"{seed} {it.crate} {it.path} {it.full}".encode()).digest()
    return sorted(functions, key=mark)


def queue_of(function, seed):
    """The mutants of a function: the first is tried, and the next if it doesn't compile."""
    return mutants_of(function, random.Random(f"{seed} {function.crate} {function.path} {function.full}"))


def drawn(functions, number, seed):
    """Draws that many functions of which a rule makes a mutant, each as likely. Gives the mutants of each, and the
    functions that are left, in the order in which they would be drawn."""
    left, queues = iter(in_drawn_order(functions, seed)), []
    while len(queues) < number and (function := next(left, None)):
        made = queue_of(function, seed)
        queues += [made] if made else []
    return queues, list(left)
