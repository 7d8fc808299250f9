"""The scripts, calls and records of the repository, which the page offers to open."""
import re

KINDS = {
    "stories": ["cases/show/*.script"],
    "scripts": ["examples/*.script", "examples/schedules/*.script"],
    "races": ["drivers/page/races/*.script", "examples/races/*.script"],
    "scenarios": ["drivers/page/scenarios/*.calls"],
    "calls": ["examples/*.calls", "examples/stops/*.calls"],
    "records": ["drivers/page/records/*.record"],
    "judged": ["examples/**/*.record"],
}
MOST = 1 << 18  # a longer file isn't offered


def examples(root):
    return {kind: [entry(path) for pattern in patterns for path in sorted(root.glob(pattern))
                   if path.stat().st_size <= MOST] for kind, patterns in KINDS.items()}


def entry(path):
    """A file's name, what its first remark says, and its bytes, each as a character."""
    text = path.read_bytes().decode("latin-1")
    first = text.split("\n", 1)[0]
    title = first[1:].strip().encode("latin-1").decode(errors="replace") if first.startswith("#") else ""
    return {"name": re.sub(r"^\d+_", "", path.stem), "title": title, "text": text}
