"""What the page cites of docs/STATEMENTS.md: the table of replies, and the table of errors; and the words of two-phase
commit."""
import re

from .sequence import LEGEND


def rows_of(block):
    """The rows of a table in Markdown, its head among them, and the line below the head left out."""
    rows = [[cell.strip() for cell in line.strip().strip("|").split("|")] for line in block]
    return [rows[0], *rows[2:]]


def first_table(text, heading):
    """The first table below a heading of the second rank."""
    section = re.search(rf"^## {re.escape(heading)}\n(.*?)(?=^## |\Z)", text, re.MULTILINE | re.DOTALL)
    table = section and re.search(r"(?:^\|.*\n)+", section[1], re.MULTILINE)
    return rows_of(table[0].splitlines()) if table else []


def tables(root):
    text = (root / "docs/STATEMENTS.md").read_text(encoding="utf-8")
    return {"replies": first_table(text, "Replies"), "refusals": first_table(text, "Errors"), "legend": LEGEND}
