"""The tables of docs/REPORTS.md: the sentences for statuses, reasons, constructs, quantities and rules."""
import collections
import os
import re

ROOT = os.path.dirname(os.path.dirname(os.path.abspath(__file__)))
PAGE = os.path.join(ROOT, "docs", "REPORTS.md")

# A row of a table: what is explained, in which kind of file (empty for any), and the sentences.
Row = collections.namedtuple("Row", "item where text")
SECTIONS = ("Statuses", "Reasons", "Constructs", "Quantities", "Rules")


def read_page(path=PAGE):
    """The rows of each section by the name of the section."""
    found = {name: [] for name in SECTIONS}
    section = None
    with open(path, encoding="utf-8") as file:
        for line in file:
            if line.startswith("## "):
                section = line[3:].strip()
            if section in found and line.startswith("| `"):
                found[section].append(row_of(line, section in ("Reasons", "Constructs")))
    return found


def row_of(line, has_where):
    cells = [cell.replace("\\|", "|").strip() for cell in re.split(r"(?<!\\)\|", line.strip())[1:-1]]
    where = cells[1] if has_where else ""
    return Row(cells[0].strip("`"), "" if where == "any file" else where, cells[-1])


def plain(text):
    """The sentences without the marks of the page."""
    return text.replace("`", "")


def sentence(page, section, item, where=""):
    """What the page says of an item in this kind of file, else in any file; None where it says nothing."""
    rows = [row for row in page[section] if fits(row.item, item)]
    for kind in (where, ""):
        for row in rows:
            if row.where == kind:
                return plain(row.text)
    return None


def fits(pattern, item):
    """Whether an item is the one of a row, in which some words stand for any."""
    if pattern == item:
        return True
    form = re.sub(r"NET\\ \\.\\.|\b(?:NAME|PORT|T|WORD|STEM)\b", ".*", re.escape(pattern))
    return ".*" in form and re.fullmatch(form, item, re.S) is not None
