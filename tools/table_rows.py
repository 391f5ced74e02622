"""Lines and rows of text files, the rule for names, and faults: what the readers of tables and designs share.

docs/FORMATS.md has the rules: "Names", "Files" and "Tables". A reader goes on behind a fault, so that all faults of a file
are told at once.
"""
import collections
import csv
import os
import re

NAME = re.compile(r"[A-Za-z_][A-Za-z0-9_]*\Z")
NUMBER = re.compile(r"(0|[1-9][0-9]*)\Z")
NAME_BYTES = 64
INCLUDE_DEPTH = 8

# One fault: the file and the line, the kind as a report of fab has it ("malformed", "unsupported", "limit", "missing"), what
# comes behind it there (the reason, the construct, or quantity, value and bound), a sentence for the reader, and the tiles of
# which it is told: several tiles may have one switch list.
Fault = collections.namedtuple("Fault", "path line kind what why tiles")


def told(fault):
    """A fault as a line: as fab's own report, and then the sentence."""
    place = fault.path if fault.kind == "missing" else f"{fault.path}:{fault.line} {fault.what}"
    tiles = f"{'tile' if len(fault.tiles) == 1 else 'tiles'} {', '.join(fault.tiles)}: " if fault.tiles else ""
    return f"{fault.kind} {place}: {tiles}{fault.why}"


class Faults:
    """The faults that readers found, each once, in the order in which they were found."""

    def __init__(self):
        self.found = {}

    def add(self, path, line, kind, what, why, tiles=()):
        """Notes a fault."""
        tiles = dict.fromkeys(tiles)
        self.found.setdefault((path, line, kind, what, why), tiles).update(tiles)

    def malformed(self, path, line, what, why, tiles=()):
        """Notes a malformed line."""
        self.add(path, line, "malformed", what, why, tiles)

    def limit(self, path, line, quantity, value, bound):
        """Notes a quantity that is above its bound."""
        self.add(path, line, "limit", f"{quantity} {value} {bound}", f"at most {bound} are read")

    def __iter__(self):
        return (Fault(*fault, tuple(tiles)) for fault, tiles in self.found.items())

    def __len__(self):
        return len(self.found)


def counted(count, noun):
    """A count with its noun, in the plural where it is not 1."""
    return f"{count} {noun}" + ("" if count == 1 else "s")


def aligned(rows):
    """Rows of cells as lines, each cell as wide as the widest of its column; the first column begins at the left."""
    widths = [max(len(row[at]) for row in rows) for at in range(len(rows[0]))]
    for row in rows:
        cells = [cell.ljust(width) if at == 0 else cell.rjust(width) for at, (cell, width) in enumerate(zip(row, widths))]
        yield "  " + "  ".join(cells).rstrip()


def lines_of(path):
    """The lines of a text, without their ends (LF or CRLF). Bytes that are no UTF-8 stay as surrogates."""
    with open(path, encoding="utf-8", errors="surrogateescape", newline="") as file:
        lines = file.read().split("\n")
    if len(lines) > 1 and not lines[-1]:
        lines.pop()
    return [line[:-1] if line.endswith("\r") else line for line in lines]


def cells_of(line):
    """The cells of a line of a table: its comment goes, then blanks round cells, and then empty cells at the end."""
    text = line.split("#", 1)[0].lstrip("\ufeff").lstrip("\r")
    if '"' in text:
        cells = next(csv.reader([text]), [])
    else:
        cells = text.split("\r")[0].split(",")
    cells = [cell.strip(" \t") for cell in cells]
    while cells and not cells[-1]:
        cells.pop()
    return cells


class Table:
    """The rows of a table, as (line, cells). `last` is the number of the last line."""

    def __init__(self, path):
        lines = lines_of(path)
        self.path, self.last = path, max(len(lines), 1)
        parted = ((number, cells_of(line)) for number, line in enumerate(lines, 1))
        self.rows = [(number, cells) for number, cells in parted if cells]


def read_table(path, faults, named_at):
    """The table of a file, or None where it is not there. `named_at`: the file and the line that name it."""
    try:
        return Table(path)
    except OSError as fault:
        where = f", which {named_at[0]}:{named_at[1]} names" if named_at else ""
        faults.add(path, 0, "missing", "", f"{(fault.strerror or 'no such file').lower()}{where}")
        return None


def resolved(path, within):
    """The path that a file names: from the directory of that file, unless it begins with a slash."""
    if path.startswith("/"):
        return path
    parts = []
    for part in os.path.join(os.path.dirname(within), path).split("/"):
        if part == ".." and parts and parts[-1] not in ("..", ""):
            parts.pop()
        elif part != ".":
            parts.append(part)
    return "/".join(parts)


def is_path(text):
    """Whether a cell may be a path: not empty, and UTF-8."""
    return bool(text) and not any("\ud800" <= sign <= "\udfff" for sign in text)


def is_name(text):
    """Whether a text is a name: a letter or `_`, and then letters, digits and `_`."""
    return bool(NAME.match(text))


def is_wire_name(text):
    """Whether a text may name a wire or a matrix pin."""
    return is_name(text) and text != "ConfigBits" and not text.startswith("fab_") and any("A" <= sign <= "Z" for sign in text)


def number_of(text, signed=False):
    """A decimal number without leading zeros, or None."""
    digits = text[1:] if signed and text.startswith("-") else text
    if not NUMBER.match(digits) or (digits != text and digits == "0"):
        return None
    # a longer number is above each bound, and Python refuses to read very long ones
    value = int(digits) if len(digits) < 20 else 10 ** 20
    return -value if digits != text else value
