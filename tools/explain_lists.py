"""What of a line of a switch list, a matrix table or a configuration table is wrong, for tools/explain."""
import re

from explain_files import cells_of, expanded
from explain_text import lines_of, listed, near_words, plural, shown

WIRE = re.compile(r"(?!fab_)(?!ConfigBits\Z)(?=.*[A-Z])[A-Za-z_][A-Za-z0-9_]*\Z")


def not_wires(names):
    return list(dict.fromkeys(name for name in names if not WIRE.match(name)))


def unknown(name, side, tiles):
    """Why a name is none of this side of the switch matrix: it is of the other side, or of none."""
    for tile in tiles:
        here, other = tile.names(side == "output"), tile.names(side != "output")
        another = "input" if side == "output" else "output"
        if name in other and name not in here:
            return f"{shown(name)} is an {another} of the switch matrix of tile {tile.name}, and here an {side} has to stand"
        if name not in here:
            return f"{shown(name)} is no {side} of the switch matrix of tile {tile.name}{near_words(name, here)}"
    return None


def unknown_names(names, side, tiles, few=4):
    found = [unknown(name, side, tiles) for name in dict.fromkeys(names)]
    found = [text for text in found if text]
    return found[:few] + ([f"and {len(found) - few} more"] if len(found) > few else [])


def explain_list(case):
    """A line of a switch list."""
    cells = cells_of(case.text)
    if case.reason == "row":
        yield f"the line has {plural(len(cells), 'cell')}"
    if len(cells) != 2:
        return
    if case.reason == "number":
        yield from bad_braces(cells)
    elif case.reason == "bracket":
        yield from bad_brackets(cells)
    elif case.reason == "name":
        yield from bad_list_names(cells)
    elif case.reason == "counts differ":
        yield "the first cell stands for {}, the second one for {}".format(*(plural(len(expanded(cell)), "name") for cell in cells))
    elif case.reason == "unknown name":
        tiles = case.fabric.tiles_with(case.path) if case.fabric else []
        yield from unknown_names(expanded(cells[0]), "output", tiles)
        yield from unknown_names(expanded(cells[1]), "input", tiles)
    elif case.reason == "both sides":
        yield from both_sides(case, cells)


def bad_braces(cells):
    for cell in cells:
        rest = re.sub(r"^\{[1-9][0-9]*\}", "", cell)
        for found in re.findall(r"\{[^}]*\}?", rest)[:3]:
            yield f"{shown(found)} in {shown(cell, 60)}"


def bad_brackets(cells):
    for cell in cells:
        open_at = None
        for at, sign in enumerate(cell):
            if sign == "[" and open_at is None:
                open_at = at
            elif sign == "]" and open_at is not None:
                open_at = None
            elif sign in "[]|" and not (sign == "|" and open_at is not None):
                yield f"'{sign}' at the {at + 1}. place of {shown(cell, 60)}"
                return
        if open_at is not None:
            yield f"the '[' at the {open_at + 1}. place of {shown(cell, 60)} does not close"
            return


def bad_list_names(cells):
    for cell in cells:
        strange = list(dict.fromkeys(re.findall(r"[^A-Za-z0-9_\[\]|{}]", cell)))
        if strange:
            yield f"no name has {listed(repr(sign) for sign in strange)}, in {shown(cell, 60)}"
        else:
            names = not_wires(expanded(cell))
            if names:
                yield f"no name of a wire: {listed(names)}"


def both_sides(case, cells):
    sides = [set(), set()]
    first = {}
    for line, text in lines_of(case.path, case.line):
        for side, cell in enumerate(cells_of(text)[:2]):
            for name in expanded(cell):
                sides[side].add(name)
                first.setdefault((name, side), line)
    both = sorted(sides[0] & sides[1])
    for name in both[:3]:
        yield f"{shown(name)} is an output in line {first[name, 0]} and an input in line {first[name, 1]}"


def explain_matrix_table(case):
    """A row of a matrix table."""
    cells = cells_of(case.text)
    rows = [(line, cells_of(text)) for line, text in lines_of(case.path, case.line)]
    rows = [(line, row) for line, row in rows if row]
    if not cells or not rows:
        return
    header, is_first = rows[0][1], rows[0][0] == case.line
    tiles = case.fabric.tiles_with(case.path) if case.fabric else []
    if case.reason == "row":
        yield f"the first row has {plural(len(header), 'cell')}, and this one has {len(cells)}"
    elif case.reason == "name":
        yield f"no name of a wire: {listed(not_wires(cells[1:] if is_first else cells[:1]))}"
    elif case.reason == "unknown name":
        names, side = (cells[1:], "input") if is_first else (cells[:1], "output")
        yield from unknown_names(names, side, tiles)
    elif case.reason == "name twice" and is_first:
        yield f"twice: {listed(name for name in dict.fromkeys(cells[1:]) if cells[1:].count(name) > 1)}"
    elif case.reason == "name twice":
        yield from (f"the output {shown(cells[0])} has a row in line {line}" for line, row in rows[1:-1] if row[0] == cells[0])
    elif case.reason == "digit":
        wrong = [(name, cell) for name, cell in zip(header[1:], cells[1:]) if cell not in ("0", "1")]
        yield from (f"below the input {shown(name)} stands {shown(cell, 40) or 'nothing'}" for name, cell in wrong[:3])


HEADER = "frame_name,frame_index,bits_used_in_frame,used_bits_mask,ConfigBits_ranges"


def explain_configuration(case):
    """A row of a configuration table."""
    cells = (cells_of(case.text) + [""] * 5)[:max(5, len(cells_of(case.text)))]
    if case.reason == "row":
        yield f"the row has {plural(len(cells_of(case.text)), 'cell')}"
    elif case.reason == "header":
        wrong = [(want, have) for want, have in zip(HEADER.split(","), cells) if want != have]
        yield from (f"{shown(have) or 'nothing'} stands where {want} has to stand" for want, have in wrong[:3])
    elif case.reason in ("mask", "number"):
        ones, signs = cells[3].count("1"), len(cells[3].replace("_", ""))
        mask = f"{plural(signs, 'digit')} with {plural(ones, 'one')}"
        yield f"frame {shown(cells[1])}: the third cell says {shown(cells[2])}, the mask has {mask}"
    elif case.reason == "range":
        yield f"the mask has {plural(cells[3].count('1'), 'one')}, the ranges {shown(cells[4], 60)} list {listed_bits(cells[4])}"
    elif case.reason == "frame":
        for line, text in lines_of(case.path, case.line - 1):
            if cells_of(text)[1:2] == cells[1:2]:
                yield f"frame {shown(cells[1])} stands in line {line}"
    elif case.reason == "bit":
        yield from bit_faults(case)


def bits_of(cell):
    """The bits of a cell of ranges, at most 2000 of each; None where it is ill-formed."""
    if cell.upper() in ("", "NULL"):
        return []
    found = []
    for item in cell.split(";"):
        ends = item.split(":")
        if len(ends) > 2 or not all(re.fullmatch(r"0|[1-9]\d{0,6}", end) for end in ends):
            return None
        one, other = int(ends[0]), int(ends[-1])
        step = 1 if other >= one else -1
        found += range(one, other + step, step)[:2000]
    return found


def listed_bits(cell):
    bits = bits_of(cell)
    return "no bits, for they are ill-formed" if bits is None else plural(len(bits), "bit")


def bit_faults(case):
    """Bits that are listed twice in the table up to this row, and those that it lists nowhere."""
    where = {}
    for line, text in lines_of(case.path, case.line):
        for bit in bits_of((cells_of(text) + [""] * 5)[4]) or []:
            if bit in where and line == case.line:
                yield f"bit {bit} is listed in line {where[bit]} already"
                return
            where[bit] = line
    if where:
        missing = [bit for bit in range(max(where)) if bit not in where]
        yield f"the table lists {plural(len(where), 'bit')} up to here, from {min(where)} to {max(where)}" + (
            f", without {listed(missing and map(str, missing))}" if missing else "")
