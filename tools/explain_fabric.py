"""What of a line of a fabric file or a file of tiles is wrong, for tools/explain."""
import re

from explain_files import cells_of, place_of
from explain_lists import WIRE
from explain_text import lines_of, listed, near_words, plural, quoted, shown
from fabric import STEPS, Bel
from read_tables import KINDS, MAX_NAMES, MODES, wire_row

NAME = re.compile(r"[A-Za-z_][A-Za-z0-9_]*\Z")
ENDS = {"FabricBegin": "FabricEnd", "ParametersBegin": "ParametersEnd", "TILE": "EndTILE"}


def context(case):
    """The block in which the line stands, by the word that begins it and its line; (None, 0) outside of blocks."""
    block, begin = None, 0
    for line, text in lines_of(case.path, case.line):
        cells = cells_of(text)
        if not cells or line == case.line and case.reason != "end of file":
            continue
        if cells[0] in ENDS and block is None:
            block, begin = cells[0], line
        elif cells[0] in ENDS.values():
            block, begin = None, 0
    return block, begin


def explain_fabric(case):
    """A line of a fabric file or of a file of tiles."""
    cells = cells_of(case.text)
    block, begin = context(case)
    if case.reason == "end of file":
        if block:
            yield f"{block} in line {begin} has no {ENDS[block]}"
        return
    if case.status == 5 and case.reason.endswith(" FlipFlopChain"):
        yield from mode_row(case)
    if not cells:
        return
    if case.reason == "row" and block == "ParametersBegin" and cells[0] == "ConfigBitMode":
        yield from unknown_mode(cells)
    elif case.reason in ("row", "block"):
        yield from misplaced(case, cells, block, begin)
    elif case.reason == "grid":
        yield from grid_faults(case, cells, block)
    elif case.reason == "tile":
        yield from cells_without_tile(case, cells)
    elif case.reason == "name twice":
        yield from twice(case, cells, block, begin)
    elif case.reason == "name":
        yield from bad_names(cells, block)
    elif cells[0] in STEPS:
        yield from wire_faults(case, cells)
    elif case.status == 5 and cells[0] == "BEL":
        yield from unknown_bel(case.reason)


def mode_row(case):
    """The row that makes the configuration a chain. The report names no line of it."""
    found = [(line, text) for line, text in lines_of(case.path) if cells_of(text)[:2] == ["ConfigBitMode", "FlipFlopChain"]]
    for line, text in found[-1:]:
        yield f"line {line} makes a chain of it:"
        yield quoted(case.path, line, text.strip())


def unknown_mode(cells):
    modes = " or ".join(f"ConfigBitMode,{mode}" for mode in MODES)
    yield f"the row is {modes}" + (near_words(cells[1], MODES) if len(cells) == 2 else f", and has {plural(len(cells), 'cell')}")


def misplaced(case, cells, block, begin):
    inside = f"inside the {block} block that begins in line {begin}" if block else "outside of blocks"
    yield f"the line has {plural(len(cells), 'cell')} and stands {inside}"
    known = list(ENDS) + list(ENDS.values()) + list(STEPS) + ["BEL", "MATRIX", "INCLUDE", "Tile"]
    if cells[0] not in known and block != "ParametersBegin":
        yield f"no line of tables begins with {shown(cells[0], 60)}{near_words(cells[0], known)}"
    elif cells[0] in STEPS and len(cells) < 6:
        yield "a row of wires has six cells: DIRECTION,SOURCE,DX,DY,DESTINATION,COUNT"
    elif cells[0] == "BEL" and not 2 <= len(cells) <= 3:
        yield "a BEL row is BEL,FILE,PREFIX"
    elif cells[0] == "MATRIX" and block == "TILE":
        for line, text in lines_of(case.path, case.line - 1):
            if line > begin and cells_of(text)[:1] == ["MATRIX"]:
                yield f"the tile has a MATRIX row in line {line}"


def grid_faults(case, cells, block):
    if block != "FabricBegin":
        yield "no grid stands in the file: FabricBegin, a line for each row of tiles, FabricEnd"
        if case.fabric and case.fabric.tiles:
            yield f"it has tiles alone ({listed(case.fabric.tiles)}): the fabric file names it by a row Tile,{shown(case.path)}"
        return
    rows = []
    for line, text in lines_of(case.path, case.line):
        row = cells_of(text)
        if row[:1] == ["FabricBegin"]:
            rows = []
        elif row:
            rows.append((line, row))
    if len(rows) > 1:
        yield f"the first row of the grid, line {rows[0][0]}, has {plural(len(rows[0][1]), 'cell')}, and this one has {len(cells)}"


def cells_without_tile(case, cells):
    tiles = case.fabric.tiles if case.fabric else {}
    wrong = list(dict.fromkeys(cell for cell in cells if cell and cell.upper() != "NULL" and cell not in tiles))
    for cell in wrong[:4]:
        at = [str(i) for i, other in enumerate(cells) if other == cell]
        yield f"no TILE block is named {shown(cell)}{near_words(cell, tiles)} (column {listed(at)})"
    if wrong and not near_words(wrong[0], tiles):
        yield f"tiles that there are: {listed(tiles, 12)}" if tiles else "no file with tiles is named: a row Tile,FILE is missing"


def names_of_row(cells):
    """The matrix names that a row of wires or a BEL gives its tile, in their order."""
    part = None
    if cells[0] in STEPS:
        part = wire_row(cells, "", 0)[1]
        part = part if part and part.bits <= MAX_NAMES else None
    elif cells[0] == "BEL" and len(cells) > 1:
        stem = cells[1].rsplit("/", 1)[-1].rsplit(".", 1)[0]
        part = Bel(KINDS[stem], cells[2] if len(cells) > 2 else "", "A") if stem in KINDS else None
    return [wire.name for wire in part.wires()] if part else []


def twice(case, cells, block, begin):
    if cells[0] == "TILE" and len(cells) > 1:
        tile = case.fabric.tiles.get(cells[1]) if case.fabric else None
        if tile:
            yield f"tile {shown(cells[1])} stands first in {shown(tile.path)}:{tile.line}"
        return
    names = names_of_row(cells)
    for name in dict.fromkeys(names):
        if names.count(name) > 1:
            yield f"{shown(name)} stands twice in this row: source and destination need different names"
            return
    place = first_place(case, set(names))
    if place:
        name, path, line = place
        yield f"{shown(name)} is there from {shown(path)}:{line}"


def first_place(case, names):
    """Where a name of the tile stands for the first time, in rows before this one."""
    tiles = case.fabric.tiles.values() if case.fabric else ()
    for tile in tiles:
        places = {name: place_of(wire) for name, wire in tile.wires.items()}
        is_tile = (tile.path == case.path and tile.line < case.line) or any(path == case.path for path, _ in places.values())
        if not is_tile or last_tile_line(case) not in (None, tile.line):
            continue
        for name, (path, line) in places.items():
            if name in names and (path != case.path or line < case.line):
                return name, path, line
    return None


def last_tile_line(case):
    """The line of the TILE row in front of this one in the same file."""
    found = None
    for line, text in lines_of(case.path, case.line):
        if cells_of(text)[:1] == ["TILE"]:
            found = line
    return found


def bad_names(cells, block):
    if block == "FabricBegin":
        wrong = [cell for cell in cells if cell and not NAME.match(cell)]
    elif cells[0] == "TILE":
        wrong = [cell for cell in cells[1:2] if not NAME.match(cell) or cell.upper() == "NULL"]
    elif cells[0] in STEPS:
        wrong = [cells[at] for at in (1, 4) if at < len(cells) and cells[at] != "NULL" and not WIRE.match(cells[at])]
    elif cells[0] == "BEL":
        wrong = [cell for cell in cells[2:3] if not NAME.match(cell) or cell.startswith("fab_") or cell == "ConfigBits"]
    else:
        wrong = []
    if wrong:
        yield f"no name: {listed(dict.fromkeys(cell or 'an empty cell' for cell in wrong))}"


def wire_faults(case, cells):
    """A row of wires whose numbers, direction or ends are wrong."""
    if len(cells) < 6:
        return
    direction, source, dx, dy, destination, count = cells[:6]
    if case.reason == "number":
        for name, cell, form in (("DX", dx, r"0|-?[1-9]\d*"), ("DY", dy, r"0|-?[1-9]\d*"), ("COUNT", count, r"[1-9]\d*")):
            if not re.fullmatch(form, cell):
                yield f"{name} is {shown(cell, 40) or 'empty'}"
        if all(re.fullmatch(r"-?\d{1,9}", cell) for cell in (dx, dy)) and abs(int(dx)) + abs(int(dy)) > 31:
            yield f"the wire spans {abs(int(dx)) + abs(int(dy))} tiles"
    elif case.reason == "direction":
        yield f"{direction} has DX {shown(dx, 20)} and DY {shown(dy, 20)}; by these the wire would be {by_steps(dx, dy)}"
    elif case.reason == "null":
        ends = [name for name, cell in (("source", source), ("destination", destination)) if cell == "NULL"]
        yield f"{direction} without a {' and a '.join(ends) or 'missing end'}"
        if destination.upper() in ("GND", "VCC"):
            yield f"a constant is written JUMP,NULL,0,0,{destination.upper()},1"


def by_steps(dx, dy):
    if not all(re.fullmatch(r"-?\d{1,9}", cell) for cell in (dx, dy)):
        return "none"
    signs = tuple((number > 0) - (number < 0) for number in (int(dx), int(dy)))
    found = [name for name, step in STEPS.items() if step == signs]
    return found[0] if found else "none, for a wire goes straight"


def unknown_bel(stem):
    if stem not in KINDS:
        yield f"the kind is chosen by the file, {shown(stem)}{near_words(stem, KINDS)}"
