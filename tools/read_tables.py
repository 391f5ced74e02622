"""Reads the tables of a fabric: the fabric file, files of tiles, switch lists, matrix tables and configuration tables.

    fabric, faults = read_fabric(PATH)

`fabric` is a Fabric of tools/fabric.py. `faults` has all faults of all files in the order in which they are met, while `fab`
ends with the first; what a faulty row says is left out. The formats are in docs/FORMATS.md, "Fabric files and tile files".
"""
import os
import re
import sys

from fabric import FRAME_BITS, FRAMES, STEPS, Bel, Fabric, Row, Tile
from read_matrix import MatrixTable, SwitchList, read_configuration
from table_rows import (INCLUDE_DEPTH, NAME_BYTES, Faults, is_name, is_path, is_wire_name, number_of, read_table, resolved, told)

KINDS = {
    "LUT4c_frame_config": "LUT4c", "LUT4c_frame_config_dffesr": "LUT4c", "IO_1_bidirectional_frame_config_pass": "IO",
    "MUX8LUT_frame_config": "MUX8LUT", "MUX8LUT_frame_config_mux": "MUX8LUT",
}
BLOCK_ENDS = {"FabricEnd": "FabricBegin", "ParametersEnd": "ParametersBegin", "EndTILE": "TILE"}
UNSUPPORTED = {
    "SuperTILE": "fab has no supertiles: describe their parts as tiles of their own",
    "Supertile": "fab has no supertiles: leave the row away, and the tiles that it names out of the grid",
    "GEN_IO": "fab has no pins that tiles make for themselves: use the BEL IO_1_bidirectional_frame_config_pass",
}
# What keeps the configuration bits, by the word of a parameter row: a chain of flip-flops, or frames of latches.
MODES = {"frame_based": False, "FlipFlopChain": True}
MAX_COLUMNS, MAX_ROWS, MAX_TILES, MAX_BELS, MAX_SPAN = 32, 31, 64, 26, 31
MAX_NAMES, MAX_INPUTS, MAX_BITS, MAX_WIRES = 4096, 256, FRAMES * FRAME_BITS, 1 << 20


class Block:
    """An open block: the row that began it, the file, and for a tile block the tile."""

    def __init__(self, word, path, line, tile=None):
        self.word, self.path, self.line, self.tile = word, path, line, tile
        self.matrix, self.faulty = None, []
        # how many wires rows have that are too long to be written out
        self.uncounted = 0

    def forgives(self, name):
        """Whether a name may be that of a row or a BEL that has a fault itself: then the name is not told again."""
        return any(re.match(pattern, name) for pattern in self.faulty)


class FabricReader:
    """Takes the rows of a fabric's files one after the other. reads_matrices: whether the files of switch matrices and of
    configuration bits are read too. `files` has what each file is, with the file and the line that name it."""

    def __init__(self, path, reads_matrices=True):
        self.fabric, self.faults, self.block = Fabric(path), Faults(), None
        self.reads_matrices, self.files = reads_matrices, {}
        # what stands once, where the cells of the grid stand, and the rows that are passed over behind an unsupported one
        self.seen, self.cells, self.skipping = set(), {}, None
        # the tiles whose block began
        self.begun = {}

    def read(self):
        """Reads the fabric file with all files that it names."""
        path = self.fabric.path
        last = self._file(path, None, 0, is_fabric=True)
        if last is None:
            return
        if "FabricBegin" not in self.seen:
            self.faults.malformed(path, last, "grid", "no grid stands in the fabric file: FabricBegin, rows of tiles, FabricEnd")
        for name, (where, line) in self.cells.items():
            if name not in self.fabric.tiles:
                known = ", ".join(sorted(self.fabric.tiles)) or "none"
                self.faults.malformed(where, line, "tile", f"the grid names a tile {name} that no TILE row has; there are {known}")
        wires = sum(len(tile.wires) for _, _, tile in self.fabric.places())
        if wires > MAX_WIRES:
            self.faults.limit(path, last, "wires", wires, MAX_WIRES)

    def _file(self, path, named_at, depth, is_fabric):
        """Reads a file of rows, and answers the number of its last line."""
        self.files.setdefault(path, ("fabric", named_at))
        table = read_table(path, self.faults, named_at)
        if not table:
            return None
        outer = self.block
        for line, cells in table.rows:
            if self.skipping:
                self.skipping = None if cells[0] == self.skipping else self.skipping
            else:
                self._row(path, line, cells, depth, is_fabric, outer)
        # a supertile without its end is passed over to the end of its file
        self.skipping = None
        if self.block is not outer and self.block:
            ending = next(end for end, begin in BLOCK_ENDS.items() if begin == self.block.word)
            self.faults.malformed(path, table.last, "end of file", f"the block of line {self.block.line} has no {ending}")
            self.block = outer
        return table.last

    def _row(self, path, line, cells, depth, is_fabric, outer):
        word = cells[0]
        in_grid = self.block and self.block.word == "FabricBegin"
        if word in ("FabricBegin", "ParametersBegin", "TILE"):
            self._begin(path, line, cells, is_fabric)
        elif word in BLOCK_ENDS:
            self._end(path, line, cells, depth, outer)
        elif in_grid:
            self._grid_line(path, line, cells)
        elif word in UNSUPPORTED:
            self.faults.add(path, line, "unsupported", word, UNSUPPORTED[word])
            self.skipping = "EndSuperTILE" if word == "SuperTILE" else None
        elif word == "Tile" and is_fabric and (not self.block or self.block.word == "ParametersBegin"):
            self._named_file(path, line, cells, depth, None)
        elif self.block and self.block.word == "ParametersBegin":
            self._parameter(path, line, cells)
        elif word == "INCLUDE":
            self._named_file(path, line, cells, depth, is_fabric)
        elif self.block:
            self._tile_row(path, line, cells)
        else:
            self.faults.malformed(path, line, "row", f"`{word}` has no meaning outside of a block")

    def _named_file(self, path, line, cells, depth, is_fabric):
        """Reads the file of an INCLUDE row, which is of the kind of its own file, or of a Tile row, where is_fabric is None."""
        if len(cells) != 2:
            self.faults.malformed(path, line, "row", f"`{cells[0]}` is followed by one path")
        elif not is_path(cells[1]) or not resolved(cells[1], path):
            self.faults.malformed(path, line, "name", f"`{cells[0]}` needs a path")
        elif is_fabric is None:
            # the file of a Tile row stands outside of the parameter block in which the row may be
            block, self.block = self.block, None
            self._file(resolved(cells[1], path), (path, line), depth, is_fabric=False)
            self.block = block
        elif depth == INCLUDE_DEPTH:
            self.faults.limit(path, line, "include depth", depth + 1, INCLUDE_DEPTH)
        else:
            self._file(resolved(cells[1], path), (path, line), depth + 1, is_fabric)

    # ---- blocks

    def _begin(self, path, line, cells, is_fabric):
        word = cells[0]
        fault = self._begin_fault(cells, is_fabric)
        if fault:
            self.faults.malformed(path, line, *fault)
        self.seen.add(word)
        # what follows a faulty row is read as if the block began
        is_named = len(cells) == 2 and is_name(cells[1])
        tile = Tile(cells[1] if is_named else f"of line {line}", path, line) if word == "TILE" else None
        self.block = Block(word, path, line, tile)
        if tile:
            self.begun.setdefault(tile.name, tile)
        if tile and not fault:
            if len(tile.name) > NAME_BYTES:
                self.faults.limit(path, line, "name bytes", len(tile.name), NAME_BYTES)
            if len(self.fabric.tiles) == MAX_TILES:
                self.faults.limit(path, line, "tile types", MAX_TILES + 1, MAX_TILES)

    def _begin_fault(self, cells, is_fabric):
        """Why a block cannot begin with a row."""
        word = cells[0]
        if len(cells) != (2 if word == "TILE" else 1):
            return "row", f"`{word}` stands " + ("with one name" if word == "TILE" else "alone")
        if word == "TILE" and (not is_name(cells[1]) or cells[1] == "NULL"):
            return "name", f"`{cells[1]}` is no name of a tile"
        if word == "TILE" and cells[1] in self.begun:
            first = self.begun[cells[1]]
            return "name twice", f"{first.path}:{first.line} has a tile {cells[1]} already"
        if self.block:
            return "block", f"the block of line {self.block.line} of {self.block.path} is open"
        if word != "TILE" and (word in self.seen or not is_fabric):
            return "block", f"`{word}` stands once, in the fabric file"
        return None

    def _end(self, path, line, cells, depth, outer):
        if len(cells) != 1:
            self.faults.malformed(path, line, "row", f"`{cells[0]}` stands alone")
        elif not self.block or self.block.word != BLOCK_ENDS[cells[0]] or self.block is outer:
            self.faults.malformed(path, line, "block", f"no {BLOCK_ENDS[cells[0]]} of this file is open")
            return
        if self.block and self.block.word == BLOCK_ENDS[cells[0]]:
            block, self.block = self.block, None
            if block.word == "TILE":
                self._end_tile(path, line, block, depth)
            elif block.word == "FabricBegin" and not self.fabric.grid:
                self.faults.malformed(path, line, "grid", "the grid has no line")

    def _end_tile(self, path, line, block, depth):
        tile = block.tile
        self.fabric.tiles.setdefault(tile.name, tile)
        names = len(tile.wires) + block.uncounted
        if names > MAX_NAMES:
            self.faults.limit(path, line, "matrix names", min(names, (1 << 64) - 1), MAX_NAMES)
            return
        if not self.reads_matrices:
            return
        is_clean = not block.faulty
        if block.matrix:
            is_clean = self._matrix(tile, block, depth) and is_clean
        crowded = next((inputs for inputs in tile.inputs_of().values() if len(inputs) > MAX_INPUTS), None)
        if crowded:
            self.faults.limit(path, line, "inputs of an output", len(crowded), MAX_INPUTS)
        bits = tile.configuration_bits()
        if bits > MAX_BITS:
            self.faults.limit(path, line, "configuration bits", bits, MAX_BITS)
        elif is_clean:
            # of a tile whose rows have faults the bits are not known
            table = resolved(f"{tile.name}_ConfigMem.csv", path)
            read_configuration(table, bits, self.faults)

    def _matrix(self, tile, block, depth):
        """Reads the matrix file of a tile: a switch list, or a matrix table where its name ends in .csv. Answers whether it has no
        fault."""
        line, named, path = block.matrix
        where = (path, line)
        file = MatrixTable(named, self.faults, where) if named.endswith(".csv") else SwitchList(named, self.faults, where, depth)
        tile.pairs = list(dict.fromkeys(file.close(tile, block.forgives)))
        return not len(file.faults)

    # ---- the grid and the parameters

    def _grid_line(self, path, line, cells):
        grid = self.fabric.grid
        names = [None if cell.upper() == "NULL" else cell for cell in cells]
        bad = next((name for name in names if name is not None and not is_name(name)), None)
        long_name = next((name for name in names if name and len(name) > NAME_BYTES), None)
        if bad is not None:
            self.faults.malformed(path, line, "name", f"`{bad}` is no name of a tile; an empty place is NULL")
        elif grid and len(names) != len(grid[0]):
            self.faults.malformed(path, line, "grid", f"{len(names)} places, and {len(grid[0])} in the first line of the grid")
        elif len(names) > MAX_COLUMNS:
            self.faults.limit(path, line, "columns", len(names), MAX_COLUMNS)
        elif len(grid) >= MAX_ROWS:
            self.faults.limit(path, line, "rows", len(grid) + 1, MAX_ROWS)
        elif long_name:
            self.faults.limit(path, line, "name bytes", len(long_name), NAME_BYTES)
        for name in names:
            if name is not None and name != bad:
                self.cells.setdefault(name, (path, line))
        grid.append(names)

    def _parameter(self, path, line, cells):
        key, value = cells[0], cells[1] if len(cells) == 2 else None
        wanted = {"FrameBitsPerRow": str(FRAME_BITS), "MaxFramesPerCol": str(FRAMES)}
        if value is None:
            self.faults.malformed(path, line, "row", f"a parameter has a key and a value, and this row has {len(cells)} cells")
        elif key == "ConfigBitMode" and value not in MODES:
            self.faults.malformed(path, line, "row", f"ConfigBitMode is {' or '.join(MODES)}, and not `{value}`")
        elif key == "ConfigBitMode":
            self.fabric.is_chain = MODES[value]
        elif value != wanted.get(key, value):
            self.faults.add(path, line, "unsupported", key, f"{key} is {wanted[key]}")

    # ---- the rows of a tile

    def _tile_row(self, path, line, cells):
        if cells[0] in STEPS:
            self._wires(path, line, cells)
        elif cells[0] == "BEL":
            self._bel(path, line, cells)
        elif cells[0] == "MATRIX":
            self._matrix_row(path, line, cells)
        else:
            self.faults.malformed(path, line, "row", f"`{cells[0]}` begins no row of a tile")

    def _wires(self, path, line, cells):
        """A row of wires."""
        fault, row = wire_row(cells, path, line)
        names = [name for name in (cells[1:2] + cells[4:5]) if name.upper() != "NULL" and is_name(name)]
        wires = [wire.name for wire in row.wires()] if row and row.bits <= MAX_NAMES else []
        tile = self.block.tile
        twice = next((name for at, name in enumerate(wires) if name in tile.wires or name in wires[:at]), None)
        if twice and (not fault or fault[0] in ("direction", "null")):
            fault = "name twice", f"{twice} stands before in the tile"
        long_name = next((name for name in names if len(name) > NAME_BYTES), None)
        if fault:
            self.faults.malformed(path, line, *fault)
            self.block.faulty += [f"{name}[0-9]+$" for name in names]
        elif long_name:
            self.faults.limit(path, line, "name bytes", len(long_name), NAME_BYTES)
        elif row.bits > MAX_NAMES:
            self.block.uncounted += row.bits * len(names)
        else:
            tile.add(row)

    def _bel(self, path, line, cells):
        stem, prefix = os.path.basename(cells[1]) if len(cells) > 1 else "", cells[2] if len(cells) > 2 else ""
        stem = stem.rsplit(".", 1)[0] if "." in stem else stem
        tile, kind = self.block.tile, KINDS.get(stem)
        new = Bel(kind, prefix, chr(ord("A") + len(tile.bels)), path, line) if kind else None
        twice = next((wire.name for wire in new.wires() if wire.name in tile.wires), None) if new else None
        fault = None
        if len(cells) not in (2, 3):
            fault = "row", "a BEL has a file and a prefix, and no further cells"
        elif not is_path(cells[1]) or (prefix and (not is_name(prefix) or prefix.startswith("fab_") or prefix == "ConfigBits")):
            fault = "name", f"`{prefix}` cannot stand in front of the names of pins"
        elif twice:
            fault = "name twice", f"{twice} stands before in the tile; each BEL needs a prefix of its own"
        elif not prefix and kind != "MUX8LUT":
            more = "" if kind else f"; and fab has no BEL {stem}"
            fault = "prefix", f"a BEL has a prefix, which no other BEL of the tile has{more}"
        if fault:
            self.faults.malformed(path, line, *fault)
        elif not kind:
            self.faults.add(path, line, "unsupported", stem, f"fab has the BELs {', '.join(sorted(KINDS))}")
        elif len(tile.bels) == MAX_BELS:
            self.faults.limit(path, line, "BELs", MAX_BELS + 1, MAX_BELS)
        elif len(prefix) > NAME_BYTES:
            self.faults.limit(path, line, "name bytes", len(prefix), NAME_BYTES)
        else:
            tile.add(new)
            return
        if prefix and is_name(prefix):
            self.block.faulty.append(prefix)

    def _matrix_row(self, path, line, cells):
        if len(cells) != 2 or self.block.matrix:
            self.faults.malformed(path, line, "row", "a tile has one row MATRIX, with a path")
        elif not is_path(cells[1]) or not resolved(cells[1], path):
            self.faults.malformed(path, line, "name", "MATRIX needs a path")
        elif not cells[1].endswith((".list", ".csv")):
            self.faults.add(path, line, "unsupported", "matrix file", "a matrix is a switch list (.list) or a table (.csv)")
        else:
            named = resolved(cells[1], path)
            self.block.matrix, self.block.tile.matrix = (line, named, path), named
            self.files.setdefault(named, ("matrix table" if named.endswith(".csv") else "switch list", (path, line)))


def wire_row(cells, path, line):
    """A fault of a row of wires or None, and the row where its cells can be read as one."""
    if len(cells) < 6:
        return ("row", f"a row of wires has six cells, and this has {len(cells)}"), None
    direction, dx, dy, count = cells[0], number_of(cells[2], signed=True), number_of(cells[3], signed=True), number_of(cells[5])
    source, destination = (None if cells[at] == "NULL" else cells[at] for at in (1, 4))
    if dx is None or dy is None or not count or abs(dx) + abs(dy) > MAX_SPAN:
        return ("number", f"DX and DY are numbers of together at most {MAX_SPAN} steps, and COUNT is at least 1"), None
    bad = next((name for name in (source, destination) if name is not None and not is_wire_name(name)), None)
    if bad is not None:
        return ("name", f"`{bad}` is no name of a wire"), None
    row = Row(direction, source, destination, abs(dx) + abs(dy), count, path, line)
    sign = lambda value: (value > 0) - (value < 0)
    if (sign(dx), sign(dy)) != STEPS[direction]:
        return ("direction", f"{direction} and the steps {cells[2]},{cells[3]} do not go together"), row
    is_constant = source is None and destination in ("GND", "VCC")
    if (source is None and destination is None) or (direction == "JUMP" and not is_constant and None in (source, destination)):
        return ("null", "a row has a name at one end at least; a jump at both, or it is GND or VCC"), row
    return None, row


def read_fabric(path):
    """A fabric, and all faults of its files."""
    reader = FabricReader(path)
    reader.read()
    return reader.fabric, reader.faults


def sound_fabric(path, tool):
    """A fabric without faults; where it has some, the first is told and the tool ends."""
    fabric, faults = read_fabric(path)
    if len(faults):
        first = next(iter(faults))
        sys.exit(f"{tool}: {told(first)}\n{tool}: tools/check_fabric {path} tells all faults")
    return fabric
