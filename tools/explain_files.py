"""What tools/explain asks of fabric tables: the grid, the names and pairs of each tile, and which file is what.

tools/read_tables.py reads the tables. The file with the fault is one of them, so all is taken that can be read; a switch matrix is read
once it is asked for."""
import itertools
import os
import re

import fabric
import table_rows
from explain_text import plural
from read_matrix import Cell, MatrixTable, SwitchList
from read_tables import FabricReader
from table_rows import Faults

MOST_PAIRS = 200000
MOST_CELL, MOST_NAMES = 4096, 4097


def cells_of(text):
    """The cells of a row of a table, without its comment and without empty cells at the end. The text has a sign for each byte."""
    return table_rows.cells_of(text.replace("\xef\xbb\xbf", "\ufeff"))


def is_same(path, other):
    """Whether two paths lead to one file."""
    return os.path.abspath(path) == os.path.abspath(other)


def place_of(wire):
    """The file and the line of the row that gives a tile a wire."""
    part = wire.row or wire.bel
    return part.path, part.line


def matrix_file(path):
    """The file of a switch matrix, read without regard to its faults."""
    return MatrixTable(path, Faults(), None) if path.endswith(".csv") else SwitchList(path, Faults(), None, 0)


def pairs_of(tile):
    """The inputs of each output of a tile's switch matrix."""
    if tile.matrix and not tile.pairs:
        tile.pairs = list(dict.fromkeys(matrix_file(tile.matrix).pairs[:MOST_PAIRS]))
    return tile.inputs_of()


def expanded(text):
    """The names that a cell of a switch list stands for, where it is not too long."""
    cell = Cell(text) if len(text) <= MOST_CELL else None
    return list(itertools.islice(cell.names(), MOST_NAMES)) if cell and not cell.fault else []


def includes(path, other):
    """Whether a switch list includes another one."""
    return any(is_same(file, other) for file, _ in SwitchList(path, Faults(), None, 0).places)


class Fabric(fabric.Fabric):
    """A fabric as far as its tables can be read. Its tiles are also those whose block has a fault or does not end."""

    def __init__(self, path):
        super().__init__(path)
        reader = FabricReader(path, reads_matrices=False)
        reader.read()
        self.grid, self.tiles, self.files = reader.fabric.grid, reader.begun, reader.files
        self.is_chain = reader.fabric.is_chain

    def tile_at(self, place):
        """The tile at a place `XxYy`, or None; and why there is none."""
        found = re.fullmatch(r"X(\d{1,3})Y(\d{1,3})", place)
        if not found:
            return None, f"{place} is no place: XxYy"
        x, y = int(found.group(1)), int(found.group(2))
        if y >= self.rows or x >= len(self.grid[y]):
            size = f"{plural(self.columns, 'column')} (X0 to X{self.columns - 1}) and {plural(self.rows, 'row')} (Y0 to Y{self.rows - 1})"
            return None, f"{place} is outside of the grid of {size}"
        tile = self.at(x, y)
        return tile, "" if tile else f"at {place} stands {self.grid[y][x] or 'NULL'}, which is no tile"

    def chain_bits(self):
        """How many configuration bits a chain of this fabric has. This reads all switch matrices."""
        for tile in self.tiles.values():
            pairs_of(tile)
        return self.configuration_bits()

    def named_by(self, path):
        """The file and the line of the row that names a file, or None."""
        return next((named_at for other, (_, named_at) in self.files.items() if is_same(other, path)), None)

    def role(self, path):
        """What a file is; that of a switch list which another one includes, and of a configuration table, by its name."""
        found = next((role for other, (role, _) in self.files.items() if is_same(other, path)), None)
        if found or path.endswith("_ConfigMem.csv"):
            return found or "configuration table"
        return "switch list" if path.endswith(".list") else "fabric"

    def lists(self):
        """The switch lists that tiles name."""
        return [path for path, (role, _) in self.files.items() if role == "switch list"]

    def tiles_with(self, path):
        """The tiles that use a matrix file, itself or through a list that includes it."""
        named = [tile for tile in self.tiles.values() if tile.matrix]
        return [tile for tile in named if is_same(tile.matrix, path)] or [
            tile for tile in named if not tile.matrix.endswith(".csv") and includes(tile.matrix, path)]
