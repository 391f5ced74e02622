"""What a fabric is made of: its grid, its tile types with their wires and BELs, and the joins between tiles.

docs/FORMATS.md has the words: "Kinds of BELs", "Wires of a fabric" and "Bitstreams". tools/read_tables.py makes these
objects of the tables.
"""
import collections
import re

# The step of each direction, as (columns to the east, rows to the south).
STEPS = {"NORTH": (0, -1), "EAST": (1, 0), "SOUTH": (0, 1), "WEST": (-1, 0), "JUMP": (0, 0)}
# The pins of each kind of BEL: inputs, and outputs.
PINS = {
    "LUT4c": (("I0", "I1", "I2", "I3", "Ci", "SR", "EN"), ("O", "Co")),
    "IO": (("I", "T"), ("O", "Q")),
    "MUX8LUT": (("A", "B", "C", "D", "E", "F", "G", "H", "S0", "S1", "S2", "S3"), ("M_AB", "M_AD", "M_AH", "M_EF")),
}
# The configuration bits of each kind, without those of the switch matrix.
BEL_BITS = {"LUT4c": 19, "IO": 0, "MUX8LUT": 2}
FRAMES, FRAME_BITS = 20, 32

# A wire of a tile type, by its matrix name. A wire of a row has the row and its number in it; a pin has its BEL and the name
# of the pin. `is_output`: an output of the switch matrix, so what an edge can choose an input for.
Wire = collections.namedtuple("Wire", "name is_output row bit bel pin")
# A wire at a place of the grid.
Place = collections.namedtuple("Place", "x y wire")


class WireClass(collections.namedtuple("WireClass", "is_jump way span")):
    """A class of wires, for figures of what is there and what is in use. Jumps are one class."""

    def __str__(self):
        return "jumps" if self.is_jump else f"{self.way}, span {self.span}"


class Row:
    """A row of wires, `DIR,SOURCE,DX,DY,DEST,COUNT`. A missing end, written NULL, is None."""

    def __init__(self, direction, source, destination, span, count, path="", line=0):
        self.direction, self.source, self.destination = direction, source, destination
        self.span, self.count, self.path, self.line = span, count, path, line

    @property
    def bits(self):
        """How many wires a named end has: COUNT, or COUNT for each step of the span where the other end is missing."""
        has_both = self.source is not None and self.destination is not None
        return self.count if has_both or self.direction == "JUMP" else self.count * self.span

    @property
    def border_bits(self):
        """How many wires cross each border between two tiles."""
        return self.count * self.span

    @property
    def wire_class(self):
        """The class of the row's wires."""
        if self.direction == "JUMP":
            return WireClass(True, "within tiles", 0)
        return WireClass(False, "across" if self.direction in ("EAST", "WEST") else "up and down", self.span)

    def wires(self):
        """The wires of the row, its sources before its destinations."""
        for end, is_output in ((self.source, True), (self.destination, False)):
            if end is not None:
                yield from (Wire(f"{end}{bit}", is_output, self, bit, None, None) for bit in range(self.bits))


class Bel:
    """A basic element of logic: its kind, the prefix of its pins, and its letter in the tile, from A."""

    def __init__(self, kind, prefix, letter, path="", line=0):
        self.kind, self.prefix, self.letter, self.path, self.line = kind, prefix, letter, path, line

    def wires(self):
        """The pins as wires of the tile: an input pin is an output of the switch matrix, and an output pin an input of it."""
        for pins, is_output in zip(PINS[self.kind], (True, False)):
            yield from (Wire(self.prefix + pin, is_output, None, None, self, pin) for pin in pins)


class Tile:
    """A tile type: rows of wires, BELs, and the pairs (output, input) of its switch matrix in their order."""

    def __init__(self, name, path="", line=0):
        self.name, self.path, self.line = name, path, line
        self.rows, self.bels, self.pairs, self.matrix = [], [], [], None
        # the wires by their names, and the rows of wires by direction and by an end that they have
        self.wires, self.rows_by_end = {}, collections.defaultdict(list)

    def add(self, part):
        """Adds a row of wires or a BEL."""
        (self.rows if isinstance(part, Row) else self.bels).append(part)
        self.wires.update((wire.name, wire) for wire in part.wires())
        if isinstance(part, Row):
            for end in ("source", "destination"):
                if getattr(part, end) is not None:
                    self.rows_by_end[part.direction, end].append(part)

    def rows_of(self, direction, end):
        """The rows of a direction that have the end `source` or `destination`, in their order."""
        return self.rows_by_end.get((direction, end), [])

    def names(self, is_output):
        """The names of the outputs or of the inputs of the switch matrix."""
        return [name for name, wire in self.wires.items() if wire.is_output == is_output]

    def sites(self, kind):
        """How many sites of a kind of BEL there are."""
        return sum(bel.kind == kind for bel in self.bels)

    def inputs_of(self):
        """The inputs of each matrix output that has a pair, in the order of the pairs."""
        inputs = {}
        for output, given in self.pairs:
            inputs.setdefault(output, []).append(given)
        return inputs

    def select_bits(self):
        """The configuration bits with which the switch matrix selects: of n inputs, the least number b with 2^b at least n."""
        return sum((len(inputs) - 1).bit_length() for inputs in self.inputs_of().values())

    def configuration_bits(self):
        """The configuration bits of the tile."""
        return sum(BEL_BITS[bel.kind] for bel in self.bels) + self.select_bits()

    def outputs(self):
        """How many outputs the switch matrix has."""
        return sum(wire.is_output for wire in self.wires.values())


class Fabric:
    """A grid of tile types. `grid` has the name of a tile type, or None, for each place, row by row from the top. is_chain: whether the
    configuration is a chain of flip-flops, and not frames of latches."""

    def __init__(self, path):
        self.path, self.grid, self.tiles, self.is_chain = path, [], {}, False

    @property
    def columns(self):
        """How many columns the grid has."""
        return max(map(len, self.grid), default=0)

    @property
    def rows(self):
        """How many rows the grid has."""
        return len(self.grid)

    def at(self, x, y):
        """The tile type at a place, or None where the place is empty or outside of the grid."""
        inside = 0 <= y < self.rows and 0 <= x < len(self.grid[y])
        return self.tiles.get(self.grid[y][x]) if inside else None

    def places(self):
        """Each place with a tile, as (x, y, tile), column by column."""
        for x in range(self.columns):
            for y in range(self.rows):
                if self.at(x, y):
                    yield x, y, self.at(x, y)

    def sites(self, kind):
        """How many sites of a kind of BEL there are."""
        return sum(tile.sites(kind) for _, _, tile in self.places())

    def wires_by_class(self):
        """How many wires begin, by their classes, in the order of these."""
        counts = collections.Counter()
        for _, _, tile in self.places():
            for row in tile.rows:
                if row.source is not None:
                    counts[row.wire_class] += row.bits
        return dict(sorted(counts.items()))

    def wire(self, word):
        """The wire that a word as X1Y2/NAME names, or None."""
        found = re.fullmatch(r"X(\d+)Y(\d+)/(\w+)", word, re.ASCII)
        tile = self.at(int(found[1]), int(found[2])) if found else None
        return Place(int(found[1]), int(found[2]), tile.wires[found[3]]) if tile and found[3] in tile.wires else None

    def site(self, word):
        """The place and the BEL of a site as X1Y2.A, or None."""
        found = re.fullmatch(r"X(\d+)Y(\d+)\.([A-Z])", word, re.ASCII)
        tile = self.at(int(found[1]), int(found[2])) if found else None
        bel = next((bel for bel in tile.bels if bel.letter == found[3]), None) if tile else None
        return (int(found[1]), int(found[2]), bel) if bel else None

    def next_row(self, x, y, row):
        """The place of the next tile in the direction of a row of wires, and the row of that tile to which its wires cross: the
        first to the first, the second to the second. The row is None where no row has that place among the tile's rows."""
        step = STEPS[row.direction]
        x, y = x + step[0], y + step[1]
        tile = self.at(x, y)
        if not tile:
            return x, y, None
        number = self.at(x - step[0], y - step[1]).rows_of(row.direction, "source").index(row)
        partners = tile.rows_of(row.direction, "destination")
        return x, y, partners[number] if number < len(partners) else None

    def end_of(self, x, y, row, bit):
        """Where a source bit of a row ends, as (x, y, name), or None where it leads nowhere."""
        if row.direction == "JUMP":
            return x, y, f"{row.destination}{bit}"
        if row.destination is not None:
            bit += (row.span - 1) * row.count
        while True:
            x, y, partner = self.next_row(x, y, row)
            if not partner or partner.border_bits != row.border_bits:
                return None
            if partner.source is None or bit < partner.count:
                return x, y, f"{partner.destination}{bit}"
            bit, row = bit - partner.count, partner

    def configuration_bits(self):
        """How many configuration bits the tiles of the grid have: the positions of a chain."""
        return sum(tile.configuration_bits() for _, _, tile in self.places())

    def bitstream_words(self):
        """How many words of 32 bits a bitstream has."""
        if self.is_chain:
            return (self.configuration_bits() + FRAME_BITS - 1) // FRAME_BITS
        return 39 + FRAMES * self.columns * (self.rows + 1)
