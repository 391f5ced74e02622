"""What may be wrong with a fabric whose tables fab reads, and its figures: for tools/check_fabric.

A warning is what spoils a chip or leaves a part of it without use. A note is what one may well intend. Both say of a tile type
once what holds of it at each place.
"""
import collections

from fabric import PINS
from table_rows import counted

# One finding: "warning" or "note", the file and the line, and a sentence.
Finding = collections.namedtuple("Finding", "level path line words")
# What can drive a matrix output within its tile: constants of both values, outputs of BELs, and wires that come from other tiles.
Drivers = collections.namedtuple("Drivers", "zeros ones bels wires")
# Pins that a netlist of fab does not need: the carry, the registered input of a pad, and multiplexer trees.
SPARE_PINS = {"Ci", "Co", "Q"} | set(PINS["MUX8LUT"][0]) | set(PINS["MUX8LUT"][1])


def listed(names, most=6):
    """Some names, and how many there are more."""
    names = list(names)
    more = f" and {len(names) - most} more" if len(names) > most else ""
    return ", ".join(names[:most]) + more


def is_constant(wire):
    """Whether a wire is a constant: the destination of a jump without a source."""
    return wire.row is not None and wire.row.direction == "JUMP" and wire.row.source is None


class TileCheck:
    """The checks of a tile type by itself."""

    def __init__(self, tile):
        self.tile, self.findings = tile, []
        self.inputs = tile.inputs_of()
        self.read = {given for _, given in tile.pairs}

    def run(self):
        """All findings of the tile type."""
        spare = []
        for bel in self.tile.bels:
            if bel.kind == "LUT4c":
                self._table(bel)
            elif bel.kind == "IO":
                self._pad(bel)
            spare += self._pins(bel)
        without = [bel.prefix + "SR" for bel in self.tile.bels if bel.kind == "LUT4c" and self._is_never_reset(bel)]
        if without:
            self._tell("note", self.tile, f"no wire reaches {listed(without)}: no design with a reset port can use these flip-flops")
        if spare:
            pins = counted(len(spare), "pin")
            self._tell("note", self.tile, f"no pair has {pins} that netlists of fab do not need: {listed(spare)}")
        for row in self.tile.rows:
            self._row(row)
        return self.findings

    def _tell(self, level, part, words):
        self.findings.append(Finding(level, part.path, part.line, f"tile {self.tile.name}: {words}"))

    def drivers(self, name):
        """What can drive a matrix output, through pairs and jumps of the tile."""
        found, seen, waiting = Drivers([], [], [], []), {name}, [name]
        while waiting:
            for given in self.inputs.get(waiting.pop(), ()):
                wire = self.tile.wires[given]
                if wire.bel:
                    found.bels.append(given)
                elif is_constant(wire):
                    (found.ones if wire.row.destination == "VCC" else found.zeros).append(given)
                elif wire.row.direction != "JUMP":
                    found.wires.append(given)
                else:
                    source = f"{wire.row.source}{wire.bit}"
                    if source not in seen:
                        seen.add(source)
                        waiting.append(source)
        return found

    def _table(self, bel):
        """A cell with a flip-flop needs 1 at EN and 0 at SR."""
        for pin, value, constant in (("EN", "ones", "VCC"), ("SR", "zeros", "GND")):
            name, drivers = bel.prefix + pin, self.drivers(bel.prefix + pin)
            if getattr(drivers, value):
                continue
            if drivers.wires and pin == "SR":
                self._tell("note", bel, f"no GND reaches {name} within the tile; its 0 has to come by a wire")
            elif drivers.wires:
                self._tell("warning", bel, f"no VCC reaches {name} within the tile; its 1 has to come by a wire from another tile")
            else:
                self._tell("warning", bel, f"no {constant} and no wire reaches {name}: no cell with a flip-flop can stand here")

    def _is_never_reset(self, bel):
        """Whether SR can be 0 alone. Where nothing reaches it, a warning says so."""
        drivers = self.drivers(bel.prefix + "SR")
        return bool(drivers.zeros) and not drivers.wires

    def _pad(self, bel):
        """An unused pad takes the first input of T, and 1 there drives. An output needs 1, and an input 0."""
        name = bel.prefix + "T"
        inputs, drivers = self.inputs.get(name, []), self.drivers(name)
        if inputs and not (is_constant(self.tile.wires[inputs[0]]) and self.tile.wires[inputs[0]].row.destination != "VCC"):
            self._tell("warning", bel, f"{name} takes {inputs[0]} first: a pad that no port uses may drive. List GND0 first")
        if not drivers.ones and not drivers.wires:
            self._tell("warning", bel, f"no VCC and no wire reaches {name}: no output port can stand here")
        if not drivers.zeros and not drivers.wires:
            self._tell("warning", bel, f"no GND and no wire reaches {name}: no input port can stand here")

    def _pins(self, bel):
        """Pins without pairs: an input pin is 0, and an output pin leads nowhere. Answers those that netlists do not need."""
        idle = [wire for wire in bel.wires() if wire.name not in (self.inputs if wire.is_output else self.read)]
        needed = [wire.name for wire in idle if wire.pin not in SPARE_PINS and wire.pin not in ("EN", "SR", "T")]
        if needed:
            self._tell("warning", bel, f"no pair has the pin {listed(needed)}")
        return [wire.name for wire in idle if wire.pin in SPARE_PINS]

    def _row(self, row):
        """Wires that begin without a pair into them, or end without a pair that reads them."""
        idle = [wire for wire in row.wires() if wire.name not in (self.inputs if wire.is_output else self.read)]
        begins, ends = ([wire.name for wire in idle if wire.is_output == side] for side in (True, False))
        if begins:
            wires = counted(row.bits, "wire")
            self._tell("warning", row, f"no pair leads into {len(begins)} of {wires} of {row.source}: {listed(begins)}")
        if not ends or is_constant(idle[-1]):
            return
        if len(ends) == row.bits and row.source is None:
            self._tell("note", row, f"{row.destination} ends here: no pair reads its {counted(row.bits, 'wire')}")
        else:
            wires = counted(row.bits, "wire")
            self._tell("warning", row, f"no pair reads {len(ends)} of {wires} of {row.destination}: {listed(ends)}")


class BorderCheck:
    """Rows of wires that cross to the next tile: each needs a row there that takes as many wires."""

    def __init__(self, fabric):
        self.fabric, self.findings = fabric, {}

    def run(self):
        """All findings, each once for two tile types that meet."""
        ends = collections.Counter()
        for x, y, tile in self.fabric.places():
            for row in tile.rows:
                if row.source is not None and row.direction != "JUMP":
                    self._leaves(x, y, tile, row, ends)
            self._arrives(x, y, tile)
        for (tile, row), count in ends.items():
            self._tell("note", tile, row, f"{row.source} leads to an empty place or off the grid at {counted(count, 'place')}")
        return list(self.findings)

    def _tell(self, level, tile, row, words):
        finding = Finding(level, row.path, row.line, f"tile {tile.name}: {words}")
        self.findings.setdefault(finding, finding)

    def _leaves(self, x, y, tile, row, ends):
        next_x, next_y, partner = self.fabric.next_row(x, y, row)
        other = self.fabric.at(next_x, next_y)
        if not other:
            ends[tile, row] += 1
        elif not partner:
            self._tell("warning", tile, row, f"{row.source} has no partner in {other.name}, which stands next to it: "
                       f"{row.direction} rows with a destination there are too few")
        elif partner.border_bits != row.border_bits:
            self._tell("warning", tile, row, f"{row.source} has {counted(row.border_bits, 'wire')} at the border, and its partner "
                       f"{partner.destination} in {other.name} has {partner.border_bits}: none of them is joined")
        else:
            self._order(tile, row, other, partner)

    def _order(self, tile, row, other, partner):
        """Rows are joined by their order alone. So a row that meets another name, while its own is there, is a mistake."""
        wanted = row.destination
        names = [found.destination for found in other.rows_of(row.direction, "destination")]
        if wanted is not None and partner.destination != wanted and wanted in names:
            self._tell("warning", tile, row, f"{row.source} is joined to {partner.destination} in {other.name}, though {wanted} is "
                       "there: rows are joined by their order, the first to the first")

    def _arrives(self, x, y, tile):
        """Rows with a destination to which no row of the tile before them crosses."""
        for direction, (dx, dy) in (("NORTH", (0, 1)), ("EAST", (-1, 0)), ("SOUTH", (0, -1)), ("WEST", (1, 0))):
            before = self.fabric.at(x + dx, y + dy)
            rows = tile.rows_of(direction, "destination")
            for row in rows[len(before.rows_of(direction, "source")):] if before else ():
                self._tell("warning", tile, row, f"nothing comes to {row.destination} from {before.name}, which stands next to it: "
                           f"{direction} rows with a source there are too few")


def findings_of(fabric):
    """All warnings and notes, the warnings first."""
    found = []
    standing = {tile.name for _, _, tile in fabric.places()}
    for tile in fabric.tiles.values():
        if tile.name in standing:
            found += TileCheck(tile).run()
        else:
            found.append(Finding("note", tile.path, tile.line, f"tile {tile.name}: it stands nowhere in the grid"))
    found += BorderCheck(fabric).run()
    for kind, words in (("LUT4c", "look-up table"), ("IO", "pad")):
        if not fabric.sites(kind):
            found.append(Finding("warning", fabric.path, 1, f"the fabric has no {words}"))
    return sorted(found, key=lambda finding: finding.level != "warning")


def choices_of(tile, kind, pins):
    """How many inputs the pins of a kind of BEL can choose from: the least, and the mean. None without such a BEL."""
    inputs = tile.inputs_of()
    counts = [len(inputs.get(bel.prefix + pin, ())) for bel in tile.bels if bel.kind == kind for pin in pins]
    return (min(counts), sum(counts) / len(counts)) if counts else None


def wires_to_nowhere(fabric):
    """How many wires end nowhere, by their classes."""
    counts = collections.Counter()
    for x, y, tile in fabric.places():
        for row in tile.rows:
            if row.source is not None:
                counts[row.wire_class] += sum(fabric.end_of(x, y, row, bit) is None for bit in range(row.bits))
    return counts
