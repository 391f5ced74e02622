"""Wires of a fabric for tools/explain: what a wire is, by which joins and switches it is reached, and what an implementation
takes of them. docs/FORMATS.md has the rules, under "Wires of a fabric"."""
import collections
import re

from explain_files import pairs_of
from explain_text import lines_of

MOST_WIRES = 150000


class Implementation:
    """The lines of an implementation text, from this line of its file on."""

    def __init__(self, path, first=1):
        self.cells, self.pads, self.nets = {}, [], {}
        self.lines = []             # number, words, and the net to which an edge belongs
        net = None
        for line, text in lines_of(path):
            words = text.split("#", 1)[0].split() if line >= first else []
            if not words:
                continue
            if words[0] == "net":
                net = " ".join(words[1:])
                self.nets.setdefault(net, [])
            elif words[0] == "cell" and len(words) == 3:
                self.cells.setdefault(words[1], words[2])
            elif words[0] == "pad" and len(words) == 4:
                self.pads.append(tuple(words[1:]))
            elif words[0] == "edge" and len(words) == 3 and net is not None:
                self.nets[net].append((words[1], words[2]))
            self.lines.append((line, words, net if words[0] == "edge" else None))

    def wires(self):
        """For each wire the nets in which it stands."""
        found = collections.defaultdict(list)
        for net, edges in self.nets.items():
            for wire in dict.fromkeys(wire for edge in edges for wire in edge):
                found[wire].append(net)
        return found

    def on_site(self, site):
        """What stands on a site: `c5`, or a port with its direction."""
        for cell, other in self.cells.items():
            if other == site:
                return cell
        return next((f"{side} {port}" for side, port, other in self.pads if other == site), None)


def parted(wire):
    """Column, row and name of a wire, or None."""
    found = re.fullmatch(r"X(\d{1,2})Y(\d{1,2})/(\w+)", wire, re.A)
    return found and (int(found.group(1)), int(found.group(2)), found.group(3))


def written(node):
    return f"X{node[0]}Y{node[1]}/{node[2]}"


def pin_of(tile, name):
    """Site letter, kind and pin of a matrix name that is a pin of the tile; None of any other."""
    wire = tile.wires.get(name)
    return (wire.bel.letter, wire.bel.kind, wire.pin) if wire and wire.bel else None


def described(fabric, wire):
    """What a wire of the fabric is, in some words."""
    node = parted(wire)
    tile = fabric.at(node[0], node[1]) if fabric and node else None
    if tile is None or node[2] not in tile.wires:
        return None
    pin = pin_of(tile, node[2])
    side = "an output" if tile.wires[node[2]].is_output else "an input"
    if pin:
        return f"{wire}: pin {pin[2]} of the {pin[1]} {pin[0]} in tile {tile.name}, {side} of its switch matrix"
    return f"{wire}: a wire of tile {tile.name}, {side} of its switch matrix"


class Network:
    """Joins and switches of a fabric. A wire is its column, its row and its name."""

    def __init__(self, fabric):
        self.fabric, self.pairs, self.fans = fabric, {}, {}

    def has(self, node):
        """Whether the fabric has a wire."""
        tile = self.fabric.at(node[0], node[1])
        return tile is not None and node[2] in tile.wires

    def inputs_of(self, tile, output):
        """The inputs that an output of the switch matrix may take."""
        if tile.name not in self.pairs:
            self.pairs[tile.name] = pairs_of(tile)
        return self.pairs[tile.name].get(output, [])

    def outputs_of(self, tile, name):
        """The outputs of the switch matrix that may take this input of it."""
        if tile.name not in self.fans:
            fan = collections.defaultdict(list)
            self.inputs_of(tile, "")
            for output, names in self.pairs[tile.name].items():
                for other in names:
                    fan[other].append(output)
            self.fans[tile.name] = fan
        return self.fans[tile.name].get(name, [])

    def joined(self, x, y, name):
        """The destination bit to which a source bit is joined, or None."""
        wire = self.fabric.at(x, y).wires[name]
        return self.fabric.end_of(x, y, wire.row, wire.bit) if wire.row and wire.is_output else None

    def next(self, node):
        """The wires to which a wire leads."""
        x, y, name = node
        tile = self.fabric.at(x, y)
        if tile.wires[name].is_output:
            other = self.joined(x, y, name)
            return [other] if other else []
        return [(x, y, output) for output in self.outputs_of(tile, name) if output in tile.wires]

    def reached(self, nodes):
        """All wires that can be reached from some of these, by joins and switches."""
        found = {node for node in nodes if self.has(node)}
        todo = collections.deque(found)
        while todo and len(found) < MOST_WIRES:
            for other in self.next(todo.popleft()):
                if other not in found:
                    found.add(other)
                    todo.append(other)
        return found

    def constants(self, name):
        """The wires that are constant: those of `GND` or `VCC`."""
        return [(x, y, wire.name) for x, y, tile in self.fabric.places() for wire in tile.wires.values()
                if wire.row and wire.row.direction == "JUMP" and wire.row.source is None and wire.row.destination == name]
