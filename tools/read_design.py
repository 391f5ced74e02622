"""Reads the texts that go with a design: netlists (BLIF), implementations, states, stimuli, traces and timing texts.

The formats are in docs/FORMATS.md, "Netlist files (BLIF)" and "Implementations, states and constraints". The readers take
what `fab` and tools/map_verilog write, and what `fab` takes. They do not judge: where a text cannot be read they end the tool.
"""
import collections
import re
import sys

from split_covers import split_covers
from table_rows import lines_of

# A cover reads nets and drives one; `rows` are the words of its rows.
Cover = collections.namedtuple("Cover", "inputs output rows")
# A latch reads a net and drives one. `initial` is its digit, 0 to 3, where 2 and 3 leave the value open.
Latch = collections.namedtuple("Latch", "input output initial")
# A cell of a packed netlist: its cover or None, its latch or None, the net that it drives, and the nets that it reads.
Cell = collections.namedtuple("Cell", "cover latch net inputs")


class Model:
    """A model of a BLIF file: its ports, and its parts as (line, part, control). A part is a cover, a latch, or the words of an
    instance; the control is the clock of a latch, `.conn` of a cover that stands on such a line, or None."""

    def __init__(self, name):
        self.name, self.inputs, self.outputs, self.clock, self.parts = name, [], [], None, []


class Netlist:
    """The design of a BLIF file, which is its first model with all instances replaced by copies of their models.
    `inputs` are the data ports, without the clock."""

    def __init__(self, path):
        models = read_models(path)
        if not models:
            sys.exit(f"{path}: no model")
        top, self.path = next(iter(models.values())), path
        self.name, self.outputs, self.clock, self.covers, self.latches = top.name, top.outputs, top.clock, [], []
        self._copy(models, top, {}, "", 0)
        self.inputs = [port for port in top.inputs if port != self.clock]
        # whether the file has covers and latches alone, without instances of models and without `.conn`
        self.is_flat = all(isinstance(part, Latch) or (isinstance(part, Cover) and control is None)
                           for _, part, control in top.parts)

    def _copy(self, models, model, actual, prefix, depth):
        """Takes the covers and latches of a copy of a model. actual: the nets of its ports; other nets get the prefix."""
        def net(name):
            return None if name is None else actual.get(name, prefix + name)
        for line, part, control in model.parts:
            if isinstance(part, Cover):
                self.covers.append(Cover([net(name) for name in part.inputs], net(part.output), part.rows))
            elif isinstance(part, Latch):
                self.latches.append(Latch(net(part.input), net(part.output), part.initial))
                self.clock = self.clock or net(control)
            elif part[0] not in models or depth > len(models):
                sys.exit(f"{self.path}:{line}: no model {part[0]}, or one that holds itself")
            else:
                joined = [word.partition("=") for word in part[1:]]
                inner = {formal: net(name) for formal, _, name in joined}
                self._copy(models, models[part[0]], inner, f"{prefix}{line}/", depth + 1)

    def cells(self):
        """The cells of the packed netlist by their numbers ("Netlists" in docs/FORMATS.md), with wide covers split. A cover that
        something reads or a port shows is a cell, together with a latch that alone reads it; each other latch is a cell of its
        own."""
        covers = split_covers(self.covers)
        readers = collections.Counter(net for cover in covers for net in cover.inputs)
        readers.update(latch.input for latch in self.latches)
        shown, by_input = set(self.outputs), {latch.input: latch for latch in reversed(self.latches)}
        cells, packed = [], set()
        for cover in covers:
            if readers[cover.output] or cover.output in shown:
                is_alone = readers[cover.output] == 1 and cover.output not in shown
                latch = by_input.get(cover.output) if is_alone else None
                packed.add(latch)
                cells.append(Cell(cover, latch, latch.output if latch else cover.output, cover.inputs))
        rest = (latch for latch in self.latches if latch not in packed)
        return cells + [Cell(None, latch, latch.output, [latch.input]) for latch in rest]

    def latches_of_cells(self):
        """The latch of each cell that has one, by the cell's number."""
        return {number: cell.latch for number, cell in enumerate(self.cells()) if cell.latch}


def read_models(path):
    """The models of a BLIF file by their names."""
    models, model, cover = {}, None, None
    for line, words in blif_lines(path):
        word = words[0]
        if word in (".attr", ".cname", ".param"):
            continue
        if word == ".model":
            name = words[1] if len(words) > 1 else ""
            model = models[name] = Model(name)
        elif model is None:
            sys.exit(f"{path}:{line}: a line before the first model")
        elif not word.startswith("."):
            if cover is None:
                sys.exit(f"{path}:{line}: a row without a cover")
            cover.rows.append(words)
            continue
        try:
            cover = blif_line(path, line, words, model)
        except IndexError:
            sys.exit(f"{path}:{line}: words are missing")
    return models


def blif_line(path, line, words, model):
    """Takes a line that begins with a dot. Answers the cover whose rows may follow."""
    word = words[0]
    if word == ".names" or word == ".conn":
        cover = Cover(words[1:-1], words[-1], [["1", "1"]] if word == ".conn" else [])
        model.parts.append((line, cover, word if word == ".conn" else None))
        return cover if word == ".names" else None
    if word == ".latch":
        initial = words[-1] if len(words) in (4, 6) else "3"
        control = words[4] if len(words) > 4 and words[4] != "NIL" else None
        model.parts.append((line, Latch(words[1], words[2], initial), control))
    elif word == ".subckt":
        model.parts.append((line, words[1:], None))
    elif word in (".inputs", ".outputs"):
        (model.inputs if word == ".inputs" else model.outputs).extend(words[1:])
    elif word == ".clock":
        model.clock = words[1]
    elif word not in (".model", ".end"):
        sys.exit(f"{path}:{line}: fab does not read {word}")
    return None


def blif_lines(path):
    """The lines of a BLIF file that have words, as (line, words). A line that ends with `\\` goes on in the next."""
    held, first = "", None
    for number, line in enumerate(lines_of(path) + [""], 1):
        text = held + line.split("#", 1)[0]
        first = number if first is None else first
        if text.endswith("\\"):
            held = text[:-1]
            continue
        if text.split():
            yield first, text.split()
        held, first = "", None


def words_of_lines(path):
    """The lines of a text that have words, as (line, words), without comments."""
    parted = ((number, line.split("#", 1)[0].split()) for number, line in enumerate(lines_of(path), 1))
    return [(number, words) for number, words in parted if words]


class Implementation:
    """An implementation, or a report of `fab` with status 8 or 9, in which one follows the first line.

    `cells` and `ports` have the words of their sites, by `c5` and by (direction, port); `nets` the edges of each net, by
    `zero`, `one`, `in PORT` or `cell c5`. `reset` is the port that resets all flip-flops, or None. `report` is the first line of a
    report, or empty."""

    def __init__(self, path):
        self.path, self.cells, self.ports, self.nets, self.reset, self.report = path, {}, {}, {}, None, ""
        lines = words_of_lines(path)
        begins = [at for at, (_, words) in enumerate(lines) if words[0] == "fabulous-impl"]
        if not begins or begins[0] > 1:
            sys.exit(f"{path}: no implementation (its first line is `fabulous-impl 1` or `fabulous-impl 2`)")
        if begins[0]:
            self.report = " ".join(lines[0][1])
        edges = None
        for line, words in lines[begins[0] + 1:]:
            if words[0] == "cell" and len(words) == 3:
                self.cells[words[1]] = words[2]
            elif words[0] == "pad" and len(words) == 4:
                self.ports[words[1], words[2]] = words[3]
            elif words[0] == "reset" and len(words) == 2:
                self.reset = words[1]
            elif words[0] == "net" and len(words) in (2, 3):
                edges = self.nets.setdefault(" ".join(words[1:]), [])
            elif words[0] == "edge" and len(words) == 3 and edges is not None:
                edges.append((words[1], words[2]))
            elif words != ["end"]:
                sys.exit(f"{path}:{line}: no line of an implementation: {' '.join(words)}")

    def shared_wires(self):
        """The wires that stand in more than one net, each with its nets."""
        nets_of = collections.defaultdict(list)
        for net, edges in self.nets.items():
            for wire in dict.fromkeys(wire for edge in edges for wire in edge):
                nets_of[wire].append(net)
        return {wire: nets for wire, nets in nets_of.items() if len(nets) > 1}


class State:
    """A state: the sites of the input ports, of the output ports, and the digits of flip-flops by their sites."""

    def __init__(self, path):
        self.path, self.inputs, self.outputs, self.flip_flops = path, {}, {}, {}
        lines = words_of_lines(path)
        if not lines or lines[0][1] != ["fabulous-state", "1"]:
            sys.exit(f"{path}: no state (its first line is `fabulous-state 1`)")
        kinds = {"in": self.inputs, "out": self.outputs, "ff": self.flip_flops}
        for line, words in lines[1:]:
            if words[0] in kinds and len(words) == 3:
                kinds[words[0]][words[1]] = words[2]
            elif words != ["end"]:
                sys.exit(f"{path}:{line}: no line of a state: {' '.join(words)}")


class Digits:
    """A stimulus or a trace: the names of ports, and for each cycle a word with a digit for each of them."""

    def __init__(self, path, digits):
        lines = words_of_lines(path)
        if not lines:
            sys.exit(f"{path}: no line with the names of ports")
        self.path, self.names, self.cycles = path, lines[0][1], []
        if self.names == ["-"]:
            self.names = []
        for line, words in lines[1:]:
            word = "" if words == ["-"] and not self.names else words[0]
            if len(words) != 1 or len(word) != len(self.names) or set(word) - set(digits):
                sys.exit(f"{path}:{line}: a cycle is one word of {len(self.names)} digits, each one of {' '.join(digits)}")
            self.cycles.append(word)


def read_stimulus(path):
    """A stimulus, of digits 0 and 1."""
    return Digits(path, "01")


def read_trace(path):
    """A trace, of digits 0 and 1, and `?` where it is open which of them it is."""
    return Digits(path, "01?")


class Timing:
    """A timing text: `fabulous-timing 1`, `delay D`, and lines `at D WIRE`, the stops of the longest path in their order."""

    def __init__(self, path):
        lines = words_of_lines(path)
        if not lines or lines[0][1] != ["fabulous-timing", "1"]:
            sys.exit(f"{path}: no timing text (its first line is `fabulous-timing 1`)")
        self.path, self.delay, self.stops = path, None, []
        for line, words in lines[1:]:
            if words[0] == "delay" and len(words) == 2 and words[1].isdigit():
                self.delay = int(words[1])
            elif words[0] == "at" and len(words) == 3 and words[1].isdigit():
                self.stops.append((int(words[1]), words[2]))
            elif words != ["end"]:
                sys.exit(f"{path}:{line}: no line of a timing text: {' '.join(words)}")


# A bus: its name, and its bits as (index, place among the ports), the most significant first. A port that is no bit of a
# vector is a bus of one bit without an index, None.
Bus = collections.namedtuple("Bus", "name bits")


def buses_of(names):
    """Joins ports `data[0]`, `data[1]` and so on to buses, in the order of their first bits."""
    buses = {}
    for place, name in enumerate(names):
        found = re.fullmatch(r"(.+)\[(\d+)\]", name)
        key, index = (found[1], int(found[2])) if found else (name, None)
        # a scalar that is called as a vector stays beside it
        buses.setdefault((key, bool(found)), []).append((index, place))
    return [Bus(key, sorted(bits, key=lambda bit: -(bit[0] or 0))) for (key, _), bits in buses.items()]
