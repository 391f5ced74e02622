"""Reads switch lists, matrix tables and configuration tables (docs/FORMATS.md: "Switch lists", "Matrix tables",
"Configuration tables"). Faults are collected, and a row with a fault gives no pairs.
"""
import collections
import difflib
import itertools
import re

from fabric import FRAME_BITS, FRAMES
from table_rows import INCLUDE_DEPTH, NAME_BYTES, Faults, counted, is_path, is_wire_name, number_of, read_table, resolved

EXPANDED_NAMES = 4096
HEADER = ["frame_name", "frame_index", "bits_used_in_frame", "used_bits_mask", "ConfigBits_ranges"]


class Cell:
    """A cell of a switch list, `{m}` and then names with choices `[a|b|c]`. `fault` is a reason and a sentence, or None."""

    def __init__(self, text):
        self.fault, self.times, self.parts = None, 1, []
        counted = re.match(r"\{(\d*)\}", text)
        if counted:
            self.times = number_of(counted[1]) or 0
            text = text[counted.end():]
        if (counted and not self.times) or re.search(r"\{[^{}]*\}", text):
            self.fault = ("number", "`{m}` stands in front of a name, with m at least 1 and without leading zeros")
        elif re.search(r"[^A-Za-z0-9_\[\]{}|]", text):
            self.fault = ("name", f"`{text}` has a sign that no name has")
        else:
            self._split(text)

    def _split(self, text):
        """Parts the text into plain pieces and choices."""
        rest = text
        while rest:
            found = re.match(r"[^\[\]{}|]+|\[[^\[\]{}]*\]", rest)
            if not found:
                self.fault = ("bracket", f"brackets and `|` of `{text}` do not go together")
                return
            piece = found[0]
            self.parts.append(piece[1:-1].split("|") if piece.startswith("[") else [piece])
            rest = rest[found.end():]

    def count(self):
        """How many names the cell stands for."""
        count = self.times
        for part in self.parts:
            count *= len(part)
        return count

    def names(self):
        """The names, with the choices of the first bracket changing last."""
        for pieces in itertools.product(*self.parts):
            yield from itertools.repeat("".join(pieces), self.times)


# A matrix name in a list or a table, on the side of outputs or of inputs, and where it stands.
Name = collections.namedtuple("Name", "text is_output path line")
# The reasons of one line in the order in which they are told.
ORDER = ["row", "number", "name", "name twice", "bracket", "counts differ", "unknown name", "digit"]


class MatrixFile:
    """What a matrix file says. `pairs` are (output, input) in their order, with those that stand again, and `names` all names."""

    def __init__(self, faults):
        self.pairs, self.names, self.places, self.outer = [], [], {}, faults
        self.faults = Faults()

    def visit(self, path, line):
        """Notes in which order lines are read."""
        self.places.setdefault((path, line), len(self.places))

    def close(self, tile, forgiven):
        """Tells all faults, those of names that the tile does not have among them, and answers the pairs of known names."""
        unknown = UnknownNames(tile, forgiven, self.faults)
        first = {(name.text, name.is_output): name for name in reversed(self.names)}
        known = {key: unknown.is_known(key, name) for key, name in first.items()}
        for name in self.names:
            if not known[name.text, name.is_output]:
                unknown.add(name)
        unknown.tell()
        told = sorted(self.faults, key=lambda fault: (self.places.get((fault.path, fault.line), -1), reason_order(fault)))
        for fault in told:
            self.outer.add(*fault)
        return [pair for pair in self.pairs if known[pair[0], True] and known[pair[1], False]]


def reason_order(fault):
    """The place of a fault among those of its line: malformed lines first, then limits."""
    return ORDER.index(fault.what) if fault.kind == "malformed" and fault.what in ORDER else len(ORDER)


class SwitchList(MatrixFile):
    """A switch list with the lists that it includes. `depth`: how many INCLUDE rows are open where the list is named."""

    def __init__(self, path, faults, named_at, depth):
        super().__init__(faults)
        self._read(path, named_at, depth)

    def _read(self, path, named_at, depth):
        self.visit(path, 0)
        table = read_table(path, self.faults, named_at)
        for line, cells in table.rows if table else ():
            self.visit(path, line)
            if len(cells) != 2:
                self.faults.malformed(path, line, "row", f"a row has an output and an input, and this has {len(cells)} cells")
            elif cells[0] == "INCLUDE":
                self._include(path, line, cells[1], depth)
            else:
                self._row(path, line, cells)

    def _include(self, path, line, named, depth):
        if not is_path(named) or not resolved(named, path):
            self.faults.malformed(path, line, "name", "INCLUDE needs a path")
        elif depth == INCLUDE_DEPTH:
            self.faults.limit(path, line, "include depth", depth + 1, INCLUDE_DEPTH)
        else:
            self._read(resolved(named, path), (path, line), depth + 1)

    def _row(self, path, line, texts):
        cells = [Cell(text) for text in texts]
        # of two cells with a fault the reason that FORMATS lists first is told
        order = ["number", "name", "bracket"]
        wrong = sorted((cell.fault for cell in cells if cell.fault), key=lambda fault: order.index(fault[0]))
        counts = [cell.count() for cell in cells]
        if wrong:
            self.faults.malformed(path, line, *wrong[0])
            return
        if max(counts) <= EXPANDED_NAMES:
            names = [list(cell.names()) for cell in cells]
            bad = next((name for side in names for name in side if not is_wire_name(name)), None)
            if bad is not None:
                self.faults.malformed(path, line, "name", f"`{bad}` is no name of a wire")
                return
        if counts[0] != counts[1]:
            self.faults.malformed(path, line, "counts differ", f"{counts[0]} outputs, but {counts[1]} inputs")
        elif max(counts) > EXPANDED_NAMES:
            self.faults.limit(path, line, "expanded names", counts[0], EXPANDED_NAMES)
        else:
            for pair in zip(*names):
                self.names += [Name(pair[0], True, path, line), Name(pair[1], False, path, line)]
                self.pairs.append(pair)


class MatrixTable(MatrixFile):
    """A matrix table: a row for each output, and a column with 0 or 1 for each input."""

    def __init__(self, path, faults, named_at):
        super().__init__(faults)
        self.path = path
        table = read_table(path, self.faults, named_at)
        if table and not table.rows:
            self.faults.malformed(path, table.last, "end of file", "the table has no row with the names of inputs")
        elif table:
            self.inputs = table.rows[0][1][1:]
            self._head(table.rows[0][0], self.inputs)
            seen = set()
            for line, cells in table.rows[1:]:
                self.visit(path, line)
                self._row(line, cells, seen)

    def _head(self, line, names):
        self.visit(self.path, line)
        self.names += [Name(name, False, self.path, line) for name in names if is_wire_name(name)]
        bad = next((name for name in names if not is_wire_name(name)), None)
        twice = next((name for at, name in enumerate(names) if name in names[:at]), None)
        if bad is not None:
            self.faults.malformed(self.path, line, "name", f"`{bad}` is no name of a wire")
        elif twice:
            self.faults.malformed(self.path, line, "name twice", f"the input {twice} stands twice")

    def _row(self, line, cells, seen):
        output, digits = cells[0], cells[1:]
        digit = next((cell for cell in digits if cell not in ("0", "1")), None)
        if len(digits) != len(self.inputs):
            self.faults.malformed(self.path, line, "row", f"{len(digits)} cells behind the output, for {len(self.inputs)} inputs")
        elif not is_wire_name(output):
            self.faults.malformed(self.path, line, "name", f"`{output}` is no name of a wire")
        elif output in seen:
            self.faults.malformed(self.path, line, "name twice", f"the output {output} has a row already")
        else:
            self.names.append(Name(output, True, self.path, line))
            given = [name for name, cell in zip(self.inputs, digits) if cell == "1" and is_wire_name(name)]
            self.pairs += [(output, name) for name in given] if digit is None else []
            if digit is not None:
                self.faults.malformed(self.path, line, "digit", f"a cell is 0 or 1, and not `{digit}`")
        seen.add(output)


class UnknownNames:
    """Names that a tile does not have. Each is told once in a file, at its first line, with what may be meant."""

    def __init__(self, tile, forgiven, faults):
        # forgiven: tells of a name whether it may be a wire of a row or a pin of a BEL that has a fault itself
        self.tile, self.forgiven, self.faults, self.first = tile, forgiven, faults, {}

    def is_known(self, key, name):
        """Whether the tile has a name on a side."""
        wire = self.tile.wires.get(key[0])
        is_there = wire is not None and wire.is_output == key[1]
        if is_there and len(key[0]) > NAME_BYTES:
            self.faults.limit(name.path, name.line, "name bytes", len(key[0]), NAME_BYTES)
        return is_there

    def add(self, name):
        """Takes a name that is not known."""
        if name.text in self.tile.wires or not self.forgiven(name.text):
            self.first.setdefault((name.path, name.text, name.is_output), [name.line, set()])[1].add(name.line)

    def tell(self):
        """Notes what was found."""
        for (path, name, is_output), (line, lines) in self.first.items():
            side, other_side = ("output", "input") if is_output else ("input", "output")
            if name in self.tile.wires:
                why = f"{name} is an {other_side} of the switch matrix, and stands here as an {side}"
            else:
                why = f"no matrix {side} {name}{self._near(name, is_output)}"
            more = f" (also in {counted(len(lines) - 1, 'further line')})" if len(lines) > 1 else ""
            self.faults.malformed(path, line, "unknown name", why + more, [self.tile.name])

    def _near(self, name, is_output):
        """A question for the name that may be meant. Where very many names are unknown, the wrong file is read."""
        names = [other for other, wire in self.tile.wires.items() if wire.is_output == is_output]
        near = difflib.get_close_matches(name, names, 1) if len(self.first) < 200 else []
        return f"; is {near[0]} meant?" if near else ""


def read_configuration(path, bits, faults):
    """The place of each configuration bit of a tile, as {bit: (frame, bit of the frame)}: those of the table where there is
    one, and else the default places. bits: how many the tile has."""
    try:
        open(path, "rb").close()
    except OSError:
        return {bits - 1 - at: (at // FRAME_BITS, FRAME_BITS - 1 - at % FRAME_BITS) for at in range(bits)}
    table, places, frames = read_table(path, faults, None), {}, set()
    if not table.rows:
        faults.malformed(path, table.last, "end of file", "the table has no row")
        return places
    line, cells = table.rows[0]
    if len(cells) != 5:
        faults.malformed(path, line, "row", f"the first row has 5 cells, and not {len(cells)}")
    elif cells != HEADER:
        faults.malformed(path, line, "header", f"the first row is {','.join(HEADER)}")
    clean = True
    for line, cells in table.rows[1:]:
        fault = frame_row(cells, bits, frames, places)
        if fault:
            faults.malformed(path, line, *fault)
            clean = False
    absent = [bit for bit in range(bits) if bit not in places]
    if clean and absent:
        why = f"{len(absent)} of {bits} configuration bits have no place, from bit {absent[0]} on"
        faults.malformed(path, table.last, "bit", why)
    return places


def frame_row(cells, bits, frames, places):
    """Takes a row of a configuration table. Answers a reason and a sentence where it is malformed."""
    if len(cells) not in (4, 5):
        return "row", f"a row has four or five cells, and this has {len(cells)}"
    frame, used = number_of(cells[1]), number_of(cells[2])
    if frame is None or used is None:
        return "number", "the second and the third cell are numbers"
    if frame >= FRAMES or frame in frames:
        return "frame", f"frame {frame} stands already, or is none of 0 to {FRAMES - 1}"
    frames.add(frame)
    mask = cells[3].replace("_", "")
    if len(mask) != FRAME_BITS or set(mask) - {"0", "1"} or mask.count("1") != used:
        return "mask", f"the mask is {FRAME_BITS} digits 0 or 1, of which {used} are 1"
    listed = listed_bits(cells[4] if len(cells) == 5 else "", used)
    if listed is None:
        return "range", f"the last cell lists {used} bits, as 5:2 or 0;1"
    for bit, at in zip(listed, (at for at, digit in enumerate(mask) if digit == "1")):
        if bit >= bits or bit in places:
            return "bit", f"bit {bit} " + ("has a place already" if bit < bits else f"is none of the {bits} of the tile")
        places[bit] = (frame, FRAME_BITS - 1 - at)
    return None


def listed_bits(text, used):
    """The bits that ranges list, or None where they are ill-formed or not as many as `used`."""
    items = [] if text in ("",) or text.upper() == "NULL" else text.split(";")
    listed = []
    for item in items:
        ends = [number_of(end) for end in item.split(":")]
        if len(ends) > 2 or None in ends or abs(ends[0] - ends[-1]) >= used:
            return None
        first, last = ends[0], ends[-1]
        listed += range(first, last + 1) if first <= last else range(first, last - 1, -1)
    return listed if len(listed) == used else None
