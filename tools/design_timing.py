"""The timing of a placed and routed design: its steps, and the latest walk to each end.

A walk begins at an input pad or at the output of a cell with a flip-flop. It goes along the edges of nets, and from the input pins
of a cell without a flip-flop to its output. It ends at an output pad, or at a pin of a cell with a flip-flop. docs/FORMATS.md has
the rules, and what `fab timing` counts for each step.
"""
import collections
import sys

from table_rows import lines_of

# What each kind of step takes. A join takes `join`, and `tile` more for each tile that it goes on.
Delays = collections.namedtuple("Delays", "input_pad clock_to_output pair join tile table output_pad setup reset")
# The units of `fab timing`, of which it is proved that no walk takes longer.
UNITS = Delays(input_pad=2, clock_to_output=3, pair=4, join=1, tile=2, table=6, output_pad=2, setup=7, reset=7)
# Counts the look-up tables of a walk.
LEVELS = Delays(input_pad=0, clock_to_output=0, pair=0, join=0, tile=0, table=1, output_pad=0, setup=1, reset=0)
# The kinds of steps as a file of delays names them, each with its fields.
KINDS = {
    "input-pad": ("input_pad",), "clock-to-output": ("clock_to_output",), "pair": ("pair",), "join": ("join", "tile"),
    "table": ("table",), "output-pad": ("output_pad",), "setup": ("setup",), "reset": ("reset",),
}

# A wire at which walks begin or end: the kind of the step there, and the port, or the number of the cell and its pin.
Terminal = collections.namedtuple("Terminal", "kind port cell pin")
# A step to a wire from one before it: its kind, the tiles that a join goes on, and the net of an edge, or the number of the cell and
# the pin from which it leads to the output.
Step = collections.namedtuple("Step", "before kind tiles net cell pin")
# What arrives last at a wire: the sum up to it, and the step by which it comes, or None at a start.
Arrival = collections.namedtuple("Arrival", "sum step")


def read_delays(path):
    """The delays of a file with a line for each kind of step: its name and picoseconds; for `join` also those for each tile."""
    found = {}
    for line, text in enumerate(lines_of(path), 1):
        words = text.split("#", 1)[0].split()
        if not words:
            continue
        fields = KINDS.get(words[0])
        if not fields or len(words) != 1 + len(fields) or not all(word.isdecimal() for word in words[1:]):
            forms = ", ".join(" ".join([kind, "N"] + ["N"] * (len(fields) - 1)) for kind, fields in KINDS.items())
            sys.exit(f"{path}:{line}: a line is one of {forms}, with whole picoseconds")
        if fields[0] in found:
            sys.exit(f"{path}:{line}: {words[0]} stands twice")
        found.update(zip(fields, map(int, words[1:])))
    absent = [kind for kind, fields in KINDS.items() if fields[0] not in found]
    if absent:
        sys.exit(f"{path}: no line for {', '.join(absent)}")
    return Delays(**found)


class TimedDesign:
    """The wires of a design with the steps that lead to each, its starts and its ends. Wires are words, as X1Y2/NAME."""

    def __init__(self, fabric, netlist, design):
        self.fabric, self.design, self.cells = fabric, design, netlist.cells()
        self.starts, self.ends, self.steps = {}, {}, collections.defaultdict(list)
        if len(self.cells) != len(design.cells):
            self._stop(f"it has {len(design.cells)} cells, and {netlist.path} has {len(self.cells)}")
        self._ports(netlist)
        self._nets()
        for number, cell in enumerate(self.cells):
            self._cell(number, cell)
        self.order = self._ordered()

    def _stop(self, why):
        sys.exit(f"{self.design.path}: {why}; is it an implementation of this netlist on {self.fabric.path}?")

    def pin(self, site, pin):
        """The wire of a pin of a site."""
        found = self.fabric.site(site)
        if not found:
            self._stop(f"the fabric has no site {site}")
        x, y, bel = found
        return f"X{x}Y{y}/{bel.prefix}{pin}"

    def _ports(self, netlist):
        for way, ports, kind, pin, found in (("in", netlist.inputs, "input_pad", "O", self.starts),
                                             ("out", netlist.outputs, "output_pad", "I", self.ends)):
            sites = {port: site for (direction, port), site in self.design.ports.items() if direction == way}
            if sorted(sites) != sorted(ports):
                self._stop(f"its {way} ports are not those of {netlist.path}")
            found.update((self.pin(sites[port], pin), Terminal(kind, port, None, None)) for port in ports)

    def _nets(self):
        for net, edges in self.design.nets.items():
            for before, wire in edges:
                first, second = self.fabric.wire(before), self.fabric.wire(wire)
                if not first or not second:
                    self._stop(f"the fabric has no wire {wire if first else before}")
                tiles = abs(first.x - second.x) + abs(first.y - second.y)
                self.steps[wire].append(Step(before, "pair" if second.wire.is_output else "join", tiles, net, None, None))

    def _cell(self, number, cell):
        site = self.design.cells.get(f"c{number}")
        if not site:
            self._stop(f"it has no cell c{number}")
        output = self.pin(site, "O")
        if not cell.latch:
            self.steps[output] += [Step(self.pin(site, pin), "table", 0, None, number, pin) for pin in read_pins(cell)]
            return
        self.starts[output] = Terminal("clock_to_output", None, number, "O")
        self.ends.update((self.pin(site, pin), Terminal("setup", None, number, pin)) for pin in read_pins(cell))
        self.ends[self.pin(site, "SR")] = Terminal("reset", None, number, "SR")

    def _ordered(self):
        """All wires, each behind those before it."""
        readers = collections.defaultdict(list)
        for wire, steps in self.steps.items():
            for step in steps:
                readers[step.before].append(wire)
        # a cell that reads nothing has no step to its output
        waiting = {wire: len(steps) for wire, steps in self.steps.items() if steps}
        order = [wire for wire in {**self.starts, **dict.fromkeys(readers)} if wire not in waiting]
        for wire in order:
            for reader in readers[wire]:
                waiting[reader] -= 1
                if not waiting[reader]:
                    order.append(reader)
        ring = next((wire for wire, count in waiting.items() if count), None)
        if ring:
            self._stop(f"its steps go round in a ring, with {ring} in it")
        return order

    def arrivals(self, delays, kinds=("input_pad", "clock_to_output")):
        """What arrives last at each wire to which a walk comes that begins with one of these kinds."""
        found = {}
        for wire in self.order:
            start = self.starts.get(wire)
            choices = [Arrival(getattr(delays, start.kind), None)] if start and start.kind in kinds else []
            choices += [Arrival(found[step.before].sum + step_delay(step, delays), step)
                        for step in self.steps.get(wire, ()) if step.before in found]
            if choices:
                found[wire] = max(choices, key=lambda arrival: arrival.sum)
        return found

    def latest(self, arrivals, delays):
        """The ends to which a walk comes, as (sum with the end, wire), the latest first."""
        found = [(arrivals[wire].sum + getattr(delays, end.kind), wire) for wire, end in self.ends.items() if wire in arrivals]
        return sorted(found, key=lambda item: -item[0])


def read_pins(cell):
    """The input pins of its look-up table that a cell reads."""
    return [f"I{at}" for at in range(len(cell.inputs))]


def step_delay(step, delays):
    """What a step takes."""
    return getattr(delays, step.kind) + (delays.tile * step.tiles if step.kind == "join" else 0)


def walk_to(arrivals, wire):
    """The walk that arrives last at a wire, as its wires with their sums and the steps to them, from its start on."""
    found = []
    while wire:
        arrival = arrivals[wire]
        found.append((wire, arrival))
        wire = arrival.step.before if arrival.step else None
    return found[::-1]


def check_proved(design, timing):
    """Ends the tool where a timing text of `fab timing` does not have the longest delay, or has a walk that is none. Answers the walk,
    as walk_to does."""
    ends = design.latest(design.arrivals(UNITS), UNITS)
    delay = ends[0][0] if ends else 0
    if timing.delay != delay:
        found = f"the longest path takes {delay} units, and the text says {timing.delay}"
        sys.exit(f"{timing.path}: {found}; is it of this implementation?")
    walk, before = [], None
    for total, wire in timing.stops:
        start = design.starts.get(wire)
        step = next((step for step in design.steps.get(wire, ()) if before and step.before == before[0]
                     and before[1].sum + step_delay(step, UNITS) == total), None)
        if not step and (before or not start or getattr(UNITS, start.kind) != total):
            sys.exit(f"{timing.path}: no walk of this implementation comes to {wire} with {total}")
        before = (wire, Arrival(total, step))
        walk.append(before)
    end = design.ends.get(before[0]) if before else None
    if walk and (not end or before[1].sum + getattr(UNITS, end.kind) != delay):
        sys.exit(f"{timing.path}: no walk of {delay} units ends at {before[0]}")
    if not walk and ends:
        sys.exit(f"{timing.path}: the text has no stops, and the longest path takes {delay} units")
    return walk
