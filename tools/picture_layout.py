"""Where tiles, sites and nets stand in the picture that tools/draw makes.

A tile is a box. At its right is a stack of slots, one for each site; at its left are the lanes of its column, and below the slots
those of its row. A net goes across in a lane of a row and up and down in a lane of a column. Of a net, what meets in a row or a
column is one run, and a run has one lane. Runs get lanes as in a channel router: each the first lane that is free, from the left.
"""
import collections

SLOT_WIDTH, LEAST_SLOT, LEAST_BOX = 76, 12, 76
SLOTS_TOP = 3
LANE_ROOM, LEAST_PITCH, MOST_PITCH, LANE_MARGIN = 52, 0.9, 4.0, 5
# Nets of constants reach every flip-flop. They have lanes of their own, behind those of the other nets.
CONSTANTS = ("zero", "one")
# The pins of a site at its left side, from the top. Carry and the registered input of a pad come last.
PIN_ORDER = {"LUT4c": ("I0", "I1", "I2", "I3", "SR", "EN", "O", "Ci", "Co"), "IO": ("I", "T", "O", "Q")}
SHOWN_PINS = {"LUT4c": 7, "IO": 4}

# A stretch of a net in a row or a column of the grid, from one coordinate to another. A half coordinate in a column is the
# height of the slots of a tile, above its lanes.
Run = collections.namedtuple("Run", "low high")
# A point of a net at which three lines or more meet, and the lines, each as (x, y, x, y).
Strokes = collections.namedtuple("Strokes", "lines dots")


class Shape:
    """A net on the grid: its places, its pins in each place (in their order), and its runs with their lanes by (way, channel).
    The ways are "across", whose channels are rows, and "down", whose channels are columns."""

    def __init__(self, name, edges):
        self.name, self.edges = name, edges
        self.places, self.pins, self.sinks = set(), collections.defaultdict(dict), 0
        self.runs = collections.defaultdict(list)
        self.lanes = {}
        stretches = collections.defaultdict(list)
        for first, second in edges:
            for end in (first, second):
                self.places.add((end.x, end.y))
                if end.wire.bel and end.wire.bel.kind in PIN_ORDER:
                    self.pins[end.x, end.y][end.wire] = None
            self.sinks += second.wire.bel is not None
            if first.y == second.y and first.x != second.x:
                stretches["across", first.y].append(Run(min(first.x, second.x), max(first.x, second.x)))
            elif first.y != second.y:
                stretches["down", first.x].append(Run(min(first.y, second.y), max(first.y, second.y)))
        for x, y in self.pins:
            stretches["down", x].append(Run(y - 0.5, y))
        for channel, runs in stretches.items():
            self.runs[channel] = joined(runs)

    def run_at(self, way, channel, at):
        """The run of the net in a channel that holds a coordinate, or None."""
        return next((run for run in self.runs.get((way, channel), ()) if run.low <= at <= run.high), None)


def joined(runs):
    """Runs that meet become one."""
    out = []
    for run in sorted(runs):
        if out and run.low <= out[-1].high:
            out[-1] = Run(out[-1].low, max(out[-1].high, run.high))
        else:
            out.append(run)
    return out


def give_lanes(shapes):
    """Gives each run of the shapes a lane. Answers the number of lanes of each channel."""
    waiting = collections.defaultdict(list)
    for shape in shapes:
        for channel, runs in shape.runs.items():
            waiting[channel] += [(run.low, -run.high, shape, run) for run in runs]
    counts = {}
    for channel, items in waiting.items():
        ends = []
        for low, _, shape, run in sorted(items, key=lambda item: item[:2]):
            lane = next((lane for lane, end in enumerate(ends) if end < low), len(ends))
            ends[lane:lane + 1] = [run.high]
            shape.lanes[channel, run] = lane
        counts[channel] = len(ends)
    return counts


class Sheet:
    """The coordinates of tiles, slots, pins and lanes of a fabric. counts: the number of lanes of each channel."""

    def __init__(self, fabric, counts):
        self.fabric, self.counts = fabric, counts
        self.most = {way: max([count for channel, count in counts.items() if channel[0] == way] + [1])
                     for way in ("across", "down")}
        self.pitch = {way: max(LEAST_PITCH, min(MOST_PITCH, LANE_ROOM / most)) for way, most in self.most.items()}
        self.room = {way: 2 * LANE_MARGIN + self.pitch[way] * most for way, most in self.most.items()}
        deepest = max([len(self.slots_of(tile)) for tile in fabric.tiles.values()] + [1])
        self.slots_height = SLOTS_TOP + max(LEAST_BOX, LEAST_SLOT * deepest)
        self.box_width, self.box_height = self.room["down"] + SLOT_WIDTH, self.slots_height + self.room["across"]
        # text at head and foot grows with the sheet, so that it can be read where the whole sheet is shown
        self.scale = max(1.0, min(4.0, self.box_width * fabric.columns / 1300))
        self.left, self.top = 46 * self.scale, 108 * self.scale
        self.right = self.left + self.box_width * fabric.columns
        self.bottom = self.top + self.box_height * fabric.rows

    @staticmethod
    def slots_of(tile):
        """The BELs of a tile that have a slot: look-up tables and pads. No cell stands on a multiplexer tree."""
        return [bel for bel in tile.bels if bel.kind in PIN_ORDER]

    def box(self, x, y):
        """The corner at the left and the top of a place."""
        return self.left + x * self.box_width, self.top + y * self.box_height

    def slot(self, x, y, bel):
        """The slot of a site, as left, top, width and height."""
        left, top = self.box(x, y)
        slots = self.slots_of(self.fabric.at(x, y))
        height = (self.slots_height - SLOTS_TOP) / len(slots)
        return left + self.room["down"], top + SLOTS_TOP + height * slots.index(bel), SLOT_WIDTH, height

    def pin(self, x, y, wire):
        """Where the line of a pin meets its slot."""
        left, top, _, height = self.slot(x, y, wire.bel)
        order, shown = PIN_ORDER[wire.bel.kind], SHOWN_PINS[wire.bel.kind]
        number = min(order.index(wire.pin), shown - 1)
        return left + 2, top + 1.5 + (height - 3) * (number + 0.5) / shown

    def lane(self, shape, way, channel, at):
        """The coordinate of the lane of a net in a channel at a place, or None where the net has no run there. A channel with
        fewer lanes than the widest has them in its middle."""
        run = shape.run_at(way, channel, at)
        if run is None:
            return None
        unused = self.most[way] - self.counts.get((way, channel), self.most[way])
        offset = LANE_MARGIN + self.pitch[way] * (shape.lanes[(way, channel), run] + unused / 2)
        if way == "down":
            return self.left + channel * self.box_width + offset
        return self.top + channel * self.box_height + self.slots_height + offset

    def crossing(self, shape, x, y):
        """Where the lanes of a net meet in a tile; the middle of the channel where it has no lane."""
        left, top = self.box(x, y)
        across, down = self.lane(shape, "across", y, x), self.lane(shape, "down", x, y)
        return (left + self.room["down"] / 2 if down is None else down,
                top + self.slots_height + self.room["across"] / 2 if across is None else across)

    def strokes(self, shape):
        """The lines of a net, and the points at which three of them or more meet."""
        lines = []
        for (way, channel), runs in shape.runs.items():
            for run in runs:
                lines.append(self._across(shape, channel, run) if way == "across" else self._down(shape, channel, run))
        for (x, y), wires in shape.pins.items():
            trunk = self.crossing(shape, x, y)[0]
            ends = (self.pin(x, y, wire) for wire in wires)
            lines += [(trunk, level, end, level) for end, level in ends]
        return Strokes(lines, junctions(lines))

    def _across(self, shape, y, run):
        ends = [self.crossing(shape, x, y) for x in (run.low, run.high)]
        return (ends[0][0], ends[0][1], ends[1][0], ends[1][1])

    def _down(self, shape, x, run):
        """A run in a column reaches no farther than to pins, and to lanes in which the net goes across."""
        levels = []
        places = [y for y in range(int(run.low + 0.5), int(run.high) + 1) if (x, y) in shape.places]
        for y in places:
            wires = shape.pins.get((x, y), ())
            levels += [self.pin(x, y, wire)[1] for wire in wires]
            if not wires or shape.run_at("across", y, x):
                levels.append(self.crossing(shape, x, y)[1])
        at = self.lane(shape, "down", x, run.low)
        return (at, min(levels), at, max(levels))


def junctions(lines):
    """The points at which three arms of the lines or more meet. Lines go across or down."""
    across = [line for line in lines if line[1] == line[3]]
    down = [line for line in lines if line[1] != line[3]]
    points = set()
    for x1, y, x2, _ in across:
        for x, top, _, bottom in down:
            if x1 <= x <= x2 and top <= y <= bottom:
                arms = (x1 < x) + (x < x2) + (top < y) + (y < bottom)
                if arms >= 3:
                    points.add((x, y))
    return sorted(points)
