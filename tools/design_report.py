"""What tools/report says of a placed and routed design, as plain values: what it uses of its fabric, and its timing.

Times are units of `fab timing`, or picoseconds where a file of delays was given.
"""
import collections
import os

from design_timing import LEVELS, UNITS, step_delay, walk_to

BINS = 10
# Where walks begin and end, as the report calls them.
PLACES = {"input_pad": "input pads", "clock_to_output": "flip-flops", "output_pad": "output pads", "setup": "flip-flops",
          "reset": "flip-flops"}


def share(used, there):
    """How much is used of what there is."""
    return {"used": used, "there": there}


def use_of_tiles(timed):
    """What is used of each tile type that stands in the grid, and of all."""
    fabric, places, there, used = timed.fabric, collections.Counter(), collections.Counter(), collections.Counter()
    for _, _, tile in fabric.places():
        places[tile.name] += 1
        there.update((tile.name, bel.kind) for bel in tile.bels)
    for number, cell in enumerate(timed.cells):
        name = tile_at(fabric, timed.design.cells[f"c{number}"])
        used.update([(name, "LUT4c")] + [(name, "flip-flop")] * (cell.latch is not None))
    used.update((tile_at(fabric, site), "IO") for site in timed.design.ports.values())
    rows = [tile_row(name, count, [name], used, there) for name, count in places.items()]
    return [row for row in rows if row["look_up_tables"]["there"] or row["pads"]["there"]], \
        tile_row("all", sum(places.values()), places, used, there)


def tile_at(fabric, site):
    """The name of the tile type in which a site is."""
    x, y, _ = fabric.site(site)
    return fabric.at(x, y).name


def tile_row(title, places, names, used, there):
    """What some tile types have, and what of it is used."""
    def count(counts, kind):
        return sum(counts[name, kind] for name in names)
    tables = count(there, "LUT4c")
    return {"tile": title, "places": places, "look_up_tables": share(count(used, "LUT4c"), tables),
            "flip_flops": share(count(used, "flip-flop"), tables), "pads": share(count(used, "IO"), count(there, "IO"))}


def use_of_wires(timed):
    """What is used of each class of wires."""
    taken = collections.Counter()
    for word in {end for edges in timed.design.nets.values() for edge in edges for end in edge}:
        wire = timed.fabric.wire(word).wire
        if wire.row and wire.is_output:
            taken[wire.row.wire_class] += 1
    return [{"class": str(kind), **share(taken[kind], count)} for kind, count in timed.fabric.wires_by_class().items()]


class TimingFigures:
    """The latest ends of a design and the walks to them. clock: the period in picoseconds, or None."""

    def __init__(self, timed, delays, clock):
        self.timed, self.delays, self.clock = timed, delays, clock
        self.arrivals = timed.arrivals(delays)
        self.latest = timed.latest(self.arrivals, delays)
        self.levels, self.starts = {}, {}
        for wire in timed.order:
            if wire in self.arrivals:
                step = self.arrivals[wire].step
                self.levels[wire] = self.levels[step.before] + (step.kind == "table") if step else 0
                self.starts[wire] = self.starts[step.before] if step else wire

    @property
    def delay(self):
        """The longest delay; 0 where no walk comes to an end."""
        return self.latest[0][0] if self.latest else 0

    def walk(self):
        """The walk to the latest end."""
        return walk_to(self.arrivals, self.latest[0][1]) if self.latest else []

    def described(self, wire, terminal):
        """A start or an end: its net or port, and where it is."""
        if terminal.port is not None:
            way = "in" if terminal.kind == "input_pad" else "out"
            return {"kind": terminal.kind, "net": terminal.port, "site": self.timed.design.ports[way, terminal.port], "wire": wire}
        return {"kind": terminal.kind, **self._cell_pin(terminal), "wire": wire}

    def _cell_pin(self, item):
        """The cell of a terminal or a step, with its net and the pin."""
        number = f"c{item.cell}"
        return {"net": self.timed.cells[item.cell].net, "cell": number, "pin": item.pin, "site": self.timed.design.cells[number]}

    def end(self, total, wire):
        """An end with what arrives there last."""
        end = self.timed.ends[wire]
        start = self.starts[wire]
        slack = {} if self.clock is None else {"slack": self.clock - total}
        return {"delay": total, **slack, "levels": self.end_levels(wire), "end": self.described(wire, end),
                "start": self.described(start, self.timed.starts[start])}

    def end_levels(self, wire):
        """How many look-up tables what arrives last at an end goes through, with that of the end's own cell."""
        return self.levels[wire] + (self.timed.ends[wire].kind == "setup")

    def between(self):
        """The longest delay from starts of each kind to ends of each kind, or None where no walk goes there."""
        found = {}
        for start in ("clock_to_output", "input_pad"):
            for total, wire in self.timed.latest(self.timed.arrivals(self.delays, (start,)), self.delays):
                found.setdefault((PLACES[start], PLACES[self.timed.ends[wire].kind]), total)
        return [{"from": start, "to": end, "delay": found.get((start, end))}
                for start in ("flip-flops", "input pads") for end in ("flip-flops", "output pads")]

    def logic(self):
        """Levels of logic: on the longest path, on the deepest one, and how many ends have how many."""
        deepest = self.timed.latest(self.timed.arrivals(LEVELS), LEVELS)
        counts = collections.Counter(self.end_levels(wire) for _, wire in self.latest)
        return {"longest_path": self.end_levels(self.latest[0][1]) if self.latest else 0, "deepest": deepest[0][0] if deepest else 0,
                "ends": [{"levels": levels, "ends": counts[levels]} for levels in sorted(counts)]}

    def histogram(self):
        """How many ends have a delay in each of ten ranges of equal width, from 0 to the longest delay."""
        width = max(1, -(-self.delay // BINS))
        counts = collections.Counter(max(total - 1, 0) // width for total, _ in self.latest)
        return [{"above": width * at, "up_to": width * (at + 1), "ends": counts[at]} for at in range(max(counts, default=-1) + 1)]

    def path(self, walk):
        """The steps of a walk to an end, with what each adds."""
        if not walk:
            return []
        timed, (first, arrival), last = self.timed, walk[0], walk[-1][0]
        found = [{"step": timed.starts[first].kind, "adds": arrival.sum, "sum": arrival.sum,
                  **self.described(first, timed.starts[first])}]
        for wire, arrival in walk[1:]:
            step = arrival.step
            owner = self._cell_pin(step) if step.kind == "table" else {"net": self._net_name(step.net)}
            found.append({"step": step.kind, "adds": step_delay(step, self.delays), "sum": arrival.sum, **owner, "wire": wire})
        adds = getattr(self.delays, timed.ends[last].kind)
        total = walk[-1][1].sum + adds
        found.append({"step": timed.ends[last].kind, "adds": adds, "sum": total, **self.described(last, timed.ends[last])})
        for item in found:
            item.pop("kind", None)
        return found

    def _net_name(self, net):
        """The name of a net of an implementation in the netlist."""
        if net.startswith("cell c"):
            return self.timed.cells[int(net[6:])].net
        return net[3:] if net.startswith("in ") else net


def report_of(timed, delays, clock, proved, walk, most):
    """All that is said of a design. delays: picoseconds, or the units of `fab timing`. clock: a period in picoseconds or None.
    proved: the delay of `fab timing`, and walk that of its text. most: how many ends are listed."""
    unit = "units" if delays is UNITS else "ps"
    figures = TimingFigures(timed, delays, clock)
    tiles, total = use_of_tiles(timed)
    late = [] if clock is None else [item for item in figures.latest if item[0] > clock]
    period = {} if clock is None else {"clock": {"period": clock, "worst_slack": clock - figures.delay, "late_ends": len(late)}}
    return {
        "design": os.path.basename(timed.design.path), "fabric": os.path.basename(timed.fabric.path), "tiles": tiles, "total": total,
        "wires": use_of_wires(timed), "proved_units": proved, "times_in": unit, "delay": figures.delay, **period,
        "between": figures.between(), "ends_with_a_path": len(figures.latest),
        "ends": [figures.end(*item) for item in figures.latest[:most]], "levels": figures.logic(), "histogram": figures.histogram(),
        "path": figures.path(walk if delays is UNITS else figures.walk()),
    }
