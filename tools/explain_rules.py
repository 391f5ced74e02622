"""What breaks a rule of implementations or features, for tools/explain (status 10)."""
import re

from explain_files import pairs_of
from explain_lines import no_wire
from explain_text import FEW, families, lines_of, listed, near_words, plural, quoted, shown
from explain_wires import Network, described, parted, pin_of, written


def illegal(case, rule, item):
    """The item, and the lines that name it."""
    if rule in ("10", "11"):
        yield from feature_item(case, rule, item)
        return
    yield from meaning(case, item)
    path = case.call.file("implementation")
    if case.implementation and path:
        lines = list(lines_with(case.implementation, rule, item))
        for line, words, net in lines[:4]:
            yield quoted(path, line, " ".join(words), f"   (of net {shown(net)})" if net else "")
        if len(lines) > 4:
            yield f"and {len(lines) - 4} lines more"
        if not lines and rule != "14":
            yield f"no line of {shown(path)} names {shown(item)} in this way"
    special = {"1": whole, "3": whole, "4": constrained, "5": no_edge, "8": missing_sink, "9": nets_with, "12": no_input,
               "14": no_column}.get(rule)
    if special:
        yield from special(case, item)


def meaning(case, item):
    """What a cell, a net or a wire is."""
    text = described(case.fabric, item) if case.fabric else None
    if not text and case.netlist:
        words = item.split()
        path = case.call.file("netlist")
        text = case.netlist.cell(item, path) if re.fullmatch(r"c\d+", item) else case.netlist.net(words, path)
    if text:
        yield text
    elif "/" in item:
        yield from no_wire(case.fabric, item)


def lines_with(implementation, rule, item):
    for line, words, net in implementation.lines:
        is_edge = words[0] == "edge"
        if is_edge and rule in ("5", "6", "8", "13") and words[-1] == item:
            yield line, words, net
        elif is_edge and rule in ("7", "9") and item in words:
            yield line, words, net
        elif words[0] == "reset" and rule == "12" and words[1:] == [item]:
            yield line, words, net
        elif words[0] == "net" and " ".join(words[1:]) == item or words[0] in ("cell", "pad") and item in words[1:]:
            yield line, words, net


def whole(case, item):
    """Cells and ports that are named too often, not at all, or that the design does not have."""
    if not case.netlist or not case.netlist.is_flat:
        return
    if re.fullmatch(r"c\d+", item):
        yield f"the design has {plural(len(case.netlist.cells()), 'cell')}"
        return
    inputs, outputs = case.netlist.data_inputs, case.netlist.outputs
    if item in case.netlist.clocks:
        yield f"{shown(item)} is the clock, which takes no pad"
    elif item in inputs or item in outputs:
        yield f"{shown(item)} is an {'input' if item in inputs else 'output'} of the netlist"
    else:
        yield f"the netlist has no port {shown(item)}{near_words(item, inputs + outputs)}"


def no_input(case, item):
    """A reset port that is no input of the netlist, and which ports are."""
    yield from whole(case, item)
    if case.netlist and case.netlist.is_flat:
        yield f"a reset port is one of the inputs: {listed(case.netlist.data_inputs) or 'there are none'}"


def no_column(case, item):
    if case.fabric:
        yield f"the grid has {plural(case.fabric.columns, 'column')}, of which the last is {case.fabric.columns - 1}, and LAST is {item}"


def constrained(case, item):
    path = case.call.file("constraints")
    for line, text in lines_of(path) if path else ():
        if text.split("#")[0].split()[1:2] == [item]:
            yield quoted(path, line, text.strip())


def no_edge(case, item):
    """Why the edges that end at a wire are none: the choices that the wire has."""
    lines = case.implementation.lines if case.implementation else []
    edges = [words[1] for _, words, _ in lines if words[0] == "edge" and words[2:] == [item]]
    node = parted(item)
    if not case.fabric or not node or not edges:
        return
    tile, network = case.fabric.at(node[0], node[1]), Network(case.fabric)
    if tile and tile.wires.get(node[2]) and tile.wires[node[2]].is_output:
        inputs = network.inputs_of(tile, node[2])
        yield choices(tile, node[2], inputs, edges[0].split("/")[-1])
        return
    source = parted(edges[0])
    if source and network.has(source):
        other = network.joined(*source)
        yield f"{edges[0]} is joined to {written(other)}" if other else f"{edges[0]} is joined to nothing"


def choices(tile, output, inputs, name):
    """The inputs of an output, and what of many is near a name that is none of them."""
    found = near_words(name, inputs) if len(inputs) > FEW and name not in inputs else ""
    return f"{shown(output)} of tile {tile.name} takes {families(inputs, FEW) or 'nothing'}{found}"


def missing_sink(case, item):
    """Which net has to reach a pin."""
    node = parted(item)
    tile = case.fabric.at(node[0], node[1]) if case.fabric and node else None
    pin = pin_of(tile, node[2]) if tile else None
    if not pin or not case.implementation:
        return
    site = f"X{node[0]}Y{node[1]}.{pin[0]}"
    holder = case.implementation.on_site(site)
    if holder:
        yield f"on {site} stands {shown(holder)}"
    net = wanted_net(case, holder or "", pin[2])
    if net:
        yield f"the net that has to reach it is {shown(net)}"


def wanted_net(case, holder, pin):
    if pin == "EN":
        return "one"
    if pin == "SR":
        return next((f"in {words[1]}" for _, words, _ in case.implementation.lines if words[0] == "reset" and len(words) == 2), "zero")
    if pin == "T":
        return "zero" if holder.startswith("in ") else "one"
    if not case.netlist or not case.netlist.is_flat:
        return None
    cells, drives = case.netlist.cells(), {}
    for number, cell in enumerate(cells):
        drives[cell[0]] = f"cell c{number} ({cell[0]})"
    name = None
    if pin == "I" and holder.startswith("out "):
        name = holder[4:]
    elif re.fullmatch(r"I[0-3]", pin) and holder[1:].isdigit() and int(holder[1:]) < len(cells):
        read = cells[int(holder[1:])][2]
        name = read[int(pin[1])] if int(pin[1]) < len(read) else None
    return name and drives.get(name, f"in {name}")


def nets_with(case, item):
    if case.implementation:
        nets = case.implementation.wires().get(item, [])
        if len(nets) > 1:
            yield f"nets with this wire: {listed(nets)}"


def feature_item(case, rule, item):
    """A feature that the fabric does not have, or an output with two inputs: the lines, and what is near."""
    path = case.call.file("FASM")
    place, _, rest = item.partition(".")
    count = 0
    for line, text in lines_of(path) if path else ():
        feature = re.match(r"\s*([\w.]*)", text, re.A).group(1)
        if feature == item or rule == "11" and feature.startswith(place + ".") and feature.endswith("." + rest):
            count += 1
            if count <= 4:
                yield quoted(path, line, text.strip())
    if rule != "10" or not case.fabric:
        return
    tile, why = case.fabric.tile_at(place)
    yield from feature_faults(tile, rest) if tile else [why]


FIELDS = {"LUT4c": ["INIT", "FF", "IOmux", "SET_NORESET"], "MUX8LUT": ["c0", "c1"], "IO": []}


def feature_faults(tile, rest):
    first, _, second = rest.partition(".")
    letters = {bel.letter: bel.kind for bel in tile.bels}
    if first in letters:
        fields = FIELDS.get(letters[first], [])
        yield f"{first} is a {letters[first]} of tile {tile.name}, with the fields {listed(fields) or 'none'}{near_words(second, fields)}"
        return
    if not second:
        yield "behind the place stand two names: a BEL's letter and its field, or INPUT.OUTPUT"
        yield f"tile {tile.name} has the BELs {listed(letters, 12) or 'none'}"
    elif second not in tile.names(True):
        what = "an input" if second in tile.wires else "no output"
        yield f"{shown(second)} is {what} of the switch matrix of tile {tile.name}{near_words(second, tile.names(True))}"
        if first in tile.names(True):
            yield "this is a step along a wire, which no bit chooses: tools/nextpnr_fasm takes such lines out"
    else:
        yield choices(tile, second, pairs_of(tile).get(second, []), first)
