"""Why a design does not fit a fabric, for tools/explain: too few sites, no path, or shared wires; and what one that fits takes."""
import collections

from explain_text import families, listed, plural, shown, sides
from explain_wires import MOST_WIRES, Network, described, parted, written

KINDS = ("LUT4c", "IO")
USUAL_ROUNDS = 32


def percent(part, whole):
    return f"{100 * part // whole} %" if whole else "none"


def site_lines(fabric, kind):
    """How many sites of a kind there are, by types of tiles."""
    places = collections.Counter(tile.name for _, _, tile in fabric.places())
    lines = [(name, tile.sites(kind), places[name]) for name, tile in fabric.tiles.items() if tile.sites(kind)]
    for name, sites, count in lines[:8]:
        yield f"tile {name}: {plural(sites, 'site')} at each of {plural(count, 'place')}, {sites * count}"
    if len(lines) > 8:
        yield f"and {len(lines) - 8} types of tiles more"
    if not lines:
        yield f"no tile of the fabric has a site of {kind}"


def missing_tiles(fabric, kind, count):
    """How many tiles more would do."""
    found = [f"{plural(-(-count // tile.sites(kind)), 'tile')} {name} more"
             for name, tile in fabric.tiles.items() if tile.sites(kind)]
    if count > 0 and found:
        yield f"{plural(count, 'site')} {'is' if count == 1 else 'are'} missing: {', or '.join(found[:3])}"


def short(case, kind, need, have):
    """Status 7: sites by tile type, and of what the design's need is made."""
    yield f"the design needs {need} sites of {kind}, and the fabric has {have}"
    if case.fabric:
        yield from site_lines(case.fabric, kind)
        yield from missing_tiles(case.fabric, kind, int(need) - int(have))
    if case.netlist and case.netlist.is_flat:
        if kind == "IO":
            inputs, outputs = plural(len(case.netlist.data_inputs), "input"), plural(len(case.netlist.outputs), "output")
            yield f"the ports are {inputs} and {outputs}; the clock takes no pad"
        else:
            made = collections.Counter(cell[3] for cell in case.netlist.cells())
            yield "the design has " + ", ".join(f"{count} of a {name}" for name, count in made.items())
            if made["flip-flop"]:
                yield "a flip-flop shares a look-up table with the table that it reads only where nothing else reads that table"


def net_words(words):
    """The words of a report's nets, net by net."""
    nets = []
    while words:
        count = 2 if words[0] in ("in", "cell") else 1
        nets.append(words[:count])
        words = words[count:]
    return nets


def meanings(case, nets):
    for words in nets:
        text = case.netlist.net(words, case.call.file("netlist")) if case.netlist else None
        if text:
            yield text


def no_path(case, words):
    """Status 8: what net and wire are, which pairs lead to the wire, and whether the net comes near it."""
    net, wire = words[:-1], words[-1]
    yield from meanings(case, [net])
    if described(case.fabric, wire):
        yield described(case.fabric, wire)
    node = parted(wire)
    tile = case.fabric and node and case.fabric.at(node[0], node[1])
    if not tile:
        return
    network = Network(case.fabric)
    inputs = network.inputs_of(tile, node[2])
    source = shown(tile.matrix or "no MATRIX row")
    if inputs:
        yield f"switch pairs of tile {tile.name} that lead to {node[2]} ({source}): {families(inputs)}"
    else:
        yield f"no switch pair of tile {tile.name} leads to {node[2]}: add one, {node[2]},INPUT, in {source}"
    yield from from_source(case, network, net, node, tile)


def from_source(case, network, net, node, tile):
    """How far the net gets from its source, and what of it comes to the tile of the wire."""
    begins = sources(case, network, net)
    if not begins:
        name = {"zero": "GND", "one": "VCC"}.get(net[0])
        if name:
            yield f"no tile has the constant: add a row JUMP,NULL,0,0,{name},1 to a tile, and pairs with {name}0"
        return
    if len(begins) == 1:
        own = case.fabric.at(*begins[0][:2])
        outputs = network.outputs_of(own, begins[0][2])
        yield f"the net begins at {written(begins[0])}" + (
            f", which leads to {families(outputs)}" if outputs else f": no pair of tile {own.name} takes {begins[0][2]}, so add some")
    found = network.reached(begins)
    if node in found:
        yield "by all joins and pairs there is a path to it, so the report is of other files than these"
        return
    places = {(x, y) for x, y, _ in found}
    is_all = len(found) < MOST_WIRES
    yield f"from there {'' if is_all else 'more than '}{plural(len(found), 'wire')} in {plural(len(places), 'tile')} can be reached"
    here = sorted(name for x, y, name in found if (x, y) == node[:2] and not tile.wires[name].is_output)
    if here:
        yield f"at X{node[0]}Y{node[1]} these are {families(here)}: a pair of {node[2]} with one of them gives a path"
    elif is_all:
        yield f"none of them ends at X{node[0]}Y{node[1]}: wires or pairs are missing on the way to this tile"


def sources(case, network, net):
    """The wires at which a net may begin, by the placement behind the report."""
    if net[:1] in (["zero"], ["one"]):
        return network.constants("GND" if net == ["zero"] else "VCC")
    site = case.implementation.cells.get(net[-1]) if net[0] == "cell" else next(
        (site for side, port, site in case.implementation.pads if side == "in" and port == net[-1]), None)
    found = case.fabric.site(site or "")
    return [(found[0], found[1], found[2].prefix + "O")] if found else []


def overused(case, words):
    """Status 9: the nets, how many wires are shared and where, and which wires are used up there."""
    wire, nets = words[0], net_words(words[1:])
    yield from meanings(case, nets)
    if described(case.fabric, wire):
        yield described(case.fabric, wire)
    users = case.implementation.wires()
    shared = {name: len(of) for name, of in users.items() if len(of) > 1}
    if not shared:
        return
    yield f"shared after the last round: {len(shared)} of {plural(len(users), 'used wire')}"
    most = sorted(shared, key=lambda name: (-shared[name], name))
    yield f"most nets are on {listed((f'{name} ({shared[name]})' for name in most), 6)}"
    crowded = collections.Counter(name.split("/")[0] for name in shared)
    yield f"most shared wires are in {listed((f'{place} ({count})' for place, count in crowded.most_common()), 6)}"
    if case.fabric:
        yield from used_up(case.fabric, users, [place for place, _ in crowded.most_common(6)])
        yield from used_sites(case.fabric, case.implementation)
    yield advice(len(shared), len(users), dict(case.call.values).get("--rounds", ""))


def used_up(fabric, users, places):
    """Of the most crowded tiles, the rows of wires of which most are in use."""
    used, there = collections.Counter(), collections.Counter()
    for place in places:
        tile = fabric.tile_at(place)[0]
        for name in tile.names(True) if tile else ():
            if not tile.wires[name].bel:
                there[sides(name)[0]] += 1
                used[sides(name)[0]] += f"{place}/{name}" in users
    full = sorted((name for name in there if used[name]), key=lambda name: -used[name] / there[name])
    if full:
        yield f"wires in use that leave these tiles: {listed((f'{name} {used[name]} of {there[name]}' for name in full), 8)}"


def advice(shared, used, rounds):
    if rounds.isdigit() and int(rounds) < USUAL_ROUNDS:
        return f"the call has --rounds {rounds}: without it the router has {USUAL_ROUNDS} rounds"
    if shared * 50 <= used:
        return "few wires are shared: try --seed 2, 3, 4, and --rounds 64"
    return ("many wires are shared: take more tiles, so that cells stand farther apart, or more wires and pairs; "
            "a seed will hardly help")


def used_sites(fabric, implementation):
    sites = {kind: fabric.sites(kind) for kind in KINDS}
    counts = {"LUT4c": len(implementation.cells), "IO": len(implementation.pads)}
    yield "sites in use: " + ", ".join(f"{counts[kind]} of {sites[kind]} {kind} ({percent(counts[kind], sites[kind])})" for kind in KINDS)


def fitted(case):
    """Status 0 of `flow`, `map` and `assemble`: what the implementation takes of the fabric."""
    if not case.fabric or not case.implementation or not case.implementation.lines:
        return
    yield from used_sites(case.fabric, case.implementation)
    edges = sum(map(len, case.implementation.nets.values()))
    wires = len({wire for net in case.implementation.nets.values() for edge in net for wire in edge})
    there = sum(len(tile.wires) for _, _, tile in case.fabric.places())
    cost = placed_cost(case)
    yield (f"routing: {plural(len(case.implementation.nets), 'net')}, {plural(edges, 'edge')}, "
           f"{wires} of {plural(there, 'wire')} and pins ({percent(wires, there)})" + (f"; placement cost {cost}" if cost is not None else ""))


def placed_cost(case):
    """Half the circumference of each net's box, summed over the nets of input ports and cells; None where it cannot be told."""
    if not case.netlist or not case.netlist.is_flat:
        return None
    cells, boxes = case.netlist.cells(), collections.defaultdict(list)
    drives = {net: ("cell", f"c{number}") for number, (net, _, _, _) in enumerate(cells)}
    drives.update((port, ("in", port)) for port in case.netlist.data_inputs)
    for number, (net, _, read, _) in enumerate(cells):
        site = case.implementation.cells.get(f"c{number}")
        for name in [net] + list(read):
            boxes[name].append(site)
    for side, port, site in case.implementation.pads:
        boxes[port].append(site)
    return sum(half_box(sites) for net, sites in boxes.items() if net in drives)


def half_box(sites):
    places = [parted(site.replace(".", "/")) for site in sites if site]
    places = [place for place in places if place]
    if not places:
        return 0
    columns, rows = [place[0] for place in places], [place[1] for place in places]
    return max(columns) - min(columns) + max(rows) - min(rows)
