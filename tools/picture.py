"""Writes the SVG text of a placed and routed design, for tools/draw.

From the back to the front: places with their heat, lines of constants, lines of nets, sites with their names, shared wires of a
report, the longest path, and the foot. Elements carry what they stand for as `data-place`, `data-cell`, `data-port` and
`data-net`, and a `title` that a browser shows under the mouse.
"""
import collections
import colorsys
import html
import re

from picture_layout import CONSTANTS, Shape, Sheet, give_lanes

HEAT = ((255, 255, 255), (255, 241, 205), (255, 206, 140), (245, 150, 95))
TABLE, REGISTER, INPUT, OUTPUT, FREE = "#8fb4de", "#4a78b5", "#8cc58c", "#e2b04a", "#ffffff"
RED, PATH = "#b00020", "#c2185b"
STYLE = ("text{font-family:Helvetica,Arial,sans-serif;fill:#333}#nets path,#constants path{fill:none}"
         "#nets:hover .net{opacity:.06}#nets .net:hover{opacity:1;stroke-width:2.4px}")


def shade(part):
    """A colour of the heat, of a part from 0 to 1."""
    at = max(0.0, min(1.0, part)) * (len(HEAT) - 1)
    low = min(int(at), len(HEAT) - 2)
    return "#%02x%02x%02x" % tuple(round(a + (b - a) * (at - low)) for a, b in zip(HEAT[low], HEAT[low + 1]))


def net_colour(number):
    """The colour of a net. Steps of the golden angle keep the colours of neighbours apart."""
    red, green, blue = colorsys.hls_to_rgb(number * 0.61803398875 % 1, 0.40, 0.62)
    return "#%02x%02x%02x" % tuple(round(255 * part) for part in (red, green, blue))


def short_name(name):
    """A name without what Yosys puts in front: the number of a pass, as `$abc$832$`, and the place in its own sources."""
    return re.sub(r"^auto\$[^:]*:\d+:", "", re.sub(r"^\$abc\$\d+\$", "", name))


def number(value):
    """A coordinate with one digit behind the point, and none where it is 0."""
    text = f"{value:.1f}"
    return text[:-2] if text.endswith(".0") else text


class Usage:
    """What a design uses of its fabric: wires of nets, and matrix outputs of places."""

    def __init__(self, fabric, trees):
        self.used, self.taken, self.total = collections.Counter(), collections.Counter(), fabric.wires_by_class()
        for wire in {edge[1] for edges in trees.values() for edge in edges}:
            self.used[wire.x, wire.y] += wire.wire.is_output
        self.outputs = {(x, y): tile.outputs() for x, y, tile in fabric.places()}
        shares = [self.share(place) for place in self.used]
        self.hottest = max(shares + [0.01])
        for end in {end for edges in trees.values() for edge in edges for end in edge}:
            if end.wire.row and end.wire.is_output:
                self.taken[end.wire.row.wire_class] += 1

    def share(self, place):
        """The share of the matrix outputs of a place that an edge enters."""
        return self.used[place] / max(self.outputs[place], 1)


class Picture:
    """The picture of a design. names: the net that each cell drives, and whether it has a latch, by `c5`; empty without a
    netlist. chosen: the nets that alone stay in colour, or none. timing: a timing text or None."""

    def __init__(self, fabric, design, title, cells, chosen, timing):
        self.fabric, self.design, self.title, self.cells = fabric, design, title, cells
        self.chosen, self.timing, self.out = chosen, timing, []
        self.trees = {net: [tuple(fabric.wire(word) for word in edge) for edge in edges]
                      for net, edges in design.nets.items() if edges}
        self.shapes = {net: Shape(net, edges) for net, edges in self.trees.items()}
        counts = give_lanes([shape for net, shape in self.shapes.items() if net not in CONSTANTS])
        give_lanes([shape for net, shape in self.shapes.items() if net in CONSTANTS])
        self.sheet = Sheet(fabric, counts)
        self.sums = self._sums()
        self.usage = Usage(fabric, self.trees)
        self.shared = design.shared_wires()
        self.thin = max(0.7, min(1.9, min(self.sheet.pitch.values()) * 0.62))

    def _sums(self):
        """The sites on the longest path, as (x, y, BEL), each with the first stop there: its sum and its wire."""
        sums = {}
        for total, word in self.timing.stops if self.timing else ():
            stop = self.fabric.wire(word)
            if stop.wire.bel and stop.wire.bel.kind != "MUX8LUT":
                sums.setdefault((stop.x, stop.y, stop.wire.bel), (total, word))
        return sums

    def text(self):
        """The whole text."""
        sheet = self.sheet
        width, height = sheet.right + 24 * sheet.scale, sheet.bottom + 128 * sheet.scale
        self.out = [f'<svg xmlns="http://www.w3.org/2000/svg" viewBox="0 0 {width:.0f} {height:.0f}">',
                    f"<style>{STYLE}</style>", f'<rect width="{width:.0f}" height="{height:.0f}" fill="#fcfcfa"/>']
        self._head()
        self._places()
        self._nets("constants", [shape for net, shape in self.shapes.items() if net in CONSTANTS])
        self._nets("nets", [shape for net, shape in self.shapes.items() if net not in CONSTANTS])
        self._sites()
        self._shared_wires()
        if self.timing:
            self._path()
        self._foot()
        return "\n".join(self.out + ["</svg>"]) + "\n"

    def _write(self, x, y, words, size, colour="#333", anchor="start"):
        self.out.append(f'<text x="{number(x)}" y="{number(y)}" font-size="{number(size)}" style="fill:{colour}" '
                        f'text-anchor="{anchor}">{html.escape(words)}</text>')

    def _rect(self, left, top, width, height, fill, more=""):
        self.out.append(f'<rect x="{number(left)}" y="{number(top)}" width="{number(width)}" height="{number(height)}" '
                        f'fill="{fill}"{more}/>')

    def _head(self):
        """The title, what is used, and the numbers of columns and rows."""
        sheet, design, scale = self.sheet, self.design, self.sheet.scale
        self._write(sheet.left, 36 * scale, self.title, 24 * scale)
        words = [f"{self.fabric.columns} x {self.fabric.rows} places",
                 f"{len(design.cells)} of {self.fabric.sites('LUT4c')} look-up tables",
                 f"{len(design.ports)} of {self.fabric.sites('IO')} pads",
                 f"{len(self.trees)} nets, {sum(map(len, self.trees.values()))} edges"]
        if self.timing:
            words.append(f"longest path {self.timing.delay} units")
        self._write(sheet.left, 60 * scale, "  ·  ".join(words), 14 * scale, "#555")
        if design.report:
            told = f"{design.report}: {len(self.shared)} wires are in more than one net" if self.shared else design.report
            self._write(sheet.left, 79 * scale, told, 13 * scale, RED)
        for x in range(self.fabric.columns):
            self._write(sheet.box(x, 0)[0] + sheet.box_width / 2, sheet.top - 8 * scale, f"X{x}", 12 * scale, "#888", "middle")
        for y in range(self.fabric.rows):
            middle = sheet.box(0, y)[1] + sheet.box_height / 2
            self._write(sheet.left - 10 * scale, middle, f"Y{y}", 12 * scale, "#888", "end")

    def _places(self):
        """A ground for each tile, in the colour of its heat; red round a tile with shared wires."""
        crowded = {(wire.x, wire.y) for wire in map(self.fabric.wire, self.shared)}
        sites = map(self.fabric.site, [*self.design.cells.values(), *self.design.ports.values()])
        standing = collections.Counter((x, y) for x, y, _ in sites)
        self.out.append('<g id="places">')
        for x, y, tile in self.fabric.places():
            left, top = self.sheet.box(x, y)
            edge = f'{RED}" stroke-width="2' if (x, y) in crowded else "#d9d9d2"
            used, outputs, slots = self.usage.used[x, y], self.usage.outputs[x, y], len(self.sheet.slots_of(tile))
            told = f"X{x}Y{y} {tile.name}: {used} of {outputs} matrix outputs in use, {standing[x, y]} of {slots} sites"
            self.out.append(f'<g data-place="X{x}Y{y}"><title>{html.escape(told)}</title>')
            self._rect(left + 1, top + 1, self.sheet.box_width - 2, self.sheet.box_height - 2,
                       shade(self.usage.share((x, y)) / self.usage.hottest), f' rx="4" stroke="{edge}"')
            self.out.append("</g>")
        self.out.append("</g>")

    # ---- sites

    def _sites(self):
        """A slot for each look-up table and pad, with its name where something stands on it."""
        cells = {site: cell for cell, site in self.design.cells.items()}
        ports = {site: key for key, site in self.design.ports.items()}
        self.out.append('<g id="sites">')
        for x, y, tile in self.fabric.places():
            for bel in self.sheet.slots_of(tile):
                site = f"X{x}Y{y}.{bel.letter}"
                if site in cells:
                    self._cell(x, y, bel, site, cells[site])
                elif site in ports:
                    way, port = ports[site]
                    fill, told = (INPUT, "input") if way == "in" else (OUTPUT, "output")
                    data = f' data-port="{html.escape(f"{way} {port}")}"'
                    self._slot(x, y, bel, fill, f"{site}: {told} {port}", port, data)
                else:
                    self._slot(x, y, bel, FREE, f"{site}: free", "", "")
        self.out.append("</g>")

    def _cell(self, x, y, bel, site, name):
        """A look-up table with a cell. A flip-flop shows by the net at EN where no netlist is given."""
        cell = self.cells.get(name)
        has_latch = cell.latch is not None if cell else f"X{x}Y{y}/{bel.prefix}EN" in self._enabled()
        told = f"{site}: cell {name}" + (f" drives {cell.net} of {', '.join(cell.inputs) or 'no input'}" if cell else "")
        shown = short_name(cell.net) if cell else name
        self._slot(x, y, bel, REGISTER if has_latch else TABLE, told, shown, f' data-cell="{html.escape(name)}"')

    def _enabled(self):
        """The wires that the net `one` reaches: among them is EN of each look-up table whose flip-flop is in use."""
        return {wire for _, wire in self.design.nets.get("one", ())}

    def _slot(self, x, y, bel, fill, told, shown, data):
        left, top, width, height = self.sheet.slot(x, y, bel)
        # a long name is written smaller, and cut where even that does not help
        size = min(12, height * 0.66, max(9.0, (width - 12) / (0.56 * max(len(shown), 1))))
        room = int((width - 12) / (size * 0.56) + 0.01)
        if (x, y, bel) in self.sums:
            told += "; longest path: {} units up to {}".format(*self.sums[x, y, bel])
        self.out.append(f"<g{data}><title>{html.escape(told)}</title>")
        self._rect(left + 1, top + 1, width - 5, height - 2, fill, ' rx="2.5" stroke="#7a7a74" stroke-width=".6"')
        if shown:
            cut = shown if len(shown) <= room else shown[:room - 1] + "…"
            self._write(left + 6, top + height / 2 + size * 0.36, cut, size, "#fff" if fill == REGISTER else "#222")
        self.out.append("</g>")

    # ---- nets

    def _nets(self, group, shapes):
        """The lines of nets. Nets beside those that are chosen, and all nets beside the longest path, are pale."""
        is_quiet = group == "constants"
        self.out.append(f'<g id="{group}" stroke-width="{number(0.6 if is_quiet else self.thin)}" stroke-linecap="round">')
        for at, shape in enumerate(shapes):
            is_chosen = shape.name in self.chosen
            colour = "#b4b4ae" if is_quiet and not is_chosen else net_colour(at)
            pale = bool(self.chosen) and not is_chosen
            opacity = 0.10 if pale else 0.30 if self.timing and not is_chosen else 1
            self._net(shape, colour, opacity, 2 * self.thin if is_chosen else None)
        self.out.append("</g>")

    def _net(self, shape, colour, opacity, width):
        strokes = self.sheet.strokes(shape)
        path = "".join(f"M{number(a)} {number(b)}" + (f"H{number(c)}" if b == d else f"V{number(d)}")
                       for a, b, c, d in strokes.lines)
        dots = "".join(f"M{number(a)} {number(b)}h0" for a, b in strokes.dots)
        told = f"{self._net_name(shape.name)}: {shape.sinks} pins, {len(shape.edges)} edges"
        wide = f' stroke-width="{number(width)}"' if width else ""
        marks = f'<path d="{dots}" stroke-width="{number(2.6 * (width or self.thin))}"/>' if dots else ""
        self.out.append(f'<g class="net" data-net="{html.escape(shape.name)}" stroke="{colour}" opacity="{opacity}"{wide}>'
                        f'<title>{html.escape(told)}</title><path d="{path}"/>{marks}</g>')

    def _net_name(self, name):
        """The name of a net with what it is in the netlist."""
        cell = self.cells.get(name[5:]) if name.startswith("cell ") else None
        return f"net {name}" + (f", {cell.net}" if cell else "")

    def _shared_wires(self):
        """A red dot for each net and each wire that it shares."""
        points = []
        for word, nets in self.shared.items():
            wire = self.fabric.wire(word)
            points += [self.sheet.crossing(self.shapes[net], wire.x, wire.y) for net in nets]
        marks = "".join(f"M{number(a)} {number(b)}h0" for a, b in dict.fromkeys(points))
        if marks:
            self.out.append(f'<path id="shared" d="{marks}" fill="none" stroke="{RED}" stroke-width="{number(self.thin * 4.5)}" '
                            'stroke-linecap="round" pointer-events="none"/>')

    # ---- the longest path

    def _path(self):
        """The stops of a timing text along the lanes of their nets, and at each cell on the way the sum up to it."""
        net_of = {end: self.shapes[net] for net, edges in self.trees.items() for edge in edges for end in edge}
        points, before = [], None
        for _, word in self.timing.stops:
            stop = self.fabric.wire(word)
            shape = net_of[stop]
            if stop.wire.bel and stop.wire.bel.kind != "MUX8LUT":
                level = self.sheet.pin(stop.x, stop.y, stop.wire)
                leg = [(self.sheet.crossing(shape, stop.x, stop.y)[0], level[1]), level]
                points += leg if stop.wire.is_output else leg[::-1]
            elif before and before.y == stop.y and before.x != stop.x:
                points += [self.sheet.crossing(shape, end.x, end.y) for end in (before, stop)]
            before = stop
        if points:
            self._path_line(points)

    def _path_line(self, points):
        wide = 2.6 * min(2, self.sheet.scale)
        path = "M" + "L".join(f"{number(a)} {number(b)}" for a, b in points)
        self.out.append('<g id="path" stroke-linejoin="round" stroke-linecap="round" pointer-events="none">')
        for colour, width in (("#fff", 2.2 * wide), (PATH, wide)):
            self.out.append(f'<path d="{path}" fill="none" stroke="{colour}" stroke-width="{number(width)}"/>')
        for (x, y, bel), (total, _) in self.sums.items():
            left, top, width, height = self.sheet.slot(x, y, bel)
            size = min(10, height * 0.62)
            room = 5 + size * 0.6 * len(str(total))
            self.out.append(f'<g data-sum="X{x}Y{y}.{bel.letter} {total}">')
            self._rect(left + 1, top + 1, width - 5, height - 2, "none", f' rx="2.5" stroke="{PATH}" stroke-width="1.6"')
            self._rect(left + width - 4 - room, top + 1, room, height - 2, PATH, ' rx="2"')
            self._write(left + width - 4 - room / 2, top + height / 2 + size * 0.36, str(total), size, "#fff", "middle")
            self.out.append("</g>")
        for (x, y), fill, edge in ((points[0], "#fff", PATH), (points[-1], PATH, "#fff")):
            self.out.append(f'<circle cx="{number(x)}" cy="{number(y)}" r="{number(1.5 * wide)}" fill="{fill}" stroke="{edge}" '
                            f'stroke-width="{number(0.7 * wide)}"/>')
        self.out.append("</g>")

    # ---- the foot

    def _foot(self):
        """What the colours mean, the scale of the heat, and the wires in use by their classes."""
        sheet, scale = self.sheet, self.sheet.scale
        x, y = sheet.left, sheet.bottom + 30 * scale
        self.out.append('<g id="foot">')
        for fill, words in ((TABLE, "look-up table"), (REGISTER, "with its flip-flop"), (INPUT, "input pad"),
                            (OUTPUT, "output pad"), (FREE, "free")):
            self._rect(x, y - 10 * scale, 13 * scale, 13 * scale, fill, ' rx="2.5" stroke="#888" stroke-width=".7"')
            self._write(x + 18 * scale, y + scale, words, 12 * scale)
            x += (38 + 6.2 * len(words)) * scale
        signs = [("shared wire", RED)] if self.shared else []
        signs += [("longest path, with the sums at its cells", PATH)] if self.timing else []
        for words, colour in signs:
            self._rect(x, y - 6 * scale, 22 * scale, 4 * scale, colour, ' rx="2"')
            self._write(x + 28 * scale, y + scale, words, 12 * scale)
            x += (48 + 6.2 * len(words)) * scale
        self._scale_of_heat(sheet.left, y + 30 * scale)
        used = [f"{kind}: {self.usage.taken[kind]} of {count}" for kind, count in self.usage.total.items()]
        self._write(sheet.left, y + 74 * scale, "wires in use    " + "    ·    ".join(used), 12 * scale, "#555")
        self.out.append("</g>")

    def _scale_of_heat(self, x, y):
        scale, steps = self.sheet.scale, 20
        self._write(x, y, "matrix outputs in use", 12 * scale)
        x += 132 * scale
        for step in range(steps):
            self._rect(x + 5 * scale * step, y - 10 * scale, 5.2 * scale, 12 * scale, shade(step / (steps - 1)))
        self._rect(x, y - 10 * scale, 5 * scale * steps, 12 * scale, "none", ' stroke="#bbb" stroke-width=".7"')
        self._write(x, y + 15 * scale, "0", 10 * scale, "#888")
        self._write(x + 5 * scale * steps, y + 15 * scale, f"{100 * self.usage.hottest:.0f} %", 10 * scale, "#888", "end")
