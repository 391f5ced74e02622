"""Verilog texts of expressions in one another, with what a simulation of them shows: for tools/check_garbage.

A text is a top without instances: wires, flip-flops of UserCLK and outputs, with expressions at random. Wires may read one another in
loops. The trace that has to come is found here by the values of FORMATS, "Simulations": a bit is 0, 1 or open, here None.
"""
from garbage_bench import Case, Expected
from garbage_breaks import broken

STATE = b"fabulous-state 1\nin way X0Y0.A\nin value X1Y0.A\n"
INPUTS = {"X0Y0_A_O_top": 1, "X1Y0_A_O_top": 1}
MOST_DEEP = 300
MOST_BITS = 128


def both(left, right):
    """The bits that are known and the same on both sides."""
    return [one if one == other else None for one, other in zip(left, right)]


def and_bit(left, right):
    return 0 if 0 in (left, right) else None if None in (left, right) else 1


def not_bit(bit):
    return None if bit is None else 1 - bit


def xor_bit(left, right):
    return None if None in (left, right) else left ^ right


def number(bits):
    return sum(bit << place for place, bit in enumerate(bits))


def equal(left, right):
    if any(None not in pair and pair[0] != pair[1] for pair in zip(left, right)):
        return [0]
    return [None if None in left + right else 1]


def less(left, right):
    """A difference: open in every bit where some bit is open."""
    if None in left + right:
        return [None] * len(left)
    value = (number(left) - number(right)) % (1 << len(left))
    return [value >> place & 1 for place in range(len(left))]


def picked(vector, index):
    """The bit at an index: known where all bits that its known digits leave are known and agree."""
    left = [place for place in range(len(vector)) if all(digit is None or place >> at & 1 == digit for at, digit in enumerate(index))]
    found = {vector[place] for place in left}
    return [found.pop() if len(found) == 1 else None]


OPERATIONS = {
    "&": lambda left, right: [and_bit(*pair) for pair in zip(left, right)],
    "|": lambda left, right: [not_bit(and_bit(not_bit(one), not_bit(other))) for one, other in zip(left, right)],
    "^": lambda left, right: [xor_bit(*pair) for pair in zip(left, right)],
    "==": equal,
    "-": less,
}


def value_of(tree, values):
    """The bits of an expression, the least significant first. A tree is a kind and its parts."""
    kind, *parts = tree
    if kind == "name":
        return values[parts[0]]
    if kind == "part":
        return values[parts[0]][parts[2]:parts[1] + 1]
    if kind == "at":
        return picked(values[parts[0]], value_of(parts[1], values))
    if kind == "constant":
        return [int(digit) for digit in reversed(parts[0])]
    if kind == "join":
        return [bit for part in reversed(parts[0]) for bit in value_of(part, values)]
    if kind == "not":
        return [not_bit(bit) for bit in value_of(parts[0], values)]
    if kind == "if":
        test, = value_of(parts[0], values)
        left, right = value_of(parts[1], values), value_of(parts[2], values)
        return both(left, right) if test is None else left if test else right
    return OPERATIONS[kind](value_of(parts[0], values), value_of(parts[1], values))


def operand(tree):
    """An expression as an operand: an operator expression stands in parentheses."""
    return "(%s)" % text_of(tree) if tree[0] in ("not", "if") or tree[0] in OPERATIONS else text_of(tree)


def text_of(tree):
    kind, *parts = tree
    if kind == "name":
        return parts[0]
    if kind == "part":
        return "%s[%d]" % tuple(parts[:2]) if parts[1] == parts[2] else "%s[%d:%d]" % tuple(parts)
    if kind == "at":
        return "%s[%s]" % (parts[0], text_of(parts[1]))
    if kind == "constant":
        return "%d'b%s" % (len(parts[0]), parts[0])
    if kind == "join":
        return "{%s}" % ", ".join(map(text_of, parts[0]))
    if kind == "not":
        return "~" + operand(parts[0])
    if kind == "if":
        return "%s ? %s : %s" % tuple(map(operand, parts))
    return "%s %s %s" % (operand(parts[0]), kind, operand(parts[1]))


def depth_of(text):
    """How many brackets are open in one another at most."""
    deepest = depth = 0
    for sign in text:
        depth += (sign in "({[") - (sign in ")}]")
        deepest = max(deepest, depth)
    return deepest


class Maker:
    """Makes expressions of given widths over nets with their widths."""

    def __init__(self, chance, nets):
        self.chance, self.nets = chance, nets

    def constant(self, width):
        return "constant", "".join(self.chance.choice("01") for _ in range(width))

    def leaf(self, width):
        """A name, a part of one, a constant, or these joined."""
        wide = [name for name, there in self.nets.items() if there >= width]
        if width > MOST_BITS or (not wide and width > 1):
            return "join", [self.leaf(width - width // 2), self.leaf(width // 2)]
        if not wide or not self.chance.randrange(6):
            return self.constant(width)
        name = self.chance.choice(wide)
        if self.nets[name] == width and (width == 1 or self.chance.randrange(2)):
            return "name", name
        low = self.chance.randrange(self.nets[name] - width + 1)
        return "part", name, low + width - 1, low

    def bit(self, depth):
        """One bit: of a comparison, or of a vector at an index."""
        sized = [name for name, width in self.nets.items() if width in (2, 4, 8, 16, 32)]
        if sized and self.chance.randrange(2):
            name = self.chance.choice(sized)
            return "at", name, self.tree(self.nets[name].bit_length() - 1, depth - 1)
        width = self.chance.randrange(1, 20)
        return "==", self.tree(width, depth - 1), self.tree(width, depth - 1)

    def tree(self, width, depth):
        if depth <= 0 or not self.chance.randrange(8):
            return self.leaf(width)
        kind = self.chance.randrange(8)
        if kind == 0:
            return "not", self.tree(width, depth - 1)
        if kind == 1:
            return "if", self.tree(1, depth - 1), self.tree(width, depth - 1), self.tree(width, depth - 1)
        if kind < 4 and width > 1:
            cut = self.chance.randrange(1, width)
            return "join", [self.tree(width - cut, depth - 1), self.tree(cut, depth - 1)]
        if kind < 4:
            return self.bit(depth)
        return self.chance.choice("&|^--"), self.tree(width, depth - 1), self.tree(width, depth - 1)

    def nest(self, width, levels):
        """Operators so deep in one another, on one side."""
        tree = self.leaf(width)
        for _ in range(levels):
            kind, other = self.chance.choice(("-", "-", "-", "^", "not", "join")), self.leaf(width)
            if kind == "not":
                tree = "not", tree
            elif kind == "join":
                tree = "join", [tree]
            else:
                tree = (kind, tree, other) if self.chance.randrange(2) else (kind, other, tree)
        return tree

    def any(self, width):
        """An expression that is wide, or deep."""
        if self.chance.randrange(4):
            return self.tree(width, self.chance.randrange(1, 6))
        return self.nest(width, self.chance.choice((3, 20, 100, 280)))


class Text:
    """A top: its nets, and what drives them."""

    def __init__(self, chance):
        self.chance, self.name = chance, "nest.v"
        count = chance.randrange(1, 7)
        self.nets = dict(INPUTS, WriteData=32)
        self.wires = {"w%d" % place: chance.choice((1, 2, 3, 4, 8, 8, 13, 16, 32)) for place in range(count)}
        self.flops = {"r%d" % place: chance.choice((1, 4, 9)) for place in range(chance.randrange(3))}
        self.outputs = {"X2Y0_%s_I_top" % letter: 1 for letter in "ABCD"[:chance.randrange(1, 5)]}
        self.drivers = {}
        self._drive()

    def _drive(self):
        is_looped = not self.chance.randrange(4)
        nets = dict(self.nets, **self.flops)
        if is_looped:
            nets.update(self.wires)
        for name, width in self.wires.items():
            self.drivers[name] = Maker(self.chance, nets).any(width)
            nets[name] = width
        self.nets.update(nets)
        for name, width in {**self.flops, **self.outputs}.items():
            self.drivers[name] = Maker(self.chance, self.nets).any(width)

    def head(self):
        ports = ["input CLK", "input UserCLK", "input WriteStrobe", "input [31:0] WriteData"]
        ports += ["input " + name for name in INPUTS] + ["output " + name for name in self.outputs]
        lines = ["module nest ("] + ["  %s," % port for port in ports[:-1]] + ["  " + ports[-1], ");"]
        for word, nets in (("wire", self.wires), ("reg", self.flops)):
            lines += ["  %s %s%s;" % (word, "[%d:0] " % (width - 1) if width > 1 else "", name) for name, width in nets.items()]
        return lines

    def item(self, name, text):
        return "  always @(posedge UserCLK) %s <= %s;" % (name, text) if name in self.flops else "  assign %s = %s;" % (name, text)

    def lines(self, name=None, text=None, more=()):
        """The text, with another expression for one net, and with more items. Without a name nothing is another."""
        items = [self.item(net, text if net == name else text_of(tree)) for net, tree in self.drivers.items()]
        return self.head() + items + ["  " + item for item in more] + ["endmodule"]

    def line_of(self, name):
        return len(self.head()) + 1 + list(self.drivers).index(name)

    def settle(self, values):
        """The least solution: all nets that something drives are open at first."""
        driven = {**self.wires, **self.outputs}
        values.update((name, [None] * width) for name, width in driven.items())
        is_done = False
        while not is_done:
            found = {name: value_of(self.drivers[name], values) for name in driven}
            is_done = all(values[name] == found[name] for name in driven)
            values.update(found)

    def trace(self, rows):
        """What a simulation prints of these rows of `way` and `value`."""
        held = {name: [0] * width for name, width in self.flops.items()}
        found = [" ".join("o%d" % place for place in range(len(self.outputs)))]
        for way, value in rows:
            values = dict(held, X0Y0_A_O_top=[way], X1Y0_A_O_top=[value], WriteData=[0] * 32)
            self.settle(values)
            found.append("".join("?" if values[name] == [None] else str(values[name][0]) for name in self.outputs))
            held = {name: value_of(self.drivers[name], values) for name in self.flops}
        return "".join(line + "\n" for line in found).encode()


def with_bad_width(text, maker, name, width):
    return text.lines(name, text_of(("&", maker.tree(width, 2), maker.tree(width + 1, 2)))), "malformed nest.v:0 width"


def with_bad_select(text, maker, name, width):
    other, there = maker.chance.choice(sorted(text.nets.items()))
    shapes = ["%s[%d]" % (other, there), "%s[%d:0]" % (other, there), "%s[4294967294]" % other]
    shapes += ["%s[0]" % other] if there == 1 else ["%s[%s]" % (other, text_of(maker.leaf(there.bit_length() + 1)))]
    return text.lines(name, maker.chance.choice(shapes)), "malformed nest.v:0 select"


def with_bad_name(text, maker, name, width):
    unknown = "name", maker.chance.choice(("none", "X", "w99", "posedge_"))
    return text.lines(name, text_of(("-", unknown, maker.tree(width, 2)))), "malformed nest.v:0 unknown name"


def with_two_drivers(text, maker, name, width):
    return text.lines(more=[text.item(name, text_of(maker.leaf(width))).strip()]), "malformed nest.v:0 drivers"


def with_bad_token(text, maker, name, width):
    good = text_of(maker.tree(width, 3))
    shapes = ("(%s", "%s)", "{%s", "%s}", "()", "{}", "{%s,}", "~~(%s)", "(%s) -", "(%s) & (%s) | (%s)", "X0Y0_A_O_top[]", "WriteData[1:0][0]",
              "(%s)[0]", "{%s}[0]", "2'b1", "0'b", "3'b0120", "WriteData[01]", "WriteData[0:1", "(%s) == == (%s)", "(%s) ? (%s)", "(%s) + (%s)",
              "-(%s)", "4294967295'b1", "WriteData[4294967295]", "$a", "", "assign", "1'h0")
    shape = maker.chance.choice(shapes)
    return text.lines(name, shape.replace("%s", good)), "malformed nest.v:%d token" % text.line_of(name)


def with_deep(text, maker, name, width):
    """More brackets than may be open, of one kind or of several."""
    tree = text_of(maker.tree(width, 2))
    levels = MOST_DEEP - depth_of(tree) + maker.chance.choice((1, 1, 2, 700))
    kinds = [maker.chance.choice(("()", "{}")) for _ in range(levels)]
    deep = "".join(kind[0] for kind in kinds) + tree + "".join(kind[1] for kind in reversed(kinds))
    return text.lines(name, deep), "limit nest.v:%d expression depth 301 300" % text.line_of(name)


def with_long_constant(text, maker, name, width):
    bits = MOST_BITS + maker.chance.choice((1, 2, 128, 5000))
    return text.lines(name, "%d'b%s & %s" % (bits, "01" * (bits // 2) + "1" * (bits % 2), operand(maker.tree(width, 2)))), \
        "limit nest.v:%d literal bits %d 128" % (text.line_of(name), bits)


FAULTS = (with_bad_width, with_bad_select, with_bad_name, with_two_drivers, with_bad_token, with_bad_token, with_deep, with_long_constant)


def printed(chance, lines):
    """The bytes of a text, at times with blanks and comments."""
    if not chance.randrange(3):
        lines = [line.replace(" = ", chance.choice((" =\t", " = /* a ( */ ", "  =  "))) + chance.choice(("", " // {", "\r")) for line in lines]
    return "".join(line + "\n" for line in lines).encode()


def make_expressions(chance, _here):
    """A text with its trace; the text with one fault that is known; or the text broken somehow. The first of these comes first."""
    text = Text(chance)
    rows = [(chance.randrange(2), chance.randrange(2)) for _ in range(chance.randrange(1, 5))]
    state = STATE + b"".join(b"out o%d X2Y0.%c\n" % (place, 65 + place) for place in range(len(text.outputs))) + b"end\n"
    files = {"nest.v": printed(chance, text.lines()), "none.bit": b"", "nest.state": state,
             "nest.stim": b"way value\n" + b"".join(b"%d%d\n" % row for row in rows)}
    words = [b"simulate", b"nest.v", b"none.bit", b"nest.state", b"nest.stim", b"t"]
    whole = Case(words, files, Expected(0, b"", {b"t": text.trace(rows)}))
    kind = chance.randrange(5)
    if kind < 2:
        return whole, whole
    if kind == 2:
        return whole, broken(chance, whole)
    name = chance.choice(sorted(text.drivers))
    width = {**text.wires, **text.flops, **text.outputs}[name]
    lines, report = chance.choice(FAULTS)(text, Maker(chance, text.nets), name, width)
    files = dict(files, **{"nest.v": printed(chance, lines)})
    return whole, Case(words, files, Expected(4 if report.startswith("malformed") else 6, report.encode() + b"\n", {}))
