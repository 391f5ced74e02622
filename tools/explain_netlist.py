"""What tools/explain reads of a BLIF file, what of a line of it is wrong, and what a cell or a port is in it."""
import collections

from explain_text import lines_of, listed, near_words, plural, shown
from split_covers import split_covers

Cover = collections.namedtuple("Cover", "inputs output line rows")
Latch = collections.namedtuple("Latch", "input output kind control line")


def joined_lines(path, last=None):
    """Lines with words, each with those that it goes on in, and the number of its first line."""
    begin, whole = 0, ""
    for number, text in lines_of(path):
        if last is not None and number > last and not whole:
            return
        text = text.split("#", 1)[0]
        begin = begin or number
        if text.endswith("\\"):
            whole += text[:-1]
            continue
        words = (whole + text).split()
        if words:
            yield begin, words
        begin, whole = 0, ""


class Netlist:
    """The first model of a BLIF file: its ports, covers and latches, with the drivers of its nets."""

    def __init__(self, path):
        self.inputs, self.outputs, self.clocks = [], [], {}
        self.covers, self.latches, self.drivers, self.models = [], [], {}, {}
        self.is_flat = True
        for line, words in joined_lines(path):
            if words[0] == ".model" and len(words) > 1:
                self.models.setdefault(words[1], line)
            if len(self.models) < 2:
                self.take(line, words)
        self.data_inputs = [port for port in dict.fromkeys(self.inputs) if port not in self.clocks]

    def take(self, line, words):
        word, rest = words[0], words[1:]
        if word == ".inputs":
            self.inputs += rest
            for net in rest:
                self.drivers.setdefault(net, []).append(line)
        elif word == ".outputs":
            self.outputs += rest
        elif word == ".clock":
            self.clocks.update((net, line) for net in rest)
            self.drivers.update((net, [line]) for net in rest)
        elif word == ".names" and rest:
            self.covers.append(Cover(rest[:-1], rest[-1], line, []))
            self.drivers.setdefault(rest[-1], []).append(line)
        elif word == ".conn" and len(rest) == 2:
            self.covers.append(Cover(rest[:1], rest[1], line, [["1", "1"]]))
            self.drivers.setdefault(rest[1], []).append(line)
        elif word == ".latch" and len(rest) > 1:
            kind, control = (rest[2], rest[3]) if len(rest) > 3 else ("", "")
            self.latches.append(Latch(rest[0], rest[1], kind, control, line))
            self.drivers.setdefault(rest[1], []).append(line)
            if control and control != "NIL":
                self.clocks.setdefault(control, line)
        elif word in (".subckt", ".gate"):
            self.is_flat = False
        elif not word.startswith(".") and self.covers:
            self.covers[-1].rows.append(words)

    def ports(self):
        return self.data_inputs + self.outputs

    def cells(self):
        """For each cell by its number the net that it drives, its line, the nets that it reads, and how it is made. Wide covers
        are split."""
        covers = split_covers(self.covers)
        readers = collections.Counter(net for cover in covers for net in cover.inputs)
        readers.update(latch.input for latch in self.latches)
        takers, outputs = collections.defaultdict(list), set(self.outputs)
        for latch in self.latches:
            takers[latch.input].append(latch)
        found, shared = [], set()
        for cover in covers:
            if not readers[cover.output] and cover.output not in outputs:
                continue
            latch = takers[cover.output][0] if takers[cover.output] else None
            if latch and readers[cover.output] == 1 and cover.output not in outputs:
                shared.add(latch)
                found.append((latch.output, latch.line, cover.inputs, "flip-flop with its table"))
            else:
                found.append((cover.output, cover.line, cover.inputs, "table"))
        alone = [latch for latch in self.latches if latch not in shared]
        return found + [(latch.output, latch.line, [latch.input], "flip-flop") for latch in alone]

    def net(self, words, path):
        """What a net of an implementation is in this file: `cell c0`, `in reset`, `zero`, `one`."""
        if words[:1] == ["cell"] and len(words) == 2:
            text = self.cell(words[1], path)
            return text and f"net cell {text}"
        if words[:1] == ["in"] and len(words) == 2:
            return f"net in {shown(words[1])}: what comes in at this port"
        constants = {"zero": "net zero: the constant 0", "one": "net one: the constant 1"}
        return constants.get(words[0]) if len(words) == 1 else None

    def cell(self, name, path):
        """`c5: the flip-flop that drives net q (d.blif:12)`, or None where it cannot be told."""
        if not self.is_flat or not name[1:].isdigit() or len(name) > 9:
            return None
        cells = self.cells()
        if int(name[1:]) >= len(cells):
            return f"{name}: the design has no such cell; it has {len(cells)}, c0 to c{len(cells) - 1}"
        net, line, _, kind = cells[int(name[1:])]
        return f"{name}: the {kind} that drives net {shown(net)} ({shown(path)}:{line})"


def explain_netlist(case):
    """A line of a BLIF file."""
    words = next((words for line, words in joined_lines(case.path, case.line) if line == case.line), [])
    if case.status == 5:
        yield from unsupported(case, words)
        return
    netlist = Netlist(case.path)
    if case.reason == "undriven":
        yield from undriven(netlist, words)
    elif case.reason == "drivers":
        nets = words[1:] if words[:1] == [".inputs"] else words[-1:] if words[:1] == [".names"] else words[1:3]
        for net in nets:
            lines = netlist.drivers.get(net, [])
            if len(lines) > 1:
                yield f"net {shown(net)} is driven by the lines {listed(map(str, lines))}"
    elif case.reason == "cover row":
        yield from cover_row(case, words)
    elif case.reason == "name":
        strange = [sign for sign in case.text.split("#", 1)[0] if not (" " <= sign <= "~" or sign == "\t")]
        if strange:
            yield f"at the {case.text.index(strange[0]) + 1}. place stands the byte {ord(strange[0]):02x}"
        else:
            yield "the byte stands in a line that this one goes on in"
    else:
        yield from other_faults(case, words, netlist)


def other_faults(case, words, netlist):
    if case.reason == "row" and words:
        form = FORMS.get(words[0])
        yield f"the line has {plural(len(words), 'word')}" + (f"; its form is {form}" if form else "")
    elif case.reason == "name twice" and words[:1] == [".model"]:
        yield f"model {shown(words[1])} begins in line {netlist.models.get(words[1])} already"
    elif case.reason == "name twice":
        ports = netlist.inputs if words[:1] == [".inputs"] else netlist.outputs
        yield from (f"port {shown(port)} stands {ports.count(port)} times in {words[0]}" for port in dict.fromkeys(words[1:])
                    if ports.count(port) > 1)
    elif case.reason == "number" and words:
        yield f"the initial value is {shown(words[-1])}"
    elif case.reason == "formal":
        seen = set()
        for word in words[2:]:
            formal, sign, actual = word.partition("=")
            if not (formal and sign and actual):
                yield f"{shown(word, 60)} is not PORT=NET"
            elif formal in seen:
                yield f"port {shown(formal)} is joined twice"
            seen.add(formal)


FORMS = {
    ".model": ".model NAME", ".clock": ".clock NAME", ".names": ".names IN .. OUT", ".conn": ".conn FROM TO",
    ".latch": ".latch IN OUT [TYPE CONTROL] [INITIAL]", ".subckt": ".subckt MODEL FORMAL=ACTUAL ..", ".end": ".end",
}


def undriven(netlist, words):
    read = {".names": words[1:-1], ".conn": words[1:2], ".latch": words[1:2], ".outputs": words[1:]}.get(words[0] if words else "", [])
    if words[:1] == [".latch"] and len(words) > 4:
        read = read + words[4:5]
    missing = [net for net in dict.fromkeys(read) if net not in netlist.drivers]
    if missing and netlist.is_flat:
        what = "output" if words[0] == ".outputs" else "net"
        yield f"nothing drives {what} {listed(missing)}{near_words(missing[0], netlist.drivers) if len(missing) == 1 else ''}"


def cover_row(case, words):
    heads = [head for line, head in joined_lines(case.path, case.line - 1) if head[0] in (".names", ".conn", ".latch", ".subckt")]
    if not heads or heads[-1][0] != ".names":
        return
    inputs = len(heads[-1]) - 2
    pattern, output = ("", words[-1]) if len(words) == 1 else (words[0], words[-1])
    if len(pattern) != inputs:
        yield f"the table has {plural(inputs, 'input')}, and this row {plural(len(pattern), 'sign')} for them"
    elif set(pattern) - set("01-"):
        yield f"no sign of a row: {listed(sorted(set(pattern) - set('01-')))}"
    elif output not in ("0", "1"):
        yield f"the row ends with {shown(output, 40)}"
    else:
        yield f"this row ends with {output}, and the rows before it with another value"


# The cells that Yosys leaves in a netlist, by how their names begin.
CELLS = (
    ("$_DLATCH", "a latch: give the signal a value on each path of always @*"),
    ("$_SR_", "a latch that is set and reset"),
    ("$_SDFF", "a flip-flop with a synchronous reset, of which dfflegalize -cell $_DFF_P_ 01 makes logic"),
    ("$_DFFSR", "a flip-flop with an asynchronous set and reset"),
    ("$_ALDFF", "a flip-flop with an asynchronous load"),
    ("$_DFFE_", "a flip-flop with an enable, of which dfflegalize -cell $_DFF_P_ 01 makes logic"),
    ("$_DFF_N_", "a flip-flop with a falling clock: use posedge"),
    ("$_DFF_P_", "a plain flip-flop: write_blif writes it as .latch where it runs without -icells"),
    ("$_DFF_", "a flip-flop with an asynchronous reset: make the reset synchronous, or run async2sync"),
    ("$_TBUF_", "a tri-state buffer: inside of a chip use multiplexers"),
    ("$mem", "a memory: memory_map makes flip-flops of it"),
    ("$lut", "a look-up table: write_blif writes it as .names where it runs without -icells"),
    ("$_", "a gate: abc -lut 4 makes look-up tables of gates"),
    ("$", "a cell of Yosys that synth maps to gates"),
)


def unsupported(case, words):
    construct = case.reason.split(" ")
    netlist = Netlist(case.path)
    if construct[0] == "model" and construct[-1].startswith("$"):
        yield f"{shown(construct[-1])} is {next(text for begin, text in CELLS if construct[-1].startswith(begin))}"
    elif construct[0] == "model":
        yield f"models of this file: {listed(netlist.models)}{near_words(construct[-1], netlist.models)}"
    elif construct[0] == "wide" and words[:1] == [".names"]:
        yield f"the table of {shown(words[-1])} has {plural(len(words) - 2, 'input')}, and at most 16 are split into small tables"
    elif case.reason in ("clock as data", "second clock"):
        mine = [net for net in words[1:] if net in netlist.clocks]
        yield f"clocks of the design: {listed(f'{net} (line {line})' for net, line in netlist.clocks.items())}"
        if mine and case.reason == "clock as data":
            yield f"this line names {listed(mine)}"
    elif construct[0] == "cycle" and netlist.is_flat:
        nets = construct[1:]
        lines = [f"{net} (line {netlist.drivers[net][0]})" for net in nets if net in netlist.drivers]
        yield f"each is read by the table of the one before it: {listed(lines, 8)}"
