"""What of a line of the texts of a design is wrong, for tools/explain: constraints, implementations, states, stimuli and FASM;
and what a word of a bitstream is."""
import re

from explain_netlist import Netlist
from explain_text import quoted, lines_of, listed, near_words, plural, shown, words_of


def explain_constraints(case):
    """A line of a file of --pcf."""
    words = words_of(case.text)
    if case.reason == "row":
        yield f"the line has {plural(len(words), 'word')}" + (f"; the first is {shown(words[0], 40)}" if words[:1] != ["set_io"] else "")
        yield from (f"{shown(word, 40)} is an option, and there are none" for word in words[1:2] if word.startswith("-"))
        return
    if len(words) != 3:
        return
    if case.reason == "name twice":
        yield from stood_before(case, words[1:])
    elif case.reason == "site":
        yield from no_site(case.fabric, words[2], "IO")
    elif case.reason == "port" and case.call.file("netlist"):
        yield from no_port(words[1], Netlist(case.call.file("netlist")))


def stood_before(case, names, at=1):
    """Which of the words from this place on stood in a line before."""
    for line, text in lines_of(case.path, case.line - 1):
        before = words_of(text)[at:]
        for name in names:
            if name in before:
                yield f"{shown(name)} stands in line {line} already:"
                yield quoted(case.path, line, text.strip())
                return


def no_port(port, netlist):
    if port in netlist.clocks:
        yield f"{shown(port)} is the clock"
        return
    bits = [other for other in netlist.ports() if other.startswith(port + "[")]
    if bits:
        yield f"{shown(port)} has {plural(len(bits), 'bit')}: {listed(bits)}"
        return
    found = near_words(port, netlist.ports())
    yield f"no port {shown(port)}{found or '; ports: ' + (listed(netlist.ports(), 12) or 'none')}"


def no_site(fabric, site, kind):
    """Why a word is no site, or none of this kind."""
    found = re.fullmatch(r"(X(?:0|[1-9]\d?)Y(?:0|[1-9]\d?))\.([A-Z])", site)
    if not found:
        yield f"{shown(site, 60)} is not XxYy.L, as X0Y1.A: numbers without leading zeros, a dot, one upper-case letter"
        return
    if fabric is None:
        return
    tile, why = fabric.tile_at(found.group(1))
    if tile is None:
        yield why
    else:
        bel = next((bel for bel in tile.bels if bel.letter == found.group(2)), None)
        there = [f"{other.letter} ({other.kind})" for other in tile.bels]
        if not bel:
            yield f"tile {tile.name} at {found.group(1)} has no BEL {found.group(2)}; it has {listed(there, 12) or 'none'}"
        elif bel.kind != kind:
            yield f"{site} is a site of {bel.kind}, and not of {kind}; tile {tile.name} has {listed(there, 12)}"
    if tile is None or tile.sites(kind) == 0:
        with_kind = [f"X{x}Y{y}" for x, y, other in fabric.places() if other.sites(kind)]
        yield f"places with {kind}: {listed(with_kind, 10) or 'none'}"


def no_wire(fabric, wire):
    """Why a word is no wire of the fabric."""
    place, sign, name = wire.partition("/")
    if not sign:
        yield f"{shown(wire, 60)} is not XxYy/NAME"
        return
    if fabric is None:
        return
    tile, why = fabric.tile_at(place)
    if tile is None:
        yield why
    elif name not in tile.wires:
        yield f"tile {tile.name} at {place} has no wire or pin {shown(name)}{near_words(name, tile.wires)}"


def explain_implementation(case):
    """A line of an implementation."""
    words = words_of(case.text)
    forms = {"cell": "cell cN SITE", "pad": "pad in PORT SITE or pad out PORT SITE", "edge": "edge WIRE WIRE",
             "net": "net zero, net one, net in PORT or net cell cN", "end": "end"}
    if case.reason == "row" and (reset_is_due(case) or words[:1] == ["reset"]):
        yield "a line reset PORT is the second of version 2 (fabulous-impl 2), and stands nowhere else"
    elif case.reason == "row":
        yield from row_of(case, words, forms, "fabulous-impl 1 or fabulous-impl 2")
    elif case.reason == "wire":
        for wire in words[1:3]:
            yield from no_wire(case.fabric, wire)
    elif case.reason == "site" and words:
        yield from no_site(case.fabric, words[-1], "LUT4c" if words[0] == "cell" else "IO")
    elif case.reason == "port" and len(words) == 3:
        before = [words_of(text) for _, text in lines_of(case.path, case.line)]
        ports = [other[2] for other in before if other[:2] == ["pad", "in"] and len(other) > 2]
        yield f"no line pad in {shown(words[2])} stands before{near_words(words[2], ports)}"
    elif case.reason == "number" and len(words) > 1:
        yield f"{shown(words[-1] if words[0] != 'cell' else words[1], 40)} is none"


def reset_is_due(case):
    """Whether of an implementation only the first line stands before, and is that of version 2."""
    before = [words_of(text) for _, text in lines_of(case.path, case.line - 1)]
    return [words for words in before if words] == [["fabulous-impl", "2"]]


def row_of(case, words, forms, first):
    if case.line == 1 or not words:
        yield f"the first line is {first}"
    elif words[0] in forms:
        yield f"the line has {plural(len(words), 'word')}; the form is {forms[words[0]]}"
        if words[0] == "edge" and not any(text.startswith("net ") for _, text in lines_of(case.path, case.line)):
            yield "an edge belongs to the net line before it, and there is none"
    else:
        yield f"no line begins with {shown(words[0], 40)}{near_words(words[0], forms)}"


def explain_state(case):
    """A line of a state."""
    words = words_of(case.text)
    forms = {"in": "in PORT SITE", "out": "out PORT SITE", "ff": "ff SITE 0 or ff SITE 1", "end": "end"}
    if case.reason == "row":
        yield from row_of(case, words, forms, "fabulous-state 1")
    elif case.reason == "name twice":
        yield from stood_before(case, words[1:2] if words[:1] == ["ff"] else words[1:])
    elif case.reason == "digit":
        yield f"the value is {shown(words[-1], 40)}"
    elif case.reason == "site" and words:
        yield from no_site(None, words[1] if words[0] == "ff" else words[-1], "")
    elif case.reason in ("no port", "no register") and len(words) == 3:
        yield from top_names(words)


def top_names(words):
    site = words[1] if words[0] == "ff" else words[2]
    place, _, letter = site.partition(".")
    names = {"in": f"the input {place}_{letter}_O_top of the top", "out": f"the output {place}_{letter}_I_top of the top",
             "ff": f"the register q of fab_bel_{letter} in the instance {place} of the top"}
    if words[0] in names:
        yield f"the text lacks {names[words[0]]}, or one of the inputs CLK, UserCLK, WriteStrobe and WriteData, of 32 bits or one"


def explain_stimulus(case):
    """A line of a stimulus, judged by the input ports of the state."""
    words, ports = words_of(case.text), []
    if case.call.file("state"):
        state = [words_of(text) for _, text in lines_of(case.call.file("state"))]
        ports = [other[1] for other in state if other[:1] == ["in"] and len(other) > 1]
    first = next((line for line, text in lines_of(case.path, case.line) if words_of(text)), 0)
    if case.line != first:
        yield from digits(case, words, ports)
        return
    missing, strange = [port for port in ports if port not in words], [word for word in words if word not in ports]
    if not ports:
        yield "the state has no input port: each line is -"
    if missing and case.reason == "row":
        yield f"not named: {listed(missing)}"
    if strange and ports:
        yield f"no input port of the state: {listed(strange)}{near_words(strange[0], ports)}"
    if case.reason == "name twice":
        yield f"twice: {listed(word for word in dict.fromkeys(words) if words.count(word) > 1)}"


def digits(case, words, ports):
    if case.reason == "row":
        signs = f" with {plural(len(words[0]), 'sign')}" if len(words) == 1 else ""
        yield f"the line has {plural(len(words), 'word')}{signs}, and the state has {plural(len(ports), 'input port')}"
    elif words:
        wrong = next((at for at, sign in enumerate(words[0]) if sign not in "01"), None)
        if wrong is not None:
            yield f"the {wrong + 1}. sign is {shown(repr(words[0][wrong]))}"


def explain_features(case):
    """A line of FASM: how far it can be read."""
    text = case.text.strip()
    found = re.match(r"[A-Za-z_]\w*(?:\.[A-Za-z_]\w*)*", text, re.A)
    at = found.end() if found else 0
    if case.reason == "address":
        yield f"the address begins with {shown(text[at:at + 30])}"
    elif case.reason == "value":
        yield from value_fault(text)
    elif case.reason == "feature" and "\r" in text:
        yield "a carriage return stands inside of the line"
    elif case.reason in ("feature", "annotation"):
        yield f"what cannot stand here begins with {shown(text[at:at + 30]) or 'nothing'}"


def value_fault(text):
    name, _, value = text.split("#")[0].partition("=")
    span = re.search(r"\[(\d{1,10}):(\d{1,10})\]", name)
    width = int(span.group(1)) - int(span.group(2)) + 1 if span else 1
    yield f"the value is {shown(value.strip(), 60) or 'missing'}, for an address of {plural(width, 'bit')}"


def explain_bitstream(case):
    """A word of a bitstream: what it is in a stream of this fabric. Its line is the number of the word."""
    size = case.size()
    if case.reason == "word":
        yield f"the file has {size} bytes, {size // 4} words and {size % 4} bytes"
        return
    if not case.fabric or not case.fabric.grid:
        return
    if case.fabric.is_chain:
        yield from explain_chain(case.fabric, case.line, size // 4)
        return
    columns, rows = case.fabric.columns, case.fabric.rows
    length, at = case.fabric.bitstream_words(), case.line - 39
    grid = f"{plural(columns, 'column')} and {plural(rows, 'row')}"
    yield f"a stream of this fabric of {grid} has {length} words, and the file has {size // 4}"
    if case.line <= 38:
        yield f"word {case.line} stands in front of the first address, where all streams are equal"
    elif case.line < length:
        frame, row = divmod(at, rows + 1)
        where = f"frame {frame % 20} of column {frame // 20}"
        yield f"word {case.line} is the address of {where}" if row == 0 else f"word {case.line} is for row {row - 1} in {where}"


def explain_chain(fabric, number, count):
    """A word of a bitstream of a chain, of `count` words."""
    bits, length = fabric.chain_bits(), fabric.bitstream_words()
    yield f"the chain of this fabric has {plural(bits, 'configuration bit')}, a stream of it {plural(length, 'word')}, and the file has {count}"
    if number <= length:
        first = 32 * (length - number)
        yield f"word {number} has the positions {first} to {min(first + 31, bits - 1)}"
    if number == 1 and bits % 32:
        yield f"its bits from {bits % 32} on are behind the last position, and are 0"
