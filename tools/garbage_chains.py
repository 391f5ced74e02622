"""Bitstreams of chains that are cut, too long or have bits to spare, and fabrics with a chain: for tools/check_garbage."""
import command_rows
from garbage_bench import Case, Expected
from garbage_breaks import broken

# Fabrics with a chain, with the files that they name and the number of their configuration bits.
FABRICS = {
    "duo_chain.csv": (("io.list", "log.list"), 23),
    "word.csv": (("io.list",), 32),
    "tall.csv": (("io.list", "log.list", "pass.list"), 46),
    "bare.csv": (("pass.list",), 0),
}


def words_of(bits):
    """How many words a stream of so many bits has."""
    return (bits + 31) // 32


def stream_of(chance, bits):
    """Any stream of a chain: the bits that its first word has to spare are 0."""
    return chance.getrandbits(bits).to_bytes(4 * words_of(bits), "big") if bits else b""


def broken_stream(chance, content, bits):
    """A stream with one fault, or with none."""
    kind, place = chance.randrange(7), chance.randrange(len(content) + 1)
    if kind == 0:
        return content[:place]
    if kind == 1:
        return content[:place // 4 * 4]
    if kind == 2:
        return content + bytes(chance.randrange(256) for _ in range(chance.choice((1, 2, 3, 4, 4, 8, 400))))
    if kind == 3:
        return bytes(chance.randrange(256) for _ in range(chance.choice((1, 4, 4, 12)))) + content
    if kind == 4 and bits % 32:
        return (int.from_bytes(content, "big") | 1 << chance.randrange(bits, 32 * words_of(bits))).to_bytes(len(content), "big")
    if kind == 5:
        return b""
    return content


def stream_fault(content, bits):
    """The report that `features` has to give of a stream, behind the name of its file; None where it is a stream."""
    whole = len(content) // 4
    if len(content) % 4:
        return "%d word" % (whole + 1)
    if whole and bits % 32 and int.from_bytes(content[:4], "big") >> bits % 32:
        return "1 spare bit"
    if whole != words_of(bits):
        return "%d stream" % (min(whole, words_of(bits)) + 1)
    return None


def read_back(fabric, files):
    """Of the features of a bitstream: `bits` makes a bitstream of them, and that has the same features."""
    def features_again(features, run):
        words = [b"features", fabric, b"again.bit", b"f"]
        return Case(words, dict(files, **{"again.bit": run.after[b"again.bit"]}), Expected(0, b"", {b"f": features}))

    def bits_again(run):
        features = run.after[b"f"]
        words = [b"bits", fabric, b"f.fasm", b"again.bit"]
        return Case(words, dict(files, **{"f.fasm": features}), Expected(0, b"", {}), again=lambda made: features_again(features, made))

    return bits_again


def make_features(chance):
    """`features` of a stream of a chain."""
    name = chance.choice(sorted(FABRICS))
    lists, bits = FABRICS[name]
    files = command_rows.fixtures(name, *lists)
    content = stream_of(chance, bits)
    whole = Case([b"features", name.encode(), b"c.bit", b"f"], dict(files, **{"c.bit": content}), Expected(0, b"", {}))
    content = broken_stream(chance, content, bits)
    fault = stream_fault(content, bits)
    expected = Expected(4, b"malformed c.bit:%s\n" % fault.encode(), {}) if fault else Expected(0, b"", {})
    again = None if fault else read_back(name.encode(), files)
    return whole, Case(whole.words, dict(files, **{"c.bit": content}), expected, again=again)


def make_loading(chance):
    """`simulate` of a chain: what is written before the words of a stream leaves it, and words that are cut are malformed."""
    name = chance.choice(("inv", "tog", "ring"))
    files = command_rows.fixtures("duo_chain.v", name + "_chain.bit")
    content = files.pop(name + "_chain.bit")
    if name == "ring":
        files["state"] = b"fabulous-state 1\nout w X0Y0.A\nend\n"
    else:
        files["state"] = command_rows.fixtures(name + ".state")[name + ".state"]
    files["stim"] = b"a\n0\n1\n1\n" if name == "inv" else b"-\n-\n-\n"
    words = [b"simulate", b"duo_chain.v", b"c.bit", b"state", b"stim", b"t"]
    whole = Case(words, dict(files, **{"c.bit": content}))
    front = bytes(chance.randrange(256) for _ in range(chance.choice((0, 4, 4, 8, 40, 400))))
    cut = chance.choice((0, 0, 0, 1, 2, 3))
    longer = front + content[:len(content) - cut]
    expected = Expected(4, b"malformed c.bit:%d word\n" % (len(longer) // 4 + 1), {}) if cut else None
    return whole, Case(words, dict(files, **{"c.bit": longer}), expected, None if cut else whole)


def make_refused(chance):
    """`serial` and `partial`, which have no chain."""
    name = chance.choice(sorted(FABRICS))
    files = command_rows.fixtures(name, *FABRICS[name][0])
    command = chance.choice((b"serial", b"partial"))
    rest = [b"o.v"] if command == b"serial" else [b"none.impl", b"none.fasm", b"0", b"0", b"p.bit"]
    report = b"unsupported %s:0 %s FlipFlopChain\n" % (name.encode(), command)
    case = Case([command, name.encode()] + rest, files, Expected(5, report, {}))
    return case, case


def make_rows(chance):
    """A row of command_rows with a chain, and that row broken."""
    weights, words, files = zip(*command_rows.chain_rows())
    chosen = chance.choices(range(len(words)), weights)[0]
    whole = Case(words[chosen], files[chosen])
    return whole, broken(chance, whole)


def make_chains(chance, _here):
    return chance.choices((make_features, make_loading, make_refused, make_rows), (4, 2, 1, 4))[0](chance)
