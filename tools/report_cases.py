"""Reports of fab with what tools/explain has to say of them, for tools/check_reports.

The reports are those of the program: `tools/check_reports --program FAB` runs it on the same words and files. The files are
the small ones of crates/fab_command_examples/data, with one mistake in each case."""
import collections

from command_rows import fixtures

# Words of the call, its files by their names, the first line of the report, and texts that have to stand in what is said.
Case = collections.namedtuple("Case", "words files report wanted")

FABRIC = fixtures("duo.csv", "io.list", "log.list")
CHAIN = fixtures("duo_chain.csv", "io.list", "log.list")
DESIGN = dict(FABRIC, **fixtures("inv.blif", "inv.pcf", "inv.impl", "inv.fasm", "inv.bit"))
CLOCKED = dict(FABRIC, **fixtures("tog.blif"))
RUN = fixtures("duo.v", "inv.state", "inv.bit")
GENERATE, MAP = "generate duo.csv o.v", "map duo.csv inv.blif o --pcf inv.pcf"
ASSEMBLE, BITS = "assemble duo.csv inv.blif inv.impl o", "bits duo.csv inv.fasm o"
FRAMES = b"frame_name,frame_index,bits_used_in_frame,used_bits_mask,ConfigBits_ranges\n"
MASK = b"1111_0000_0000_0000_0000_0000_0000_0000"


def edited(files, name, old, new):
    """The files with one text of a file exchanged for another."""
    old, new = old.encode(), new.encode()
    if old not in files[name]:
        raise ValueError(f"{name} has no {old!r}")
    return dict(files, **{name: files[name].replace(old, new, 1)})


def with_table(content):
    """The fabric with a matrix table for its second tile."""
    return dict(edited(FABRIC, "duo.csv", "log.list", "log.csv"), **{"log.csv": content.encode()})


def lists():
    for text, reason, wanted in (
        ("N1BEG0,A,B", "row", ("has two cells", "the line has 3 cells")),
        ("{0}N1BEG0,A", "number", ("{0} in {0}N1BEG0",)),
        ("N1BEG0,A-B", "name", ("no name has '-', in A-B",)),
        ("N1BEG0,A[0|1", "bracket", ("the '[' at the 2. place of A[0|1 does not close",)),
        ("N[0|1|2],A[0|1]", "counts differ", ("the first cell stands for 3 names, the second one for 2 names",)),
    ):
        yield Case("matrix x.list o.v", {"x.list": text.encode() + b"\n"}, f"malformed x.list:1 {reason}", (f"x.list:1 | {text}",) + wanted)
    yield Case("matrix x.list o.v", {"x.list": b"N,A\nB,C\nA,C\n"}, "malformed x.list:3 both sides",
               ("A is an output in line 3 and an input in line 1",))
    yield Case("matrix x.list o.v", {"x.list": b"N,A\nINCLUDE,moer.list\n", "more.list": b"A,B\n"}, "missing moer.list",
               ("x.list:2 | INCLUDE,moer.list", "near: more.list"))
    yield Case(GENERATE, edited(FABRIC, "log.list", "E1END[0|1]", "E1EDN[0|1]"), "malformed log.list:1 unknown name",
               ("E1EDN0 is no input of the switch matrix of tile LOG; near: E1END0",))
    yield Case(GENERATE, edited(FABRIC, "log.list", "LA_I1,E1END1", "E1END1,LA_I1"), "malformed log.list:3 unknown name",
               ("E1END1 is an input of the switch matrix of tile LOG, and here an output has to stand",))


def fabrics():
    for old, new, report, wanted in (
        ("IO,LOG", "IO,LOGG", "malformed duo.csv:2 tile", "no TILE block is named LOGG; near: LOG (column 1)"),
        ("IO,LOG", "IO,LOG\nIO", "malformed duo.csv:3 grid", "line 2, has 2 cells, and this one has 1"),
        ("EAST,E1BEG,1,0", "EAST,E1BEG,-1,0", "malformed duo.csv:8 direction", "by these the wire would be WEST"),
        ("E1BEG,1,0,NULL,2", "E1BEG,1,0,NULL,02", "malformed duo.csv:8 number", "COUNT is 02"),
        ("EAST,E1BEG", "EAST,NULL", "malformed duo.csv:8 null", "EAST without a source and a destination"),
        ("0,0,GND,1", "0,0,Gnd,1", "malformed duo.csv:10 null", "a constant is written JUMP,NULL,0,0,GND,1"),
        ("E1BEG,1,0,NULL,2", "E1BEG,1,0,NULL", "malformed duo.csv:8 row", "a row of wires has six cells"),
        ("EAST,E1BEG", "ESAT,E1BEG", "malformed duo.csv:8 row", "near: EAST"),
        ("pass.v,B_", "pass.v,A_", "malformed duo.csv:13 name twice", "is there from duo.csv:12"),
        ("TILE,LOG", "TILE,IO", "malformed duo.csv:16 name twice", "tile IO stands first in duo.csv:7"),
        ("EndTILE\nTILE,LOG", "TILE,LOG", "malformed duo.csv:15 block", "inside the TILE block that begins in line 7"),
        ("EndTILE\n# two", "# two", "malformed duo.csv:24 end of file", "TILE in line 16 has no EndTILE"),
        ("WEST,W1BEG", "WEST,W1-BEG", "malformed duo.csv:18 name", "no name: W1-BEG"),
        ("config.v,LA_", "config.v", "malformed duo.csv:22 prefix", "write BEL,FILE,A_"),
        ("LUT4c_frame", "LUT4_frame", "unsupported duo.csv:22 LUT4_frame_config", "near: LUT4c_frame_config"),
        ("log.list", "log.v", "unsupported duo.csv:23 matrix file", "list its pairs"),
        ("ConfigBitMode,frame_based", "FrameBitsPerRow,16", "unsupported duo.csv:5 FrameBitsPerRow", "write FrameBitsPerRow,32"),
        ("ConfigBitMode,frame_based", "ConfigBitMode,FlipflopChain", "malformed duo.csv:5 row", "near: FlipFlopChain"),
        ("FabricEnd", "FabricEnd\nSuperTILE,A", "unsupported duo.csv:4 SuperTILE", "Write each part as a tile of its own"),
        ("log.list", "lgo.list", "missing lgo.list", "duo.csv:23 | MATRIX,lgo.list"),
    ):
        yield Case(GENERATE, edited(FABRIC, "duo.csv", old, new), report, (wanted,))
    for words, construct, wanted in (
        ("serial duo_chain.csv o.v", "serial FlipFlopChain", "write the fabric with generate"),
        ("partial duo_chain.csv inv.impl inv.fasm 0 0 o", "partial FlipFlopChain", "All bits of a chain move"),
    ):
        yield Case(words, dict(DESIGN, **CHAIN), f"unsupported duo_chain.csv:0 {construct}",
                   (wanted, "line 5 makes a chain of it", "duo_chain.csv:5 | ConfigBitMode,FlipFlopChain"))


def tables():
    good = "LOG,E1END0,E1END1,GND0,VCC0\nLA_I0,1,1,0,0\nLA_SR,0,0,1,0\n"
    for old, new, report, wanted in (
        ("SR,0,0,1,0", "SR,0,0,1", "malformed log.csv:3 row", "the first row has 5 cells, and this one has 4"),
        ("E1END1,GND0", "E1END0,GND0", "malformed log.csv:1 name twice", "twice: E1END0"),
        ("E1END1,GND0", "LA_SR,GND0", "malformed log.csv:1 unknown name", "LA_SR is an output of the switch matrix"),
        ("LA_SR", "LA_SRR", "malformed log.csv:3 unknown name", "near: LA_SR"),
        ("SR,0,0,1,0", "SR,0,x,1,0", "malformed log.csv:3 digit", "below the input E1END1 stands x"),
    ):
        yield Case(GENERATE, with_table(good.replace(old, new)), report, (wanted,))
    for content, report, wanted in (
        (FRAMES.replace(b"mask", b"msk"), "1 header", "used_bits_msk stands where used_bits_mask has to stand"),
        (FRAMES + b"f,0,3," + MASK + b",3:0\n", "2 mask", "the third cell says 3, the mask has 32 digits with 4 ones"),
        (FRAMES + b"f,0,4," + MASK + b",3:1\n", "2 range", "the mask has 4 ones, the ranges 3:1 list 3 bits"),
        (FRAMES + b"f,0,4," + MASK + b",3:0\nf,0,4," + MASK + b",7:4\n", "3 frame", "frame 0 stands in line 2"),
        (FRAMES + b"f,0,4," + MASK + b",3:0\nf,1,4," + MASK + b",3:0\n", "3 bit", "bit 3 is listed in line 2 already"),
    ):
        yield Case(GENERATE, dict(FABRIC, **{"LOG_ConfigMem.csv": content}), f"malformed LOG_ConfigMem.csv:{report}", (wanted,))


def netlists():
    for old, new, report, wanted in (
        (".outputs z", ".outputs z carry", "malformed inv.blif:3 undriven", "nothing drives output carry"),
        (".end", ".names a z\n1 1\n.end", "malformed inv.blif:6 drivers", "net z is driven by the lines 4, 6"),
        ("0 1", "00 1", "malformed inv.blif:5 cover row", "the table has 1 input, and this row 2 signs"),
        ("0 1", "0 1\n1 0", "malformed inv.blif:6 cover row", "this row ends with 0"),
        (".inputs a", ".inputs a a", "malformed inv.blif:2 name twice", "port a stands 2 times in .inputs"),
        (".inputs a", ".inputs \u00e4", "malformed inv.blif:2 name", "stands the byte c3"),
        (".names a z", ".names" + 17 * " a" + " z", "unsupported inv.blif:4 wide cover", "the table of z has 17 inputs"),
        (".end", ".subckt $_DLATCH_P_ D=a Q=q\n.end", "unsupported inv.blif:6 model $_DLATCH_P_", "$_DLATCH_P_ is a latch: give the signal a value"),
        (".end", ".latch a q fe clk 2\n.end", "unsupported inv.blif:6 latch type fe", "change the Verilog to posedge"),
        (".end", ".gate nand2 a=a o=q\n.end", "unsupported inv.blif:6 .gate", "This kind of BLIF line is not read"),
        ("a z\n0 1", "y z\n0 1\n.names z y\n0 1", "unsupported inv.blif:4 cycle z y", "z (line 4), y (line 6)"),
    ):
        yield Case(MAP, edited(DESIGN, "inv.blif", old, new), report, (wanted,))
    yield Case("map duo.csv tog.blif o", edited(CLOCKED, "tog.blif", "q d\n0 1", "q clk d\n01 1"),
               "unsupported tog.blif:4 clock as data", ("clocks of the design: clk (line 6)", "this line names clk"))


def ports():
    for old, new, report, wanted in (
        ("set_io a", "set_io A", "1 port", "no port A; near: a"),
        ("X0Y0.B", "X0Y0.C", "2 site", "tile IO at X0Y0 has no BEL C; it has A (IO), B (IO)"),
        ("X0Y0.B", "X1Y0.A", "2 site", "X1Y0.A is a site of LUT4c, and not of IO"),
        ("X0Y0.B", "X2Y0.A", "2 site", "X2Y0 is outside of the grid of 2 columns (X0 to X1) and 1 row"),
        ("X0Y0.B", "X0Y0.A", "2 name twice", "inv.pcf:1 | set_io a X0Y0.A"),
        ("set_io z", "set_io -nowarn z", "2 row", "-nowarn is an option"),
    ):
        yield Case(MAP, edited(DESIGN, "inv.pcf", old, new), f"malformed inv.pcf:{report}", (wanted,))
    yield Case("map duo.csv tog.blif o --pcf p.pcf", dict(CLOCKED, **{"p.pcf": b"set_io clk X0Y0.A\n"}),
               "malformed p.pcf:1 port", ("clk is the clock",))


def implementations():
    for old, new, report, wanted in (
        ("GND0 X0Y0/A_T", "GND0 X0Y0/A_TT", "malformed inv.impl:6 wire", "tile IO at X0Y0 has no wire or pin A_TT; near: A_T"),
        ("net in a", "net in b", "malformed inv.impl:9 port", "no line pad in b stands before"),
        ("end\n", "", "malformed inv.impl:16 end of file", "The last line has to be end"),
        ("impl 1\n", "impl 2\n", "malformed inv.impl:2 row", "a line reset PORT is the second of version 2"),
        ("impl 1\n", "impl 1\nreset a\n", "malformed inv.impl:2 row", "a line reset PORT is the second of version 2"),
        ("impl 1\n", "impl 3\n", "malformed inv.impl:1 number", "3 is none"),
        ("cell c0 X1Y0.A\n", "", "illegal 1 c0", "c0: the table that drives net z (inv.blif:4)"),
        ("z X0Y0.B", "z X0Y0.A", "illegal 2 X0Y0.A", "inv.impl:3 | pad in a X0Y0.A"),
        ("pad out z X0Y0.B\n", "", "illegal 3 z", "z is an output of the netlist"),
        ("A_O X0Y0/E1BEG0", "B_O X0Y0/E1BEG0", "illegal 5 X0Y0/E1BEG0", "E1BEG0 of tile IO takes A_O"),
        ("X1Y0/E1END0\n", "X1Y0/E1END1\n", "illegal 5 X1Y0/E1END1", "X0Y0/E1BEG0 is joined to X1Y0/E1END0"),
        ("edge X0Y0/VCC0 X0Y0/B_T\n", "", "illegal 8 X0Y0/B_T", "the net that has to reach it is one"),
        ("edge X1Y0/E1END0 X1Y0/LA_I0\n", "", "illegal 8 X1Y0/LA_I0", "the net that has to reach it is in a"),
        ("net cell c0\n", "net cell c0\nedge X1Y0/LA_O X1Y0/LA_I0\n", "illegal 9 X1Y0/LA_I0", "nets with this wire: in a, cell c0"),
    ):
        yield Case(ASSEMBLE, edited(DESIGN, "inv.impl", old, new), report, (wanted,))
    yield Case(ASSEMBLE + " --pcf inv.pcf", edited(edited(DESIGN, "inv.pcf", "set_io z X0Y0.B\n", ""), "inv.pcf", "X0Y0.A", "X0Y0.B"),
               "illegal 4 a", ("inv.impl:3 | pad in a X0Y0.A", "inv.pcf:1 | set_io a X0Y0.B"))


def features():
    for old, new, report, wanted in (
        ("A.INIT", "A.INITT", "illegal 10 X1Y0.A.INITT", "with the fields INIT, FF, IOmux, SET_NORESET; near: INIT"),
        ("A_O.E1BEG0", "A_O.E1BEG2", "illegal 10 X0Y0.A_O.E1BEG2", "near: E1BEG0, E1BEG1"),
        ("E1END0.LA_I0", "W1BEG0.E1END0", "illegal 10 X1Y0.W1BEG0.E1END0", "this is a step along a wire"),
        ("[15:0] =", "[15:0 =", "malformed inv.fasm:5 address", "the address begins with [15:0 ="),
        ("16'b", "16'c", "malformed inv.fasm:5 value", "for an address of 16 bits"),
    ):
        yield Case(BITS, edited(DESIGN, "inv.fasm", old, new), report, (wanted,))
    cut = dict(DESIGN, **{"inv.bit": DESIGN["inv.bit"][:-2]})
    yield Case("features duo.csv inv.bit o", cut, "malformed inv.bit:119 word", ("474 bytes, 118 words and 2 bytes",))
    other = DESIGN["inv.bit"][:160] + b"\xff\xff\xff\xff" + DESIGN["inv.bit"][164:]
    yield Case("features duo.csv inv.bit o", dict(DESIGN, **{"inv.bit": other}), "malformed inv.bit:41 stream",
               ("word 41 | ffffffff", "word 41 is the address of frame 1 of column 0"))
    for words, report, wanted in (
        ("80015556", "malformed inv.bit:1 spare bit", ("has 23 configuration bits", "its bits from 23 on are behind the last position")),
        ("0001555600000000", "malformed inv.bit:2 stream", ("a stream of it 1 word, and the file has 2",)),
        ("", "malformed inv.bit:1 stream", ("word 1 has the positions 0 to 22",)),
    ):
        yield Case("features duo_chain.csv inv.bit o", dict(CHAIN, **{"inv.bit": bytes.fromhex(words)}), report, wanted)


def simulations():
    for content, report, wanted in (
        (b"b\n0\n", "malformed s:1 row", ("not named: a", "no input port of the state: b")),
        (b"a\nx\n", "malformed s:2 digit", ("the 1. sign is 'x'",)),
    ):
        yield Case("simulate duo.v inv.bit inv.state s t", dict(RUN, s=content), report, wanted)
    yield Case("simulate duo.v inv.bit inv.state s t", dict(edited(RUN, "inv.state", "X0Y0.A", "X5Y0.A"), s=b"a\n0\n"),
               "malformed inv.state:2 no port", ("the input X5Y0_A_O_top of the top",))


def fitting():
    two = b".model two\n.inputs a\n.outputs y\n.names a n\n0 1\n.names n y\n0 1\n.end\n"
    yield Case("map duo.csv two.blif o", dict(FABRIC, **{"two.blif": two}), "short LUT4c 2 1",
               ("tile LOG: 1 site at each of 1 place, 1", "the design has 2 of a table"))
    three = b".model three\n.inputs a b\n.outputs y\n.names a b y\n00 1\n.end\n"
    yield Case("map duo.csv three.blif o", dict(FABRIC, **{"three.blif": three}), "short IO 3 2", ("the ports are 2 inputs and 1 output",))
    yield Case("map duo.csv cross.blif o --pcf cross.pcf", dict(FABRIC, **fixtures("cross.blif", "cross.pcf")),
               "no path in b X1Y0/LA_I1\nfabulous-impl 1\ncell c0 X1Y0.A\npad in a X0Y0.B\npad in b X0Y0.A\nend",
               ("net in b: what comes in at this port", "lead to LA_I1 (log.list): E1END1", "the net begins at X0Y0/A_O",
                "at X1Y0 these are E1END0: a pair of LA_I1 with one of them gives a path"))
    yield Case("map duo.csv tog.blif o", edited(CLOCKED, "log.list", "LA_EN,VCC0", "LA_EN,GND0"),
               "no path one X1Y0/LA_EN\nfabulous-impl 1\ncell c0 X1Y0.A\npad out q X0Y0.A\nend",
               ("net one: the constant 1", "at X1Y0 these are VCC0"))
    shared = "\n".join(f"net cell c{i}\nedge X1Y0/L{'AB'[i]}_O X1Y0/W1BEG0\nedge X1Y0/W1BEG0 X0Y0/W1END0\nedge X0Y0/W1END0 X0Y0/{'AB'[i]}_I"
                       for i in (0, 1))
    yield Case("map pair.csv k.blif o --rounds 2", fixtures("pair.csv", "io.list", "log2.list", "k.blif"),
               "overused X0Y0/W1END0 cell c0 cell c1\nfabulous-impl 1\ncell c0 X1Y0.A\ncell c1 X1Y0.B\npad out y X0Y0.A\n"
               "pad out z X0Y0.B\nnet one\nedge X0Y0/VCC0 X0Y0/A_T\nedge X0Y0/VCC0 X0Y0/B_T\n" + shared + "\nend",
               ("net cell c0: the table that drives net y (k.blif:3)", "shared after the last round: 2 of 9 used wires",
                "most nets are on X0Y0/W1END0 (2)", "the call has --rounds 2", "sites in use: 2 of 2 LUT4c (100 %)"))


def words():
    for line, report, wanted in (
        ("map duo.cvs inv.blif o", "missing duo.cvs", "near: duo.csv"),
        ("map duo.csv inv.blif nowhere/o", "write fault nowhere/o", "the folder nowhere is not there"),
        ("map inv.blif duo.csv o", "malformed inv.blif:1 row", "inv.blif looks like a BLIF netlist"),
        ("flow duo.csv inv.blif", "usage", "missing: BASE"),
        ("flow duo.csv inv.blif o --seeds 2", "usage", "near: --seed"),
        ("map duo.csv inv.blif o --rounds 0", "usage", "--rounds is a number from 1 to 64"),
        ("flow duo.csv inv.blif o --reset b", "illegal 12 b", "a reset port is one of the inputs: a"),
        ("flow duo.csv inv.blif o --reset z", "illegal 12 z", "z is an output of the netlist"),
        ("flwo duo.csv inv.blif o", "usage", "there is no command flwo; near: flow"),
        ("assemble duo.csv inv.blif inv.impl o", "", "sites in use: 1 of 1 LUT4c (100 %), 2 of 2 IO (100 %)"),
    ):
        yield Case(line, DESIGN, report, (wanted,))


def cases():
    for group in (lists, fabrics, tables, netlists, ports, implementations, features, simulations, fitting, words):
        yield from group()
