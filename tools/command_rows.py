"""Well-formed rows of every command: its words, and the files that it reads. For tools/check_garbage and tools/check_memory."""
import os

ROOT = os.path.dirname(os.path.dirname(os.path.abspath(__file__)))
DATA = "crates/fab_command_examples/data/"

# A fabric of the fixtures again, in all that fabric files may hold: tiles in a file of their own, an included file, a
# matrix table, and a table of the places of configuration bits.
TABLES = {
    "parts.csv": b"""FabricBegin
IO,LOG
FabricEnd
ParametersBegin
ConfigBitMode,frame_based
FrameBitsPerRow,32
Tile,tiles.csv
ParametersEnd
""",
    "tiles.csv": b"""TILE,IO
EAST,E1BEG,1,0,NULL,2
WEST,NULL,-1,0,W1END,1
INCLUDE,constants.csv
BEL,IO_1_bidirectional_frame_config_pass.v,A_
BEL,IO_1_bidirectional_frame_config_pass.v,B_
MATRIX,pads.csv
EndTILE
TILE,LOG
EAST,NULL,1,0,E1END,2
WEST,W1BEG,-1,0,NULL,1
JUMP,J_BEG,0,0,J_END,1
INCLUDE,constants.csv
BEL,LUT4c_frame_config.v,LA_
MATRIX,outer.list
EndTILE
""",
    "constants.csv": b"JUMP,NULL,0,0,GND,1\nJUMP,NULL,0,0,VCC,1\n",
    "pads.csv": b"""IO,A_O,B_O,W1END0,GND0,VCC0
E1BEG0,1,1,0,0,0
E1BEG1,1,1,0,0,0
A_I,0,0,1,0,0
B_I,0,0,1,0,0
A_T,0,0,0,1,1
B_T,0,0,0,1,1
""",
    "IO_ConfigMem.csv": b"""frame_name,frame_index,bits_used_in_frame,used_bits_mask,ConfigBits_ranges
frame0,0,2,1100_0000_0000_0000_0000_0000_0000_0000,1:0
frame1,3,2,0000_0000_0000_0000_0000_0000_0000_0011,2;3
frame2,4,0,0000_0000_0000_0000_0000_0000_0000_0000,NULL
""",
    "outer.list": b"INCLUDE,log.list\n",
}
# A netlist with a copy of a model, an alias and lines that have no effect.
NESTED = b""".model top
.inputs a b clk
.outputs z \\
 q
.subckt gate x=a y=b o=n # a copy
.attr src "top.v:1"
.conn n z
.names n d
0 1
.latch d q re clk 0
.end
.model gate
.inputs x y
.outputs o
.names x y o
1- 1
-1 1
.end
"""
# Two covers that are split: into two levels, one of which does not depend on its last input, and by an off-set.
WIDE = b""".model wide
.inputs a b
.outputs z q
.names a b a b z q a n
1----1- 1
-1--1-- 1
.names a b q a b z
11111 0
0---0 0
.latch n q 1
.end
"""
LISTS = {
    "m.list": b"# a switch list\nO[0|1],[A|B]\nINCLUDE,more.list\n{2}P,[C|D]\n",
    "more.list": b"O0,C\n{2}O[0|1],[A|B|C|D]\n",
}


def read(*paths):
    """The files of these paths, by the last part of their names."""
    files = {}
    for path in paths:
        with open(os.path.join(ROOT, path), "rb") as file:
            files[os.path.basename(path)] = file.read()
    return files


def fixtures(*names):
    return read(*(DATA + name for name in names))


def row(weight, words, files):
    return weight, [word.encode() for word in words.split()], files


def chain_rows():
    """Rows whose fabric keeps its configuration in a chain of flip-flops."""
    chain = fixtures("duo_chain.csv", "io.list", "log.list")
    inv = dict(chain, **fixtures("inv.blif", "inv.pcf"))
    return [
        row(3, "generate duo_chain.csv f.v", chain),
        row(3, "generate tall.csv f.v", fixtures("tall.csv", "io.list", "log.list", "pass.list")),
        row(3, "flow duo_chain.csv inv.blif inv --pcf inv.pcf", inv),
        row(2, "assemble duo_chain.csv inv.blif inv.impl made --pcf inv.pcf", dict(inv, **fixtures("inv.impl"))),
        row(3, "bits duo_chain.csv inv.fasm b", dict(chain, **fixtures("inv.fasm"))),
        row(4, "features duo_chain.csv inv_chain.bit f", dict(chain, **fixtures("inv_chain.bit"))),
        row(4, "simulate duo_chain.v inv_chain.bit inv.state inv.stim t", dict(
            fixtures("duo_chain.v", "inv_chain.bit", "inv.state"), **{"inv.stim": b"a\n0\n1\n1\n"})),
        row(2, "simulate duo_chain.v tog_chain.bit tog.state tog.stim t --order 5", dict(
            fixtures("duo_chain.v", "tog_chain.bit", "tog.state"), **{"tog.stim": b"-\n-\n"})),
    ]


def loop_row():
    """A row whose text has wide names in a loop, of which bits come to be known one by one."""
    ports = b"".join(b"  input %s,\n" % name for name in (b"CLK", b"UserCLK", b"WriteStrobe", b"[31:0] WriteData", b"X0Y0_A_O_top", b"X1Y0_A_O_top"))
    nets = b"  wire [63:0] w;\n  wire [63:0] y;\n  reg [63:0] q;\n  assign w = {%s};\n" % b", ".join((b"X0Y0_A_O_top", b"X1Y0_A_O_top") * 32)
    items = b"  assign y = w & ((w == (q | (w - y))) ? (y - w) : ({y[62:0], w[63:63]} | (w & (~q))));\n"
    items += b"  always @* if (w == {w[0:0], w[63:1]}) q = {w[0:0], y[63:1]} & (y | w);\n"
    return row(1, "simulate wide.v wide.bit wide.state wide.stim t", {
        "wide.v": b"module wide (\n%s  output X2Y0_A_I_top\n);\n%s%s  assign X2Y0_A_I_top = (q == w);\nendmodule\n" % (ports, nets, items),
        "wide.bit": b"", "wide.state": b"fabulous-state 1\nin way X0Y0.A\nin value X1Y0.A\nout last X2Y0.A\nend\n",
        "wide.stim": b"way value\n01\n11\n00\n"})


def rows(is_small=False):
    """Rows of weight, words and files. The small ones take some milliseconds each."""
    duo = fixtures("duo.csv", "io.list", "log.list")
    turn = fixtures("turn.csv", "turnio.list", "turn.list", "k.blif")
    parts = dict(TABLES, **fixtures("log.list"))
    inv = dict(duo, **fixtures("inv.blif", "inv.pcf"))
    tog = dict(duo, **fixtures("tog.blif", "tog.pcf"))
    rtog = fixtures("duor.csv", "io.list", "logr.list", "rtog.blif")
    grid = read(*("examples/counter/" + name for name in (
        "fabric.csv", "logic.csv", "logic.list", "pads.csv", "pads.list")))
    found = [
        row(8, "matrix m.list m.v", LISTS),
        row(6, "generate duo.csv f.v", duo),
        row(8, "generate parts.csv f.v", parts),
        row(4, "serial duo.csv f.v", duo),
        row(4, "serial parts.csv f.v", parts),
        row(6, "assemble duo.csv inv.blif inv.impl made --pcf inv.pcf", dict(inv, **fixtures("inv.impl"))),
        row(4, "assemble duo.csv tog.blif tog.impl made", dict(tog, **fixtures("tog.impl"))),
        row(4, "timing duo.csv tog.blif tog.impl t --pcf tog.pcf", dict(tog, **fixtures("tog.impl"))),
        row(4, "map duo.csv inv.blif i --pcf inv.pcf --seed 3", inv),
        row(4, "map turn.csv k.blif i --rounds 4", turn),
        row(4, "flow duo.csv inv.blif inv --pcf inv.pcf", inv),
        row(4, "flow duo.csv tog.blif made --pcf tog.pcf", tog),
        row(4, "flow turn.csv k.blif made --seed=7", turn),
        row(4, "flow duor.csv rtog.blif rtog --reset r", rtog),
        row(3, "assemble duor.csv rtog.blif rtog.impl made --pcf rtog.pcf", dict(rtog, **fixtures("rtog.impl", "rtog.pcf"))),
        row(6, "flow fabric.csv top.blif made", dict(grid, **{"top.blif": NESTED})),
        row(4, "flow duo.csv wtog.blif made --pcf wtog.pcf", dict(duo, **fixtures("wtog.blif", "wtog.pcf"))),
        row(4, "map fabric.csv wide.blif i", dict(grid, **{"wide.blif": WIDE})),
        row(8, "bits duo.csv tog.fasm b", dict(duo, **fixtures("tog.fasm"))),
        row(4, "bits duo.csv ring.fasm ring.bit", dict(duo, **fixtures("ring.fasm"))),
        row(6, "features duo.csv inv.bit f", dict(duo, **fixtures("inv.bit"))),
        row(6, "features parts.csv last.bit f", dict(parts, **{"last.bit": fixtures("inv.bit")["inv.bit"]})),
        row(4, "partial trio.csv inv.impl part.fasm 2 2 p.bit", fixtures(
            "trio.csv", "io.list", "log.list", "inv.impl", "part.fasm")),
        row(6, "simulate duo.v inv.bit inv.state inv.stim t", dict(
            fixtures("duo.v", "inv.bit", "inv.state"), **{"inv.stim": b"a\n0\n1\n1\n"})),
        row(4, "simulate duo.v tog.bit tog.state tog.stim t", dict(
            fixtures("duo.v", "tog.bit", "tog.state"), **{"tog.stim": b"-\n-\n-\n"})),
        row(3, "simulate duo.v tog.bit tog.state tog.stim t --order 5", dict(
            fixtures("duo.v", "tog.bit", "tog.state"), **{"tog.stim": b"-\n-\n"})),
        row(2, "simulate duo.v ring.bit ring.state ring.stim t", dict(
            fixtures("duo.v", "ring.bit"), **{
                "ring.state": b"fabulous-state 1\nout w X0Y0.A\nend\n", "ring.stim": b"-\n-\n"})),
        row(1, "sample 2 5", {"none": b"no file is read\n"}),
    ]
    if is_small:
        return found
    counter = dict(grid, **read(*("examples/counter/counter" + end for end in (".blif", ".pcf", ".impl"))))
    shape = read(*("examples/shapes/" + name for name in (
        "hole.csv", "logic.csv", "logic.list", "pads2.csv", "pads2.list")))
    return found + chain_rows() + [
        row(4, "assemble fabric.csv counter.blif counter.impl made --pcf counter.pcf", counter),
        row(4, "flow fabric.csv counter.blif made --pcf counter.pcf", counter),
        row(2, "map hole.csv pwm.blif i --rounds 8", dict(shape, **read("examples/designs/pwm.blif"))),
        row(2, "flow hole.csv traffic.blif made", dict(shape, **read("examples/designs/traffic.blif"))),
    ]


def refused_rows():
    """Small rows that end with 2, 4, 6, 7, 8, 9 and 10."""
    duo = fixtures("duo.csv", "io.list", "log.list")
    pair = fixtures("pair.csv", "io.list", "log2.list", "k.blif")
    inv = dict(duo, **fixtures("inv.blif", "inv.pcf", "inv.impl"))
    two = b".model two\n.inputs a\n.outputs y\n.names a n\n0 1\n.names n y\n0 1\n.end\n"
    return [
        row(1, "matrix m.list m.v", {"m.list": b"INCLUDE,absent.list\n"}),
        row(1, "matrix m.list m.v", {"m.list": b"A,B\nA\n"}),
        row(1, "matrix m.list m.v", {"m.list": b"{4097}A,{4097}B\n"}),
        row(1, "map duo.csv two.blif i", dict(duo, **{"two.blif": two})),
        row(1, "map duo.csv cross.blif i --pcf cross.pcf", dict(duo, **fixtures("cross.blif", "cross.pcf"))),
        row(1, "map pair.csv k.blif i --rounds 2", pair),
        row(1, "assemble duo.csv inv.blif inv.impl made", dict(inv, **{
            "inv.impl": inv["inv.impl"].replace(b"edge X0Y0/VCC0 X0Y0/B_T\n", b"")})),
        row(1, "flow duo.csv inv.blif made --reset z", inv),
        row(1, "bits duo.csv f.fasm b", dict(duo, **{"f.fasm": b"X1Y0.A.FG\n"})),
        row(1, "simulate duo.v inv.bit f.state f.stim t", dict(
            fixtures("duo.v", "inv.bit"), **{"f.state": b"fabulous-state 1\nff X1Y0.B 1\nend\n"})),
    ]
