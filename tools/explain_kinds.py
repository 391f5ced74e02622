"""Whether a file is one of another kind than the one that is wanted in its place, for tools/explain."""
import re

from explain_text import opened, shown

LOOKED_AT = 1 << 14
# A line by which a file of a kind is known.
SIGNS = {
    "fabric": rb"^(FabricBegin|TILE,)", "netlist": rb"^\.model\b", "constraints": rb"^set_io\b", "implementation": rb"^fabulous-impl\b",
    "state": rb"^fabulous-state\b", "Verilog": rb"^\s*(module|endmodule)\b", "FASM": rb"^X\d+Y\d+\.\w+\.\w+",
    "bitstream": rb"\A\0\x10\0\0\0\x10\0\0",
}
# What to do where a file of the second kind stands in the place of one of the first.
CURES = {
    ("netlist", "Verilog"): "map it to look-up tables first: tools/map_verilog FILE.v TOP FILE.blif",
    ("netlist", "constraints"): "constraints stand behind --pcf",
    ("implementation", "FASM"): "of features the command bits makes a bitstream",
    ("FASM", "implementation"): "of an implementation the command assemble makes a bitstream",
    ("Verilog", "netlist"): "simulate takes the Verilog of the fabric, BASE.v of flow",
    ("switch list", "fabric"): "of a fabric file the command generate makes the Verilog",
}
NAMES = {"fabric": "a table of a fabric or of tiles", "netlist": "a BLIF netlist", "constraints": "constraints", "state": "a state",
         "FASM": "a list of features", "implementation": "an implementation", "Verilog": "Verilog", "bitstream": "a bitstream",
         "switch list": "a switch list"}


def other_kind(path, role):
    """What the file seems to be, where that is not what is wanted here."""
    with opened(path) as file:
        data = file.read(LOOKED_AT)
    kinds = [kind for kind, sign in SIGNS.items() if re.search(sign, data, re.M)]
    if not kinds or role in kinds or role not in NAMES or is_listed(role, data):
        return
    cure = CURES.get((role, kinds[0]))
    yield f"{shown(path)} looks like {NAMES[kinds[0]]}, and in its place {NAMES[role]} is wanted" + (f"; {cure}" if cure else "")


def is_listed(role, data):
    """Whether a list of pairs or features may have such lines, or a text without a sign."""
    return role == "switch list" and not re.search(SIGNS["fabric"], data, re.M)
