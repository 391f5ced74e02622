"""What the tools that run a written fabric under Icarus read of its files: the text, the netlist, the bitstream,
and lines of a state."""
import os
import re
import sys

import read_design


# How the first line of a fabric's text begins, where a look-up table, a pad or a multiplexer tree stands in its grid.
HEADS = [f"module {name} (" for name in ("LUT4c_frame_config", "IO_1_bidirectional_frame_config_pass", "MUX8LUT_frame_config")]


def is_replaced_by_fab(path):
    """Whether `flow` may store a text under this name: nothing is there, or a text of a fabric or the first part of one. The
    script `fab` goes by the same signs."""
    if not os.path.isfile(path):
        return True
    with open(path, errors="replace") as file:
        lines = file.read().split("\n")
    loads = {"module ConfigLoader (", "  input fab_chain_i,"} & set(lines)
    return lines == [""] or lines[0] in HEADS or bool(loads) and "module eFPGA (" in lines


class Text:
    """The registers, wires and pads of a fabric's text, by their names from the top. is_chain: whether the top takes its words bit by
    bit, by a chain of flip-flops, and not whole."""

    def __init__(self, path):
        with open(path) as file:
            modules = dict(re.findall(r"^module (\w+) \((.*?)^endmodule", file.read(), re.M | re.S))
        top = modules["eFPGA"]
        self.is_chain = re.search(r"^  input WriteData\b", top, re.M) is not None
        self.registers = [] if self.is_chain else registers("fab_loader", modules["ConfigLoader"])
        self.wires = []
        for module, place in re.findall(r"^  (tile_\w+) (X\d+Y\d+) \(", top, re.M):
            tile = modules[module]
            self.wires += [f"{place}.{name}" for name in re.findall(r"^  wire (\w+);", tile, re.M)]
            for inner, name in re.findall(r"^  (\w+) (fab_config|fab_bel_[A-Z]) \(", tile, re.M):
                self.registers += registers(f"{place}.{name}", modules[inner])
        self.pads = re.findall(r"^  input (X\d+Y\d+_[A-Z])_O_top", top, re.M)


def registers(instance, module):
    """The registers of a module."""
    return [f"{instance}.{name}" for name in re.findall(r"^  reg (?:\[\d+:0\] )?(\w+);", module, re.M)]


class Netlist(read_design.Netlist):
    """A netlist as tools/map_verilog writes it, which Yosys reads by the same names: without instances and aliases."""

    def __init__(self, path):
        super().__init__(path)
        if not self.is_flat:
            sys.exit(f"{path}: no netlist of tools/map_verilog")


def lines_of(path, word):
    """The other words of the lines of an implementation or a state that begin with this word."""
    with open(path) as file:
        return [line.split()[1:] for line in file if line.split()[:1] == [word]]


def words_of(path):
    """The words of a bitstream file."""
    with open(path, "rb") as file:
        data = file.read()
    return [int.from_bytes(data[at:at + 4], "big") for at in range(0, len(data), 4)]
