"""Parts of a testbench that loads a fabric's text under Icarus, and runs it beside the netlists of its designs.

Each function gives lines of Verilog. A bench has the instance `fabric` of the text, and for each design an instance of its netlist,
which Yosys writes as Verilog by the same names. All registers of the bench have values from the beginning on.
"""
import os
import subprocess
import sys
import tempfile

from read_design import Implementation
from written_fabric import lines_of

SECONDS = 3600
# How often of a thousand times an input is 1 where nothing is said, and the port of a reset.
CHANCE, RESET_CHANCE = 500, 10


class LoadedDesign:
    """A design in a fabric's text: the numbers of its ports' pads, the latches of its sites with what BASE.state says of them, and the
    number of its reset port's pad, or None. `name` is that of its instance, and stands in the names of its tasks."""

    def __init__(self, name, text, netlist, base):
        self.name, self.netlist = name, netlist
        state, implementation = f"{base}.state", Implementation(f"{base}.impl")
        self.ins = {port: text.pads.index(site.replace(".", "_")) for port, site in lines_of(state, "in")}
        self.outs = {port: text.pads.index(site.replace(".", "_")) for port, site in lines_of(state, "out")}
        if sorted(self.ins) != sorted(netlist.inputs) or sorted(self.outs) != sorted(netlist.outputs):
            sys.exit(f"{state}: not the ports of the design")
        sites = {int(cell[1:]): site for cell, site in implementation.cells.items()}
        self.latches = {sites[number]: latch for number, latch in netlist.latches_of_cells().items()}
        self.said = dict(lines_of(state, "ff"))
        if sorted(self.said) != sorted(self.latches):
            sys.exit(f"{state}: not the flip-flops of the design")
        self.reset = None if implementation.reset is None else self.ins[implementation.reset]

    def held(self, site):
        """The flip-flop of a site."""
        return f"fabric.{site.replace('.', '.fab_bel_')}.q"

    def latch(self, site):
        """The latch of a site in the netlist."""
        return f"{self.name}.\\{self.latches[site].output} "


def limits_of(options, text, designs):
    """How often of a thousand times each pad is 1. options: words PORT=CHANCE, of each design that has the port."""
    limits = [CHANCE] * len(text.pads)
    for design in designs:
        if design.reset is not None:
            limits[design.reset] = RESET_CHANCE
    for option in options:
        port, _, chance = option.rpartition("=")
        pads = [design.ins[port] for design in designs if port in design.ins]
        if not pads:
            sys.exit(f"{option}: no input of the design")
        for pad in pads:
            limits[pad] = round(1000 * float(chance))
    return limits


def data_register(text):
    """The register of the bench that is joined to WriteData."""
    return "reg WriteData = 0;" if text.is_chain else "reg [31:0] WriteData = 0;"


def word_writing(text, word, before="", tick="#1 CLK = 1; #1 CLK = 0;"):
    """Statements that write a word: at one tick of CLK, or in a chain at one for each of its bits, from bit 31 down. before: what comes
    before each of these ticks. tick: the statements of one."""
    if text.is_chain:
        yield "for (place = 31; place >= 0; place = place - 1) begin"
        yield f"  {before} WriteStrobe = 1; WriteData = {word}[place]; {tick} WriteStrobe = 0;"
        yield "end"
    else:
        yield f"{before} WriteStrobe = 1; WriteData = {word}; {tick} WriteStrobe = 0;"


def head(text, limits):
    """The first lines: clocks, pads and the fabric."""
    pads = [f".{name}({name})" for name in ["CLK", "UserCLK", "WriteStrobe", "WriteData"]]
    for at, pad in enumerate(text.pads):
        pads += [f".{pad}_O_top(pads[{at}])", f".{pad}_I_top(shown[{at}])", f".{pad}_T_top(off[{at}])"]
    yield "module bench;"
    yield "  reg CLK = 0, UserCLK = 0, WriteStrobe = 0, both = 0;"
    yield f"  {data_register(text)}"
    yield f"  reg [{len(text.pads) - 1}:0] pads = 0;"
    yield f"  wire [{len(text.pads) - 1}:0] shown, off;"
    yield f"  reg [9:0] limits [0:{len(limits) - 1}];"
    yield "  integer wrong = 0, seed = 1, at, place;"
    yield f"  eFPGA fabric ({', '.join(pads)});"
    yield "  initial begin"
    yield from (f"    limits[{at}] = {limit};" for at, limit in enumerate(limits))
    yield "  end"
    yield "  task differ(input [64*8:1] what); begin"
    yield '    if (wrong < 10) $display("%0s differs at time %0d", what, $time);'
    yield "    wrong = wrong + 1;"
    yield "  end endtask"
    yield "  task idle; begin"
    yield "    WriteData = $random(seed); #1 CLK = 1; UserCLK = both & $random(seed); #1 CLK = 0; UserCLK = 0;"
    yield "  end endtask"
    yield "  task new_inputs; begin"
    yield f"    for (at = 0; at < {len(limits)}; at = at + 1) pads[at] = $dist_uniform(seed, 0, 999) < limits[at];"
    yield "  end endtask"


def registers(text, task="set", fabric="fabric"):
    """A task that sets all registers of the fabric, which stands at this path."""
    yield f"  task {task}(input [31:0] ones, input [31:0] any); begin"
    yield from (f"    {fabric}.{name} = ones | any & $random(seed);" for name in text.registers)
    yield "  end endtask"


def holding(name, wires, digit, fabric="fabric"):
    """Tasks that hold some wires at one value each, and let them go. They are held while words are loaded: without that, rings that
    the latches close on the way could swing without end, since no assignment takes time here. They are let go from 0: Icarus would keep
    an unused ring of unknown values unknown. digit: gives the value of each. fabric: the path at which the fabric stands."""
    yield f"  task hold_{name}; begin"
    yield from (f"    force {fabric}.{wire} = 1'b{digit()};" for wire in wires)
    yield "  end endtask"
    yield f"  task let_go_{name}; begin"
    yield from (f"    force {fabric}.{wire} = 1'b0;" for wire in wires)
    yield "    #1;"
    yield from (f"    release {fabric}.{wire};" for wire in wires)
    yield "    #1;"
    yield "  end endtask"


def writing(text, name, count, before="if ($dist_uniform(seed, 0, 1)) idle;"):
    """A task that writes the words of NAME.hex. before: what comes before each word, or before each bit of it in a chain."""
    yield f"  reg [31:0] {name} [0:{max(count, 1) - 1}];"
    yield f"  integer at_{name};"
    yield f'  initial $readmemh("{name}.hex", {name});'
    yield f"  task write_{name}; begin"
    yield f"    for (at_{name} = 0; at_{name} < {count}; at_{name} = at_{name} + 1) begin"
    yield from (f"      {line}" for line in word_writing(text, f"{name}[at_{name}]", before))
    yield "    end"
    yield "  end endtask"


def beside(design):
    """The netlist of a design, and the tasks that compare it with the fabric and give both a beginning."""
    name, last = design.name, max(len(design.outs), 1) - 1
    joined = [f".\\{port} (pads[{pad}])" for port, pad in design.ins.items()]
    joined += [f".\\{port} (wanted_{name}[{at}])" for at, port in enumerate(design.outs)]
    if design.netlist.clock:
        joined.append(f".\\{design.netlist.clock} (UserCLK)")
    yield f"  wire [{last}:0] wanted_{name};"
    yield f"  reg [{last}:0] zeros_{name} = 0, ones_{name} = 0;"
    yield f"  \\{design.netlist.name} {name} ({', '.join(joined)});"
    yield f"  task compare_{name}; begin"
    for at, (port, pad) in enumerate(design.outs.items()):
        yield f'    if (shown[{pad}] !== wanted_{name}[{at}] || off[{pad}] !== 1\'b0) differ("{port}");'
    for port, pad in design.ins.items():
        yield f'    if (off[{pad}] !== 1\'b1) differ("{port}");'
    yield f"    zeros_{name} = zeros_{name} | ~wanted_{name}; ones_{name} = ones_{name} | wanted_{name};"
    yield "  end endtask"
    yield f"  task begin_{name}_as_left; begin"
    yield from (f"    {design.latch(site)}= {design.held(site)};" for site in design.latches)
    yield "  end endtask"
    yield f"  task begin_{name}_as_said; begin"
    for site, latch in design.latches.items():
        yield f"    {design.held(site)} = {design.said[site]}; {design.latch(site)}= {latch.initial if latch.initial in '01' else design.said[site]};"
    yield "  end endtask"
    if design.reset is not None:
        yield from resetting(design)


def resetting(design):
    """Tasks for a design with a reset port: one sets the latches of the netlist to their initial values, and the other resets the fabric
    for a cycle, and asks that each flip-flop then holds its initial value, whatever it held."""
    first = {site: latch.initial if latch.initial in "01" else "0" for site, latch in design.latches.items()}
    yield f"  task reset_{design.name}; begin"
    yield from (f"    {design.latch(site)}= {digit};" for site, digit in first.items())
    yield "  end endtask"
    yield f"  task begin_{design.name}_by_reset; begin"
    yield f"    new_inputs; pads[{design.reset}] = 1; #1 UserCLK = 1; #1 UserCLK = 0; #1 reset_{design.name}; #1;"
    for site, digit in first.items():
        yield f'    if ({design.held(site)} !== 1\'b{digit}) differ("{design.latches[site].output}");'
    yield "  end endtask"


def tick(designs):
    """A tick of UserCLK. Where the reset port of a design is 1, the latches of its netlist take their initial values."""
    resets = "".join(f" if (pads[{design.reset}]) reset_{design.name}; #1" for design in designs if design.reset is not None)
    return f"UserCLK = 1; #1{resets} {compares(designs)} UserCLK = 0; #1;"


def compares(designs):
    """Compares all designs."""
    return " ".join(f"compare_{design.name};" for design in designs)


def cycling(name, count, designs):
    """A task of cycles: new values at the pads, any ticks of CLK, and one of UserCLK."""
    yield f"  task {name}; begin"
    yield f"    repeat ({count}) begin"
    yield f"      new_inputs; #1 {compares(designs)}"
    yield f"      repeat ($dist_uniform(seed, 0, 2)) begin idle; {compares(designs)} end"
    yield f"      {tick(designs)}"
    yield "    end"
    yield "  end endtask"


def ending(designs):
    """The last line of a run: what differed, and which outputs were not both 0 and 1."""
    steady = ", ".join(f"~(zeros_{design.name} & ones_{design.name})" for design in designs)
    return f'    $display("wrong %0d{" steady %b" * len(designs)}", wrong, {steady}); $finish;'


def simulated(lines, words, text, netlists):
    """What a testbench prints under Icarus. words: those of each task of `writing`. netlists: the paths of BLIF files."""
    with tempfile.TemporaryDirectory() as folder:
        with open(f"{folder}/bench.v", "w", encoding="utf-8") as file:
            file.writelines(line + "\n" for line in lines)
        for name, values in words.items():
            with open(f"{folder}/{name}.hex", "w", encoding="ascii") as file:
                file.writelines(f"{value:08X}\n" for value in values)
        # Names of the folder, since a blank in a path ends it for Yosys.
        os.symlink(os.path.realpath(text), f"{folder}/text.v")
        here, written = {"cwd": folder, "check": True}, []
        for at, blif in enumerate(netlists):
            os.symlink(os.path.realpath(blif), f"{folder}/netlist{at}.blif")
            written.append(f"netlist{at}.v")
            subprocess.run(["yosys", "-q", "-p", f"read_blif netlist{at}.blif; write_verilog -noattr -norename netlist{at}.v"], **here)
        subprocess.run(["iverilog", "-g2005", "-s", "bench", "-o", "bench", "bench.v", *written, "text.v"], **here)
        try:
            return subprocess.run(["vvp", "-N", "bench"], capture_output=True, text=True, timeout=SECONDS, **here).stdout
        except subprocess.TimeoutExpired:
            sys.exit(f"no end after {SECONDS} seconds: perhaps wires are closed to a ring that swings")
