"""The text of what tools/report says of a design, of the values that tools/design_report.py makes."""
import itertools

from table_rows import aligned, counted

STEPS = {"input_pad": "input pad", "clock_to_output": "flip-flop", "pair": "pair", "join": "join", "table": "look-up table",
         "output_pad": "output pad", "setup": "flip-flop", "reset": "reset"}
BAR = 40


def lines_of_report(report):
    """The lines of a report."""
    yield f"{report['design']} on {report['fabric']}"
    yield ""
    yield from use(report)
    yield ""
    yield from summary(report)
    if report["path"]:
        yield ""
        yield from ends(report)
        yield ""
        yield from levels(report)
        yield ""
        yield from histogram(report)
        yield ""
        yield from path(report)


def percent(share):
    """How much of what there is is used, in percent."""
    return f"{100 * share['used'] // share['there']} %" if share["there"] else ""


def use(report):
    """Tile types with what is used of them, and classes of wires."""
    rows = [["tile", "places", "look-up tables", "", "flip-flops", "", "pads", ""]]
    for tile in [*report["tiles"], report["total"]]:
        row = [tile["tile"], str(tile["places"])]
        for part in ("look_up_tables", "flip_flops", "pads"):
            share = tile[part]
            row += [f"{share['used']} of {share['there']}", percent(share)] if share["there"] else ["-", ""]
        rows.append(row)
    yield from aligned(rows)
    yield ""
    wires = [[wire["class"], f"{wire['used']} of {wire['there']}", percent(wire)] for wire in report["wires"]]
    yield from aligned([["wires", "used", ""], *wires])


def summary(report):
    """The longest delay, by its own kind, and what it means for a clock."""
    unit = report["times_in"]
    if not report["path"]:
        yield f"no path leads to an output pad or a flip-flop; fab timing says {report['proved_units']} units"
        return
    if unit == "units":
        yield f"longest path: {report['delay']} units, as fab timing says"
    else:
        yield f"longest path: {report['delay']} ps; in units it is {report['proved_units']}, as fab timing says"
        yield f"shortest period of the clock: {report['delay'] / 1000:.3f} ns, {1e6 / max(report['delay'], 1):.1f} MHz"
    rows = [[f"from {way['from']} to {way['to']}", f"{way['delay']} {unit}" if way["delay"] is not None else "no path"]
            for way in report["between"]]
    yield from aligned(rows)
    clock = report.get("clock")
    if clock:
        total = counted(report["ends_with_a_path"], "end")
        yield f"at a period of {clock['period']} ps: worst slack {clock['worst_slack']} ps, {clock['late_ends']} of {total} too late"


def ends(report):
    """The latest ends."""
    unit = report["times_in"]
    yield f"the latest of {counted(report['ends_with_a_path'], 'end')}"
    slack = ["slack"] if "clock" in report else []
    rows = [["", unit, *slack, "levels", "to", "from"]]
    for at, item in enumerate(report["ends"], 1):
        late = [str(item["slack"])] if slack else []
        rows.append([str(at), str(item["delay"]), *late, str(item["levels"]), place(item["end"]), place(item["start"])])
    # the last two columns are words, and begin at the left
    words = [max(len(row[at]) for row in rows) for at in (-2, -1)]
    yield from aligned([[*row[:-2], row[-2].ljust(words[0]), row[-1].ljust(words[1])] for row in rows])


def place(item):
    """A start or an end in words."""
    if "cell" not in item:
        return f"port {item['net']} at {item['site']}"
    pin = "" if item["pin"] == "O" else f", pin {item['pin']}"
    return f"flip-flop {item['net']} ({item['cell']} at {item['site']}{pin})"


def levels(report):
    """Levels of logic."""
    found = report["levels"]
    yield f"levels of logic: {found['longest_path']} on the longest path, {found['deepest']} at most"
    yield "  " + ", ".join(f"{item['levels']}: {counted(item['ends'], 'end')}" for item in found["ends"])


def histogram(report):
    """How many ends are how late."""
    yield f"ends by their delays in {report['times_in']}"
    most = max(item["ends"] for item in report["histogram"])
    rows = [[f"{item['above'] + 1} to {item['up_to']}", str(item["ends"]), ("#" * -(-BAR * item["ends"] // most)).ljust(BAR)]
            for item in report["histogram"]]
    yield from aligned(rows)


def path(report):
    """The longest path, cell by cell, with what each step and each net adds."""
    yield "longest path"
    rows = [["", "sum", "adds", "step", "", ""]]
    for is_edge, steps in itertools.groupby(report["path"], lambda step: step["step"] in ("pair", "join")):
        steps = list(steps)
        if is_edge:
            pairs = sum(step["step"] == "pair" for step in steps)
            rows.append(["", "", f"{sum(step['adds'] for step in steps)}", f"net {steps[0]['net']}",
                         f"{counted(pairs, 'pair')}, {counted(len(steps) - pairs, 'join')}", ""])
        for step in steps:
            rows.append(["", str(step["sum"]), str(step["adds"]), *step_words(step, is_edge)])
    widths = [max(len(row[at]) for row in rows) for at in (3, 4, 5)]
    yield from aligned([[*row[:3], *(cell.ljust(width) for cell, width in zip(row[3:], widths))] for row in rows])


def step_words(step, is_edge):
    """A step in words."""
    if is_edge:
        return f"  {STEPS[step['step']]}", f"  {step['wire']}", ""
    if "cell" not in step:
        return f"{STEPS[step['step']]} {step['net']}", f"at {step['site']}", step["wire"]
    way = {"clock_to_output": "clock to O", "table": f"{step['pin']} to O"}.get(step["step"], step["pin"])
    return f"{STEPS[step['step']]} {step['net']}", f"{step['cell']} at {step['site']}, {way}", step["wire"]
