"""Splits covers of more than four inputs as fab does before it packs a netlist ("Wide covers" in docs/FORMATS.md).

A cover is a named tuple with the fields `inputs`, `output` and `rows`, the words of its rows. New nets have the name of the output
of the cover that is split, a `#` and a number: no net of a BLIF file is called so.
"""
import itertools

# A look-up table has so many inputs.
MOST_INPUTS = 4
# The table of three inputs that is the first where the third is 0, and the second where it is 1.
CHOOSER = 0xCA


def table_of(count, rows):
    """The table of a cover of so many inputs, as a number: its bit i is the output where the inputs spell i, the first as bit 0."""
    size = 1 << count
    full, found = (1 << size) - 1, 0
    for row in rows:
        cube = full
        for at, sign in enumerate(row[0] if count else ""):
            # the places at which input `at` is 1
            ones = full // ((1 << (2 << at)) - 1) * (((1 << (1 << at)) - 1) << (1 << at))
            cube &= full if sign == "-" else ones if sign == "1" else full ^ ones
        found |= cube
    return full ^ found if rows and rows[0][-1] == "0" else found


def rows_of(count, table):
    """Rows that a table has, one for each 1."""
    if not count:
        return [["1"]] * table
    return [["".join(str(place >> at & 1) for at in range(count)), "1"] for place in range(1 << count) if table >> place & 1]


def narrow(inputs, table, output, fresh):
    """The covers that a table over these inputs becomes, as (inputs, output, table)."""
    if len(inputs) <= MOST_INPUTS:
        return [(inputs, output, table)]
    *others, last = inputs
    half = 1 << len(others)
    low, high = table & ((1 << half) - 1), table >> half
    if low == high:
        return narrow(others, low, output, fresh)
    first, second = next(fresh), next(fresh)
    return narrow(others, low, first, fresh) + narrow(others, high, second, fresh) + [([first, second, last], output, CHOOSER)]


def split_cover(cover):
    """A cover, or what it is split into."""
    if len(cover.inputs) <= MOST_INPUTS:
        return [cover]
    fresh = (f"{cover.output}#{number}" for number in itertools.count(1))
    parts = narrow(list(cover.inputs), table_of(len(cover.inputs), cover.rows), cover.output, fresh)
    return [cover._replace(inputs=inputs, output=output, rows=rows_of(len(inputs), table)) for inputs, output, table in parts]


def split_covers(covers):
    """All covers, each wide one replaced in its place by what it is split into."""
    return [part for cover in covers for part in split_cover(cover)]
