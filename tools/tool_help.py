"""The words of a tool's command line: what its first comment says is what --help prints."""
import argparse


def words_of_tool(text):
    """A parser for a tool whose comment `text` has a line for what it does, then its form, and then all else."""
    first, form, rest = text.split("\n\n", 2)
    form = " ".join(form.split())
    return argparse.ArgumentParser(prog=form.split()[0], usage=form, description=f"{first.rstrip(':')}.", epilog=rest,
                                   formatter_class=argparse.RawDescriptionHelpFormatter)
