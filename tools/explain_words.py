"""The words of a call of fab, for tools/explain: its files with what they are, and what is wrong with faulty words."""
import os
import re

from explain_page import ROOT
from explain_text import listed, near_words, plural, shown

# What a word of a form names. The others are outputs, numbers, or a file by the name of its option.
ROLES = {"LIST": "switch list", "FABRIC": "fabric", "BLIF": "netlist", "IMPL": "implementation", "FASM": "FASM",
         "BIT": "bitstream", "VERILOG": "Verilog", "STATE": "state", "STIM": "stimulus"}
BOUNDS = {"--seed": (0, 2 ** 64 - 1), "--rounds": (1, 64), "--order": (0, 2 ** 64 - 1), "N": (2, 16), "SEED": (0, 2 ** 64 - 1),
          "FIRST": (0, 31), "LAST": (0, 31)}


def read_forms(path=None):
    """The form of each command, as docs/COMMANDS.txt writes it: its positional words and its options."""
    forms, section = {}, ""
    with open(path or os.path.join(ROOT, "docs", "COMMANDS.txt"), encoding="utf-8") as file:
        for line in file:
            section = line.strip() if line[:1].isalpha() else section
            found = re.match(r"  ([a-z]+)((?: [A-Z]+)+)((?: \[--[^]]+\])*)\n", line)
            if section == "COMMANDS" and found:
                options = re.findall(r"\[(--[a-z]+) ([A-Z]+)\]", found.group(3))
                forms[found.group(1)] = (line.strip(), found.group(2).split(), dict(options))
    return forms


class Call:
    """The words of a call by the form of its command, as far as they fit it."""

    def __init__(self, words, forms):
        words = [word for word in words if word not in ("--unproved", "--proved")]
        self.command = words[0] if words else ""
        self.line, self.names, self.options = forms.get(self.command, ("", [], {}))
        self.places, self.values, self.lonely = [], [], []
        self.sort(words[1:])
        self.files = [(ROLES[name], word) for name, word in zip(self.names, self.places) if name in ROLES]
        self.files += [("constraints", value) for name, value in self.values if name == "--pcf"]

    def sort(self, rest):
        while rest:
            word, rest = rest[0], rest[1:]
            name, sign, value = word.partition("=")
            if not word.startswith("-"):
                self.places.append(word)
            elif sign:
                self.values.append((name, value))
            elif rest and not rest[0].startswith("-") and name.startswith("--"):
                self.values.append((name, rest[0]))
                rest = rest[1:]
            else:
                self.lonely.append(name)

    def file(self, role):
        """The path of the first file of this role, or None."""
        return next((path for kind, path in self.files if kind == role), None)

    def word(self, name):
        """The positional word that stands in the place of NAME, or None."""
        return dict(zip(self.names, self.places)).get(name)

    def roles(self, path):
        """What a file of a report may be, by the words that name it."""
        return [role for role, word in self.files if os.path.abspath(path) == os.path.abspath(word)]


def faults(call, forms):
    """What is wrong with the words, line by line, and the form that they should have."""
    if not call.line:
        if call.command:
            yield f"there is no command {shown(call.command)}{near_words(call.command, forms)}"
        yield f"commands: {', '.join(forms)}"
        return
    found = list(option_faults(call)) + list(place_faults(call)) + list(number_faults(call))
    yield from found
    yield f"the form is: fab {call.line}"


def option_faults(call):
    seen = set()
    for name, value in call.values + [(name, None) for name in call.lonely]:
        if name not in call.options:
            there = f"; it has {listed(call.options)}" if call.options else "; it has no options"
            yield f"{call.command} has no option {shown(name)}{near_words(name, call.options) or there}"
        elif name in seen:
            yield f"the option {name} stands twice"
        elif not value:
            yield f"the option {name} has no value"
        seen.add(name)


def place_faults(call):
    want, have = len(call.names), len(call.places)
    if "" in call.places:
        yield "a word is empty"
    if have < want:
        yield f"{call.command} takes {plural(want, 'word')}, and here are {have}; missing: {' '.join(call.names[have:])}"
    if have > want:
        yield f"{call.command} takes {plural(want, 'word')}, and here are {have}; too much: {listed(call.places[want:])}"
    if call.command == "matrix" and call.places:
        stem = call.places[0].rsplit("/", 1)[-1]
        stem = stem.rsplit(".", 1)[0] if "." in stem else stem
        if not re.fullmatch(r"[A-Za-z_][A-Za-z0-9_]{0,63}", stem):
            yield f"the module is named by the file, and {shown(stem)} is no name: letters, digits and _, not a digit first"


def number_faults(call):
    numbers = list(call.values) + [pair for pair in zip(call.names, call.places) if pair[0] in BOUNDS]
    for name, value in numbers:
        if name not in BOUNDS or not value:
            continue
        least, most = BOUNDS[name]
        if not re.fullmatch(r"[0-9]{1,20}", value) or not least <= int(value) <= most:
            yield f"{name} is a number from {least} to {most}, and {shown(value)} is none"
    first, last = call.word("FIRST") or "", call.word("LAST") or ""
    if first.isdigit() and last.isdigit() and int(first) > int(last):
        yield f"FIRST is not above LAST, and {first} is above {last}"
