"""What is no plain file stands in the place of one: for tools/check_garbage.

An input is a folder, a link, a socket, a file that may not be read; an output is a folder, a link, a device that is full, a file that
may not be written, or stands where no folder is; standard output is full.
"""
import os

import command_rows
from garbage_bench import UNKNOWN, Case, Closed, Expected, Folder, Link, Socket
from garbage_paths import REPORTS
from garbage_words import LIMIT, parse

FULL = "/dev/full"


def stored_rows():
    """Words and files of rows that store something."""
    return [(words, files) for _, words, files in command_rows.rows(is_small=True) if words[0] != b"sample" and b"--reset" not in words]


def is_asked(name, words, files):
    """Whether a word or a file names the file; a table of places is asked for by the name of its tile."""
    return name in words or name.endswith(b"_ConfigMem.csv") or any(name in content for content in files.values())


def special_input(chance, name, content):
    """What stands in the place of a file, and what else has to be there."""
    own = name.encode()
    kinds = [(Folder(), {}), (Link(own), {}), (Link(b"other"), {"other": Link(own)}), (Link(b"gone"), {}), (Link(b"gone/x"), {}),
             (Link(b"there"), {"there": content}), (Link(b"in/" + own), {"in/" + name: content}), (Link(own + b"/x"), {}), (Socket(), {}),
             (Closed(content), {}), (Link(b"/proc/self/mem"), {}), (Link(b"/dev/null"), {}), (None, {name + "/x": b""})]
    # a file that is too long takes a second to be read
    return chance.choice(kinds) if chance.randrange(40) else (LIMIT + 1, {})


def make_inputs(chance):
    """One input of a row is no plain file."""
    words, files = chance.choice(stored_rows())
    whole = Case(words, files)
    name = chance.choice(sorted(name for name in files if is_asked(name.encode(), words, files)))
    there, more = special_input(chance, name, files[name])
    asked = name.encode()

    def expected(bench):
        status, content = bench.fetch(asked)
        if status == 2 and asked.endswith(b"_ConfigMem.csv") or status == 0 and content != files[name]:
            return UNKNOWN
        return Expected(status, REPORTS[status] + asked + b"\n", {}) if status else None

    return whole, Case(words, {**files, **more, name: there}, expected, whole)


def special_output(chance, path):
    """What stands at an output, what else has to be there, and whether it can be stored."""
    is_root, part = os.geteuid() == 0, os.fsdecode(path) + ".part"
    return chance.choice([
        (Folder(), {}, False), (Link(path), {}, False), (Link(os.fsencode(FULL)), {}, False), (Link(b"gone/x"), {}, False),
        (Link(b"made_here"), {}, True), (Link(b"there"), {"there": b"old\n"}, True), (Link(b"in/there"), {"in/there": b"old and longer\n" * 4000}, True),
        (Closed(b"old\n"), {}, is_root), (Socket(), {}, False), (b"old and longer\n" * 4000, {}, True),
        # the name under which a new file is written beside the old one may be taken
        (b"old\n", {part: b"mine\n"}, True), (None, {part: Folder()}, True), (Folder(), {part: b"mine\n"}, False)])


def make_outputs(chance):
    """One output of a row is no plain file."""
    words, files = chance.choice(stored_rows())
    whole = Case(words, files)
    outputs = parse(words)[2]
    place = chance.randrange(len(outputs))
    path = outputs[place]
    there, more, is_stored = special_output(chance, path)
    case = Case(words, {**files, **more, os.fsdecode(path): there}, None, whole)
    if not is_stored:
        later = {output: b"old\n" for output in outputs[place + 1:]}
        case.expected, case.twin = Expected(12, b"write fault " + path + b"\n", later), None
    return whole, case


def make_out_paths(chance):
    """The word of an output leads to no file, or to a device."""
    words, files = chance.choice([row for row in stored_rows() if len(parse(row[0])[2]) == 1])
    old = parse(words)[2][0]
    long = b"n" * 256 + b".v"
    paths = [b"gone/" + old, sorted(files)[0].encode() + b"/" + old, long, b"sub/" * 1200 + old, os.fsencode(FULL), b"/dev/null/" + old,
             b".", b"..", b"/", old + b"/", b"./", b"/proc/self/" + old]
    path = chance.choice(paths + [b"/dev/null"])
    status = 0 if path == b"/dev/null" else 12
    report = b"write fault " + path + b"\n" if status else b""
    case = Case([path if word == old else word for word in words], files, Expected(status, report, {}))
    return Case(words, files), case


def make_full(chance):
    """Standard output is full: the status is the same, but for a summary."""
    _, words, files = chance.choice(command_rows.refused_rows() + command_rows.rows(is_small=True))
    if words[0] == b"sample":
        case = Case(words, files, Expected(12, b"", {}), stdout=FULL)
        return case, case
    whole = Case(words, files)
    return whole, Case(words, files, None, whole, stdout=FULL)


def make_places(chance, _here):
    return chance.choices((make_inputs, make_outputs, make_out_paths, make_full), (4, 3, 2, 1))[0](chance)
