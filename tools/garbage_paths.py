"""Files that lie in folders, behind links and under odd paths: for tools/check_garbage.

A row of a fabric or of a list names a file by a path; what that path leads to is found here by the rules of FORMATS, "Files".
"""
import os

import command_rows
from garbage_bench import Case, Expected, Link, UNKNOWN

REPORTS = {2: b"missing ", 3: b"too long ", 11: b"read fault "}
FOLDERS = (b"", b"", b"sub/", b"sub/deep/", b"other/", b"a b/", "\u00fc/".encode(), b".hidden/")
NAMING = (b"INCLUDE", b"Tile", b"MATRIX")


def resolved(holder, path):
    """The file that a path means in a file; empty where it means none."""
    if path.startswith(b"/"):
        return path
    is_rooted, found = holder.startswith(b"/"), []
    folder = holder.rpartition(b"/")[0].split(b"/")[is_rooted:] if b"/" in holder else []
    for segment in folder + path.split(b"/"):
        if segment == b".." and found and found[-1] != b"..":
            found.pop()
        elif segment != b"." and (segment or found or is_rooted):
            found.append(segment)
    return b"/" * is_rooted + b"/".join(found)


def is_utf8(path):
    try:
        return path.decode() is not None
    except UnicodeDecodeError:
        return False


class Layout:
    """The files of a case in folders: where each stands, and its lines; a line that names a file is a word, that file and a path."""

    def __init__(self, chance, files, here):
        self.chance, self.here, self.links = chance, here, {}
        self.content = {os.fsencode(name): content for name, content in files.items()}
        self.place = {name: chance.choice(FOLDERS) + name for name in self.content}
        self.lines = {}
        for name, content in self.content.items():
            self.lines[name] = [self.named(line) for line in content.split(b"\n")]
        self._keep_tables()
        for name, lines in self.lines.items():
            self.lines[name] = [self.written(name, line) if isinstance(line, tuple) else line for line in lines]

    def named(self, line):
        """A line with the file that it names."""
        word, _, name = line.partition(b",")
        return (word, name) if word in NAMING and name in self.content else line

    def _keep_tables(self):
        """Tables of places stand beside the file with the tile's block."""
        for holder, lines in self.lines.items():
            for line in lines:
                table = line[5:] + b"_ConfigMem.csv" if isinstance(line, bytes) and line.startswith(b"TILE,") else None
                if table in self.content:
                    self.place[table] = self.place[holder].rpartition(b"/")[0] + b"/" * (b"/" in self.place[holder]) + table

    def written(self, holder, line):
        word, name = line
        folder = self.place[holder].rpartition(b"/")[0] or b"."
        return word, name, self.odd(os.path.relpath(self.place[name], folder), word, self.place[holder])

    def inserted(self, path, piece):
        """The path with a piece at the front of one of its segments."""
        segments = path.split(b"/")
        # an empty segment in front would make the path one from the root
        place = self.chance.randrange(min(piece == b"/" and self.chance.randrange(20) > 0, len(segments) - 1), len(segments))
        return b"/".join(segments[:place] + [piece + segments[place]] + segments[place + 1:])

    def odd(self, path, word=b"", holder=b""):
        """The path in another form, which mostly leads to the same file."""
        for _ in range(self.chance.choice((0, 1, 1, 2, 3))):
            kind = self.chance.randrange(14)
            if not word and self.chance.randrange(6):
                # the system itself reads a path of the words: a folder that is gone leads nowhere there
                kind = self.chance.choice((0, 2, 8, 9))
            if kind < 6:
                piece = (b"./", b"gone/../", b"/", b"n" * 300 + b"/../", b"./" * 3000, b"x/y/../../")[kind]
                path = self.inserted(path, piece)
            elif kind == 6:
                path = self.chance.choice(sorted(self.content)) + b"/../" + path
            elif kind == 7 and holder.count(b"/") == 0:
                path = b"../" + os.path.basename(self.here) + b"/" + path
            elif kind == 8:
                path = self.here + b"/" + (os.path.normpath(os.path.join(os.path.dirname(holder), path)))
            elif kind == 9 and path.startswith(b"sub/"):
                self.links["link"] = Link(b"sub")
                path = b"link" + path[3:]
            elif kind == 10 and not self.chance.randrange(3):
                path = self.wrong(path, word)
        return path

    def wrong(self, path, word):
        """A path that leads nowhere, or to nothing that could be read."""
        self.links["loop.list"] = Link(b"loop.list")
        self.links["one.list"], self.links["two.list"] = Link(b"two.list"), Link(b"one.list")
        ends = [b"loop.list", b"one.list", b"gone.list", b"gone/x.list", path + b"/x.list", b"n" * 256 + b".list", b"sub/" * 1200 + b"x.list",
                b"sub" + b"/" * 5000 + b"x.list", b"..list", b"\xff.list", b"/dev/null/x.list"]
        more = [b"", b".", b"./.", b"x/..", path + b"/", path + b"/.", b"..", b"sub", b"/", b"//"]
        # a list of `matrix` needs a stem that is a name
        return self.chance.choice(ends if word == b"MATRIX" else [b"gone.list", b"gone/x.list"] if not word else ends + more)

    def file(self, name):
        return b"\n".join(b"%s,%s" % (line[0], line[2]) if isinstance(line, tuple) else line for line in self.lines[name])

    def files(self):
        found = {os.fsdecode(self.place[name]): self.file(name) for name in self.content}
        return {**found, **self.links}


class Asked:
    """What a command asks for, in order: paths, the files that they are to lead to, and whether one may be absent."""

    def __init__(self, layout):
        self.layout, self.files, self.report, self.matrix = layout, [], None, None

    def ask(self, path, name):
        self.files.append((path, name, False))
        self.read(path, name)

    def read(self, path, name):
        tile = b""
        for number, line in enumerate(self.layout.lines[name], 1):
            if self.report:
                return
            if isinstance(line, tuple):
                self.take(path, number, *line)
            elif line.startswith(b"TILE,"):
                tile = line[5:]
            elif line == b"EndTILE":
                self.end(path, tile)

    def take(self, path, number, word, name, written):
        """A line that names a file; a list's matrix file is asked for at the end of its block."""
        found = resolved(path, written)
        if not written:
            self.report = b"malformed %s:%d row\n" % (path, number)
        elif not found or not is_utf8(written):
            self.report = b"malformed %s:%d name\n" % (path, number)
        elif word == b"MATRIX":
            self.matrix = found, name
        else:
            self.ask(found, name)

    def end(self, path, tile):
        matrix, self.matrix = self.matrix, None
        if matrix:
            self.ask(*matrix)
        if self.report:
            return
        table = tile + b"_ConfigMem.csv"
        self.files.append((resolved(path, table), table if table in self.layout.content else None, True))

    def expected(self, bench):
        """What has to come of it, in the folder of the run."""
        for path, name, may_be_absent in self.files:
            status, content = bench.fetch(path)
            if status == 2 and may_be_absent and name is None:
                continue
            if status and not (status == 2 and may_be_absent):
                return Expected(status, REPORTS[status] + path + b"\n", {})
            if status or name is None or content != self.layout.file(name):
                return UNKNOWN
        return Expected(4, self.report, {}) if self.report else Expected(0, b"", {})


def base_rows():
    """Words and files of commands that end with 0."""
    duo = command_rows.fixtures("duo.csv", "io.list", "log.list")
    parts = dict(command_rows.TABLES, **command_rows.fixtures("log.list"))
    return [
        ("matrix m.list m.v", command_rows.LISTS), ("generate duo.csv f.v", duo), ("generate parts.csv f.v", parts),
        ("generate parts.csv f.v", parts), ("serial parts.csv f.v", parts),
        ("map duo.csv inv.blif i --pcf inv.pcf", dict(duo, **command_rows.fixtures("inv.blif", "inv.pcf"))),
        ("assemble duo.csv tog.blif tog.impl made", dict(duo, **command_rows.fixtures("tog.blif", "tog.impl"))),
        ("features duo.csv inv.bit f", dict(duo, **command_rows.fixtures("inv.bit"))),
    ]


def make_paths(chance, here):
    """A row with its files in folders, and the same with all files in one folder."""
    words, files = chance.choice(base_rows())
    words = words.encode().split()
    plain = Case(words, files)
    layout = Layout(chance, files, here)
    asked, placed = Asked(layout), []
    for word in words:
        placed.append(layout.odd(layout.place[word]) if word in layout.content else word)
    for word, path in zip(words, placed):
        if word in layout.content and not asked.report:
            asked.ask(path, word)
    files = layout.files()
    if not chance.randrange(3):
        placed[-1 if words[0] != b"map" else 3] = chance.choice((b"./o.v", b"sub/o.v", b"sub//o.v", b"sub/../o.v", here + b"/o.v"))
        files["sub/keep"] = b"a folder that is there\n"
    case = Case(placed, files, asked.expected, plain)
    return case, case

