"""Whether fab ended as it has to on a broken case: for tools/check_garbage."""
import collections
import os
import re

from garbage_bench import UNKNOWN
from garbage_words import BOUNDS, LIMIT, REASONS, RULES, STATUSES, is_utf8, last_line, parse

# What is refused behind the last line of a file, in whole files other than BLIF and in BLIF.
WHOLE = (b"end of file", b"tile", b"grid", b"wires", b"inputs of an output", b"bit", b"text bytes", b"no port", b"no register")
WHOLE_BLIF = (b"no model", b"name twice", b"model ", b"recursive model ", b"formal", b"instances", b"drivers", b"undriven",
              b"nets", b"clock as data", b"second clock", b"cycle ")
# Refusals of a whole text or of a fabric's mode stand at no line.
WITHOUT_LINE = (b"text bytes", b"serial FlipFlopChain", b"partial FlipFlopChain")

Refusal = collections.namedtuple("Refusal", "status file line what")


def shown(report):
    return report[:300].decode("utf-8", "replace")


def read_refusal(status, report):
    """What a report of the status 4, 5 or 6 says, or None."""
    word = {4: b"malformed", 5: b"unsupported", 6: b"limit"}.get(status)
    found = word and re.match(word + rb" (.*?):([0-9]+) (.*)\n\Z", report, re.DOTALL)
    return Refusal(status, found.group(1), int(found.group(2)), found.group(3)) if found else None


def is_stream(meant, name):
    """Whether the file is the bitstream of the command."""
    return (meant[0] == b"features" and name == meant[1][-1]) or (meant[0] == b"simulate" and name == meant[1][1])


def route_fault(status, head, text, words):
    """What is wrong with a report of the status 8 or 9."""
    form = (rb"no path (zero|one|in \S+|cell c[0-9]+) X[0-9]+Y[0-9]+/\w+\Z" if status == 8 else
            rb"overused X[0-9]+Y[0-9]+/\w+( (zero|one|in \S+|cell c[0-9]+)){2}\Z")
    first = b"fabulous-impl 2\nreset " if b"--reset" in words else b"fabulous-impl 1\n"
    is_text = text.startswith(first) and text.endswith(b"\nend\n")
    return None if re.match(form, head) and is_text else "no form of its status"


def refusal_fault(refusal, case, meant):
    """What is wrong with a report of the status 4, 5 or 6."""
    if refusal is None:
        return "no form of its status"
    if refusal.status == 4 and refusal.what not in REASONS:
        return "no reason of FORMATS"
    if refusal.status == 6:
        found = re.match(rb"(.+) ([0-9]+) ([0-9]+)\Z", refusal.what)
        if not found or BOUNDS.get(found.group(1)) != int(found.group(3)) or int(found.group(2)) <= int(found.group(3)):
            return "no limit of FORMATS"
    there = case.files.get(os.fsdecode(refusal.file))
    if not isinstance(there, (bytes, int)) or is_stream(meant, refusal.file):
        return None
    # a text that is not sound, or too large, is refused as a whole
    is_verilog = meant[0] == b"simulate" and refusal.file == meant[1][0]
    least = 0 if is_verilog or refusal.what.startswith(WITHOUT_LINE) else 1
    return None if least <= refusal.line <= last_line(there) else "a line that the file does not have"


def file_fault(status, report, bench):
    """What is wrong with a report of the status 2, 3 or 11."""
    word = {2: b"missing ", 3: b"too long ", 11: b"read fault "}[status]
    if not report.startswith(word):
        return "no form of its status"
    return None if bench.look_up(report[len(word):-1]) == status else "the file is not as it says"


def quiet_fault(status, report, case, meant):
    """What is wrong where at most a summary or `usage` is printed."""
    if status == 0 and meant[0] == b"sample":
        return None if report.startswith(b"sample ") and report.endswith(b"\n") else "no summary"
    if status == 1:
        # words that are not UTF-8 are not had at all, and nothing is printed
        return None if report == (b"usage\n" if is_utf8(case.words) else b"") else "no usage"
    return "something is printed" if report else None


def form_fault(run, case, bench):
    """What is wrong with a status and its report by themselves; None where nothing is."""
    status, report = run.status, run.report
    meant = parse(case.words)
    if status == "hang" or not isinstance(status, int) or status < 0 or status > 13:
        return "ends with %s" % status
    if (status == 1) != (meant is None):
        return "the words are %s, and the status is %d" % ("faulty" if meant is None else "good", status)
    if status in (0, 1, 13):
        return quiet_fault(status, report, case, meant)
    if status not in STATUSES[meant[0]]:
        return "a status that the command does not have"
    if case.stdout is not None:
        return None
    head, _, text = report.partition(b"\n")
    if not report.endswith(b"\n"):
        return "no line"
    if status in (8, 9):
        return route_fault(status, head, text, case.words)
    if text and b"\n" not in b"".join(case.words):
        return "more than one line"
    if status in (2, 3, 11):
        return file_fault(status, report, bench)
    if status == 12:
        return None if report[len(b"write fault "):-1] in meant[2] else "no output of the command"
    if status == 7:
        found = re.match(rb"short (LUT4c|IO) ([0-9]+) ([0-9]+)\Z", head)
        return None if found and int(found.group(2)) > int(found.group(3)) else "no form of its status"
    if status == 10:
        is_form = re.match(rb"illegal " + RULES[meant[0]] + rb" .+\Z", head, re.DOTALL)
        return None if is_form else "no form of its status"
    return refusal_fault(read_refusal(status, report), case, meant)


def stored_fault(run, case, bench):
    """What is wrong with what the case stored."""
    meant = parse(case.words)
    outputs = {path for path in map(bench.real, meant[2] if meant else ()) if path is not None}
    inputs = {bench.real(os.fsencode(name)) for name in case.files if "\0" not in name}
    if run.status in (0, 12, 13) and not set(run.changed) <= outputs:
        return "a file changed that is no output"
    if run.status == 0 and set(run.changed) != outputs and not outputs & inputs:
        return "an output was not stored"
    if isinstance(run.status, int) and 1 <= run.status <= 11 and run.changed:
        return "a file changed with a fault"
    return None


def expected_fault(run, expected):
    """What differs from what is known of the case."""
    if expected is None or run.status == 13:
        return None
    if run.status != expected.status:
        return "status %s in the place of %d: %s" % (run.status, expected.status, shown(run.report))
    if expected.report is not None and run.report != expected.report:
        return "%s in the place of %s" % (shown(run.report), shown(expected.report))
    for name, content in expected.stored.items():
        if run.after.get(name) != content:
            return "%s holds %r in the place of %r" % (shown(name), (run.after.get(name) or b"")[:300], content[:300])
    return None


def known_fault(run, case, bench):
    """What differs from what is known of the case, from its twin and from what has to come of it."""
    expected = case.expected(bench) if callable(case.expected) else case.expected
    if expected is UNKNOWN:
        return None
    fault = expected_fault(run, expected)
    if fault:
        return fault
    # with a fault that is known nothing is stored
    if case.twin is not None and (expected is None or expected.status == 0):
        other = bench.run(case.twin)
        if 13 not in (run.status, other.status) and (run.status, run.outputs) != (other.status, other.outputs):
            return "twin: %s %s in the place of %s %s" % (run.status, shown(run.report), other.status, shown(other.report))
    while case.again is not None and run.status == 0:
        case = case.again(run)
        run = bench.run(case)
        fault = form_fault(run, case, bench) or expected_fault(run, case.expected)
        if fault:
            return "again: %s" % fault
    return None


def line_end(content, line, is_blif):
    """Where the line ends, behind its line feed; a BLIF line with all lines that it is joined with."""
    place = 0
    for _ in range(line - 1):
        place = content.index(b"\n", place) + 1
    while True:
        end = content.find(b"\n", place)
        if end < 0:
            return len(content)
        text = content[place:end]
        text = (text[:-1] if text.endswith(b"\r") else text).partition(b"#")[0]
        if not (is_blif and text.endswith(b"\\")):
            return end + 1
        place = end + 1


def line_start(content, line):
    place = 0
    for _ in range(line - 1):
        place = content.index(b"\n", place) + 1
    return place


def is_verilog_end(content, refusal, meant):
    """Whether a Verilog text is refused because it ends too early, or as a whole."""
    if refusal is None or meant[0] != b"simulate" or refusal.file != meant[1][0]:
        return False
    return refusal.line == 0 or (refusal.what == b"token" and refusal.line >= last_line(content) - content.count(b"/*"))


def is_read_once(case, name):
    """Whether one word or one file names the file, and that file is read once itself."""
    passed = set()
    while name not in passed:
        passed.add(name)
        holders = [os.fsencode(holder) for holder, file in case.files.items() if isinstance(file, bytes)
                   for _ in range(file.count(name))]
        words = sum(word.count(name) for word in case.words)
        # a table of places is asked for by the name of its tile, without being named
        if len(holders) + words != 1 or name.endswith(b"_ConfigMem.csv"):
            return False
        if words:
            return True
        name = holders[0]
    return False


class Judge:
    """Whether a report is a first refusal."""

    def __init__(self, bench, chance):
        self.bench, self.chance, self.counts = bench, chance, collections.Counter()

    def again(self, case, name, content):
        run = self.bench.run(case.copy(**{name: content}))
        return run, read_refusal(run.status, run.report)

    def judge(self, whole, case, run):
        refusal = read_refusal(run.status, run.report)
        if refusal is None or refusal.line == 0:
            return None
        name = os.fsdecode(refusal.file)
        content = case.files.get(name)
        meant = parse(case.words)
        if not isinstance(content, bytes) or len(content) > LIMIT // 16:
            return None
        if not is_read_once(case, refusal.file) or refusal.file in meant[2]:
            self.counts["not moved: the file may be read twice"] += 1
            return None
        if is_stream(meant, refusal.file):
            return self.judge_words(case, name, content, refusal)
        fault = self.judge_lines(case, name, content, refusal, meant)
        return fault or self.judge_mended(whole, case, name, refusal, meant)

    def judge_lines(self, case, name, content, refusal, meant):
        is_blif = len(meant[1]) > 1 and refusal.file == meant[1][1] and meant[0] in (b"assemble", b"map", b"flow", b"timing")
        is_whole = self.is_whole(content, refusal, is_blif, meant)
        end = line_end(content, refusal.line, is_blif)
        if is_whole and not re.sub(rb"#[^\n]*|[\s,]", b"", content):
            # the bad line would be the first row of a table, and some are good
            return None
        if is_whole or end == len(content):
            fault = self.judge_end(case, name, content, refusal, is_whole)
        else:
            fault = self.judge_behind(case, name, content[:end], refusal, meant)
        return fault if fault or is_whole else self.judge_before(case, name, content, refusal, is_blif, meant)

    def judge_end(self, case, name, content, refusal, is_whole):
        """A bad line at the end: a refusal of a whole file gives way to it."""
        self.counts["end"] += 1
        longer = content + b"\n\n\1\n"
        run, other = self.again(case, name, longer)
        moved = last_line(longer)
        is_moved = other is not None and other.file == refusal.file and other.line in (moved, moved - 1)
        may_stay = not is_whole or refusal.what in (b"grid", b"bit", b"no model")
        return None if is_moved or (may_stay and other == refusal) else "end: %s" % shown(run.report)

    def judge_behind(self, case, name, front, refusal, meant):
        """What stands behind the line is cut off or garbage: the refusal stays."""
        self.counts["behind"] += 1
        rests = (b"", b"\1[{,\n", b"FabricBegin\nend\n.end\n\xff\n")
        # a Verilog text that ends too early is malformed at its last line, which counts before a limit there
        is_verilog = meant[0] == b"simulate" and refusal.file == meant[1][0]
        run, other = self.again(case, name, front + self.chance.choice(rests[1:] if is_verilog else rests))
        return None if other == refusal else "behind: %s" % shown(run.report)

    def judge_before(self, case, name, content, refusal, is_blif, meant):
        """The file is cut in front of the line: none stands there."""
        self.counts["before"] += 1
        front = content[:line_start(content, refusal.line)]
        run, other = self.again(case, name, front)
        is_short = is_verilog_end(front, other, meant)
        if other and other.file == refusal.file and not is_short and not self.is_whole(front, other, is_blif, meant):
            return "before: %s" % shown(run.report)
        return None if last_line(content) >= refusal.line else "line"

    def is_whole(self, content, refusal, is_blif, meant):
        what = refusal.what
        if is_blif:
            line = content.split(b"\n")[refusal.line - 1].split()
            if what == b"name twice" and line[:1] != [b".model"] or what == b"no model" and refusal.line < last_line(content):
                return False
            return what.startswith(WHOLE_BLIF)
        if what in (b"grid", b"bit"):
            return refusal.line == last_line(content)
        if what.startswith(b"inputs of an output"):
            return meant[0] == b"matrix"
        return what.startswith(WHOLE)

    def judge_words(self, case, name, content, refusal):
        """The words of a bitstream: cut in front of the wrong one, it is the first that is missing."""
        self.counts["word"] += 1
        if refusal.what == b"word":
            return None if len(content) % 4 and refusal.line == len(content) // 4 + 1 else "word: no cut word"
        run, other = self.again(case, name, content[:4 * refusal.line - 4])
        is_behind = run.status == 0 and refusal.what == b"stream"
        is_good = is_behind or other == Refusal(4, refusal.file, refusal.line, b"stream")
        return None if is_good else "word: %s" % shown(run.report)

    def judge_mended(self, whole, case, name, refusal, meant):
        """With the file as it was, no file is refused that is asked for before."""
        places = [index for index, file in enumerate(meant[1]) if file == refusal.file]
        if not places or places[0] == 0 or case.files == whole.files or case.files[name] == whole.files.get(name):
            return None
        self.counts["mended"] += 1
        run, other = self.again(case, name, whole.files.get(name))
        return None if not other or other.file in meant[1][places[0]:] else "mended: %s" % shown(run.report)
