"""The words of fab's commands, and what FORMATS says of statuses and reports: for tools/check_garbage."""
import re

# The most bytes of a file that is read.
LIMIT = 64 << 20
REASONS = """row,number,name,end of file,after end,name twice,block,grid,tile,direction,null,prefix,bracket,counts differ,
unknown name,both sides,digit,header,frame,mask,range,bit,no model,cover row,drivers,undriven,formal,feature,address,value,
annotation,word,stream,spare bit,wire,site,port,token,no port,no register,unknown name,select,width,instance,drivers,clock""".replace("\n", "").encode().split(b",")
BOUNDS = {b"columns": 32, b"rows": 31, b"tile types": 64, b"BELs": 26, b"matrix names": 4096, b"inputs of an output": 256,
          b"configuration bits": 640, b"wires": 1048576, b"include depth": 8, b"expanded names": 4096, b"name bytes": 64,
          b"nets": 16384, b"instances": 16384, b"text bytes": 67043328, b"literal bits": 128,
          b"expression depth": 300, b"points": 16777216}
STATUSES = {b"matrix": (0, 1, 2, 3, 4, 6, 11, 12, 13), b"generate": (0, 1, 2, 3, 4, 5, 6, 11, 12, 13),
            b"assemble": (0, 1, 2, 3, 4, 5, 6, 7, 10, 11, 12, 13), b"map": (0, 1, 2, 3, 4, 5, 6, 7, 8, 9, 11, 12, 13),
            b"flow": (0, 1, 2, 3, 4, 5, 6, 7, 8, 9, 10, 11, 12, 13), b"bits": (0, 1, 2, 3, 4, 5, 6, 10, 11, 12, 13),
            b"features": (0, 1, 2, 3, 4, 5, 6, 11, 12, 13), b"simulate": (0, 1, 2, 3, 4, 5, 6, 11, 12, 13),
            b"partial": (0, 1, 2, 3, 4, 5, 6, 10, 11, 12, 13), b"timing": (0, 1, 2, 3, 4, 5, 6, 7, 10, 11, 12, 13),
            b"serial": (0, 1, 2, 3, 4, 5, 6, 11, 12, 13), b"sample": (0, 1, 12, 13)}
# The rules of FORMATS that each command can find broken.
RULES = {b"assemble": rb"([1-9]|12)", b"timing": rb"([1-9]|12)", b"flow": rb"12", b"bits": rb"1[01]", b"partial": rb"1[0134]"}
# How many positional words a command has, and its options.
FORMS = {b"matrix": (2, ()), b"generate": (2, ()), b"assemble": (4, (b"pcf",)), b"bits": (3, ()), b"features": (3, ()),
         b"map": (3, (b"pcf", b"seed", b"rounds")), b"flow": (3, (b"pcf", b"seed", b"rounds", b"reset")),
         b"simulate": (5, (b"order",)), b"partial": (6, ()), b"timing": (4, (b"pcf",)), b"serial": (2, ()), b"sample": (2, ())}
NAME = re.compile(rb"[A-Za-z_][A-Za-z0-9_]*\Z")
MOST = 2 ** 64 - 1


def is_utf8(words):
    try:
        return b" ".join(words).decode() is not None
    except UnicodeDecodeError:
        return False


def split_words(words):
    """The positional words and the options of a command line; None where its form is faulty."""
    count, names = FORMS[words[0]]
    places, options, rest = [], {}, list(words[1:])
    while rest:
        word = rest.pop(0)
        if not word:
            return None
        if not word.startswith(b"-"):
            places.append(word)
            continue
        name, sign, value = word.partition(b"=")
        if not sign:
            if not rest or not rest[0] or rest[0].startswith(b"-"):
                return None
            value = rest.pop(0)
        if name[:2] != b"--" or name[2:] not in names or name in options or not value:
            return None
        options[name] = value
    return (places, options) if len(places) == count else None


def has_good_values(command, places, options):
    """Whether all numbers are within their bounds, and the other words are what they have to be."""
    numbers = [(options.get(b"--seed"), 0, MOST), (options.get(b"--rounds"), 1, 64), (options.get(b"--order"), 0, MOST)]
    if command == b"sample":
        numbers = [(places[0], 2, 16), (places[1], 0, MOST)]
    if command == b"partial":
        numbers = [(places[3], 0, 31), (places[4], 0, 31)]
    for value, least, most in numbers:
        if value is not None and not (re.match(rb"[0-9]{1,20}\Z", value) and least <= int(value) <= most):
            return False
    if options.get(b"--reset", b"").startswith(b"-") or command == b"partial" and int(places[3]) > int(places[4]):
        return False
    if command == b"matrix":
        stem = places[0].rsplit(b"/", 1)[-1]
        stem = stem.rsplit(b".", 1)[0] if b"." in stem else stem
        return bool(NAME.match(stem)) and len(stem) <= 64
    return True


def parse(words):
    """The command, its files in the order in which they are asked for, and its outputs; None for faulty words."""
    if not words or not is_utf8(words) or words[0] not in FORMS:
        return None
    found = split_words(words)
    if found is None or not has_good_values(words[0], *found):
        return None
    (places, options), command = found, words[0]
    pcf = [options[b"--pcf"]] if b"--pcf" in options else []
    if command == b"sample":
        return command, [], []
    if command == b"partial":
        return command, places[:3], places[5:]
    if command == b"timing":
        return command, places[:2] + pcf + places[2:3], places[3:]
    if command == b"assemble":
        return command, places[:2] + pcf + places[2:3], [places[3] + end for end in (b".fasm", b".bit", b".state")]
    if command == b"flow":
        ends = (b".v", b".impl", b".fasm", b".bit", b".state")
        return command, places[:2] + pcf, [places[2] + end for end in ends]
    return command, places[:-1] + pcf, places[-1:]


def last_line(content):
    """The number of the last line, by FORMATS."""
    if not isinstance(content, bytes):
        return 1
    return max(1, content.count(b"\n") + (not content.endswith(b"\n") and content != b""))
