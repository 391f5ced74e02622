"""Files and words of a command are broken at random: for tools/check_garbage."""
import os
import re

import command_rows
from garbage_bench import Case
from garbage_words import LIMIT

TOKEN = re.compile(rb"[^\s,=;:\[\]|{}/]+")
HOSTILE = [b"", b"0", b"-0", b"00", b"-1", b"1", b"31", b"32", b"64", b"65", b"255", b"4096", b"4097", b"16385", b"4294967295",
           b"4294967296", b"18446744073709551615", b"18446744073709551616", b"1" + b"0" * 30, b"9" * 5000, b"A" * 64,
           b"A" * 65, b"A" * 100000, b"\xff\xfe", b"\xc3", b"\xe2\x82\xac", b"\0", b"\r", b"\r\n", b"\n", b"\xef\xbb\xbf", b"#", b'"', b'"a,b"',
           b"\\", b"NULL", b"GND", b"VCC", b"ConfigBits", b"fab_x", b"[", b"]", b"[|]", b"{2}", b"{4096}", b"{4097}A",
           b"[A|B][A|B][A|B][A|B][A|B][A|B][A|B][A|B][A|B][A|B][A|B][A|B][A|B]", b"{", b"}", b"|", b".", b"..", b"/dev/zero",
           b"/dev/null", b"/", b"INCLUDE", b"Tile", b"TILE", b"EndTILE", b"FabricBegin", b"FabricEnd", b"ParametersBegin",
           b"SuperTILE", b"MUX8LUT_frame_config.v", b".names", b".model", b".end", b".subckt", b".gate", b".latch", b".clock",
           b"end", b"net zero", b"X0Y0", b"X31Y30.Z", b"X32Y0.A", b"X01Y0.A", b"128'b1", b"129'h0", b"1'b2", b"=", b" ", b"\t",
           b"FlipFlopChain", b"frame_based"]
OPTIONS = (b"--pcf", b"--pcf=", b"--pcf=inv.pcf", b"--seed", b"--seed=18446744073709551616", b"--seed=0", b"--rounds=65", b"--rounds=1", b"--",
           b"-h", b"--help", b"--round=3", b"-", b"--order", b"--order=7", b"--order=-7")


def break_bytes(chance, content):
    """Some bytes are other ones, new or absent, or the file is cut."""
    place, kind = chance.randrange(len(content) + 1), chance.randrange(6)
    if kind == 0 and content:
        place = min(place, len(content) - 1)
        return content[:place] + bytes([content[place] ^ 1 << chance.randrange(8)]) + content[place + 1:]
    if kind == 1:
        return content[:place] + bytes([chance.randrange(256)]) + content[place + 1:]
    if kind == 2:
        return content[:place] + bytes(chance.randrange(256) for _ in range(chance.randrange(1, 9))) + content[place:]
    if kind == 3:
        return content[:place] + content[place + chance.randrange(1, 40):]
    if kind == 4:
        return content[:place] + chance.choice(HOSTILE) + content[place:]
    return content[:place]


def break_lines(chance, name, content, case):
    """Some lines are new, doubled, absent, elsewhere, or those of another file."""
    others = [file for file in case.files.values() if isinstance(file, bytes)]
    lines = content.split(b"\n")
    number, other, kind = chance.randrange(len(lines)), chance.randrange(len(lines)), chance.randrange(9)
    line = chance.choice(HOSTILE)
    if kind == 0:
        return b"\n".join(lines[:number] + lines[number + 1:])
    if kind == 1:
        return b"\n".join(lines[:number] + [lines[number]] * 2 + lines[number + 1:])
    if kind == 2:
        lines[number], lines[other] = lines[other], lines[number]
        return b"\n".join(lines)
    if kind == 3:
        lines.insert(other, lines.pop(number))
        return b"\n".join(lines)
    if kind == 4:
        return b"\n".join(lines[:number] + [lines[number]] * chance.choice((31, 300, 20000)) + lines[number + 1:])
    if kind == 5:
        return content.replace(b"\n", b"\r\n") if chance.randrange(2) else chance.choice(others) if others else b""
    if kind == 6:
        line = chance.choice(chance.choice(others).split(b"\n")) if others else b""
    if kind == 7:
        path = os.fsencode(chance.choice(sorted(case.files)))
        line = chance.choice((b"INCLUDE,", b"Tile,", b"MATRIX,")) + chance.choice((path, os.fsencode(name)))
    return b"\n".join(lines[:number] + [line] + lines[number:])


def break_tokens(chance, content):
    """A word is another one, or stands many times."""
    tokens = list(TOKEN.finditer(content))
    if not tokens:
        return content
    token, kind = chance.choice(tokens), chance.randrange(5)
    if kind == 4:
        return content[:token.end()] + token.group() * chance.choice((3, 70, 30000)) + content[token.end():]
    word = chance.choice(tokens).group() if kind < 2 else chance.choice(HOSTILE)
    return content[:token.start()] + word + content[token.end():]


def break_content(chance, name, content, case):
    """One fault in a file."""
    kind = chance.randrange(20)
    if kind < 6:
        return break_bytes(chance, content)
    if kind < 15:
        return break_lines(chance, name, content, case)
    return break_tokens(chance, content)


def break_words(chance, case):
    """One fault in the words."""
    words = case.words
    number = chance.randrange(len(words))
    kind = chance.randrange(7)
    if kind == 0:
        del words[number]
    elif kind == 1:
        words.insert(number, words[number])
    elif kind == 2:
        other = chance.randrange(len(words))
        words[number], words[other] = words[other], words[number]
    elif kind == 3:
        words[number] = chance.choice(HOSTILE)
    elif kind == 4:
        words.insert(number, chance.choice(OPTIONS))
    elif kind == 5:
        words[number] = words[number][:chance.randrange(len(words[number]) + 1)]
    else:
        place = chance.randrange(len(words[number]) + 1)
        words[number] = words[number][:place] + bytes([chance.randrange(1, 256)]) + words[number][place:]
    # no word may lead out of the folder, and none holds NUL or is longer than the system allows
    words = [word.replace(b"/", b"_").replace(b"\0", b"_").replace(b"..", b"__")[:5000] for word in words]
    case.words = words or [b"matrix"]


def broken(chance, whole):
    """The case with 1 to 5 faults."""
    case = whole.copy()
    for _ in range(chance.choice((1, 1, 1, 1, 2, 2, 3, 5))):
        name = chance.choice(sorted(case.files))
        kind = chance.randrange(400)
        content = case.files[name]
        if kind < 20:
            break_words(chance, case)
        elif kind < 24 or not isinstance(content, bytes):
            case.files[name] = None
        elif kind < 27:
            case.files[name] = b""
        elif kind == 27:
            # each word of a bitstream is a tick of `simulate`, so the longest one takes a minute; a longer one is not loaded
            is_loaded = case.words[:1] == [b"simulate"] and os.fsencode(name) in case.words[2:3]
            case.files[name] = LIMIT + max(is_loaded, chance.randrange(2))
        else:
            case.files[name] = break_content(chance, name, content, case)
    return case


def make_files(chance, _here):
    """A row of command_rows whose files or words are broken, and the row."""
    weights, words, files = zip(*command_rows.rows())
    chosen = chance.choices(range(len(words)), weights)[0]
    whole = Case(words[chosen], files[chosen])
    return whole, broken(chance, whole)
