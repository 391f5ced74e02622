"""Text for tools/explain: parts of files shown safely, single lines of large files, and what is near a misspelled name."""
import os
import re

# A line of a file may be as long as the file. So much of it is looked at, and so much is shown.
LINE_BYTES = 1 << 16
SHOWN = 110
FEW = 6
CHUNK = 1 << 20


def shown(text, most=SHOWN):
    """The text on one line of a screen: unprintable characters as escapes, and the middle left out where it is long."""
    if isinstance(text, bytes):
        text = text.decode("utf-8", "backslashreplace")
    if len(text) > most:
        text = text[:most * 3 // 4] + " .. " + text[-(most // 4):]
    safe = "".join(sign if sign.isprintable() else escape(sign) for sign in text)
    return safe if len(safe) <= most + 40 else safe[:most] + " .."


def escape(sign):
    code = ord(sign)
    if sign == "\t":
        return " "
    if 0xDC80 <= code <= 0xDCFF:    # a byte of a file name that is no UTF-8
        return f"\\x{code - 0xDC00:02x}"
    return f"\\x{code:02x}" if code < 256 else f"\\u{code:04x}"


class Quoted(str):
    """A line of a file, which is printed as it is."""


def quoted(path, line, text, more=""):
    return Quoted(f"{shown(path)}:{line} | {shown(text)}{more}")


def listed(names, few=FEW):
    """The first names of many, with commas between them, and how many more there are."""
    names = list(names)
    more = f" and {len(names) - few} more" if len(names) > few else ""
    return ", ".join(shown(name, 60) for name in names[:few]) + more


def families(names, few=12):
    """Names, or where they are many the words in front of their numbers, with how many there are of each."""
    names = list(names)
    if len(names) <= few:
        return listed(names, few)
    counts = {}
    for name in names:
        base = sides(name)[0]
        counts[base] = counts.get(base, 0) + 1
    return listed((f"{base} ({count})" for base, count in counts.items()), few)


def plural(number, word):
    return f"{number} {word}" if number == 1 else f"{number} {word}s"


def opened(path):
    """A regular file. A pipe was read to its end by the program, and a device may have none."""
    if not os.path.isfile(path):
        raise OSError
    return open(path, "rb")


def line_at(path, number):
    """The line of this number, counted from 1, without its line end and cut where it is long; None where there is none."""
    seen = 1
    try:
        with opened(path) as file:
            while seen < number:
                chunk = file.read(CHUNK)
                if not chunk:
                    return None
                ends = chunk.count(b"\n")
                if seen + ends < number:
                    seen += ends
                    continue
                at = -1
                for _ in range(number - seen):
                    at = chunk.index(b"\n", at + 1)
                file.seek(at + 1 - len(chunk), os.SEEK_CUR)
                seen = number
            return file.readline(LINE_BYTES).rstrip(b"\r\n")
    except (OSError, ValueError):
        return None


def lines_of(path, last=None, most=1 << 23):
    """Numbers and texts of the lines up to the last one that is asked for, of no more bytes than this."""
    try:
        with opened(path) as file:
            data = file.read(most)
    except (OSError, ValueError):
        return
    number, at = 1, 0
    while at < len(data) and (last is None or number <= last):
        end = data.find(b"\n", at)
        end = len(data) if end < 0 else end
        yield number, data[at:min(end, at + LINE_BYTES)].rstrip(b"\r").decode("latin-1")
        number, at = number + 1, end + 1


def words_of(text):
    """The words of a line before its comment."""
    return text.split("#", 1)[0].split()


def distance(one, other, bound):
    """In how many places two names differ: signs that are missing, added, exchanged or swapped with the next one."""
    if abs(len(one) - len(other)) > bound:
        return bound + 1
    before, row = None, list(range(len(other) + 1))
    for i, sign in enumerate(one, 1):
        older, before, row = before, row, [i]
        for k, another in enumerate(other, 1):
            best = min(before[k] + 1, row[k - 1] + 1, before[k - 1] + (sign != another))
            if older and i > 1 and k > 1 and sign == other[k - 2] and one[i - 2] == another:
                best = min(best, older[k - 2] + 1)
            row.append(best)
        if min(row) > bound:
            return bound + 1
    return row[-1]


def near(name, names, few=3):
    """The names that a misspelled one may stand for, the nearest first. Short names are near only to the same letters."""
    if len(name) > 200:
        return []
    bound = min(4, len(name) // 3)
    found = []
    for other in list(names)[:20000]:
        if other.lower() == name.lower():
            found.append((0, other))
        elif abs(len(name) - len(other)) <= bound:
            found.append((distance(name, other, bound), other))
    found = sorted((count, abs(len(name) - len(other)), other) for count, other in found if count <= bound)
    least = found[0][0] if found else 0
    return [other for count, _, other in found if count <= least + 1][:few]


def near_words(name, names, few=3):
    """`; near: A, B`, or nothing."""
    found = near(name, names, few)
    return f"; near: {listed(found)}" if found else ""


def sides(name):
    """A name and its number at the end."""
    found = re.match(r"(.*?)(\d*)\Z", name, re.S)
    return found.group(1), found.group(2)
