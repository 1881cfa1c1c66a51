"""The characters of Unicode as a table of twenty columns, read from the files of the Unicode
Character Database, which Debian has as the package `unicode-data`.

A row is a code point that is assigned: some 150,000 characters, and those for private use and
surrogates, which come in long ranges. Rows are in the order of code points.
"""
import bisect
import os

FOLDER = "/usr/share/unicode"
COLUMNS = {
    "code": "u32",
    "name": "utf8?",
    "category": "utf8",
    "combining": "u8",
    "bidi": "utf8",
    "decomposition_kind": "utf8?",
    "decomposition": "utf8?",
    "decimal": "u8?",
    "digit": "u8?",
    "numeric": "utf8?",
    "mirrored": "bool",
    "old_name": "utf8?",
    "upper": "u32?",
    "lower": "u32?",
    "title": "u32?",
    "block": "utf8",
    "script": "utf8",
    "age": "u16",
    "width": "utf8",
    "line_break": "utf8",
}
# Names that are made of the code point, by the name of the range.
BY_NUMBER = {"CJK": "CJK UNIFIED IDEOGRAPH-%04X", "Tangut": "TANGUT IDEOGRAPH-%04X"}


def lines(name):
    """The fields of a file's lines, without comments."""
    with open(os.path.join(FOLDER, name), encoding="utf-8") as file:
        for line in file:
            line = line.split("#")[0].strip()
            if line:
                yield [field.strip() for field in line.split(";")]


class Property:
    """A property that a file gives for ranges of code points."""

    def __init__(self, name, missing):
        self.missing = missing
        self.ranges = []
        for code, value, *_ in lines(name):
            first, _, last = code.partition("..")
            self.ranges.append((int(first, 16), int(last or first, 16), value))
        self.ranges.sort()
        self.firsts = [first for first, _, _ in self.ranges]

    def of(self, code):
        at = bisect.bisect_right(self.firsts, code) - 1
        if at >= 0 and code <= self.ranges[at][1]:
            return self.ranges[at][2]
        return self.missing


def jamo():
    """The letters of Hangul syllables by the number that a syllable has for each place."""
    names = {int(code, 16): name for code, name in lines("Jamo.txt")}
    first, middle, last = (0x1100, 19), (0x1161, 21), (0x11A8, 27)
    leading, vowels, trailing = (
        [names[start + at] for at in range(count)] for start, count in (first, middle, last)
    )
    return leading, vowels, ["", *trailing]


def syllable(code, letters):
    leading, vowels, trailing = letters
    number = code - 0xAC00
    parts = (leading[number // 588], vowels[number // 28 % 21], trailing[number % 28])
    return "HANGUL SYLLABLE " + "".join(parts)


def name_in(range_name, code, letters):
    """The name of a code point in a range, or None where there are none."""
    if range_name.startswith("<Hangul"):
        return syllable(code, letters)
    word = range_name[1:].split()[0]
    return BY_NUMBER[word] % code if word in BY_NUMBER else None


def entries():
    """Each code point with the fields of its line, and its name."""
    letters = jamo()
    start = None
    for code, *fields in lines("UnicodeData.txt"):
        code, name = int(code, 16), fields[0]
        if name.endswith(", First>"):
            start = code
        elif start is not None:
            for number in range(start, code + 1):
                yield number, fields, name_in(name, number, letters)
            start = None
        else:
            yield code, fields, None if name.startswith("<") else name


def decomposition(text):
    """Its kind and its code points."""
    if not text:
        return None, None
    if text.startswith("<"):
        kind, _, rest = text.partition("> ")
        return kind[1:], rest
    return "canonical", text


def number(text, base=10):
    return int(text, base) if text else None


def rows():
    """The table's rows."""
    blocks, scripts = Property("Blocks.txt", "No_Block"), Property("Scripts.txt", "Unknown")
    ages, widths = Property("DerivedAge.txt", "0.0"), Property("EastAsianWidth.txt", "N")
    breaks = Property("LineBreak.txt", "XX")
    for code, fields, name in entries():
        _, category, combining, bidi, parts, decimal, digit, numeric, mirrored = fields[:9]
        old_name, _, upper, lower, title = fields[9:]
        major, minor = ages.of(code).split(".")
        yield [
            code, name, category, int(combining), bidi, *decomposition(parts), number(decimal),
            number(digit), numeric or None, mirrored == "Y", old_name or None, number(upper, 16),
            number(lower, 16), number(title, 16), blocks.of(code), scripts.of(code),
            int(major) * 10 + int(minor), widths.of(code), breaks.of(code),
        ]


def version():
    """The version of the database."""
    with open(os.path.join(FOLDER, "DerivedAge.txt"), encoding="utf-8") as file:
        return file.readline().strip("# \n").removesuffix(".txt").partition("-")[2]
