#!/usr/bin/env python3
"""Compares the two ways to the rows of an append: token by token, and by a JSON value.

paths.py [--lines N] [--seed S] [PROGRAM]    PROGRAM is crates/colscan/out/colscan where none
                                             is given

The rows of an append are read token by token, whatever order and white space the line has, into
columns where the leaves of their type are truth values, integers, texts and bytes. Where a cell
doesn't fit its column, in the first row or a later one, as a null of long lists of one size
doesn't, all of the line is read as a JSON value.
The same line with a first key `rows` that is no array, which the later one replaces, says the same,
and is read as a JSON value. So each session of random appends is run twice, once with such a key in
each append, and both have to answer alike, byte for byte. Before each append stands a `create` of
its type, and behind it a scan of all rows.

The lines are right ones and near ones: numbers at the ends of their kinds and in other forms,
escapes, surrogates and their halves, hexadecimal digits, spaces, members that are doubled, lacking
or in another order, and bytes that are changed, gone or doubled.
The last line is 'N passed, M failed', counted in sessions, with one more for how many lines were
accepted and refused; the status is 0 if none failed.
"""
import argparse
import random
import subprocess
import sys

sys.dont_write_bytecode = True
import outcome

LINES = 5_000
# Of all lines, the least share of those that have to be read token by token to their end, and of
# those that have to be refused.
SHARE = 10
ENDS = [sign * 2**bits for bits in (7, 8, 15, 16, 31, 32, 63, 64) for sign in (1, -1)]
NUMBERS = ["0", "1", "-1", "7", *(str(end + more) for end in ENDS for more in (-1, 0, 1))]
ODD_NUMBERS = [*"-0 1.0 0.5 1e2 1E+2 -2e-3 1e400 00 01 - +1 5. .5 NaN".split(), "9" * 30]
LETTERS = [
    *"abZ09 '{],\x7fé🪩\uffff",
    *r"\n \t \r \b \f \/ \\ \" \u0041 \u00e9 \u0000 \uD83E\uDEA9 \udbff\udfff \uffff".split(),
]
ODD_LETTERS = [*r"\ud800 \udc00 \udc00\ud800 \ud83ex \u12 \x41".split(), "\x01", "\\"]
DIGITS = ["00", "ff", "7F", "aB", "Fe", "deadBEEF", r"\u0036\u0061", r"\u0041f"]
ODD_DIGITS = ["1", "f", "g0", "0G", "@0", "`0", "/0", ":0", "é", " ", r"\u0000", r"\n", r"\u00e9"]
ODD = '{} [] [[]] "" {"a":1} null true false nul True " NaN'.split()
HINTS = ['"plain"', '"dictionary"', '"constant"', r'"\u0070lain"']
ODD_HINTS = [*ODD, '"Plain"', '"dictionary "']
SPOILERS = b'{}[]",:0-+.eE\\u \x00\x1f\x80\xc3\xff'


def record(names, *children, more=""):
    return '{"kind":"struct"%s,"names":[%s],"children":[%s]}' % (more, names, ",".join(children))


def kind(name, more=""):
    return '{"kind":"%s"%s}' % (name, more)


NULLABLE = ',"nullable":true'
# Types of rows, each with a form of its rows: `i` stands for a number, `s` for a text, `b` for
# bytes, `t` for a truth value, `n`, `m`, `c` and `u` for null or a number, a text, bytes or a truth
# value, `I` for an array of numbers, `S` for one of texts, `B` for one of bytes or null and `R` for
# one of records of a text and a number or null. What stands in braces may be null. By the last
# types a line is refused.
FORMS = [
    (record('"a"', kind("i8")), "[i]"),
    (record('"a"', kind("i64")), "[i]"),
    (record('"a","b"', kind("u64"), kind("i32", NULLABLE)), "[i,n]"),
    (record('"s"', kind("utf8")), "[s]"),
    (record('"t","s"', kind("bool"), kind("utf8", NULLABLE)), "[t,m]"),
    (
        record('"a","b","c","d"', *(kind(it, NULLABLE) for it in ("i8", "utf8", "bool", "u64"))),
        "[n,m,u,n]",
    ),
    (record('"a","b","c","d"', *(kind(it) for it in ("u8", "u32", "i16", "i32"))), "[i,i,i,i]"),
    (record('"b","t"', kind("binary"), kind("bool")), "[b,t]"),
    (record('"a","b"', kind("i64"), kind("binary")), "[i,b]"),
    (record('"b","s"', kind("binary", NULLABLE), kind("utf8", NULLABLE)), "[c,m]"),
    (record('"l"', kind("list", NULLABLE + ',"children":[%s]' % kind("binary", NULLABLE))), "[B]"),
    (
        record('"p","f"', record('"b"', kind("binary"), more=NULLABLE),
               kind("fixed_size_list", NULLABLE + ',"size":2,"children":[%s]' % kind("binary"))),
        "[{[b]},{[b,b]}]",
    ),
    (record(r'"é","\u0065"', kind("u16"), kind("i16")), "[i,i]"),
    (record('"l"', kind("list", ',"children":[%s]' % kind("i32"))), "[I]"),
    (record('"l"', kind("list", NULLABLE + ',"children":[%s]' % kind("utf8", NULLABLE))), "[S]"),
    (record('"f"', kind("fixed_size_list", ',"size":2,"children":[%s]' % kind("u32"))), "[[i,i]]"),
    (
        record('"f"', kind("fixed_size_list", NULLABLE + ',"size":65,"children":[%s]'
               % kind("bool"))),
        "[{[%s]}]" % ",".join("t" * 65),
    ),
    (
        record('"f"', kind("fixed_size_list", ',"size":65,"children":[%s]'
               % kind("binary", NULLABLE))),
        "[[%s]]" % ",".join("c" * 65),
    ),
    (
        record('"f"', kind("fixed_size_list", NULLABLE + ',"size":9,"children":[%s]' % kind(
               "fixed_size_list", NULLABLE + ',"size":8,"children":[%s]' % kind("i16", NULLABLE)))),
        "[{[%s]}]" % ",".join(["[n,n,n,n,n,n,n,n]"] * 9),
    ),
    (
        record('"f"', kind("fixed_size_list", ',"size":9,"children":[%s]' % kind(
               "fixed_size_list", NULLABLE + ',"size":8,"children":[%s]' % kind("i16", NULLABLE)))),
        "[[%s]]" % ",".join(["{[n,n,n,n,n,n,n,n]}"] * 9),
    ),
    (
        record('"f"', kind("fixed_size_list", ',"size":4294967295,"children":[%s]'
               % kind("i8", NULLABLE))),
        "[[n]]",
    ),
    (
        record('"f"', kind("fixed_size_list", NULLABLE + ',"size":0,"children":[%s]'
               % kind("i8", NULLABLE))),
        "[{[]}]",
    ),
    (record('"p","q"', record('"a","b"', kind("i32"), kind("utf8")), kind("bool")), "[[i,s],t]"),
    (
        record('"p","q"', record('"a","b"', kind("i32"), kind("utf8", NULLABLE), more=NULLABLE),
               record('"r"', record('"t"', kind("bool", NULLABLE)))),
        "[{[i,m]},[[u]]]",
    ),
    (
        record('"l","f"', kind("list", NULLABLE + ',"children":[%s]' % record('"s","i"',
               kind("utf8"), kind("i64", NULLABLE), more=NULLABLE)),
               kind("fixed_size_list", NULLABLE + ',"size":2,"children":[%s]' % kind("i16"))),
        "[R,{[i,i]}]",
    ),
    (
        record('"p"', record('"l","f"', kind("list", ',"children":[%s]' % kind("i8")),
               kind("fixed_size_list", ',"size":1,"children":[%s]' % kind("bool")), more=NULLABLE)),
        "[{[I,[t]]}]",
    ),
    (record(""), "[]"),
    (record('"a","a"', kind("u8"), kind("f32")), "[i,n]"),
    (kind("list", ',"children":[%s]' % kind("i32")), "I"),
    (record('"a"', kind("i9")), "[i]"),
    (record('"a"', kind("i8", ',"size":1e1')), "[i]"),
]


class Lines:
    """Random lines of appends."""

    def __init__(self, seed):
        self.chance = random.Random(seed)

    def one_in(self, count):
        return self.chance.random() * count < 1

    def one_of(self, right, odd):
        return self.chance.choice(odd if self.one_in(150) else right)

    def number(self):
        return self.one_of(NUMBERS if self.one_in(4) else NUMBERS[:4], ODD_NUMBERS)

    def quoted(self, right, odd):
        count = self.chance.randrange(25 if self.one_in(6) else 5)
        return '"%s"' % "".join(self.one_of(right, odd) for _ in range(count))

    def items(self, item):
        return "[%s]" % ",".join(item() for _ in range(self.chance.randrange(4)))

    def text(self):
        return self.quoted(LETTERS, ODD_LETTERS)

    def digits(self):
        return self.quoted(DIGITS, ODD_DIGITS)

    def value(self, sign):
        if self.one_in(150):
            return self.chance.choice(ODD)
        if sign in "nmcu" and self.one_in(3):
            return "null"
        return {
            "i": self.number,
            "n": self.number,
            "s": self.text,
            "m": self.text,
            "b": self.digits,
            "c": self.digits,
            "t": lambda: self.chance.choice(["true", "false"]),
            "u": lambda: self.chance.choice(["true", "false"]),
            "I": lambda: self.items(self.number),
            "S": lambda: self.items(self.text),
            "B": lambda: self.items(lambda: self.value("c")),
            "R": lambda: self.items(lambda: self.row("{[s,n]}")),
        }[sign]()

    def row(self, form):
        """A value of this form."""
        while "{" in form:
            front, _, rest = form.rpartition("{")
            inside, _, behind = rest.partition("}")
            form = front + ("N" if self.one_in(4) else inside) + behind
        signs = {"N": lambda: "null"}
        return "".join(
            signs.get(it, lambda: self.value(it))() if it.isalpha() else it for it in form
        )

    def rows(self, form):
        rows = (self.row(form) for _ in range(self.chance.randrange(5)))
        return "[%s]" % ",".join(rows)

    def members(self, dtype, form):
        """Those of an append in another order, doubled, lacking, or with others between them."""
        kinds = [
            lambda: '"dtype":' + dtype,
            lambda: '"rows":' + self.rows(form),
            lambda: '"layouts":' + self.hints(),
            lambda: r'"\u0063md":"append"',
            lambda: '"more":' + self.chance.choice(ODD),
        ]
        count = 2 + self.chance.randrange(3)
        return [self.chance.choice([*kinds[:2], *kinds])() for _ in range(count)]

    def hints(self):
        """The hints of an append, for fewer columns than there are, as many or more."""
        return "[%s]" % ",".join(
            self.one_of(HINTS, ODD_HINTS) for _ in range(self.chance.randrange(5))
        )

    def deep(self):
        """Lists in lists, about as deep as a line may nest."""
        depth = self.chance.randrange(55, 67)
        nested = self.chance.choice([depth, self.chance.randrange(120, 128)])
        dtype = '{"kind":"list","children":[' * depth + kind("i8") + "]}" * depth
        return ['"dtype":' + dtype, '"rows":[%s]' % ("[" * nested + "]" * nested)]

    def spaced(self, text):
        """The text with spaces around what stands between values."""
        space = lambda: self.chance.choice(" \t\r") if self.one_in(4) else ""
        return "".join(space() + it + space() if it in "{}[],:" else it for it in text)

    def spoiled(self, line):
        at, odd = self.chance.randrange(len(line)), bytes([self.chance.choice(SPOILERS)])
        return self.chance.choice([
            line[:at] + odd + line[at + 1 :],
            line[:at] + line[at + 1 :],
            line[:at] + odd + line[at:],
            line[:at],
            line + odd,
        ])

    def draw(self):
        """An append with its type, and whether its members are in the usual order."""
        dtype, form = self.chance.choice(FORMS)
        in_order = not self.one_in(8)
        if in_order:
            members = ['"dtype":' + dtype, '"rows":' + self.rows(form)]
            if self.one_in(3):
                members.append('"layouts":' + self.hints())
        else:
            members = self.deep() if self.one_in(40) else self.members(dtype, form)
        rest = ",".join(members) + "}"
        line = '{"cmd":"append",' + (self.spaced(rest) if self.one_in(5) else rest)
        line = line.encode()
        return dtype, self.spoiled(line) if self.one_in(5) else line, in_order


def by_value(line):
    """The line with a first key `rows`, which the later one replaces."""
    return b'{"rows":0,' + line[1:] if line.startswith(b"{") else line


def run(program, lines):
    ran = subprocess.run([program], input=b"\n".join(lines) + b"\n", capture_output=True)
    return ran.returncode, ran.stdout.split(b"\n")


def session(program, seed, count):
    """How many appends in order were accepted, how many refused, and the first that isn't alike."""
    draws, by_tokens, by_values = [], [], []
    lines = Lines(seed)
    for _ in range(count):
        dtype, line, in_order = lines.draw()
        draws.append((line, in_order))
        create = b'{"cmd":"create","length":16,"dtype":%s}' % dtype.encode()
        scan = b'{"cmd":"scan","paths":[[]],"where":["lit",{"kind":"bool"},true]}'
        by_tokens += [create, line, scan]
        by_values += [create, by_value(line), scan]
    status, answers = run(program, by_tokens)
    other_status, other_answers = run(program, by_values)
    accepted = refused = 0
    for i, (line, in_order) in enumerate(draws):
        if answers[3 * i : 3 * i + 3] != other_answers[3 * i : 3 * i + 3]:
            return accepted, refused, "%r: %r, and with two keys %r" % (
                line, answers[3 * i + 1], other_answers[3 * i + 1]
            )
        is_right = answers[3 * i + 1] == b'{"ok":true}'
        accepted += is_right and in_order
        refused += not is_right
    ends = (status, other_status, len(answers), len(other_answers))
    is_whole = ends == (0, 0, 3 * count + 1, 3 * count + 1)
    return accepted, refused, None if is_whole else "status and answers %r" % (ends,)


def main():
    words = argparse.ArgumentParser(description=__doc__.split("\n")[0])
    words.add_argument("program", nargs="?", default=outcome.PROGRAM)
    words.add_argument("--lines", type=int, default=100_000)
    words.add_argument("--seed", type=int, default=0)
    given = words.parse_args()
    passed = failed = lines = accepted = refused = 0
    while lines < given.lines:
        count = min(LINES, given.lines - lines)
        more, others, wrong = session(given.program, given.seed + lines, count)
        lines, accepted, refused = lines + count, accepted + more, refused + others
        if wrong:
            failed += 1
            print("session from line %d: %s" % (lines - count, wrong))
        else:
            passed += 1
    are_enough = min(accepted, refused) * SHARE >= lines
    passed, failed = passed + are_enough, failed + (not are_enough)
    print("paths: %d lines, %d appends in order accepted, %d refused" % (lines, accepted, refused))
    outcome.end(passed, failed)


main()
