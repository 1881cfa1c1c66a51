#!/usr/bin/env python3
"""Compares what `colscan` skips with boxes that are searched by force.

boxes.py [--boxes N] [--seed S] [PROGRAM]    PROGRAM is crates/colscan/out/colscan where none is given

The box of a chunk has a low and a high for each column of a predicate, and under a null test the
null count and the number of rows. It is hopeless where no choice of one value a column, from its
low to its high, makes the predicate true. A chunk that has all bounds has to be skipped exactly
where its box is hopeless, if the tests of the predicate are comparisons of a column with another or
with a literal, BETWEENs with their ends, null tests, LIKEs of a text or of a beginning and truth
values, joined by AND and OR, and no column stands on both sides of an AND, or both under a null
test and outside. On both sides of an OR one may stand. So each session makes a table of small types in many small chunks,
joins some groups and retypes now and then, and asks for many predicates, in lines of every
spelling; what a box admits is tried value by value here.

Of truth values and integers all values of a box are tried. Of texts and bytes, of which a box
holds no end, all short ones over a small alphabet are, with the bounds and the literals.
The last line is 'N passed, M failed', counted in sessions; the status is 0 if none failed.
"""
import argparse
import itertools
import json
import random
import subprocess
import sys

sys.dont_write_bytecode = True
import outcome
# The plain program beside this one, for its shortened bounds.
import reference_values as plain
from spellings import spelled

CHUNKS, SCANS = 40, 25
LETTERS = ("a", "b", "\x7f", "é", "\U0010ffff")
BYTES = (b"\x00", b"\x01", b"\xfe", b"\xff")
COMPARISONS = {
    "=": lambda x, y: x == y,
    "!=": lambda x, y: x != y,
    "<": lambda x, y: x < y,
    "<=": lambda x, y: x <= y,
    ">": lambda x, y: x > y,
    ">=": lambda x, y: x >= y,
}


def strings(items):
    """All strings of up to two of the items."""
    found = [items[0][:0]]
    for size in (1, 2):
        found += [items[0][:0].join(it) for it in itertools.product(items, repeat=size)]
    return found


ALL = {"utf8": strings(LETTERS), "binary": strings(BYTES)}


# What values of one kind are compared by: texts by their bytes.
order = plain.in_order


class Column:
    """A column: its kind, whether null may stand in it, and the most bytes of a bound."""

    def __init__(self, draw, name):
        self.name = name
        self.kind = draw.choice(("bool", "i8", "u8", "i64", "utf8", "binary"))
        self.nullable = draw.random() < 0.5
        self.length = draw.choice((0, 1, 2, 3, 16))

    def dtype(self):
        return {"kind": self.kind, "nullable": self.nullable}

    def value(self, draw):
        if self.kind == "bool":
            return draw.random() < 0.5
        if self.kind in ALL:
            return draw.choice(ALL[self.kind]) + draw.choice(ALL[self.kind])[:1]
        low = 0 if self.kind == "u8" else -2
        return draw.randint(low, 3)

    def cell(self, draw):
        return None if self.nullable and draw.random() < 0.3 else self.value(draw)

    def bounds(self, cells):
        """The low and the high of a chunk, or None where one is missing."""
        values = sorted((it for it in cells if it is not None), key=order)
        if not values:
            return None
        low, high = values[0], values[-1]
        if self.kind in ALL:
            low, high = plain.low(low, self.length), plain.high(high, self.length)
        return None if high is None else (low, high)

    def choices(self, bounds, near):
        """The values from the low to the high; of texts and bytes enough of them."""
        low, high = bounds
        if self.kind == "bool":
            return [it for it in (False, True) if low <= it <= high]
        if self.kind not in ALL:
            return list(range(low, high + 1))
        values = {*ALL[self.kind], *near}
        return [it for it in values if order(low) <= order(it) <= order(high)]


def null_choices(cells):
    """What a null test may meet: a null, some value, or both."""
    nulls = cells.count(None)
    return [None] * (nulls != 0) + [0] * (nulls < len(cells))


def written(value):
    return value.hex() if isinstance(value, bytes) else value


class Leaf:
    """A test of one or two columns: its JSON, its columns, its literals, and what it says of
    chosen values. A null test is told apart, since its box has counts."""

    def __init__(self, form, columns, literals, holds, null_test=False):
        self.form, self.columns, self.literals = form, columns, literals
        self.holds, self.null_test = holds, null_test


def col(column):
    return ["col", column.name]


def lit(column, value):
    return ["lit", column.dtype(), written(value)]


def compare_leaf(draw, column, others):
    name = draw.choice(list(COMPARISONS))
    test = COMPARISONS[name]
    alike = [it for it in others if it.kind == column.kind]
    if alike and draw.random() < 0.5:
        other = alike[0]
        holds = lambda at: test(order(at[column.name]), order(at[other.name]))
        return Leaf([name, col(column), col(other)], [column, other], [], holds)
    value = column.value(draw)
    if draw.random() < 0.5:
        holds = lambda at: test(order(at[column.name]), order(value))
        return Leaf([name, col(column), lit(column, value)], [column], [value], holds)
    holds = lambda at: test(order(value), order(at[column.name]))
    return Leaf([name, lit(column, value), col(column)], [column], [value], holds)


def between_leaf(draw, column):
    low, high = sorted((column.value(draw), column.value(draw)), key=order)
    form = ["between", col(column), lit(column, low), lit(column, high), False, False]
    holds = lambda at: order(low) <= order(at[column.name]) <= order(high)
    return Leaf(form, [column], [low, high], holds)


def null_leaf(draw, column):
    name = draw.choice(("is_null", "is_not_null"))
    holds = lambda at: (at[column.name] is None) == (name == "is_null")
    return Leaf([name, col(column)], [column], [], holds, null_test=True)


def like_leaf(draw, column):
    text = draw.choice([it for it in ALL["utf8"] if it])
    # The last character of a beginning has to have a higher one of as many bytes.
    if draw.random() < 0.5 and text[-1] in ("a", "b", "é"):
        pattern, holds = text + "%", lambda at: at[column.name].startswith(text)
    else:
        pattern, holds = text, lambda at: at[column.name] == text
    form = ["like", col(column), ["lit", {"kind": "utf8"}, pattern], False, False]
    return Leaf(form, [column], [text], holds)


def truth_leaf(draw):
    truth = draw.random() < 0.5
    return Leaf(["lit", {"kind": "bool"}, truth], [], [], lambda at: truth)


def random_leaf(draw, free, tested):
    """A leaf over one or two of the free columns: over one of the tested ones a null test."""
    if not free or draw.random() < 0.08:
        return truth_leaf(draw)
    column = draw.choice(free)
    if column in tested:
        return null_leaf(draw, column)
    kind = draw.random()
    if kind < 0.2 and column.kind == "utf8":
        return like_leaf(draw, column)
    if kind < 0.3:
        return between_leaf(draw, column)
    return compare_leaf(draw, column, [it for it in free if it is not column and it not in tested])


class Tree:
    """Leaves under AND and OR. No column stands on both sides of an AND, and none both under a null
    test and outside; on both sides of an OR one may."""

    def __init__(self, draw, columns):
        self.leaves = []
        tested = [it for it in columns if draw.random() < 0.15]
        free = draw.sample(columns, len(columns))
        self.form, self.holds = self.part(draw, free, tested, draw.randint(1, 4))

    def part(self, draw, free, tested, size):
        """A tree of so many leaves over the free columns: its JSON, and what it says."""
        if size == 1:
            leaf = random_leaf(draw, free, tested)
            self.leaves.append(leaf)
            return leaf.form, leaf.holds
        name, cut = draw.choice(("and", "or")), draw.randint(0, len(free))
        sides = (free[:cut], free[cut:]) if name == "and" else (free, free)
        first = draw.randint(1, size - 1)
        left = self.part(draw, sides[0], tested, first)
        right = self.part(draw, sides[1], tested, size - first)
        if name == "and":
            holds = lambda at: left[1](at) and right[1](at)
        else:
            holds = lambda at: left[1](at) or right[1](at)
        return [name, left[0], right[0]], holds

    def box(self, rows, columns):
        """The values to choose from, by column, or None where a bound is missing."""
        cells = {it: [row[columns.index(it)] for row in rows] for it in columns}
        found, near = {}, {}
        for leaf in self.leaves:
            if leaf.null_test:
                found.update((it.name, null_choices(cells[it])) for it in leaf.columns)
                continue
            bounds = [it.bounds(cells[it]) for it in leaf.columns]
            if None in bounds:
                return None
            # Two columns that are compared can be equal at a bound of the other one.
            for column in leaf.columns:
                near.setdefault(column, []).extend([*leaf.literals, *itertools.chain(*bounds)])
        for column, values in near.items():
            found[column.name] = column.choices(column.bounds(cells[column]), values)
        return found

    def is_hopeless(self, box):
        names = list(box)
        return not any(
            self.holds(dict(zip(names, chosen))) for chosen in itertools.product(*box.values())
        )


class Session:
    """A table in many small chunks, and predicates on it."""

    def __init__(self, seed):
        self.draw = draw = random.Random(seed)
        self.columns = [Column(draw, name) for name in "abcd"]
        dtype = self.dtype()
        lengths = [[[it.name], it.length] for it in self.columns]
        self.lines = [{"cmd": "create", "dtype": dtype, "length": 16, "lengths": lengths}]
        self.chunks = [
            [[it.cell(draw) for it in self.columns] for _ in range(draw.randint(1, 3))]
            for _ in range(CHUNKS)
        ]
        for rows in self.chunks:
            cells = [[written(it) for it in row] for row in rows]
            self.lines.append({"cmd": "append", "dtype": dtype, "rows": cells})
        groups = CHUNKS
        for _ in range(draw.randint(0, CHUNKS)):
            if groups > 1:
                self.lines.append({"cmd": "join", "group": draw.randrange(groups - 1)})
                groups -= 1
        if draw.random() < 0.5:
            for column in self.columns:
                column.name += "x"
            self.lines.append({"cmd": "retype", "dtype": self.dtype()})
        self.trees = [Tree(draw, self.columns) for _ in range(SCANS)]
        for tree in self.trees:
            self.lines.append({"cmd": "scan", "paths": [], "where": tree.form})

    def dtype(self):
        names = [it.name for it in self.columns]
        children = [it.dtype() for it in self.columns]
        return {"kind": "struct", "names": names, "children": children}

    def text(self):
        return "".join(spelled(self.draw, it) + "\n" for it in self.lines).encode()

    def check(self, output):
        """How many boxes were compared, and what is wrong, if anything is."""
        answers = [json.loads(it) for it in output.decode().splitlines()]
        if len(answers) != len(self.lines):
            return 0, "%d answers to %d lines" % (len(answers), len(self.lines))
        for line, answer in zip(self.lines, answers):
            if not answer.get("ok"):
                return 0, "%s is answered by %s" % (json.dumps(line), json.dumps(answer))
        boxes = 0
        for tree, answer in zip(self.trees, answers[-SCANS:]):
            for number, rows in enumerate(self.chunks):
                box = tree.box(rows, self.columns)
                if box is None:
                    continue
                boxes += 1
                if tree.is_hopeless(box) != (number in answer["skipped"]):
                    return boxes, "chunk %d, %s" % (number, json.dumps(tree.form))
        return boxes, None


def main():
    words = argparse.ArgumentParser(description=__doc__.split("\n")[0])
    words.add_argument("program", nargs="?", default=outcome.PROGRAM)
    words.add_argument("--boxes", type=int, default=100_000)
    words.add_argument("--seed", type=int, default=0)
    given = words.parse_args()
    passed, failed, boxes, seed = 0, 0, 0, given.seed
    while boxes < given.boxes and not failed:
        session = Session(seed)
        ran = subprocess.run([given.program], input=session.text(), capture_output=True)
        more, wrong = session.check(ran.stdout)
        boxes += more
        if wrong or ran.returncode:
            failed += 1
            print("session %d: %s" % (seed, wrong or "status %d" % ran.returncode))
        else:
            passed += 1
        seed += 1
    print("boxes: %d boxes of chunks and predicates were searched" % boxes)
    outcome.end(passed, failed)


main()
