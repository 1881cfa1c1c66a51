#!/usr/bin/env python3
"""A plain, slow colscan: the definitions as directly as they can be run, with nothing kept of a
chunk but its rows.

reference.py    answers the lines of standard input

A table is a type, the bound lengths of leaves by their positions, the length of all others, and a
list of groups. reference_values.py has types and rows, reference_proofs.py predicates and groups.
"""
import functools
import sys

sys.dont_write_bytecode = True
from reading import Refused, converts, is_content, is_leaf, read_command
from reference_proofs import (
    check_predicate,
    chunks_in,
    falsifier,
    is_proved,
    satisfier,
    value_of,
    zone,
)
from reference_values import (
    check_path,
    check_type,
    compact,
    cut_row,
    cut_type,
    part_at,
    positions,
    row_json,
    type_json,
)

NAMES = {
    2: "NotARecord",
    3: "UnkeptType",
    4: "RepeatedName",
    5: "InvalidValue",
    6: "NotConvertible",
    8: "NoSuchGroup",
    9: "UnknownPath",
    10: "ElementStep",
    11: "Placeholder",
    12: "UnknownColumn",
    13: "NotALeaf",
    14: "UnequalTypes",
    15: "NotBoolean",
    16: "UnsupportedLike",
    18: "BadLine",
    19: "NoTable",
    20: "UnsupportedPredicate",
    21: "RepeatedPath",
}


def create(dtype, length, lengths):
    check_type(dtype)
    table = {"dtype": dtype, "default": length, "lengths": {}, "groups": []}
    for at, (path, length) in enumerate(lengths):
        check_path(dtype, path, at)
        places, part = positions(dtype, path)
        if not is_leaf(part):
            raise Refused(13)
        if places in table["lengths"]:
            raise Refused(21, at)
        table["lengths"][places] = length
    return table


def append(table, dtype, rows):
    check_type(dtype)
    for i, row in enumerate(rows):
        if not is_content(row, dtype):
            raise Refused(5, i)
    for i, row in enumerate(rows):
        if not converts(row, dtype, table["dtype"]):
            raise Refused(6, i)
    if rows:
        table["groups"].append(rows)


def retype(table, dtype):
    """Groups are joined anew, from their first chunk to their last, unless the type is the same."""
    check_type(dtype)
    rows = [row for group in table["groups"] for chunk in chunks_in(group) for row in chunk]
    for i, row in enumerate(rows):
        if not converts(row, table["dtype"], dtype):
            raise Refused(6, i)
    if dtype != table["dtype"]:
        table["groups"] = [
            functools.reduce(lambda left, right: (left, right), chunks_in(group))
            for group in table["groups"]
        ]
    table["dtype"] = dtype


def scan(table, paths, predicate):
    dtype = table["dtype"]
    for at, path in enumerate(paths):
        check_path(dtype, path, at)
    check_predicate(dtype, predicate)
    never, always = falsifier(predicate), satisfier(predicate)
    rows, skipped, whole, tested, tried, number = [], [], [], 0, 0, 0
    for group in table["groups"]:
        chunks = chunks_in(group)
        is_many = len(chunks) > 1
        tried += is_many and never is not None
        skips_all = is_many and is_proved(table, never, group)
        for chunk in chunks:
            skips = skips_all
            if not skips_all:
                skips = is_proved(table, never, chunk)
                tried += never is not None
                tried += not skips and always is not None
            if skips:
                skipped.append(number)
            elif is_proved(table, always, chunk):
                whole.append(number)
            else:
                tested += len(chunk)
            number += 1
            for row in chunk:
                if value_of(dtype, predicate, row) is True:
                    rows.append(row_json(cut_row(dtype, row, paths, [])))
    return {
        "dtype": type_json(cut_type(dtype, paths, [])),
        "ok": True,
        "proofs": tried,
        "rows": rows,
        "rows_tested": tested,
        "skipped": skipped,
        "whole": whole,
    }


def join(table, at):
    groups = table["groups"]
    if at + 1 >= len(groups):
        raise Refused(8)
    groups[at : at + 2] = [(groups[at], groups[at + 1])]


def describe(table, path, at):
    check_path(table["dtype"], path, 0)
    if not is_leaf(part_at(table["dtype"], path)):
        raise Refused(13)
    if at >= len(table["groups"]):
        raise Refused(8)
    known = zone(table, path, table["groups"][at])
    texts = {
        key: ["absent"] if it is None else [it[0], row_json(it[1])] for key, it in known.items()
    }
    return dict(sorted({**texts, "ok": True}.items()))


class Session:
    def __init__(self):
        self.table = None

    def answer(self, line):
        try:
            command = read_command(line)
            if command[0] == "create":
                self.table = create(*command[1:])
                return compact({"ok": True})
            if self.table is None:
                raise Refused(19)
            if command[0] == "append":
                append(self.table, *command[1:])
                return compact({"ok": True})
            if command[0] == "join":
                join(self.table, *command[1:])
                return compact({"ok": True})
            if command[0] == "retype":
                retype(self.table, *command[1:])
                return compact({"ok": True})
            if command[0] == "compact":
                # Lists move within a chunk, whose rows are as they were.
                return compact({"ok": True})
            if command[0] == "describe":
                return compact(describe(self.table, *command[1:]))
            return compact(scan(self.table, *command[1:]))
        except Refused as refused:
            place = {} if refused.at is None else {"at": refused.at}
            return compact({**place, "error": refused.number, "name": NAMES[refused.number]})


def answers(data):
    session = Session()
    lines = data.split(b"\n")
    if lines[-1] == b"":
        lines.pop()
    return "".join(session.answer(line) + "\n" for line in lines).encode()


def main():
    sys.stdout.buffer.write(answers(sys.stdin.buffer.read()))


if __name__ == "__main__":
    main()
