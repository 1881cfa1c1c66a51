#!/usr/bin/env python3
"""Times colscan on wide records and on deep ones.

Usage: bench/shapes.py [PROGRAM]     (PROGRAM: crates/colscan/out/colscan, which `rt run` in
crates/colscan leaves there)

Wide: records of 250 to 2,000 integer columns, 1,000 rows in one append. Deep: one column under 15
to 60 records, 20,000 rows; a line nests at most 127 levels, so no type is deeper than 60 here. For
each: seconds of create and append, of a scan of all columns, and of a scan of one column; all rows
are selected. Doubling the columns should double all but the last, which costs in that column and in
the cut of the type.
"""
import json
import os
import subprocess
import sys
import time

HERE = os.path.dirname(os.path.abspath(__file__))
PROGRAM = (
    sys.argv[1]
    if len(sys.argv) > 1
    else os.path.join(HERE, "..", "crates", "colscan", "out", "colscan")
)


def record(fields):
    return {
        "kind": "struct",
        "names": [name for name, _ in fields],
        "children": [child for _, child in fields],
    }


def wide(columns):
    """A type, its rows, and the path of one column."""
    dtype = record([("c%d" % i, {"kind": "i32"}) for i in range(columns)])
    return (
        dtype,
        [[i * columns + j for j in range(columns)] for i in range(1000)],
        ["c%d" % (columns // 2)],
    )


def deep(levels):
    dtype = {"kind": "i32"}
    for _ in range(levels):
        dtype = record([("p", dtype)])
    rows = []
    for i in range(20_000):
        row = i
        for _ in range(levels):
            row = [row]
        rows.append(row)
    return dtype, rows, ["p"] * levels


def measure(shape, size):
    dtype, rows, path = shape(size)
    where = [">=", ["col", *path], ["lit", {"kind": "i32"}, 0]]
    commands = [
        {"cmd": "create", "dtype": dtype, "length": 16},
        {"cmd": "append", "dtype": dtype, "rows": rows},
        {"cmd": "scan", "paths": [[]], "where": where},
        {"cmd": "scan", "paths": [path], "where": where},
    ]
    process = subprocess.Popen([PROGRAM], stdin=subprocess.PIPE, stdout=subprocess.PIPE)
    seconds = []
    for command in commands:
        line = json.dumps(command, separators=(",", ":")).encode() + b"\n"
        started = time.perf_counter()
        process.stdin.write(line)
        process.stdin.flush()
        answer = process.stdout.readline()
        seconds.append(time.perf_counter() - started)
        assert b'"ok":true' in answer, answer[:200]
    process.stdin.close()
    assert process.wait() == 0
    return seconds


def main():
    print(
        "%-6s %7s %9s %9s %12s %14s"
        % ("shape", "size", "create s", "append s", "scan all s", "scan of one s")
    )
    for name, shape, sizes in (
        ("wide", wide, (250, 500, 1000, 2000)),
        ("deep", deep, (15, 30, 60)),
    ):
        for size in sizes:
            print("%-6s %7d %9.4f %9.3f %12.3f %14.4f" % (name, size, *measure(shape, size)))


main()
