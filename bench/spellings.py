#!/usr/bin/env python3
"""Times colscan on the same commands in other spellings, which answer the same.

Usage: bench/spellings.py [PROGRAM]     (PROGRAM: crates/colscan/out/colscan, which `rt run` in
crates/colscan leaves there)

Appends of 1,000 rows of three integers, and scans that skip most of their chunks, each of whose
time is counted without that of the appends before them. A row of the table: the processor time of
each spelling by that of the first, the least of some runs of each, alternately.
"""
import json
import os
import subprocess
import sys
import tempfile

HERE = os.path.dirname(os.path.abspath(__file__))
PROGRAM = os.path.join(HERE, "..", "crates", "colscan", "out", "colscan")
RUNS = 7
CHUNKS, ROWS, SCANS = 200, 1000, 5000
NUMBER = {"kind": "i64"}
DTYPE = {"kind": "struct", "names": ["a", "b", "c"], "children": [NUMBER] * 3}


def dense(command):
    return json.dumps(command, separators=(",", ":"))


def spaced_behind(command):
    """White space from the first comma on."""
    head, comma, rest = json.dumps(command).partition(",")
    return head.replace(" ", "") + comma + rest


def turned(command):
    """The last key before the others but `cmd`."""
    first, *others = command.items()
    return dense(dict([first, *reversed(others)]))


SPELLINGS = (
    ("without white space, keys in the order of the guide", dense),
    ("white space behind the first comma", spaced_behind),
    ("white space before it too, as in `{\"cmd\": \"append\"`", json.dumps),
    ("keys in another order", turned),
)


def appends():
    yield {"cmd": "create", "dtype": DTYPE, "length": 16}
    for first in range(0, CHUNKS * ROWS, ROWS):
        rows = [[it, it * 2654435761 % 4294967296, it * 7919] for it in range(first, first + ROWS)]
        yield {"cmd": "append", "dtype": DTYPE, "rows": rows}


def scans():
    for number in range(SCANS):
        wanted = ["lit", NUMBER, number * 7919 % (CHUNKS * ROWS)]
        yield {"cmd": "scan", "paths": [["b"]], "where": ["=", ["col", "a"], wanted]}


def write(folder, name, lines):
    path = os.path.join(folder, name)
    with open(path, "w") as file:
        file.writelines(line + "\n" for line in lines)
    return path


def seconds(program, path):
    """The processor time of the program on a file, and what it answers."""
    with open(path) as file, tempfile.TemporaryFile() as answers:
        run = subprocess.Popen([program], stdin=file, stdout=answers)
        _, status, used = os.wait4(run.pid, 0)
        run.returncode = status
        answers.seek(0)
        return used.ru_utime + used.ru_stime, answers.read()


def least(program, paths):
    """The least time of each file, of some runs, alternately. All have the same answers."""
    times, wanted = [[] for _ in paths], None
    for _ in range(RUNS):
        for found, path in zip(times, paths):
            taken, answers = seconds(program, path)
            assert answers == (wanted or answers), "other answers: " + path
            wanted = answers
            found.append(taken)
    return [min(found) for found in times]


def main():
    program = os.path.abspath(sys.argv[1] if len(sys.argv) > 1 else PROGRAM)
    loads, asks = list(appends()), list(scans())
    with tempfile.TemporaryDirectory() as folder:
        base = [dense(it) for it in loads]
        loading, both = [], []
        for number, (_, spell) in enumerate(SPELLINGS):
            loading.append(write(folder, "appends%d" % number, map(spell, loads)))
            both.append(write(folder, "scans%d" % number, [*base, *map(spell, asks)]))
        loading, both = least(program, loading), least(program, both)
    print("| Spelling | appends | scans |\n|---|---|---|")
    asking = [it - loading[0] for it in both]
    for (name, _), load, ask in zip(SPELLINGS, loading, asking):
        print("| %s | %.2f | %.2f |" % (name, load / loading[0], ask / asking[0]))
    print("the first: %.3f s, %.3f s" % (loading[0], asking[0]))


main()
