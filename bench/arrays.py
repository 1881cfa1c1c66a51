#!/usr/bin/env python3
"""Times what slices, filters, takes and rebuilds arrays, and finds the extremes of a column.

Usage: bench/arrays.py PROGRAM              runs the program and prints a table
       bench/arrays.py --sources FOLDER     makes a repository there, with the program as a crate

The program of bench/arrays is no crate of the repository. `--sources` copies the crates that it
calls and puts it beside them as `arrays_bench`, so that the kit can compile it; nothing of it is
proved. It makes arrays of each layout, of a million rows and two, four and eight times as many, and
times each call five times, in each of three runs; the least counts. A row of the table: nanoseconds
a row at each of the four sizes, and the exponent of growth from the first to the last, which is 1
where a call takes time linear in rows.
"""
import math
import os
import shutil
import subprocess
import sys

sys.dont_write_bytecode = True
HERE = os.path.dirname(os.path.abspath(__file__))
TOP = os.path.dirname(HERE)
NAME = "arrays_bench"
# How often the program runs.
RUNS = 3
# What the program names, beside the crates that these gather.
USES = ["vortex_dtype", "vortex_scalar", "vortex_arrays", "vortex_stats_array"]


def crate_lines():
    """What each crate of the repository uses, by name."""
    with open(os.path.join(TOP, "crates.txt")) as file:
        lines = [line.split("#")[0].partition(":") for line in file]
    return {name.split()[0]: uses.split() for name, _, uses in lines if name.split()}


def make_sources(root):
    uses, wanted = crate_lines(), []

    def add(crate):
        for below in uses.get(crate, []):
            add(below)
        if crate in uses and crate not in wanted:
            wanted.append(crate)

    for crate in USES:
        add(crate)
    gathered = [it for crate in USES for it in uses[crate]]
    uses[NAME] = list(dict.fromkeys([*USES, *gathered]))
    for crate in wanted:
        for part in ("src", "specs", "proofs"):
            folder = os.path.join("crates", crate, part)
            if os.path.isdir(os.path.join(TOP, folder)):
                shutil.copytree(os.path.join(TOP, folder), os.path.join(root, folder))
    sources = os.path.join(root, "crates", NAME, "src")
    os.makedirs(sources)
    for file in os.listdir(os.path.join(HERE, "arrays")):
        shutil.copy(os.path.join(HERE, "arrays", file), os.path.join(sources, file[:-3] + ".rt"))
    with open(os.path.join(root, "crates.txt"), "w") as file:
        file.writelines("%s: %s\n" % (it, " ".join(uses[it])) for it in [*wanted, NAME])


def exponent(sizes, times):
    return math.log(times[-1] / times[0]) / math.log(sizes[-1] / sizes[0])


def run(program, figures):
    """Puts the least of what was measured before and now into the figures."""
    command = [program]
    ran = subprocess.run(command, stdin=subprocess.DEVNULL, stdout=subprocess.PIPE, text=True)
    for line in ran.stdout.splitlines():
        layout, call, rows, nanoseconds = line.split("\t")
        times = figures.setdefault((layout, call), {})
        times[int(rows)] = min(int(nanoseconds), times.get(int(rows), int(nanoseconds)))
    return ran.returncode


def measure(program):
    figures = {}
    status = max(run(program, figures) for _ in range(RUNS))
    print("| Array | Call | ns a row at 1, 2, 4, 8 million | growth |")
    print("|---|---|---|---|")
    for (layout, call), times in figures.items():
        sizes = sorted(times)
        each = ", ".join("%.2f" % (times[it] / it) for it in sizes)
        # What takes less than a microsecond doesn't look at rows.
        growth = "none"
        if times[sizes[-1]] >= 1000:
            growth = "%.2f" % exponent(sizes, [times[it] for it in sizes])
        print("| %s | %s | %s | %s |" % (layout, call, each, growth))
    return status


def main():
    if len(sys.argv) == 3 and sys.argv[1] == "--sources":
        make_sources(sys.argv[2])
        return 0
    if len(sys.argv) != 2:
        print(__doc__)
        return 2
    return measure(os.path.abspath(sys.argv[1]))


sys.exit(main())
