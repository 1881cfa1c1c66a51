#!/usr/bin/env python3
"""Holds crates.txt to the members of the repository, and crates to their size.

edges.py    at any place; it reads crates.txt, the src of each crate, and the programs of
            tests/calls and tests/upstream

The members are built one on another in this order: vortex_model, vortex_dtype, vortex_scalar,
vortex_arrays, vortex_stats, vortex_table, and the program colscan. A crate belongs to the member
whose name it has or begins with. A crate uses crates of its own member and of those below it. The
crate that has just the name of a member, but for vortex_model, is the member's door: it gathers
the member's items, has no function, and no crate names it. Programs that call public items name
doors, as another repository would, and callers' crates. A crate of a caller, as `sources.CALLERS`
lists them, belongs to no member: its code names doors alone, and its line also the crates that its
clauses need. No other crate uses it.
No crate is longer than it can well be proved. Each line that offends is printed; the last line
counts, and the status is 1 if there is one.
"""
import glob
import os
import re
import sys

sys.dont_write_bytecode = True
import sources

MOST_LINES = 1650
MOST_FUNCTIONS = 110
FUNCTION = re.compile(r"\bfn\s+\w+")
# Also of a macro, whose functions are named by what it is given.
ANY_FUNCTION = re.compile(r"\bfn\s+[\w$]+")
# The folders of the programs that call public items, and the first name of each path.
PROGRAMS = [os.path.join("tests", it) for it in ("calls", "upstream")]
FIRST = re.compile(r"(?<!::)\b(\w+)::")
# The lemmas that a function's tactic is handed.
USING = re.compile(r"\busing\([^)]*\)")


def code_of(crate):
    """The code of each of the crate's files, by name."""
    return {it: sources.blanked(sources.read(crate, it)) for it in sources.source_files(crate)}


def faults_of_edges(crate, uses):
    """What is wrong with the crate's line of crates.txt."""
    own = sources.member_of(crate)
    for other in uses:
        if other in sources.CALLERS:
            yield "%s: %s: no crate uses a caller's" % (crate, other)
    if crate in sources.CALLERS:
        return
    if own is None:
        yield "%s: its name begins with that of no member" % crate
    for other in uses:
        below = sources.member_of(other)
        if other in sources.DOORS:
            yield "%s: %s: a crate names the crates of a member, and not its door" % (crate, other)
        if own and below and sources.MEMBERS.index(below) > sources.MEMBERS.index(own):
            yield "%s: %s: %s stands below %s, and may not use it" % (crate, other, own, below)


def faults_of_names(crate, uses):
    """The crates of the line that no file of the crate names."""
    text = sources.all_text(crate)
    for other in uses:
        if not re.search(r"\b%s\b" % other, text):
            yield "%s: %s: no file of the crate names it" % (crate, other)


def faults_of_callers(listed):
    """The crates that a caller's code names and that are no doors."""
    for crate in sources.CALLERS:
        for file, text in code_of(crate).items():
            for found in FIRST.finditer(USING.sub(lambda it: " " * len(it[0]), text)):
                if found[1] in listed and found[1] not in sources.DOORS:
                    at = "crates/%s/src/%s:%d" % (crate, file, sources.line_at(text, found.start()))
                    yield "%s: %s: a caller's code names doors alone" % (at, found[1])


def faults_of_source(crate):
    """What is wrong with the crate's src."""
    code = code_of(crate)
    lines = sum(text.count("\n") for text in code.values())
    functions = sum(len(FUNCTION.findall(text)) for text in code.values())
    if lines > MOST_LINES:
        yield "%s: %d lines of src, and %d is the most" % (crate, lines, MOST_LINES)
    if functions > MOST_FUNCTIONS:
        yield "%s: %d functions, and %d is the most" % (crate, functions, MOST_FUNCTIONS)
    for file, text in code.items() if crate in sources.DOORS else ():
        for found in ANY_FUNCTION.finditer(text):
            at = "crates/%s/src/%s:%d" % (crate, file, sources.line_at(text, found.start()))
            yield "%s: %s: a door has no function" % (at, found[0])


def faults_of_programs(listed):
    """The crates that programs name and that are neither doors nor callers'."""
    named = {*sources.DOORS, *sources.CALLERS}
    folders = [os.path.join(sources.TOP, it, "*", "*.rs") for it in PROGRAMS]
    for path in sorted(it for folder in folders for it in glob.glob(folder)):
        with open(path, encoding="utf-8") as file:
            text = sources.blanked(file.read())
        for found in FIRST.finditer(text):
            if found[1] in listed and found[1] not in named:
                at = os.path.relpath(path, sources.TOP), sources.line_at(text, found.start())
                yield "%s:%d: %s: a program names doors and callers' crates" % (*at, found[1])


def main():
    faults, listed = [], sources.crates()
    for crate, uses in listed.items():
        uses = [it for it in uses if it in listed]
        faults += faults_of_edges(crate, uses)
        # A caller's clauses may need a crate for its types alone, which no text names.
        faults += [] if crate in sources.CALLERS else faults_of_names(crate, uses)
        faults += faults_of_source(crate)
    faults += [*faults_of_programs(listed), *faults_of_callers(listed)]
    for fault in faults:
        print("edges: " + fault)
    print("edges: %d crates, %d lines that offend" % (len(listed), len(faults)))
    return 1 if faults else 0


if __name__ == "__main__":
    sys.exit(main())
