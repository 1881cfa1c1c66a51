#!/usr/bin/env python3
"""Holds the pages CALLING.md to the sources that they quote, and to the items that they name, and
docs/LAYERS.md to the homes of rules.

quotes.py    at any place; it reads crates/*/CALLING.md, the files that they quote, docs/ITEMS.md,
             the src of callers' crates, docs/LAYERS.md, and the specs and src that it names

A block of Rust quotes the file whose path is the last between backticks before it on the page: its
lines are lines of that file, in order and without gaps. Indentation doesn't count, nor do empty
lines, and a line `..` is in place of any others. A name between backticks in the second column of a
table that begins with `You want`, and a function or trait of a block of text, is an item or a call
of docs/ITEMS.md, or of a caller's crate one of its own. A home in the table of rules, as
`table_plan::bind::check`, is a file of the crate's specs or src, as its column says, that declares
the name; without a crate or a file it is by those of the home before it. Each fault is printed; the
last line counts, and the status is 1 if there is one.
"""
import glob
import os
import re
import sys

sys.dont_write_bytecode = True
import sources

BLOCK = re.compile(r"^```rust\n(.*?)^```$", re.M | re.S)
PATH = re.compile(r"`([\w./]+/[\w.]+\.(?:rt|rs))`")
TABLE = re.compile(r"^\| You want \|[^\n]*\n\|[-|]+\n((?:\|[^\n]*\n)+)", re.M)
# A path, without what it is given.
NAME = re.compile(r"`((?:\w+::)*\w+)[^`]*`")
# A block of contracts that are shortened, and what one of them is of.
TEXT = re.compile(r"^```text\n(.*?)^```$", re.M | re.S)
HEAD = re.compile(r"^(?:fn|trait) ((?:\w+::)*\w+)", re.M)
# A row of the table of rules, whose first cell is no heading: its definitions and its code.
RULE = re.compile(r"^\| (?!\*\*)[^|]+ \| ([^|]+) \| ([^|]+) \|$", re.M)
HOME = re.compile(r"`(\w+(?:::\w+)*)`")
# How specs and src declare a name.
DECLARED = {
    "specs": r"(?m)^[ \w]*\b%s\b.* :|^(?:pub )?(?:data|record) %s\b",
    "src": r"\b(?:fn|struct|enum|trait|const|type)\s+%s\b|macro_rules!\s+%s\b",
}
ANY = ".."
# What neither a page of items nor a crate declares.
OF_RUST = {"Err", "None", "Ok", "Some", "clone", "match"}


def lines_of(text):
    """The lines, without indentation, that aren't empty."""
    return [line.strip() for line in text.split("\n") if line.strip()]


def is_quoted(wanted, lines):
    """Whether these lines are among the others, in order and without gaps but at `..`."""
    parts, at = [[]], 0
    for line in wanted:
        if line == ANY:
            parts.append([])
        else:
            parts[-1].append(line)
    for part in parts:
        starts = range(at, len(lines) - len(part) + 1)
        found = next((it for it in starts if lines[it : it + len(part)] == part), None)
        if found is None:
            return False
        at = found + len(part)
    return True


def faults_of_blocks(text):
    """The blocks that quote no file, or not as it is."""
    for found in BLOCK.finditer(text):
        line, paths = sources.line_at(text, found.start(1)), PATH.findall(text, 0, found.start())
        if not paths:
            yield line, "a block before which no file is named"
            continue
        quoted = sources.page_text(os.path.join(sources.TOP, paths[-1]))
        if not is_quoted(lines_of(found[1]), lines_of(quoted)):
            yield line, "%s has no such lines" % paths[-1]


def paths_named(text):
    """The paths of tables and of blocks of text, each with its line."""
    for table in TABLE.finditer(text):
        for number, row in enumerate(table[1].splitlines(), sources.line_at(text, table.start(1))):
            for path in NAME.findall(row.strip("| ").partition(" | ")[2]):
                yield number, path
    for block in TEXT.finditer(text):
        for head in HEAD.finditer(text, block.start(1), block.end(1)):
            yield sources.line_at(text, head.start()), head[1]


def faults_of_names(text, known):
    """The paths that lead to no item."""
    for number, path in paths_named(text):
        first, *others = path.split("::")
        # Of an enum a variant may follow, which no page lists.
        unknown = [it for it in others if it not in known and not it[0].isupper()]
        if unknown or first not in known:
            yield number, "%s is no item" % path


def is_declared(crate, part, words):
    """Whether a file of the crate has this path, or declares the last of its words."""
    path = os.path.join(sources.TOP, "crates", crate, part, *words)
    if any(os.path.isfile(path + end) for end in (".rt", ".antt")):
        return True
    end = {"specs": ".antt", "src": ".rt"}[part]
    text = sources.page_text(os.path.dirname(path) + end)
    return bool(re.search(DECLARED[part] % (words[-1], words[-1]), text))


def faults_of_homes(text, crates):
    """The homes of rules that aren't there."""
    for row in RULE.finditer(text, max(text.find("\n## Where a rule lives"), 0)):
        for cell, part in ((row[1], "specs"), (row[2], "src")):
            crate, file = None, []
            for home in HOME.findall(cell):
                words = home.split("::")
                named = next((it for it in ("vortex_" + words[0], words[0]) if it in crates), None)
                if named and words[1:]:
                    crate, tries = named, [words[1:]]
                else:
                    tries = [words] if words[1:] else [[*file, *words], words]
                found = next((it for it in tries if crate and is_declared(crate, part, it)), None)
                if not found:
                    yield sources.line_at(text, row.start()), "no %s have %s" % (part, home)
                file = found[:-1] if found and found[:-1] else file


def main():
    page_of_items = sources.page_text(os.path.join(sources.TOP, "docs", "ITEMS.md"))
    items = {*re.findall(r"\w+", page_of_items.partition("\n## Crates\n")[0]), *OF_RUST}
    pages = sorted(glob.glob(os.path.join(sources.TOP, "crates", "*", "CALLING.md")))
    faults = 0
    for page in pages:
        crate = os.path.basename(os.path.dirname(page))
        own = re.findall(r"\w+", sources.all_text(crate)) if crate in sources.CALLERS else []
        text = sources.page_text(page)
        for line, fault in [*faults_of_blocks(text), *faults_of_names(text, items.union(own))]:
            print("quotes: %s:%d: %s" % (os.path.relpath(page, sources.TOP), line, fault))
            faults += 1
    layers = os.path.join(sources.TOP, "docs", "LAYERS.md")
    for line, fault in faults_of_homes(sources.page_text(layers), sources.crates()):
        print("quotes: docs/LAYERS.md:%d: %s" % (line, fault))
        faults += 1
    print("quotes: %d pages, %d faults" % (len(pages) + 1, faults))
    return 1 if faults else 0


if __name__ == "__main__":
    sys.exit(main())
