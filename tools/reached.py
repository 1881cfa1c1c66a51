#!/usr/bin/env python3
"""Writes docs/TRUSTED.md: the definitions that the contract of `run` rests on, and how many lines
they are into README.md.

reached.py            writes both
reached.py --check    writes nothing; the status is 1 if a page is not as it would be written

A contract names definitions by the `ghost use` lines of its file. From these each definition of
the files below specs/ is followed to those that it names: of its own file, and of those
that its file imports. A `mutual` group is one definition. Types that Rust code declares are listed
apart, and what the kit defines is not followed. Lines are counted that are neither empty nor
comments nor imports.
"""
import collections
import functools
import os
import re
import sys

sys.dont_write_bytecode = True
import sources

PAGE = os.path.join(sources.TOP, "docs", "TRUSTED.md")
README = os.path.join(sources.TOP, "README.md")
# Where README has their number.
FIGURE = re.compile(r"\d+ lines of definitions in \d+ files")
# The file of the contract, and that of the traits of its reader and its writer.
CONTRACTS = (("vortex_table_run", "commands.rt"), ("vortex_table_io", "traits.rt"))
HEAD = """# What a reader of the headline has to trust

`tools/reached.py` writes this page, and `.ci/run` compares it: the contract of `run` says what its
definitions say, and these are %d lines in %d files, without empty lines, comments and imports.
"""
USE = re.compile(r"^[ \t]*(pub |ghost )?use Rattle\.([^;\n{]+?)(?:\.\{(.*?)\})?;?$", re.M | re.S)
NAME = r"[^\W\d][\w']*(?:-\w+)*"
# A name, and one after a dot of it.
CITED = re.compile(r"(?<![\w.'-])(%s)(?:\.(%s))?" % (NAME, NAME))
DECLARED = re.compile(r"(?:abbrev )?(?:pub )?(?:(data|record) )?(%s)" % NAME)
CONSTRUCTORS = re.compile(r"((?:%s )+):" % NAME)
GROUP = re.compile(r"(abbrev )?mutual$|module ")

# A definition: the names that it gives, and its lines without comments.
Definition = collections.namedtuple("Definition", "names lines")
# A file of specs: its definitions by each of their names, and where imported names are: the
# words of a module's path, and the name there, or None for the module itself.
Specs = collections.namedtuple("Specs", "defined imported")


def imports(text):
    """Where each imported name of the text is."""
    found = {}
    for _, path, group in USE.findall(text):
        path, _, alias = path.partition(" as ")
        words = tuple(path.strip().split("."))
        if not group:
            found[alias.strip() or words[-1]] = (words, None)
        for part in [it.strip() for it in group.split(",") if it.strip()]:
            name, _, given = part.partition(" as ")
            found[given or name] = (words, name)
    return found


def names_in(lines):
    """The names that the lines of one definition give, those of constructors among them."""
    level = 2 if GROUP.match(lines[0]) else 0
    names, is_data = [], False
    for line in lines:
        indent = len(line) - len(line.lstrip())
        head = DECLARED.match(line.strip())
        if indent == level and head and not GROUP.match(line):
            is_data = head[1] == "data"
            names.append(head[2])
        elif indent > level and is_data and CONSTRUCTORS.match(line.strip()):
            names += CONSTRUCTORS.match(line.strip())[1].split()
    return set(names)


def definitions(text):
    """The definitions of a file. An empty line ends one, unless an indented line follows."""
    groups = [[]]
    for line in text.split("\n"):
        if line.lstrip().startswith("--") or USE.match(line):
            continue
        if not line:
            groups.append([])
        elif line[0] == " " and not groups[-1] and len(groups) > 1:
            groups.pop()
            groups[-1].append(line)
        else:
            groups[-1].append(line)
    return [Definition(names_in(it), it) for it in groups if it]


@functools.lru_cache(maxsize=None)
def specs_at(words):
    """The file of specs at this path of a module, or None."""
    path = os.path.join(sources.TOP, "crates", *words) + ".antt"
    if not os.path.isfile(path):
        return None
    with open(path, encoding="utf-8") as file:
        text = file.read()
    defined = {name: it for it in definitions(text) for name in it.names}
    return Specs(defined, imports(text))


def is_rust_type(words):
    return words[0] in sources.crates() and words[1:3] == ("specs", "declared")


def look_up(words, name):
    """Where a name of a module is defined, if it is in a file of specs, and else None."""
    specs = specs_at(words)
    if specs is None:
        return None
    if name in specs.defined:
        return words, name
    if name in specs.imported and specs.imported[name][1]:
        return look_up(*specs.imported[name])
    return None


def cited(lines, words):
    """The paths and names that these lines of a file cite, its own names first."""
    specs = specs_at(words)
    for name, inner in set(CITED.findall("\n".join(lines))):
        if name in specs.defined:
            yield words, name
        elif name in specs.imported:
            path, there = specs.imported[name]
            yield path, there or inner


def roots():
    """What the contracts import."""
    for crate, file in CONTRACTS:
        for path, name in imports(sources.read(crate, file)).values():
            yield path, name


def reached():
    """The definitions that are reached, by file, and the types of Rust."""
    found, types = collections.defaultdict(list), set()
    left = list(roots())
    while left:
        words, name = left.pop()
        if is_rust_type(words):
            types.add((words[0], "::".join([it for it in words[3:] if it != "TheVariants"])))
            continue
        at = look_up(words, name)
        if at is None:
            continue
        words, name = at
        definition = specs_at(words).defined[name]
        if definition not in found[words]:
            found[words].append(definition)
            left += cited(definition.lines, words)
    return found, types


def pages():
    """The text that each page is to have."""
    found, types = reached()
    order = [*sources.crates()]
    count = {it: sum(len(each.lines) for each in found[it]) for it in found}
    figure = "%d lines of definitions in %d files" % (sum(count.values()), len(count))
    text = [HEAD.rstrip("\n") % (sum(count.values()), len(count)), ""]
    text += ["| Crate | File | Definitions | Lines |", "|---|---|---|---|"]
    for words in sorted(count, key=lambda it: (order.index(it[0]), it)):
        file = "/".join(words[1:]) + ".antt"
        row = (words[0], file, len(found[words]), count[words])
        text.append("| `%s` | `%s` | %d | %d |" % row)
    text += ["", "Types of Rust that they speak of: %d." % len(types), ""]
    text += ["| Crate | Type |", "|---|---|"]
    for crate, name in sorted(types, key=lambda it: (order.index(it[0]), it)):
        text.append("| `%s` | `%s` |" % (crate, name))
    readme = FIGURE.sub(figure, sources.page_text(README))
    return {PAGE: "\n".join(text) + "\n", README: readme}


def check(made):
    """Whether each page is as it would be written, and README says how many lines they are."""
    stale = [it for it in made if sources.page_text(it) != made[it]]
    if not stale and FIGURE.search(made[README]):
        print("reached: the pages are as the definitions are")
        return 0
    print("reached: docs/TRUSTED.md or README.md is not as the definitions are: run tools/reached.py")
    return 1


def main(words):
    if words not in ([], ["--check"]):
        print("reached: it takes --check or nothing", file=sys.stderr)
        return 2
    made = pages()
    if words:
        return check(made)
    for path, text in made.items():
        with open(path, "w", encoding="utf-8") as file:
            file.write(text)
    return 0


if __name__ == "__main__":
    sys.exit(main(sys.argv[1:]))
