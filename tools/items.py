#!/usr/bin/env python3
"""Writes docs/ITEMS.md: the public items of each member, with the crate and file where they are,
and what each crate holds.

items.py            writes the page
items.py --check    writes nothing; the status is 1 if the page is not as it would be written

A member's public items are those that the src/lib.rt of its door re-exports: by `pub use`, with
groups and renamed items, by a `pub mod` of a file, or within a `pub mod` that is written out. An
item is looked for where its path leads, from one crate to the next if it is re-exported there too.
Its calls are the functions of a trait, and the `pub fn` and `pub const` of the type's own impls,
in any file of the crate that declares it.
"""
import collections
import difflib
import functools
import os
import re
import sys

sys.dont_write_bytecode = True
import sources

PAGE = os.path.join(sources.TOP, "docs", "ITEMS.md")
HEAD = """# Public items

`tools/items.py` writes this page from what the door of each member re-exports, and [what each crate
holds](#crates) from the head of the crate; `.ci/run` compares it. Whoever uses a member names its
door alone: an item in the table of `vortex_dtype` is `vortex_dtype::ITEM`. Beside the calls are
impls of `std`'s traits, as `Clone`, `PartialEq`, `Eq`, `Ord`, `Hash`, `Display`, `From`, `TryFrom`
and `Iterator`; an item whose own impls are in several files has a row for each.
"""
# What is exported: the modules of the door before it, its name there, and where it is.
Export = collections.namedtuple("Export", "modules name found")
# Where an item is: its crate, file and name there, and the word that declares it.
Found = collections.namedtuple("Found", "crate file name word")
WORDS = "struct|enum|union|trait|fn|const|static|type"
DECLARED = r"\bpub\s+(?:unsafe\s+|const\s+(?=fn|unsafe))*(%s)\s+(%s)\b"
USE = re.compile(r"\bpub\s+use\s+([^;]+);")
MODULE = re.compile(r"\bpub\s+mod\s+(\w+)\s*([;{])")
IMPL = re.compile(r"^[ \t]*(?:unsafe\s+)?impl\b([^{;]*)\{", re.M)
# A name in a comment that rustdoc makes a link of.
MEANT = re.compile(r"\[(`[^`\]]*`)\](?:\([^)]*\))?")
CALL = re.compile(r"\b(pub\s+)?(?:(?:(?:unsafe|const)\s+)*fn|const)\s+(\w+)")


class Unresolved(Exception):
    """A path of a `pub use` that leads to nothing."""


@functools.cache
def code(crate, file):
    return sources.blanked(sources.read(crate, file))


def parts_of(tree):
    """The parts of a group of a `use`, at its commas that are in no inner group."""
    depth, part = 0, ""
    for letter in tree:
        depth += (letter == "{") - (letter == "}")
        if letter == "," and depth == 0:
            yield part.strip()
            part = ""
        else:
            part += letter
    if part.strip():
        yield part.strip()


def paths_of(tree, before=()):
    """The paths that a `use` names, each as its words and the name that it gives."""
    head, brace, rest = tree.partition("{")
    if brace:
        before = (*before, *[it.strip() for it in head.split("::") if it.strip()])
        for part in parts_of(rest.rpartition("}")[0]):
            yield from paths_of(part, before)
        return
    path, _, name = tree.partition(" as ")
    words = (*before, *[it.strip() for it in path.split("::")])
    words = words[:-1] if words[-1] == "self" else words
    yield words, name.strip() or words[-1]


def is_outside(text, at):
    """Whether the offset is in no braces."""
    return text.count("{", 0, at) == text.count("}", 0, at)


def inline_modules(text):
    """The modules that are written out in the text, by name, and the text without them."""
    inner = {}
    for found in MODULE.finditer(text):
        if found[2] == "{" and is_outside(text, found.start()):
            end = sources.end_of_group(text, found.end() - 1)
            inner[found[1]] = text[found.end() : end - 1]
    for body in inner.values():
        text = text.replace(body, "")
    return inner, text


def file_of(crate, modules):
    """The file of the module at this path below the crate, or None."""
    if not modules:
        return "lib.rt"
    path = "/".join(modules)
    files = sources.source_files(crate)
    return next((it for it in (path + ".rt", path + "/mod.rt") if it in files), None)


def text_of(crate, modules):
    """The code of the module at this path and its file, or None."""
    for depth in range(len(modules), -1, -1):
        file = file_of(crate, modules[:depth])
        if file is None:
            continue
        text = code(crate, file)
        for name in modules[depth:]:
            text = inline_modules(text)[0].get(name)
            if text is None:
                return None
        return text, file
    return None


def macro(crate, name):
    """Where the crate declares a macro, which is a name of its root wherever it is."""
    for file in sources.source_files(crate):
        if re.search(r"\bmacro_rules!\s*%s\b" % name, code(crate, file)):
            return Found(crate, file, name, "macro")
    return None


def start_of(crate, modules, words):
    """The crate that a path begins in, and its words there. A crate of the kit has None."""
    if words[0] in sources.crates():
        return words[0], list(words[1:])
    if words[0] == "crate":
        return crate, list(words[1:])
    if words[0] == "self":
        return crate, [*modules, *words[1:]]
    if words[0] == "super":
        return crate, [*modules[:-1], *words[1:]]
    if text_of(crate, [*modules, words[0]]):
        return crate, [*modules, *words]
    return None, list(words)


def look_up(crate, modules, words):
    """What a path in this module leads to: one item, or those of a module, by their names there."""
    at, inside = start_of(crate, modules, words)
    if at is None:
        return [Export((), words[-1], Found(words[0], "", words[-1], "kit"))]
    *above, name = inside
    if name == "*":
        return exports(at, above)
    if text_of(at, inside):
        return [it._replace(modules=(name, *it.modules)) for it in exports(at, inside)]
    found = text_of(at, above)
    if found:
        own, file = inline_modules(found[0])[1], found[1]
        declared = re.search(DECLARED % (WORDS, re.escape(name)), own)
        if declared:
            return [Export((), name, Found(at, file, name, declared[1]))]
        for use in USE.finditer(own):
            for path, given in paths_of(use[1]):
                if given == name:
                    return look_up(at, above, path)
    if not above and macro(at, name):
        return [Export((), name, macro(at, name))]
    raise Unresolved("%s: `%s` leads to nothing" % (crate, "::".join(words)))


def used(crate, modules, text):
    """What the `pub use` lines of a module's text export, by the names that they give."""
    for use in USE.finditer(text):
        for path, name in paths_of(use[1]):
            for it in look_up(crate, modules, path):
                if path[-1] == "*":
                    yield it
                elif it.modules:
                    yield it._replace(modules=(name, *it.modules[1:]))
                else:
                    yield it._replace(name=name)


def exports(crate, modules=()):
    """What a module exports, each item once: by its own name, or else below its modules."""
    modules = list(modules)
    text, file = text_of(crate, modules)
    inner, own = inline_modules(text)
    made = [*used(crate, modules, own)]
    for declared in re.finditer(DECLARED % (WORDS, r"\w+"), own):
        if is_outside(own, declared.start()):
            found = Found(crate, file, declared[2], declared[1])
            made.append(Export((), declared[2], found))
    names = [found[1] for found in MODULE.finditer(own) if found[2] == ";"]
    for name in [*names, *inner]:
        for it in exports(crate, [*modules, name]):
            if it.found not in [other.found for other in made]:
                made.append(Export((name, *it.modules), it.name, it.found))
    return made


def calls_in(body, is_trait):
    """The functions and constants of a trait's or an impl's body, in order."""
    depth, found = 0, []
    for at, letter in enumerate(body):
        if depth == 0 and (at == 0 or not (body[at - 1].isalnum() or body[at - 1] == "_")):
            call = CALL.match(body, at)
            if call and (is_trait or call[1]) and call[2] not in found:
                found.append(call[2])
        depth += (letter in "([{") - (letter in ")]}")
    return found


def calls_of_trait(found):
    text = code(found.crate, found.file)
    start = re.search(r"\btrait\s+%s\b" % found.name, text).end()
    start = text.index("{", start)
    return {found.file: calls_in(text[start + 1 : sources.end_of_group(text, start) - 1], True)}


def type_of(head):
    """The name of the type that an impl of its own is of, or None for an impl of a trait."""
    head = head.strip()
    if head.startswith("<"):
        depth = 0
        for at, letter in enumerate(head):
            depth += (letter == "<") - (letter == ">" and head[at - 1] not in "-=")
            if depth == 0:
                head = head[at + 1 :].strip()
                break
    path = re.match(r"(?:\w+::)*(\w+)", head)
    is_own = not re.search(r"\bfor\b(?!\s*<)", head)
    return path[1] if path and is_own else None


def calls_of_type(found):
    """The calls of the type's own impls, by file; its own file is there without any too."""
    calls = {found.file: []}
    for file in sources.source_files(found.crate):
        text = code(found.crate, file)
        for impl in IMPL.finditer(text):
            if type_of(impl[1]) == found.name:
                body = text[impl.end() : sources.end_of_group(text, impl.end() - 1) - 1]
                calls.setdefault(file, []).extend(calls_in(body, False))
    return calls


def calls_of(found):
    if found.word == "trait":
        return calls_of_trait(found)
    if found.word in ("struct", "enum", "union"):
        return calls_of_type(found)
    return {found.file: []}


def rows_of(export):
    """The rows of the table for an item: its crate, file, name and calls."""
    found = export.found
    name = path_of(export) + "!" * (found.word == "macro")
    if found.word == "kit":
        return [(found.crate, "", name, "`%s` of the kit" % found.name)]
    calls = calls_of(found)
    files = sorted(calls, key=lambda it: (it != found.file, it))
    say = lambda them: ", ".join("`%s`" % it for it in them)
    return [(found.crate, it[: -len(".rt")], name, say(calls[it])) for it in files]


def path_of(export):
    return "::".join([*export.modules, export.name])


def table(door, listed):
    """The lines of a door's section. Items that a door below it lists are only counted."""
    again, rows = collections.Counter(), []
    for export in sorted(exports(door), key=lambda it: len(it.modules)):
        other, path = listed.setdefault(export.found, (door, path_of(export)))
        if other != door:
            again["::".join(export.modules), other] += 1
        elif path == path_of(export):
            rows += rows_of(export)
        else:
            crate, file, _, _ = rows_of(export)[0]
            rows.append((crate, file, path_of(export), "those of `%s`" % path))
    order = [*sources.crates()]
    at = lambda crate: order.index(crate) if crate in order else -1
    lines = ["", "| Crate | File | Item | Its calls |", "|---|---|---|---|"] if rows else []
    for crate, file, name, calls in sorted(dict.fromkeys(rows), key=lambda it: (at(it[0]), it[1])):
        cells = ("`%s`" % crate, "`%s`" % file if file else "", "`%s`" % name, calls)
        lines.append("| %s |" % " | ".join(cells))
    for (modules, other), count in again.items():
        in_module = "Its module `%s` has" % modules if modules else "It has"
        of = "%d of the items of `%s`" % (count, other)
        lines += ["", "%s also %s." % (in_module, of)]
    return lines


def about(crate):
    """The first lines of the crate's own comment."""
    lines = sources.read(crate, "lib.rt").split("\n")
    first = []
    for line in lines:
        if not line.startswith("//!") or line.strip() == "//!":
            break
        first.append(line[3:].strip())
    return MEANT.sub(r"\1", " ".join(first))


def definitions_of(crate):
    """The names of the crate's files of definitions, in order."""
    found = []
    for _, _, names in os.walk(os.path.join(sources.TOP, "crates", crate, "specs")):
        found += [it[: -len(".antt")] for it in names if it.endswith(".antt") and it != "Lib.antt"]
    return sorted(found)


def table_of_crates():
    """What each crate that is no door holds, by the first lines of its own comment."""
    lines = ["", "## Crates", "", "| Crate | Holds | Files of definitions |", "|---|---|---|"]
    for crate in sources.crates():
        if crate not in sources.DOORS and os.path.isfile(sources.source_folder(crate) + "/lib.rt"):
            files = ", ".join("`%s`" % it for it in definitions_of(crate))
            lines.append("| %s |" % " | ".join(("`%s`" % crate, about(crate), files)))
    return lines


def page():
    listed, text = {}, [HEAD.rstrip("\n")]
    for door in sources.DOORS:
        if door in sources.crates():
            text += ["", "## `%s`" % door, *[it for it in ("", about(door)) if about(door)]]
            text += table(door, listed)
    return "\n".join([*text, *table_of_crates()]) + "\n"


def check(made):
    """Whether the page is as it would be written; else its first differing lines are printed."""
    there = sources.page_text(PAGE)
    if there == made:
        print("items: docs/ITEMS.md is as the doors are")
        return 0
    lines = difflib.unified_diff(there.split("\n"), made.split("\n"), lineterm="", n=0)
    for line in [it for it in lines if not it.startswith(("---", "+++", "@@"))][:20]:
        print("items: %s" % line[:200])
    print("items: docs/ITEMS.md is not as the doors are: run tools/items.py, and see what changed")
    return 1


def main(words):
    if words not in ([], ["--check"]):
        print("items: it takes --check or nothing", file=sys.stderr)
        return 2
    try:
        made = page()
    except Unresolved as why:
        print("items: %s" % why)
        return 1
    if words:
        return check(made)
    with open(PAGE, "w", encoding="utf-8") as file:
        file.write(made)
    return 0


if __name__ == "__main__":
    sys.exit(main(sys.argv[1:]))
