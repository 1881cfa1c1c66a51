#!/usr/bin/env python3
"""Writes the specs/Lib.antt of each member's door: the definitions that its public clauses cite.

doors.py            writes the files
doors.py --check    writes nothing; the status is 1 if one is not as it would be written, or if
                    crates.txt doesn't name for the door what the file re-exports from

A caller then names the door alone: what a clause of the member imports from a crate's specs, as
`Rattle.vortex_dtype_core.specs.View`, a caller imports from the door's,
`Rattle.vortex_dtype.specs.DtypeCoreView`: files of one name have that of their crate before it.

Cited is what occurs in the head of a public function of an exported item, in an exported struct or
trait, or in a ghost member of an impl, by a name that the file imports.
"""
import collections
import os
import re
import sys

sys.dont_write_bytecode = True
import items
import sources

GHOST = re.compile(r"\bghost\s+use\s+Rattle\.(\w+)\.specs((?:\.\w+)+)\.\{([^}]*)\}")
WHOLE = re.compile(r"\bghost\s+use\s+Rattle\.(\w+)\.specs((?:\.\w+)+)\s+as\s+(\w+)\s*;")
HEAD = re.compile(r"\bpub\s+(?:unsafe\s+|const\s+)*fn\b")
MEMBER = re.compile(r"\bghost\s+\w+\s*=\s*\{")
TYPE = re.compile(r"\bpub\s+(?:unsafe\s+)?(?:struct|enum|union|trait)\s+\w+")
# A name of a clause, operators as `_+_` among them.
WORD = re.compile(r"[^\s(){}\[\].,;]+")


def imports(text):
    """The spec files that a file imports from, each with the names that it takes from there."""
    found = collections.defaultdict(set)
    for crate, path, names in GHOST.findall(text):
        for name in names.split(","):
            given = name.split(" as ")[-1].strip()
            if given:
                found[crate, path.lstrip(".")].add(given)
    for crate, path, name in WHOLE.findall(text):
        found[crate, path.lstrip(".")].add(name)
    return found


def clauses(text):
    """The parts of a file that have public clauses."""
    for head in HEAD.finditer(text):
        yield text[head.start() : end_of_clauses(text, head.end())]
    for member in MEMBER.finditer(text):
        yield text[member.start() : sources.end_of_group(text, member.end() - 1)]
    for declared in TYPE.finditer(text):
        start = sources.end_of_head(text, declared.end())
        if start < len(text) and text[start] == "{":
            yield text[start : sources.end_of_group(text, start)]


def end_of_clauses(text, at):
    """The offset after the last clause of a function whose head begins here."""
    while True:
        at = sources.end_of_head(text, at)
        before = text[:at].rstrip()
        if at >= len(text) or text[at] == ";" or not re.search(
            r"\b(?:requires|ensures)\*?(?:\s+\w+)?$", before
        ):
            return at
        at = sources.end_of_group(text, at)


def cited_in(crate, file):
    """The spec files, of this repository, that the public clauses of a file cite."""
    text = sources.blanked(sources.read(crate, file))
    words = {word for part in clauses(text) for word in WORD.findall(part)}
    for (at, path), names in imports(text).items():
        is_ours = at in sources.crates() and not path.startswith("contracts.")
        if is_ours and any(is_cited(name, words) for name in names):
            yield at, path


def is_cited(name, words):
    """Whether a name occurs in the clauses; of an operator, whether its signs do."""
    parts = [it for it in name.split("◌") if it]
    return all(it in words for it in parts)


def cited(door):
    """The spec files that the clauses of all items of a door cite, in order."""
    found, files = set(), set()
    for export in items.exports(door):
        if export.found.word not in ("kit", "macro"):
            files |= {(export.found.crate, it) for it in items.calls_of(export.found)}
    for crate, file in files:
        found |= {without_variants(it) for it in cited_in(crate, file)}
    order = [*sources.crates()]
    return sorted(found, key=lambda it: (order.index(it[0]), it[1]))


def without_variants(spec):
    """The type whose variants these are. Constants of a file are by themselves."""
    crate, path = spec
    return crate, path.removesuffix(".TheVariants")


def is_of_rust(path):
    """Whether a path leads to what a check makes of a crate's types."""
    return path.startswith("declared.")


def longer_name(crate, path):
    """The name of a spec file with its crate and folders before it."""
    words = crate.removeprefix("vortex_").split("_") + path.removeprefix("declared.").split(".")
    return "".join(it[0].upper() + it[1:] for it in words)


def name_of(path):
    return path.split(".")[-1]


def names(found):
    """The name of each of these spec files at the doors: the file's own where no other has it. A
    type of Rust keeps its name where a file of definitions has it too.
    """
    types = collections.Counter(name_of(path) for _, path in found if is_of_rust(path))
    files = collections.Counter(name_of(path) for _, path in found if not is_of_rust(path))
    given = {}
    for crate, path in found:
        name = name_of(path)
        alone = types[name] == 1 if is_of_rust(path) else files[name] == 1 and not types[name]
        given[crate, path] = name if alone else longer_name(crate, path)
    return given


def text_of(found, given):
    """The text of a door's file: a line for each spec file that it re-exports."""
    lines = []
    for crate, path in found:
        name = given[crate, path]
        renamed = "" if name == name_of(path) else " as " + name
        lines.append("pub use Rattle.%s.specs.%s%s\n" % (crate, path, renamed))
    return "".join(lines)


def page_of(door):
    return os.path.join(sources.TOP, "crates", door, "specs", "Lib.antt")


def faults_of(door, made):
    """What a door's file and its line of crates.txt lack."""
    if sources.page_text(page_of(door)) != made:
        yield "%s: specs/Lib.antt is not as its clauses are: run tools/doors.py" % door
    uses = sources.crates()[door]
    for crate in dict.fromkeys(re.findall(r"Rattle\.(\w+)\.", made)):
        if crate not in uses:
            yield "%s: crates.txt does not name %s for it" % (door, crate)


def main(words):
    if words not in ([], ["--check"]):
        print("doors: it takes --check or nothing", file=sys.stderr)
        return 2
    found = {door: cited(door) for door in sources.DOORS}
    given = names(sorted(set().union(*found.values())))
    faults = []
    for door in sources.DOORS:
        made = text_of(found[door], given)
        if not words:
            os.makedirs(os.path.dirname(page_of(door)), exist_ok=True)
            with open(page_of(door), "w", encoding="utf-8") as file:
                file.write(made)
        faults += faults_of(door, made)
    for fault in faults:
        print("doors: " + fault)
    if not faults:
        print("doors: each re-exports what its clauses cite")
    return 1 if faults else 0


if __name__ == "__main__":
    sys.exit(main(sys.argv[1:]))
