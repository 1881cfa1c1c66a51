#!/usr/bin/env python3
"""Writes docs/CLAIMS.md: what is proved, in the words of the functions whose contracts carry it.

claims.py            writes the page, and the headline into README.md
claims.py --check    writes nothing; the status is 1 if a page is not as it would be written

tools/claims.txt lists the functions. What the page says of one is its `///` comment up to a heading
or a block of code, and beside it are the clauses of its contract. README.md quotes the second
paragraph of the comment of `run`: it is the only text there whose lines begin with `>`.
"""
import collections
import difflib
import os
import re
import sys

sys.dont_write_bytecode = True
import items
import sources

PAGE = os.path.join(sources.TOP, "docs", "CLAIMS.md")
README = os.path.join(sources.TOP, "README.md")
LIST = os.path.join(sources.TOP, "tools", "claims.txt")
HEADLINE = ["vortex_table", "run", "run"]
HEAD = """# What is proved

`tools/claims.py` writes this page from the functions that `tools/claims.txt` lists, and `.ci/run`
compares it: of each its comment, and the clauses that are proved of it. A law has no arguments, and
one clause. Names are those of a member's door, and else of a crate. Every public function returns
and does nothing undefined; what no clause says is not claimed, as that a call succeeds where there
is memory, or that `Display` fails only where its writer does. [MODEL.md](MODEL.md) has the words.
"""
# What is listed: the path as it is written, its words, and the names of the clauses, if any.
Line = collections.namedtuple("Line", "path words clauses")
# A function: its crate, its comment, whether it has arguments, and its clauses: word, name, text.
Claim = collections.namedtuple("Claim", "crate about arguments clauses")
CLAUSE = re.compile(r"\s*(requires|ensures)\s*(\w*)\s*(?=\{)")
COMMENT = re.compile(r"^\s*///? ?(.*)$")
ATTRIBUTE = re.compile(r"^\s*(#\[.*|\)?\]|[\w:, ()]+\)\])$")
QUOTE = re.compile(r"^(?:> ?.*\n)+", re.M)


class Unfound(Exception):
    """A line of the list that leads to nothing, or to less than it names."""


def comment_before(text, at):
    """The paragraphs of the `///` comment above the item that is at this offset."""
    lines, said = text[: text.rfind("\n", 0, at) + 1].split("\n")[:-1], []
    while lines and ATTRIBUTE.match(lines[-1]):
        lines.pop()
    while lines and lines[-1].strip().startswith("///"):
        said.insert(0, COMMENT.match(lines.pop())[1])
    paragraphs = "\n".join(said).split("\n\n")
    ends = [at for at, it in enumerate(paragraphs) if it.startswith(("#", "```"))]
    return [" ".join(it.split()) for it in paragraphs[: min(ends, default=len(paragraphs))]]


def clauses_at(text, code, at):
    """The clauses of a head, from the offset after its arguments on, up to its body or `;`."""
    while at < len(code) and code[at] not in "{;":
        clause = CLAUSE.match(code, at)
        if clause:
            end = sources.end_of_group(code, clause.end())
            inner = re.sub(r"//[^\n]*", "", text[clause.end() + 1 : end - 1])
            yield clause[1], clause[2], " ".join(inner.split())
            at = end
        else:
            at = sources.end_of_group(code, at) if code[at] in "([" else at + 1


def function_in(crate, file, name, start=0, end=None):
    """The function of this name between these offsets of a file, or None."""
    text, code = sources.read(crate, file), items.code(crate, file)
    found = re.compile(r"\bfn\s+%s\b" % re.escape(name)).search(code, start, end or len(code))
    if not found:
        return None
    opened = code.index("(", found.end())
    closed = sources.end_of_group(code, opened)
    clauses = list(clauses_at(text, code, closed))
    has_arguments = bool(code[opened + 1 : closed - 1].strip())
    return Claim(crate, comment_before(text, found.start()), has_arguments, clauses)


def method_of(found, name):
    """The call of a trait or of a type's own impls, or else of an impl of a trait for the type."""
    if found.word == "trait":
        code = items.code(found.crate, found.file)
        start = code.index("{", re.search(r"\btrait\s+%s\b" % found.name, code).end())
        end = sources.end_of_group(code, start)
        return function_in(found.crate, found.file, name, start, end)
    of_traits = None
    for file in sources.source_files(found.crate):
        code = items.code(found.crate, file)
        for impl in items.IMPL.finditer(code):
            is_own = items.type_of(impl[1]) == found.name
            if is_own or re.search(r"\bfor\s+(?:\w+::)*%s\b" % found.name, impl[1]):
                end = sources.end_of_group(code, impl.end() - 1)
                claim = function_in(found.crate, file, name, impl.end(), end)
                if claim and is_own:
                    return claim
                of_traits = of_traits or claim
    return of_traits


def found_of(words):
    """Where the item is that a path leads to, through a door or from its own crate, if any."""
    try:
        found = items.look_up(words[0], [], ["crate", *words[1:]]) if words[1:] else []
    except items.Unresolved:
        found = []
    return [it.found for it in found][:1]


def claim_of(words):
    """The function that a path leads to: a free one, or a call of a type or a trait."""
    of_itself, of_type, claim = found_of(words), found_of(words[:-1]), None
    if of_itself and of_itself[0].word == "fn":
        claim = function_in(of_itself[0].crate, of_itself[0].file, of_itself[0].name)
    elif of_type:
        claim = method_of(of_type[0], words[-1])
    if not claim:
        raise Unfound("%s is no function" % "::".join(words))
    return claim


def listed():
    """The sections of the list: each with its heading and lines."""
    sections, paths = [], set()
    for line in sources.page_text(LIST).split("\n"):
        line = line.partition("#")[0].rstrip()
        if line and not line.startswith(" "):
            sections.append((line, []))
        elif line:
            path, _, clauses = line.strip().partition(" ")
            if path in paths:
                raise Unfound("%s is there twice" % path)
            paths.add(path)
            sections[-1][1].append(Line(path, path.split("::"), clauses.split()))
    return sections


def spread(lines, above):
    """The lines, with each function of a module that isn't above where one ends with `*`."""
    for line in lines:
        crate, *modules, last = line.words
        exports = items.look_up(crate, [], ["crate", *modules, last]) if last == "*" else []
        for it in [it for it in exports if it.found.word == "fn" and it.found not in above]:
            above.add(it.found)
            words = [crate, *modules, it.name]
            yield Line("::".join(words), words, [])
        if last != "*":
            above.update(found_of(line.words))
            yield line


def wanted_clauses(line, claim):
    missing = [it for it in line.clauses if it not in [name for _, name, _ in claim.clauses]]
    if missing or not claim.clauses:
        raise Unfound("%s has no clause %s" % (line.path, " ".join(missing)))
    return [it for it in claim.clauses if not line.clauses or it[1] in line.clauses]


def is_law(claim, clauses):
    return not claim.arguments and len(clauses) == 1 and clauses[0][0] == "ensures"


def shown(section, lines, above):
    """The lines of a section: its laws as a table, and then the calls with their clauses."""
    laws, calls = [], []
    for line in spread(lines, above):
        claim = claim_of(line.words)
        clauses = wanted_clauses(line, claim)
        paragraphs = [items.MEANT.sub(r"\1", it) for it in claim.about]
        if not any(paragraphs):
            raise Unfound("%s has no comment" % line.path)
        name = "::".join(line.words[1:])
        if is_law(claim, clauses):
            cells = (" ".join(paragraphs), "`%s`" % line.words[-1], "`%s`" % clauses[0][2])
            laws.append("| %s |" % " | ".join(it.replace("|", "\\|") for it in cells))
            continue
        calls += ["", "**`%s`** of `%s`. %s" % (name, claim.crate, paragraphs[0]), ""]
        calls += ["    %s { %s }" % (" ".join(it[:2]).rstrip(), it[2]) for it in clauses]
    table = ["", "| Law | Function | Clause |", "|---|---|---|", *laws] if laws else []
    return ["", "## " + section, *table, *calls]


def page():
    made, above = [HEAD.rstrip("\n")], set()
    for section, lines in listed():
        made += shown(section, lines, above)
    return "\n".join(made) + "\n"


def with_headline(readme):
    """The text of README.md with the headline as the comment of `run` has it, in short lines."""
    words, lines = claim_of(HEADLINE).about[1].split(), [">"]
    for word in words:
        if len(lines[-1]) + 1 + len(word) > 100:
            lines.append(">")
        lines[-1] += " " + word
    return QUOTE.sub(lambda _: "\n".join(lines) + "\n", readme, count=1)


def differences(there, made, name):
    lines = difflib.unified_diff(there.split("\n"), made.split("\n"), lineterm="", n=0)
    for line in [it for it in lines if not it.startswith(("---", "+++", "@@"))][:20]:
        print("claims: %s" % line[:200])
    if there != made:
        print("claims: %s is not as the comments and contracts are: run tools/claims.py" % name)
    return there != made


def main(words):
    if words not in ([], ["--check"]):
        print("claims: it takes --check or nothing", file=sys.stderr)
        return 2
    try:
        made, readme = page(), with_headline(sources.page_text(README))
    except (Unfound, items.Unresolved) as why:
        print("claims: %s" % why)
        return 1
    if words:
        wrong = differences(sources.page_text(PAGE), made, "docs/CLAIMS.md")
        wrong |= differences(sources.page_text(README), readme, "README.md")
        if not wrong:
            print("claims: the pages are as the comments and contracts are")
        return 1 if wrong else 0
    for path, text in ((PAGE, made), (README, readme)):
        with open(path, "w", encoding="utf-8") as file:
            file.write(text)
    return 0


if __name__ == "__main__":
    sys.exit(main(sys.argv[1:]))
