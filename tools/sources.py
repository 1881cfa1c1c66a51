"""What the tools share: the crates of crates.txt, and the text of .rt files without comments.

It is imported by tools that read the repository's sources, and is not called by itself.
"""
import os
import re

TOP = os.path.dirname(os.path.dirname(os.path.abspath(__file__)))
# The members of the repository, lowest first, and the program on top of them.
MEMBERS = (
    "vortex_model",
    "vortex_dtype",
    "vortex_scalar",
    "vortex_arrays",
    "vortex_stats",
    "vortex_table",
    "colscan",
)
# The crates that only gather the items of their member.
DOORS = MEMBERS[1:-1]
# Crates of callers: they name doors, and the crates of members that their clauses need.
CALLERS = ("example_reader", "example_catalogue", "example_planner", "example_service")
# Comments, strings and characters of Rust. A lifetime as 'a is no character.
NOT_CODE = re.compile(
    r"""//[^\n]*|/\*.*?\*/|[bc]?r(#*)".*?"\1|[bc]?"(?:[^"\\]|\\.)*"|b?'(?:[^'\\\n]|\\[^\n]+?)'""",
    re.S,
)


def crates():
    """What each crate of crates.txt uses, by name, in the order of the file."""
    with open(os.path.join(TOP, "crates.txt"), encoding="utf-8") as file:
        rows = [line.partition("#")[0].partition(":") for line in file]
    return {name.split()[0]: uses.split() for name, _, uses in rows if name.split()}


def member_of(crate):
    """The member whose name the crate has, or has with a `_` after it, or None."""
    return next((it for it in MEMBERS if crate == it or crate.startswith(it + "_")), None)


def source_folder(crate):
    return os.path.join(TOP, "crates", crate, "src")


def source_files(crate):
    """The paths of the crate's .rt files below its src, in order."""
    top, found = source_folder(crate), []
    for at, folders, names in os.walk(top):
        folders.sort()
        found += [os.path.join(at, it) for it in sorted(names) if it.endswith(".rt")]
    return sorted(os.path.relpath(it, top) for it in found)


def all_text(crate):
    """The text of all files of the crate's src, specs and proofs."""
    texts = []
    for part in ("src", "specs", "proofs"):
        for at, _, names in os.walk(os.path.join(TOP, "crates", crate, part)):
            for name in names:
                with open(os.path.join(at, name), encoding="utf-8") as it:
                    texts.append(it.read())
    return "\n".join(texts)


def read(crate, file):
    with open(os.path.join(source_folder(crate), file), encoding="utf-8") as it:
        return it.read()


def blanked(text):
    """The text with spaces in place of comments, strings and characters, each line as long as
    before."""
    blank = lambda found: re.sub(r"[^\n]", " ", found[0])
    return NOT_CODE.sub(blank, text)


def line_at(text, at):
    return text.count("\n", 0, at) + 1


def end_of_group(text, at):
    """The offset after the bracket that closes the one at this offset, in blanked text."""
    depth = 0
    for place in range(at, len(text)):
        depth += (text[place] in "([{") - (text[place] in ")]}")
        if depth == 0:
            return place + 1
    return len(text)


def end_of_head(text, at):
    """The offset of the `{` or `;` that ends the head of an item, from this offset on, in blanked
    text, or the text's end: the first in no bracket, as the `;` of an array's type is in one.
    """
    while at < len(text) and text[at] not in "{;":
        at = end_of_group(text, at) if text[at] in "([" else at + 1
    return at


def page_text(path):
    """The text of a page that a tool writes, or '' where there is none."""
    if not os.path.isfile(path):
        return ""
    with open(path, encoding="utf-8") as file:
        return file.read()
