#!/usr/bin/env python3
"""Holds comments and pages to the words of docs/WORDS.md.

words.py    at any place; it reads docs/WORDS.md, all crates, and the pages that PAGES matches

The first table of docs/WORDS.md has on its left phrases that are not used, separated by commas, and
on its right the words to use. Each use of such a phrase is printed with its file and line: in the
comments of .rt and .antt files, where a phrase may be broken between two lines of a comment, and in
pages. What is between backticks or in a block of code is passed over. The last line counts, and the
status is 1 if there is a use.
"""
import glob
import os
import re
import sys

sys.dont_write_bytecode = True
import sources

TABLE = os.path.join(sources.TOP, "docs", "WORDS.md")
# The pages that keep to the words, beside all crates: all but the one that has the table.
PAGES = (
    "README.md",
    "docs/*.md",
    "bench/*.md",
    "tests/README.md",
    "crates/*/CALLING.md",
    "clients/*/README.md",
)
# A line up to the mark of a comment, and the comment. In Rust a string or a character may have the
# mark in it.
COMMENTS = {
    ".rt": re.compile(r"""(?:[^"'/]|"(?:[^"\\]|\\.)*"|'(?:[^'\\]|\\.)'|'|/(?!/))*//[/!]?(.*)"""),
    ".antt": re.compile(r"(?:.*?\s)?--(?!\S)(.*)"),
}
ENDS = tuple(COMMENTS)
BLOCK_OF_CODE = re.compile(r"^```.*?^```|^ {4}.*?$", re.M | re.S)


def phrases():
    """The words to use, by the phrase that is not used."""
    table, found = sources.page_text(TABLE).partition("\n## Terms")[0], {}
    for left, right in re.findall(r"^\| (.+) \| (.+) \|$", table, re.M)[1:]:
        found.update((phrase.lower(), right) for phrase in left.split(", "))
    return found


def files():
    """The paths of the files that are read, in order."""
    for crate in sources.crates():
        for part in ("src", "specs", "proofs"):
            for at, folders, names in os.walk(os.path.join(sources.TOP, "crates", crate, part)):
                folders.sort()
                yield from (os.path.join(at, it) for it in sorted(names) if it.endswith(ENDS))
    for pattern in PAGES:
        pages = sorted(glob.glob(os.path.join(sources.TOP, pattern)))
        yield from (it for it in pages if it != TABLE)


def prose(path):
    """The comments of a file, or a page without its blocks of code, each line where it was."""
    text, comment = sources.page_text(path), COMMENTS.get(os.path.splitext(path)[1])
    if comment:
        found = map(comment.match, text.split("\n"))
        text = "\n".join(it[1] if it else "" for it in found)
    else:
        text = BLOCK_OF_CODE.sub(lambda it: "\n" * it[0].count("\n"), text)
    return re.sub(r"`[^`\n]*`", "``", text)


def main():
    words, uses, read = phrases(), 0, 0
    longest_first = sorted(words, key=len, reverse=True)
    # Between the words of a phrase there may be one end of a line.
    either = "|".join(it.replace(" ", r"(?: +| *\n *)") for it in longest_first)
    any_phrase = re.compile(r"\b(?:%s)\b" % either, re.I)
    for path in files():
        text, read = prose(path), read + 1
        for found in any_phrase.finditer(text):
            phrase = " ".join(found[0].lower().split())
            line = sources.line_at(text, found.start())
            at = "%s:%d" % (os.path.relpath(path, sources.TOP), line)
            print("words: %s: %s: %s" % (at, phrase, words[phrase]))
            uses += 1
    print("words: %d files, %d uses of %d phrases" % (read, uses, len(words)))
    return 1 if uses else 0


if __name__ == "__main__":
    sys.exit(main())
