"""A picture of a scan for a terminal: a bar a chunk, and groups in brackets.

>>> with Table.create({"a": "i32"}) as table:
...     for first in (0, 10, 20):
...         _ = table.append({"a": range(first, first + 10)})
...     table.join(0)
...     print(picture(table.scan(col("a") > 15), width=44))
3 chunks: 1 skipped, 0 taken whole, 2 tested
┌ 0  10 ░░░░░░░░░░░░░░░░░░░░░░░░░░░░░ skipped
└ 1  10 █████████████████████████████ tested
  2  10 █████████████████████████████ tested
"""
from __future__ import annotations

import os
import shutil
import sys
from typing import TYPE_CHECKING, List, NamedTuple, Optional, Tuple

if TYPE_CHECKING:
    from .table import Answer

#: As many chunks have a line each; more have a cell each.
LINES = 32
#: At most so many lines of cells. Beyond that several chunks share a cell.
CELL_LINES = 40
WORDS = {"s": "skipped", "w": "whole", "t": "tested"}
#: What a bar of each outcome is made of, and its colour on a terminal.
BLOCKS = {"s": "░", "w": "▓", "t": "█"}
LETTERS = {"s": ".", "w": "o", "t": "#"}
COLOURS = {"s": "\x1b[90m", "w": "\x1b[32m", "t": "\x1b[33m"}


class Style(NamedTuple):
    """How a picture is drawn."""

    width: int
    colour: bool
    blocks: bool

    def bar(self, outcome: str, count: int = 1) -> str:
        """So many cells of an outcome."""
        text = (BLOCKS if self.blocks else LETTERS)[outcome] * count
        return COLOURS[outcome] + text + "\x1b[0m" if self.colour and text else text

    def brackets(self) -> Tuple[str, str, str]:
        """The first, the middle and the last line of a group."""
        return ("┌", "│", "└") if self.blocks else ("/", "|", "\\")


def picture(
    answer: Answer,
    width: Optional[int] = None,
    colour: Optional[bool] = None,
    blocks: Optional[bool] = None,
) -> str:
    """The picture as text, of at most `width` columns, or as wide as the terminal is.

    Up to 32 chunks have a line each, whose bar is as long as the chunk has rows. More have a cell
    each, and very many share cells: such a cell shows the outcome that took most work. Colours are
    used where standard output is a terminal and NO_COLOR isn't set, and block characters where its
    encoding has them.
    """
    if width is None:
        width = shutil.get_terminal_size().columns
    if colour is None:
        colour = sys.stdout.isatty() and not os.environ.get("NO_COLOR")
    if blocks is None:
        blocks = _has_blocks(getattr(sys.stdout, "encoding", None))
    style = Style(max(width, 20), colour, blocks)
    outcomes = outcomes_of(len(answer.chunk_rows), answer.skipped, answer.whole)
    head = [counted(outcomes)]
    if len(outcomes) <= LINES:
        return "\n".join(head + _lines(answer, outcomes, style))
    return "\n".join(head + _cells(outcomes, answer.groups, style))


def _has_blocks(encoding: Optional[str]) -> bool:
    # What is no file, as a StringIO, has no encoding and takes every character.
    try:
        "".join([*BLOCKS.values(), "┌│└"]).encode(encoding or "utf-8")
    except (LookupError, UnicodeError):
        return False
    return True


def outcomes_of(chunks: int, skipped: List[int], whole: List[int]) -> str:
    """One letter a chunk: `s` for skipped, `w` for taken whole, `t` for tested.

    >>> outcomes_of(4, [0, 1], [3])
    'sstw'
    """
    letters = ["t"] * chunks
    for chunk in skipped:
        letters[chunk] = "s"
    for chunk in whole:
        letters[chunk] = "w"
    return "".join(letters)


def counted(outcomes: str) -> str:
    """How many chunks had each outcome.

    >>> counted("sst")
    '3 chunks: 2 skipped, 0 taken whole, 1 tested'
    """
    noun = "chunk" if len(outcomes) == 1 else "chunks"
    skipped, whole, tested = (outcomes.count(letter) for letter in "swt")
    words = (len(outcomes), noun, skipped, whole, tested)
    return "%d %s: %d skipped, %d taken whole, %d tested" % words


# ---- a line a chunk


def _lines(answer: Answer, outcomes: str, style: Style) -> List[str]:
    marks = [mark for size in answer.groups for mark in _bracket(size, style)]
    number = len(str(max(len(outcomes) - 1, 0)))
    rows = [format(count, ",d") for count in answer.chunk_rows]
    wide = max(map(len, rows), default=0)
    room = max(style.width - number - wide - len("┌    skipped"), 1)
    most = max(answer.chunk_rows, default=1)
    lines = []
    for chunk, outcome in enumerate(outcomes):
        # A chunk has at least one row, so its bar has at least one cell.
        count = max(1, answer.chunk_rows[chunk] * room // most)
        words = (marks[chunk], number, chunk, rows[chunk].rjust(wide))
        bar = style.bar(outcome, count) + " " * (room - count)
        lines.append("%s %*d  %s %s %s" % (*words, bar, WORDS[outcome]))
    return lines


def _bracket(size: int, style: Style) -> List[str]:
    if size == 1:
        return [" "]
    first, middle, last = style.brackets()
    return [first, *[middle] * (size - 2), last]


# ---- a cell a chunk


def _cells(outcomes: str, groups: List[int], style: Style) -> List[str]:
    margin = len(str(len(outcomes) - 1)) + 1
    room = style.width - margin
    # One line holds fewer cells where brackets take room, so it is counted in what is drawn.
    pieces = _bracketed(outcomes, groups)
    if sum(map(len, pieces)) <= room * CELL_LINES:
        return _legend(style, 1) + _folded(pieces, 1, margin, style)
    share = -(-len(outcomes) // (room * CELL_LINES))
    cells = [
        max(outcomes[at : at + share], key="swt".index) for at in range(0, len(outcomes), share)
    ]
    return _legend(style, share) + _folded(cells, share, margin, style)


def _legend(style: Style, share: int) -> List[str]:
    words = ", ".join("%s %s" % (style.bar(letter), word) for letter, word in WORDS.items())
    if share == 1:
        return [words + "; a cell is a chunk, and [ ] a group"]
    return [words + "; a cell is %d chunks, drawn as the one that took most work" % share]


def _bracketed(outcomes: str, groups: List[int]) -> List[str]:
    """One piece a chunk: its letter, with the brackets that begin and end a group."""
    pieces: List[str] = []
    for size in groups:
        letters = list(outcomes[len(pieces) : len(pieces) + size])
        if size > 1:
            letters[0] = "[" + letters[0]
            letters[-1] += "]"
        pieces += letters
    return pieces


def _folded(pieces: List[str], share: int, margin: int, style: Style) -> List[str]:
    """Pieces in lines, with the number of the first chunk before each."""
    lines: List[str] = []
    row, used, first = "", 0, 0
    for at, piece in enumerate(pieces):
        if used + len(piece) > style.width - margin:
            lines.append("%*d %s" % (margin - 1, first * share, row))
            row, used, first = "", 0, at
        row += "".join(style.bar(sign) if sign in WORDS else sign for sign in piece)
        used += len(piece)
    return lines + (["%*d %s" % (margin - 1, first * share, row)] if row else [])
