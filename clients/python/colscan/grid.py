"""Rows as a table on a terminal."""
from __future__ import annotations

import unicodedata
from typing import Any, List, Sequence

from .values import without_bytes


def grid(names: Sequence[str], rows: Sequence[Sequence[Any]], width: int) -> str:
    """Names, a line, and rows below; numbers stand to the right.

    >>> print(grid(["a", "s"], [[1, "x"], [20, None]], 80))
     a  s
    --  ----
     1  x
    20  null
    """
    cells = [[cell(value) for value in row] for row in rows]
    heads = [clean(name) for name in names]
    widths = [
        max([columns(head), *(columns(row[at]) for row in cells)]) for at, head in enumerate(heads)
    ]
    widths = fitted(widths, width)
    right = [
        any(is_number(row[at]) for row in rows)
        and all(row[at] is None or is_number(row[at]) for row in rows)
        for at in range(len(names))
    ]
    lines = [heads, ["-" * it for it in widths], *cells]
    return "\n".join(line(it, widths, right) for it in lines)


def is_number(value: Any) -> bool:
    return isinstance(value, int) and not isinstance(value, bool)


def line(cells: Sequence[str], widths: Sequence[int], right: Sequence[bool]) -> str:
    made = []
    for text, width, is_right in zip(cells, widths, right):
        text = cut(text, width)
        gap = " " * (width - columns(text))
        made.append(gap + text if is_right else text + gap)
    return "  ".join(made).rstrip()


def cell(value: Any) -> str:
    """A value as it is shown; texts as they are, so that a null isn't the text null it says so.

    >>> cell([1, None, b"\\x00"]), cell(True)
    ("[1, null, '00']", 'true')
    """
    if value is None:
        return "null"
    if isinstance(value, bool):
        return "true" if value else "false"
    if isinstance(value, list):
        inner = (repr(it) if isinstance(it, str) else cell(it) for it in without_bytes(value))
        return "[%s]" % ", ".join(inner)
    if isinstance(value, bytes):
        return value.hex()
    return clean(str(value))


def clean(text: str) -> str:
    """A text without what would move a terminal's cursor.

    >>> clean("a\\tb\\x1b[0m")
    'a\\\\tb\\\\x1b[0m'
    """
    if text.isprintable():
        return text
    return "".join(it if it.isprintable() else ascii(it)[1:-1] for it in text)


def columns(text: str) -> int:
    """How many columns of a terminal a text takes.

    >>> columns("ab"), columns("\\u6f22")
    (2, 2)
    """
    if text.isascii():
        return len(text)
    wide = sum(unicodedata.east_asian_width(it) in "WF" for it in text)
    return len(text) + wide - sum(unicodedata.combining(it) != 0 for it in text)


def cut(text: str, width: int) -> str:
    """A text that is no wider than this."""
    if columns(text) <= width:
        return text
    found = text[:width]
    while columns(found) >= width and found:
        found = found[:-1]
    return found + "\u2026"


def fitted(widths: Sequence[int], most: int) -> List[int]:
    """Widths whose sum fits the terminal, the widest columns made narrower first."""
    found = list(widths)
    while sum(found) + 2 * (len(found) - 1) > most and max(found, default=0) > 8:
        at = found.index(max(found))
        over = sum(found) + 2 * (len(found) - 1) - most
        second = max([it for it in found if it != found[at]], default=8)
        found[at] = max(found[at] - over, min(second, found[at] - 1), 8)
    return found
