"""What a predicate asks of each column, as ranges of values.

All of it is read from a predicate as the program's lines have it, which `Predicate.to_json` makes.

>>> where = ["and", [">", ["col", "a"], ["lit", {"kind": "i32"}, 5]],
...          ["<=", ["col", "a"], ["lit", {"kind": "i32"}, 9]]]
>>> [one.text for one in ranges_of(where)]
['5 < a <= 9']
"""
from __future__ import annotations

import unicodedata
from dataclasses import dataclass, replace
from typing import Any, List, Optional, Tuple

from .types import path_words

Path = Tuple[str, ...]

#: The comparison that says the same with its sides exchanged.
MIRRORED = {"=": "=", "!=": "!=", "<": ">", "<=": ">=", ">": "<", ">=": "<="}
#: The comparison that is true where this one is false.
OPPOSITE = {"=": "!=", "!=": "=", "<": ">=", "<=": ">", ">": "<=", ">=": "<"}
#: Classes of code points that are written as escapes: they are not seen, or change the order in
#: which their neighbours are shown.
UNSEEN = ("Cc", "Cf", "Cs", "Co", "Cn", "Zl", "Zp")


@dataclass(frozen=True)
class Range:
    """The values of one column for which a part of the predicate holds.

    An end that is None isn't there: no value bounds the range on that side. `nulls` is True for a
    test for null, and False for one that it isn't; then there are no ends. `used` says whether a
    scan can skip a chunk by the part."""

    path: Path
    text: str
    low: Any = None
    high: Any = None
    low_in: bool = True
    high_in: bool = True
    nulls: Optional[bool] = None
    used: bool = True
    #: One of the two ranges that `!=` leaves.
    half: bool = False

    @property
    def has_ends(self) -> bool:
        """Whether a value bounds it."""
        return self.low is not None or self.high is not None


def shown(value: Any) -> str:
    """A value as written predicates have it, with escapes for what isn't seen.

    >>> shown("it's\\n"), shown(7), shown(None), shown(True), shown(b"\\x00")
    ("'it''s\\\\u{a}'", '7', 'null', 'true', "x'00'")
    """
    if isinstance(value, bytes):
        return "x'%s'" % value.hex()
    if isinstance(value, str):
        return visible("'%s'" % value.replace("'", "''"))
    return {None: "null", True: "true", False: "false"}[value] if (
        value is None or isinstance(value, bool)
    ) else str(value)


def visible(text: str) -> str:
    """The text with escapes for what isn't seen.

    >>> visible("a\\u202eb")
    'a\\\\u{202e}b'
    """
    return "".join(
        "\\u{%x}" % ord(letter) if unicodedata.category(letter) in UNSEEN else letter
        for letter in text
    )


def name_of(path: Path) -> str:
    """A column's name, as written predicates have it."""
    return visible(path_words(path))


def ranges_of(where: List[Any]) -> List[Range]:
    """The ranges of a predicate's columns, in the order in which they stand.

    Comparisons of one column under one `and` are one range where some value satisfies them all:
    `a >= 5 and a < 9` is the range from 5 to 9. What compares no column with a literal has none.
    """
    return _walk(where, False)


def _walk(where: List[Any], negated: bool) -> List[Range]:
    form, *parts = where
    if form == "not":
        return [replace(one, used=False) for one in _walk(parts[0], not negated)]
    if form in ("and", "or"):
        sides = _sides(where, form)
        found = [_walk(part, negated) for part in sides]
        if (form == "and") == negated:
            return _all(found)
        return _joined(found, [part[0] in MIRRORED or part[0] == "between" for part in sides])
    if form in MIRRORED:
        return _comparison(form, parts, negated)
    if form in ("is_null", "is_not_null") and parts[0][0] == "col":
        nulls = (form == "is_null") != negated
        path = tuple(parts[0][1:])
        return [Range(path, name_of(path) + (" is null" if nulls else " is not null"), nulls=nulls)]
    if form == "between":
        return _between(parts, negated)
    if form == "like":
        return _like(parts, negated)
    if form == "col":
        path, value = tuple(parts), not negated
        text = "%s = %s" % (name_of(path), shown(value))
        return [Range(path, text, value, value, used=False)]
    return []


def _sides(where: List[Any], form: str) -> List[Any]:
    """The operands of ANDs that stand in one another, or of ORs."""
    if where[0] != form:
        return [where]
    return [part for side in where[1:] for part in _sides(side, form)]


def _value(literal: List[Any]) -> Any:
    """A literal's value: byte strings as bytes."""
    _, dtype, value = literal
    is_binary = dtype["kind"] == "binary" and value is not None
    return bytes.fromhex(value) if is_binary else value


def _comparison(form: str, parts: List[Any], negated: bool) -> List[Range]:
    left, right = parts
    if left[0] == "lit" and right[0] == "col":
        form, left, right = MIRRORED[form], right, left
    if left[0] != "col" or right[0] != "lit" or right[2] is None:
        return []
    form = OPPOSITE[form] if negated else form
    path, value = tuple(left[1:]), _value(right)
    text = "%s %s %s" % (name_of(path), form, shown(value))
    if form == "!=":
        return [
            Range(path, text, high=value, high_in=False, half=True),
            Range(path, text, low=value, low_in=False, half=True),
        ]
    low = value if form in ("=", ">", ">=") else None
    high = value if form in ("=", "<", "<=") else None
    return [Range(path, text, low, high, form != ">", form != "<")]


def _between(parts: List[Any], negated: bool) -> List[Range]:
    operand, low, high, low_strict, high_strict = parts
    lower = ["<" if low_strict else "<=", low, operand]
    upper = ["<" if high_strict else "<=", operand, high]
    return _walk(["and", lower, upper], negated)


def _like(parts: List[Any], negated: bool) -> List[Range]:
    operand, pattern, is_not, _ = parts
    if operand[0] != "col" or pattern[0] != "lit" or not isinstance(pattern[2], str):
        return []
    path, is_not = tuple(operand[1:]), is_not != negated
    text = "%s %slike %s" % (name_of(path), "not " * is_not, shown(pattern[2]))
    begin = pattern[2].split("%")[0].split("_")[0]
    if is_not or not begin:
        return [Range(path, text, used=False)]
    if begin == pattern[2]:
        return [Range(path, text, begin, begin)]
    return [Range(path, text, begin, _above(begin), high_in=False)]


def _above(begin: str) -> Optional[str]:
    """The least text above all that begin so, or None where there is none."""
    for place in reversed(range(len(begin))):
        number = ord(begin[place]) + 1
        # Half characters are none: behind U+D7FF comes U+E000.
        number = 0xE000 if number == 0xD800 else number
        if number <= 0x10FFFF:
            return begin[:place] + chr(number)
    return None


def _all(found: List[List[Range]]) -> List[Range]:
    return [one for ranges in found for one in ranges]


def _joined(found: List[List[Range]], is_test: List[bool]) -> List[Range]:
    """The ranges of an AND's sides. Those of one column are one where they can be; but those of an
    OR stay apart, where one may be enough, as in `a > 5 and (a < 9 or b = 1)`."""
    kept: List[List[Range]] = []
    single: List[int] = []
    for ranges, can_join in zip(found, is_test):
        if not can_join or len(ranges) != 1:
            kept.append(ranges)
            continue
        for at in single:
            both = _both(kept[at][0], ranges[0])
            if both is not None:
                kept[at] = [both]
                break
        else:
            single.append(len(kept))
            kept.append(ranges)
    return _all(kept)


def _both(one: Range, other: Range) -> Optional[Range]:
    """A bound from below and one from above as one range, if it has a value."""
    if one.path != other.path or one.used != other.used or one.half or other.half:
        return None
    lower, upper = (one, other) if one.high is None else (other, one)
    if lower.high is not None or upper.low is not None:
        return None
    if lower.low is None or upper.high is None or lower.low > upper.high:
        return None
    if lower.low == upper.high and not (lower.low_in and upper.high_in):
        return None
    signs = ["<=" if there else "<" for there in (lower.low_in, upper.high_in)]
    words = (shown(lower.low), signs[0], name_of(one.path), signs[1], shown(upper.high))
    return Range(
        one.path, "%s %s %s %s %s" % words, lower.low, upper.high, lower.low_in, upper.high_in,
        used=one.used,
    )
