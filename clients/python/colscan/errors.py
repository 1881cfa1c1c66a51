"""What can go wrong, each with a class of its own, and what the program's refusals mean."""
from __future__ import annotations

from typing import Any, Optional, Sequence

# What each number of a refusal means, in the words of a user.
MEANINGS = {
    1: "there was no memory for the command, or to keep its line",
    2: "the type isn't a record, or is nullable; a table's rows are records that aren't null",
    3: "a part of the type is one that no table holds: parts are bool, integers, utf8, binary, "
    "records and lists of such",
    4: "a name stands twice in one record",
    5: "a row isn't a value of the type that the append says",
    6: "a row is valid, and doesn't fit the type that the table has or should get",
    7: "the table, or a column in one chunk, would hold more than can be counted",
    8: "there is no group of this number, or for a join none behind it",
    9: "a path isn't in the type, or goes by a name into a list",
    10: "a path has the step null, which means a list's elements",
    11: "the predicate has a statistic, which only proofs have",
    12: "the predicate names a column that isn't there",
    13: "a record, a list or the row itself stands where a boolean, an integer, a text or a byte "
    "string has to",
    14: "the operands of a comparison or a between have different types, or those of a like "
    "aren't texts",
    15: "the predicate, or an operand of and, or or not, is no boolean",
    16: "a like ignores case, or its pattern is no literal text or holds a backslash",
    17: "a rule that the caller handed in failed",
    18: "the line breaks a rule of the guide: `python3 -m colscan check FILE` says which one",
    19: "there is no table yet: the first command has to be a create",
    20: "the predicate has an is_nan, a row_count, or a literal of a type that no table holds",
    21: "a path stands twice in the lengths of a create",
}


class ColscanError(Exception):
    """The class of all that this package raises by itself.

    >>> issubclass(Refused, ColscanError)
    True
    """


class NoProgram(ColscanError):
    """The program wasn't found, or can't be started.

    >>> Session("/nowhere/colscan")
    Traceback (most recent call last):
    ...
    colscan.errors.NoProgram: /nowhere/colscan isn't there, or can't be run
    """


class SessionEnded(ColscanError):
    """The program ended or was stopped, so its table is lost.

    `status` is its status where it ended by itself, and `said` what it wrote on standard error.

    >>> Session(["false"]).ask({"cmd": "compact"})
    Traceback (most recent call last):
    ...
    colscan.errors.SessionEnded: the program ended with status 1 before it ...
    """

    def __init__(self, message: str, status: Optional[int] = None, said: str = "") -> None:
        super().__init__(message + (": " + said.strip() if said.strip() else ""))
        self.status = status
        self.said = said


class NotAnAnswer(ColscanError):
    """The program wrote a line that is no answer; `line` is its beginning. The program is ended.

    >>> Session(["cat"]).ask({"cmd": "compact"})
    Traceback (most recent call last):
    ...
    colscan.errors.NotAnAnswer: the program wrote a line that is no answer: b'{"cmd":"compact"}'
    """

    def __init__(self, why: str, line: bytes) -> None:
        self.line = line[:200]
        super().__init__("the program wrote %s: %r" % (why, self.line))


class TooSlow(ColscanError):
    """Nothing was read or written for as long as the session's timeout. The program is ended.

    >>> Session(["sleep", "60"], timeout=0.1).ask({"cmd": "compact"})
    Traceback (most recent call last):
    ...
    colscan.errors.TooSlow: the program did nothing for 0.1 seconds
    """


class Refused(ColscanError):
    """A command that the program refused; the table is as it was.

    `number` and `name` are those of the guide's list, and `place` says where, as `row 1` or
    `path 0`, or is None. `at` is the number in it, counted from 0.

    >>> Refused(12, "UnknownColumn", None).number
    12
    """

    def __init__(
        self,
        number: int,
        name: str,
        place: Optional[str],
        at: Optional[int] = None,
        hint: str = "",
    ) -> None:
        self.number, self.name, self.place, self.at = number, name, place, at
        words = "%d %s" % (number, name) + (" at " + place if place else "")
        words += ": " + MEANINGS.get(number, "a refusal that this package doesn't know")
        super().__init__(words + (". " + hint if hint else ""))


class NoPlace(ColscanError, TypeError):
    """A column of a type that has no place in a table, or that the table doesn't have.

    `column` is its name.

    >>> with Table.create({"a": "i32"}) as table:
    ...     table.append({"a": [1], "z": [2]})
    Traceback (most recent call last):
    ...
    colscan.errors.NoPlace: column 'z' isn't in the table, which has a
    """

    def __init__(self, column: Any, why: str) -> None:
        self.column = column
        super().__init__("column %r %s" % (column, why))


class BadType(ColscanError, ValueError):
    """A written type that can't be read.

    >>> parse("int32")
    Traceback (most recent call last):
    ...
    colscan.errors.BadType: the type 'int32' says int32, which is no kind: i32?
    """


class BadValue(ColscanError, ValueError):
    """A value that its column can't hold, found before any line was sent.

    `row` is its number from 0, `column` its path in words, `value` what stands there.

    >>> with Table.create({"a": "u8"}) as table:
    ...     table.append([[1], [300]])
    Traceback (most recent call last):
    ...
    colscan.errors.BadValue: row 1, column a: 300 is no u8, which goes from 0 to 255
    """

    def __init__(self, row: int, column: str, value: Any, why: str) -> None:
        self.row, self.column, self.value, self.why = row, column, value, why
        super().__init__("row %d, column %s: %s %s" % (row, column, shown(value), why))

    def moved(self, row: int) -> "BadValue":
        """The same at another row.

        >>> BadValue(0, "a", 1.5, "is no whole number").moved(7).row
        7
        """
        return BadValue(row, self.column, self.value, self.why)


class BadCell(ColscanError, ValueError):
    """A cell of a CSV file that its column can't hold, or a line with too many or too few cells.

    `line` counts from 1 and `row` from 0, without the line of names.

    >>> print(BadCell("some.csv", 3, 1, "a", "'x' is no whole number"))
    some.csv, line 3 (row 1), column a: 'x' is no whole number
    """

    def __init__(self, file: str, line: int, row: int, column: Optional[str], why: str) -> None:
        self.file, self.line, self.row, self.column = file, line, row, column
        at = "%s, line %d (row %d)" % (file, line, row)
        super().__init__(at + (", column %s" % column if column is not None else "") + ": " + why)


class BadPredicate(ColscanError, TypeError):
    """An expression that is no predicate, such as one that needs brackets.

    >>> col("a") > 1.5
    Traceback (most recent call last):
    ...
    colscan.errors.BadPredicate: 1.5 is a float, and no table holds floats: use a whole number
    """


class BadWhere(ColscanError, ValueError):
    """A written predicate that can't be read; `at` is the place in the text, from 0.

    >>> with Table.create({"a": "i32"}) as table:
    ...     table.scan("a > ")
    Traceback (most recent call last):
    ...
    colscan.errors.BadWhere: the end stands where a column or a value belongs
      a >
          ^
    """

    def __init__(self, text: str, at: int, why: str) -> None:
        self.text, self.at = text, at
        line = " ".join(text.splitlines()) if "\n" in text else text
        super().__init__("%s\n  %s\n  %s^" % (why, line, " " * at))


def shown(value: Any, most: int = 60) -> str:
    """A value as Python writes it, cut where it is long."""
    text = repr(value)
    return text if len(text) <= most else text[: most - 3] + "..."


def listed(words: Sequence[str]) -> str:
    """Words in a row, the last behind an `and`.

    >>> listed(["a", "b", "c"])
    'a, b and c'
    """
    return words[0] if len(words) == 1 else ", ".join(words[:-1]) + " and " + words[-1]
