"""CSV files: which types their columns have, and their rows.

A file is read twice where its types aren't given: once to see what all cells are, once for rows. An
empty cell is null where its column is nullable, and else an empty text.
"""
from __future__ import annotations

import csv
import io
import os
import re
import tempfile
from contextlib import contextmanager
from typing import (
    IO,
    Any,
    Callable,
    Container,
    Dict,
    Iterator,
    List,
    Mapping,
    Optional,
    Sequence,
    Tuple,
)

from .errors import BadCell, NoPlace, shown
from .types import RANGES, Type, TypeLike, parse

# A number with zeros before it is a text, as post codes have them.
WHOLE = re.compile(r"-?(0|[1-9][0-9]*)")
FLOAT = re.compile(r"-?((0|[1-9][0-9]*)(\.[0-9]*)?|\.[0-9]+)([eE][-+]?[0-9]+)?")
# No integer of a table has more characters.
MOST = 20
BOOLEANS = {"true": True, "false": False}


class CsvFile:
    """A CSV file with a line of names, or with `names` for one that has none.

    >>> with tempfile.TemporaryDirectory() as folder:
    ...     path = os.path.join(folder, "some.csv")
    ...     with open(path, "w") as file:
    ...         _ = file.write("a,s\\n1,x\\n,007\\n")
    ...     found = CsvFile(path)
    ...     found.infer(), list(found.rows(found.infer()))
    (Type('struct<a: i64?, s: utf8>'), [[1, 'x'], [None, '007']])
    """

    def __init__(
        self,
        path: "str | os.PathLike[str]",
        *,
        delimiter: str = ",",
        names: Optional[Sequence[str]] = None,
        columns: Optional[Sequence[str]] = None,
        nulls: Sequence[str] = ("",),
    ) -> None:
        self.path = os.fspath(path)
        self.delimiter = delimiter
        self.nulls = frozenset(nulls)
        self.has_names = names is None
        self.all_names = list(names) if names is not None else self._first()
        self._check_names()
        self.names = self.all_names if columns is None else list(columns)
        for name in self.names:
            if name not in self.all_names:
                has = ", ".join(self.all_names)
                raise NoPlace(name, "isn't in %s, which has %s" % (self.path, has))
        self.places = [self.all_names.index(name) for name in self.names]

    def _first(self) -> List[str]:
        with self._lines() as lines:
            for _, cells in lines:
                return cells
        raise BadCell(self.path, 1, 0, None, "there is no line of names")

    def _check_names(self) -> None:
        for at, name in enumerate(self.all_names):
            if name in self.all_names[:at]:
                raise NoPlace(name, "stands twice in the names of %s" % self.path)
            if name == "":
                why = "has no name in %s: it is column %d" % (self.path, at + 1)
                raise NoPlace(name, why)

    @contextmanager
    def _lines(self) -> Iterator[Iterator[Tuple[int, List[str]]]]:
        """The cells of each line that has any, with the number of the line that ends them."""
        with open(self.path, encoding="utf-8-sig", newline="") as file:
            yield self._numbered(csv.reader(file, delimiter=self.delimiter, strict=True))

    def _numbered(self, reader: Any) -> Iterator[Tuple[int, List[str]]]:
        row = -int(self.has_names)
        while True:
            try:
                cells = next(reader)
            except StopIteration:
                return
            except csv.Error as error:
                raise BadCell(self.path, reader.line_num, max(row, 0), None, str(error)) from None
            except UnicodeDecodeError:
                raise self._no_text() from None
            if cells:
                row += 1
                yield reader.line_num, cells

    def _no_text(self) -> BadCell:
        """The first line that is no UTF-8; what was read of the file says no more than a piece."""
        with open(self.path, "rb") as file:
            for number, line in enumerate(file, 1):
                try:
                    line.decode("utf-8")
                except UnicodeDecodeError as error:
                    why = "the byte %d of the line is no UTF-8" % (error.start + 1)
                    return BadCell(self.path, number, max(number - 2, 0), None, why)
        return BadCell(self.path, 1, 0, None, "the file is no UTF-8")

    def cells(self) -> Iterator[Tuple[int, List[str]]]:
        """The wanted cells of each row, with the number of its line."""
        with self._lines() as lines:
            if self.has_names:
                next(lines, None)
            for row, (line, cells) in enumerate(lines):
                if len(cells) != len(self.all_names):
                    why = "there are %d cells, and %d names" % (len(cells), len(self.all_names))
                    raise BadCell(self.path, line, row, None, why)
                yield line, [cells[at] for at in self.places]

    def infer(self, given: Optional[Mapping[str, TypeLike]] = None) -> Type:
        """The type of the rows, by all cells; those of some columns may be given.

        A column is `bool` where all cells are true or false, `i64` (or `u64`) where all are whole
        numbers without zeros before them, and else `utf8`; nullable where a cell is empty. One of
        numbers that aren't whole is refused by name, since no table holds floats.
        """
        known = {name: parse(part) for name, part in (given or {}).items()}
        for name, part in known.items():
            if name not in self.names:
                raise NoPlace(name, "has a type, and isn't among the columns")
            if not part.is_leaf:
                raise NoPlace(name, "of %s can't stand in a CSV file" % part)
        guesses = {name: Guess() for name in self.names if name not in known}
        places = [(self.names.index(name), guess) for name, guess in guesses.items()]
        if guesses:
            for row, (_, cells) in enumerate(self.cells()):
                for at, guess in places:
                    guess.see(None if cells[at] in self.nulls else cells[at], row)
        parts = [
            known[name] if name in known else guesses[name].type(name) for name in self.names
        ]
        return Type("struct", False, tuple(self.names), tuple(parts))

    def rows(self, dtype: Type) -> Iterator[List[Any]]:
        """The rows as values of the type."""
        readers = [reader_of(part, self.nulls) for part in dtype.children]
        for row, (line, cells) in enumerate(self.cells()):
            try:
                yield [read(cell) for read, cell in zip(readers, cells)]
            except ValueError:
                raise self._bad_cell(dtype, line, row, cells) from None

    def _bad_cell(self, dtype: Type, line: int, row: int, cells: List[str]) -> BadCell:
        """The first cell of a row that can't be read."""
        for (name, part), cell in zip(dtype.fields(), cells):
            try:
                reader_of(part, self.nulls)(cell)
            except ValueError as error:
                why = "%s %s" % (shown(cell) if cell else "the empty cell", error)
                return BadCell(self.path, line, row, name, why)
        raise AssertionError("a row that was read the second time")


class Guess:
    """What the cells of a column may be, as far as they were seen."""

    def __init__(self) -> None:
        self.has_null = self.has_any = False
        self.is_bool = self.is_whole = self.is_number = True
        self.low = self.high = 0
        self.float: Tuple[int, str] = (0, "")

    def see(self, cell: Optional[str], row: int) -> None:
        """One more cell, or None for one that is null."""
        if cell is None:
            self.has_null = True
            return
        self.has_any = True
        self.is_bool = self.is_bool and cell.lower() in BOOLEANS
        if self.is_number and len(cell) <= MOST and WHOLE.fullmatch(cell):
            number = int(cell)
            self.low, self.high = min(self.low, number), max(self.high, number)
        elif self.is_number:
            self.is_number = FLOAT.fullmatch(cell) is not None
            self.float = (row, cell) if self.is_whole else self.float
            self.is_whole = False

    def type(self, name: str) -> Type:
        """What they all are."""
        if not self.has_any:
            return Type("utf8", True)
        if self.is_bool:
            return Type("bool", self.has_null)
        if not self.is_number:
            return Type("utf8", self.has_null)
        for kind in ("i64", "u64"):
            low, high = RANGES[kind]
            if self.is_whole and low <= self.low and self.high <= high:
                return Type(kind, self.has_null)
        where = "%s in row %d" % (cut(self.float[1]), self.float[0])
        if self.is_whole:
            where = "%d and %d" % (self.low, self.high)
        why = "holds %s, and no table holds such numbers: give it a type, as %s=utf8, or leave "
        raise NoPlace(name, why % (where, name) + "it out")


def cut(cell: str) -> str:
    """A cell for a message."""
    return cell if len(cell) <= 40 else cell[:37] + "..."


def reader_of(dtype: Type, nulls: Container[str] = ("",)) -> Callable[[str], Any]:
    """What makes a value of a cell; a ValueError says why it can't.

    >>> reader_of(parse("u8"))("300")
    Traceback (most recent call last):
    ...
    ValueError: is no u8, which goes from 0 to 255
    """
    read = READERS.get(dtype.kind) or whole_of(dtype.kind)
    if not dtype.nullable:
        return read
    return lambda cell: None if cell in nulls else read(cell)


def whole_of(kind: str) -> Callable[[str], int]:
    low, high = RANGES[kind]

    def read(cell: str) -> int:
        cell = cell.strip()
        if not re.fullmatch("[-+]?[0-9]+", cell):
            raise ValueError("is no whole number")
        number = int(cell)
        if not low <= number <= high:
            raise ValueError("is no %s, which goes from %d to %d" % (kind, low, high))
        return number

    return read


def boolean_of(cell: str) -> bool:
    found = BOOLEANS.get(cell.strip().lower())
    if found is None:
        raise ValueError("is neither true nor false")
    return found


def bytes_of(cell: str) -> bytes:
    if not re.fullmatch("([0-9a-fA-F]{2})*", cell):
        raise ValueError("has other than two hexadecimal digits a byte")
    return bytes.fromhex(cell)


def text_of(cell: str) -> str:
    return cell


READERS: Dict[str, Callable[[str], Any]] = {
    "bool": boolean_of,
    "binary": bytes_of,
    "utf8": text_of,
}


@contextmanager
def kept(stream: IO[bytes]) -> Iterator[str]:
    """A file of what a stream has, for one that can't be read twice."""
    with tempfile.TemporaryDirectory() as folder:
        path = os.path.join(folder, "input.csv")
        with io.open(path, "wb") as file:
            for piece in iter(lambda: stream.read(1 << 16), b""):
                file.write(piece)
        yield path
