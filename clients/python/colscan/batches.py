"""Rows, columns and frames, cut into the rows of appends."""
from __future__ import annotations

import itertools
from typing import Any, Iterable, Iterator, List, Mapping, Optional, Sequence

from . import frames
from .errors import NoPlace
from .types import Type, quoted
from .values import encode


class Batches:
    """The rows of one append after the other, as lines have them; `total` is None where nobody
    knows it before the end."""

    def __init__(self, total: Optional[int], rows: Iterable[List[Any]]) -> None:
        self.total = total
        self.rows = rows

    def __iter__(self) -> Iterator[List[Any]]:
        return iter(self.rows)


def batches_of(data: Any, dtype: Type, size: int) -> Batches:
    """The data in pieces of `size` rows. Without rows there is no piece.

    >>> from colscan.types import parse
    >>> list(batches_of({"a": [1, 2, 3]}, parse({"a": "i32"}), 2))
    [[[1], [2]], [[3]]]
    """
    if size < 1:
        raise ValueError("a chunk has at least one row, so rows_per_chunk=%d can't be" % size)
    if frames.is_frame(data):
        frames.type_of(data)
        data = frames.columns(data)
    if isinstance(data, Mapping):
        encoded = encode_columns(data, dtype)
        return Batches(len(encoded), cut(encoded, size))
    if isinstance(data, (str, bytes)):
        raise TypeError("a text is no list of rows")
    if isinstance(data, Sequence) or hasattr(data, "tolist"):
        rows = data.tolist() if hasattr(data, "tolist") else data
        encoded = encode(dtype, rows, "")
        return Batches(len(encoded), cut(encoded, size))
    return Batches(None, pieces(iter(data), dtype, size))


def cut(rows: List[Any], size: int) -> Iterator[List[Any]]:
    return (rows[at : at + size] for at in range(0, len(rows), size))


def pieces(rows: Iterator[Any], dtype: Type, size: int) -> Iterator[List[Any]]:
    """Rows that come one by one, encoded as they come."""
    while True:
        piece = list(itertools.islice(rows, size))
        if not piece:
            return
        yield encode(dtype, piece, "")


def encode_columns(data: Mapping[Any, Any], dtype: Type) -> List[Any]:
    """Columns by name, as rows by position."""
    for name in data:
        if name not in dtype.names:
            has = ", ".join(map(quoted, dtype.names)) or "no columns"
            raise NoPlace(name, "isn't in the table, which has " + has)
    counts = {}
    parts = []
    for name, part in dtype.fields():
        if name not in data:
            raise NoPlace(name, "is in the table, and not in what is appended")
        column = data[name]
        column = column.tolist() if hasattr(column, "tolist") else list(column)
        counts[name] = len(column)
        parts.append(column)
    if len(set(counts.values())) > 1:
        first, other = next(iter(counts)), next(it for it in counts if counts[it] != len(parts[0]))
        why = "has %d values, where %r has %d" % (counts[other], first, counts[first])
        raise NoPlace(other, why)
    made = [
        encode(part, column, quoted(name)) for (name, part), column in zip(dtype.fields(), parts)
    ]
    return [list(row) for row in zip(*made)]
