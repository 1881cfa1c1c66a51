"""Values of columns: as the program's lines have them, and back."""
from __future__ import annotations

import operator
from typing import Any, Callable, Dict, Iterator, List, Mapping, Sequence

from .errors import BadValue
from .types import RANGES, Type, quoted

NO_VALUE: type = type(None)


def encode(dtype: Type, values: Sequence[Any], column: str) -> List[Any]:
    """A column's values as lines have them. The first value that isn't one of the type is named.

    >>> from colscan.types import parse
    >>> encode(parse("binary?"), [b"\\x00\\xff", None], "b")
    ['00ff', None]
    """
    found = set(map(type, values))
    if NO_VALUE not in found:
        return _encode_all(dtype, values, column, found)
    if not dtype.nullable:
        row = next(row for row, value in enumerate(values) if value is None)
        raise BadValue(row, column, None, "stands in a column of %s, which isn't nullable" % dtype)
    places = [row for row, value in enumerate(values) if value is not None]
    there = [values[row] for row in places]
    try:
        made = iter(_encode_all(dtype, there, column, found - {NO_VALUE}))
    except BadValue as error:
        raise error.moved(places[error.row]) from None
    return [None if value is None else next(made) for value in values]


def _encode_all(dtype: Type, values: Sequence[Any], column: str, found: "set[type]") -> List[Any]:
    """The same where no value is null; `found` are the classes of the values."""
    if dtype.is_record:
        return _encode_records(dtype, values, column)
    if dtype.is_list:
        return _encode_lists(dtype, values, column)
    if dtype.kind == "bool":
        return _plain(values, found, bool, _as_bool, column, "is no boolean")
    if dtype.kind == "utf8":
        return _encode_texts(_plain(values, found, str, _as_text, column, "is no text"), column)
    if dtype.kind == "binary":
        made = _plain(values, found, bytes, _as_bytes, column, "is no byte string")
        return [value.hex() for value in made]
    made = _plain(values, found, int, _as_int, column, "is no whole number")
    low, high = RANGES[dtype.kind]
    if made and not (low <= min(made) and max(made) <= high):
        row = next(row for row, value in enumerate(made) if not low <= value <= high)
        why = "is no %s, which goes from %d to %d" % (dtype.kind, low, high)
        raise BadValue(row, column, made[row], why)
    return made


def _plain(
    values: Sequence[Any],
    found: "set[type]",
    wanted: type,
    convert: Callable[[Any], Any],
    column: str,
    why: str,
) -> List[Any]:
    """The values as those of one class of Python. Mostly all are already."""
    if found <= {wanted}:
        return list(values)
    made = []
    for row, value in enumerate(values):
        try:
            made.append(value if type(value) is wanted else convert(value))
        except (TypeError, ValueError):
            raise BadValue(row, column, value, why + _hint(value)) from None
    return made


def _hint(value: Any) -> str:
    if isinstance(value, float) and value != value:
        return "; a missing value is None here"
    if isinstance(value, float) and value.is_integer():
        return ": %d is one" % int(value)
    return ""


def _as_bool(value: Any) -> bool:
    # Numbers are no booleans, but numpy has a class of its own for these.
    if isinstance(value, bool) or type(value).__name__ in ("bool_", "bool"):
        return bool(value)
    raise TypeError


def _as_int(value: Any) -> int:
    if isinstance(value, bool) or type(value).__name__ == "bool_":
        raise TypeError
    return operator.index(value)


def _as_text(value: Any) -> str:
    if isinstance(value, str):
        return str(value)
    raise TypeError


def _as_bytes(value: Any) -> bytes:
    if isinstance(value, (bytes, bytearray, memoryview)):
        return bytes(value)
    raise TypeError


def _encode_texts(texts: List[str], column: str) -> List[str]:
    try:
        "".join(texts).encode("utf-8")
    except UnicodeEncodeError:
        for row, text in enumerate(texts):
            if any("\ud800" <= character <= "\udfff" for character in text):
                why = "has half of a character, so it is no UTF-8"
                raise BadValue(row, column, text, why) from None
    return texts


def _encode_lists(dtype: Type, values: Sequence[Any], column: str) -> List[Any]:
    """All elements of all lists are encoded as one column."""
    elements: List[Any] = []
    rows: List[int] = []
    counts = []
    for row, value in enumerate(values):
        value = value.tolist() if hasattr(value, "tolist") else value
        if not isinstance(value, (list, tuple)):
            raise BadValue(row, column, value, "is no list")
        if dtype.size is not None and len(value) != dtype.size:
            raise BadValue(row, column, value, "has not the size %d" % dtype.size)
        elements += value
        rows += [row] * len(value)
        counts.append(len(value))
    try:
        made = iter(encode(dtype.children[0], elements, column + "[]"))
    except BadValue as error:
        raise error.moved(rows[error.row]) from None
    return [[next(made) for _ in range(count)] for count in counts]


def _encode_records(dtype: Type, values: Sequence[Any], column: str) -> List[Any]:
    """Each part of all records is encoded as one column."""
    rows = [_parts(dtype, value, row, column) for row, value in enumerate(values)]
    parts = [
        encode(part, [value[at] for value in rows], joined(column, name))
        for at, (name, part) in enumerate(dtype.fields())
    ]
    return [list(row) for row in zip(*parts)] if parts else [[] for _ in rows]


def joined(column: str, name: str) -> str:
    """The words of a path with one more step."""
    return column + "." + quoted(name) if column else quoted(name)


def _parts(dtype: Type, value: Any, row: int, column: str) -> Sequence[Any]:
    """A record's values by position, of a dictionary or a sequence."""
    where = column or "of the row"
    if isinstance(value, Mapping):
        for name in value:
            if name not in dtype.names:
                raise BadValue(row, where, value, "has a key %r too many" % (name,))
        for name, part in dtype.fields():
            if name not in value and not part.nullable:
                raise BadValue(row, where, value, "lacks the key %r" % name)
        return [value.get(name) for name in dtype.names]
    if not isinstance(value, (list, tuple)):
        raise BadValue(row, where, value, "is no record")
    if len(value) != len(dtype.names):
        why = "has %d values where %d belong" % (len(value), len(dtype.names))
        raise BadValue(row, where, value, why)
    return value


def has_bytes(dtype: Type) -> bool:
    """Whether a value of the type can have a byte string."""
    return dtype.kind == "binary" or any(map(has_bytes, dtype.children))


def decode(dtype: Type, value: Any) -> Any:
    """A value of an answer: byte strings as bytes, and records as lists, as they came.

    >>> from colscan.types import parse
    >>> decode(parse("binary"), "00ff")
    b'\\x00\\xff'
    """
    if value is None or not has_bytes(dtype):
        return value
    if dtype.kind == "binary":
        return bytes.fromhex(value)
    if dtype.is_list:
        return [decode(dtype.children[0], item) for item in value]
    return [decode(part, item) for part, item in zip(dtype.children, value)]


def named(dtype: Type, value: Any) -> Any:
    """A value in which each record is a dictionary.

    >>> from colscan.types import parse
    >>> named(parse("struct<q: i32>"), [7])
    {'q': 7}
    """
    if value is None or not dtype.children:
        return {} if dtype.is_record and value is not None else value
    if dtype.is_list:
        return [named(dtype.children[0], item) for item in value]
    return {name: named(part, item) for (name, part), item in zip(dtype.fields(), value)}


def without_bytes(value: Any) -> Any:
    """A value as JSON has it: byte strings as hexadecimal digits."""
    if isinstance(value, bytes):
        return value.hex()
    if isinstance(value, dict):
        return {name: without_bytes(part) for name, part in value.items()}
    return [without_bytes(item) for item in value] if isinstance(value, list) else value


def columns_of(dtype: Type, rows: Sequence[Sequence[Any]]) -> Iterator[List[Any]]:
    """Rows, column by column."""
    return ([row[at] for row in rows] for at in range(len(dtype.names)))


Columns = Dict[str, List[Any]]
