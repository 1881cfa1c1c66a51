"""Frames of pandas: the type that a frame has of its own, its columns, and answers as frames.

pandas is imported where a frame is handed in or asked for, and not before.
"""
from __future__ import annotations

import sys
from typing import TYPE_CHECKING, Any, Dict, List, Set, Tuple

from .errors import ColscanError, NoPlace, listed, shown
from .types import RANGES, Type

if TYPE_CHECKING:
    import pandas

# What to do with a column of a kind that no table holds.
ADVICE = {
    "f": "holds floats, and no table does: .astype('Int64') where all are whole numbers, or scale "
    "them to such",
    "c": "holds complex numbers, and no table does",
    "M": "holds times, and no table does: .astype('int64') makes whole numbers of them",
    "m": "holds spans of time, and no table does: .astype('int64') makes whole numbers of them",
    "V": "holds records of numpy, and no table does: make dictionaries of them",
}


def is_frame(data: Any) -> bool:
    """Whether this is a frame of pandas. Nobody has one who hasn't imported pandas.

    >>> is_frame({"a": [1]})
    False
    """
    pandas = sys.modules.get("pandas")
    return pandas is not None and isinstance(data, pandas.DataFrame)


def need_pandas() -> Any:
    try:
        import pandas
    except ImportError:
        raise ColscanError("a frame needs pandas, which isn't there; .columns() doesn't") from None
    return pandas


def type_of(frame: "pandas.DataFrame") -> Type:
    """The type of a table for the frame. A column is nullable where its dtype can say missing: all
    but numpy's integers and booleans can.

    >>> import pandas                                                # doctest: +PANDAS
    >>> type_of(pandas.DataFrame({"a": [1, 2], "s": ["x", None]}))   # doctest: +PANDAS
    Type('struct<a: i64, s: utf8?>')
    """
    names = checked_names(frame)
    parts = [column_type(name, frame.iloc[:, at]) for at, name in enumerate(names)]
    return Type("struct", False, tuple(names), tuple(parts))


def checked_names(frame: "pandas.DataFrame") -> List[str]:
    """The names of the columns, each a text that stands once."""
    seen: Set[str] = set()
    for name in frame.columns:
        if not isinstance(name, str):
            raise NoPlace(name, "is named by no text: frame.rename(columns=str)")
        if name in seen:
            raise NoPlace(name, "stands twice in the frame")
        seen.add(name)
    return list(frame.columns)


def column_type(name: str, series: "pandas.Series[Any]") -> Type:
    """The type of one column, or a refusal by its name."""
    pandas = need_pandas()
    dtype: Any = series.dtype
    if isinstance(dtype, pandas.CategoricalDtype):
        return column_type(name, series.cat.categories.to_series()).as_nullable()
    is_own = isinstance(dtype, pandas.api.extensions.ExtensionDtype)
    # Those of pandas and of Arrow: Int64, int64[pyarrow].
    words = str(dtype).lower().split("[")[0]
    if isinstance(dtype, pandas.StringDtype) or words in ("string", "large_string"):
        return Type("utf8", True)
    if words in ("binary", "large_binary"):
        return Type("binary", True)
    kind = dtype.kind
    if kind in "iu":
        return _integer(name, words, is_own)
    if kind == "b":
        return Type("bool", is_own)
    if is_own and kind == "O" or kind not in "OUS":
        raise NoPlace(name, ADVICE.get(kind, "is of %s, which no table holds" % dtype))
    return objects_type(name, [value for value in plain(series) if value is not None])


def _integer(name: str, words: str, nullable: bool) -> Type:
    kind = words.replace("uint", "u").replace("int", "i")
    if kind not in RANGES:
        raise NoPlace(name, "is of %s, which no table holds" % words)
    return Type(kind, nullable)


def objects_type(name: str, values: List[Any]) -> Type:
    """The type of a column of Python's objects, by what they are; the missing ones are left out."""
    found = {type(value) for value in values}
    if all(issubclass(it, str) for it in found):
        return Type("utf8", True)
    if found == {bool}:
        return Type("bool", True)
    if all(issubclass(it, int) and it is not bool for it in found):
        return Type("u64" if max(values) >= 2**63 else "i64", True)
    if all(issubclass(it, (bytes, bytearray)) for it in found):
        return Type("binary", True)
    if all(issubclass(it, (list, tuple)) or it.__name__ == "ndarray" for it in found):
        items = [item for value in values for item in value if item is not None]
        return Type("list", True, (), (objects_type(name, items),))
    if found == {dict}:
        return _records_type(name, values)
    if any(issubclass(it, float) for it in found):
        raise NoPlace(name, ADVICE["f"])
    kinds = sorted(it.__name__ for it in found)
    more = "" if len(kinds) > 1 else ", such as " + shown(values[0])
    why = "holds objects of %s%s, which have no one type here" % (listed(kinds), more)
    raise NoPlace(name, why)


def _records_type(name: str, values: List[Dict[Any, Any]]) -> Type:
    """All keys that some record has; each part is nullable, as another record may lack it."""
    names: Dict[str, List[Any]] = {}
    for value in values:
        for key, part in value.items():
            if not isinstance(key, str):
                raise NoPlace(name, "holds a dictionary with the key %r, which is no text" % (key,))
            there = names.setdefault(key, [])
            there += [part] if part is not None else []
    parts = [objects_type("%s.%s" % (name, key), found) for key, found in names.items()]
    return Type("struct", True, tuple(names), tuple(parts))


def plain(series: "pandas.Series[Any]") -> List[Any]:
    """The values as objects of Python, and None where one is missing."""
    pandas = need_pandas()
    values = series.astype(object).tolist()
    gone = pandas.isna(series).tolist()
    return [None if lost else value for value, lost in zip(values, gone)]


def columns(frame: "pandas.DataFrame") -> Dict[str, List[Any]]:
    """The frame's columns, by name. Its index is no column."""
    names = checked_names(frame)
    return {name: plain(frame.iloc[:, at]) for at, name in enumerate(names)}


def hints(frame: "pandas.DataFrame") -> Dict[str, str]:
    """A dictionary for each categorical column, which is one already."""
    pandas = need_pandas()
    kinds = zip(frame.columns, frame.dtypes)
    return {name: "dictionary" for name, it in kinds if isinstance(it, pandas.CategoricalDtype)}


def frame_dtype(part: Type) -> Tuple[str, bool]:
    """The dtype of an answer's column in a frame.

    >>> from colscan.types import parse
    >>> frame_dtype(parse("i32?"))
    ('Int32', True)
    """
    if part.kind in RANGES:
        name = part.kind.replace("i", "Int").replace("u", "UInt")
        return (name, True) if part.nullable else (name.lower(), False)
    if part.kind == "bool":
        return ("boolean", True) if part.nullable else ("bool", False)
    return ("string", True) if part.kind == "utf8" else ("object", part.nullable)


def to_frame(dtype: Type, found: Dict[str, List[Any]], count: int) -> "pandas.DataFrame":
    """Columns as a frame, of nullable dtypes where a column is nullable."""
    pandas = need_pandas()
    made = {
        name: pandas.Series(found[name], dtype=frame_dtype(part)[0])
        for name, part in dtype.fields()
    }
    return pandas.DataFrame(made, index=pandas.RangeIndex(count))
