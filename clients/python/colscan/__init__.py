"""A client of `colscan`, the table whose answers are proved.

>>> with Table.create({"a": "i32?", "s": "utf8"}) as table:
...     _ = table.append({"a": [1, 7, None], "s": ["x1", "x2", "y"]})
...     answer = table.scan((col("a") > 5) & col("s").like("x%"), paths=["s"])
>>> answer.rows
[['x2']]
"""
from .errors import (
    BadCell,
    BadPredicate,
    BadType,
    BadValue,
    BadWhere,
    ColscanError,
    NoPlace,
    NoProgram,
    NotAnAnswer,
    Refused,
    SessionEnded,
    TooSlow,
)
from .predicates import Predicate, col, lit
from .process import Session, find_program
from .table import Answer, Description, Known, Table
from .types import Type, parse

__all__ = [
    "Answer",
    "BadCell",
    "BadPredicate",
    "BadType",
    "BadValue",
    "BadWhere",
    "ColscanError",
    "Description",
    "Known",
    "NoPlace",
    "NoProgram",
    "NotAnAnswer",
    "Predicate",
    "Refused",
    "Session",
    "SessionEnded",
    "Table",
    "TooSlow",
    "Type",
    "col",
    "find_program",
    "lit",
    "parse",
]
