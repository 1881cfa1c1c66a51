"""Types of columns, as they are written here, `i32?`, and as the program's lines have them."""
from __future__ import annotations

import json
import re
from dataclasses import dataclass, replace
from typing import Any, Dict, Iterator, List, Mapping, Optional, Sequence, Tuple, Union

from .errors import BadType, NoPlace

# The least and the greatest value of each kind of integer.
RANGES: Dict[str, Tuple[int, int]] = {}
for _bits in (8, 16, 32, 64):
    RANGES["u%d" % _bits] = (0, 2**_bits - 1)
    RANGES["i%d" % _bits] = (-(2 ** (_bits - 1)), 2 ** (_bits - 1) - 1)
# The kinds of leaves: what predicates read and bounds are kept of.
LEAVES = frozenset(RANGES) | {"bool", "utf8", "binary"}
# Kinds that lines can have and no table holds.
UNKEPT = frozenset(
    ("f16", "f32", "f64", "null", "variant", "decimal", "map", "union", "extension")
)
# What other programs call these kinds.
OTHER_NAMES = {
    **{"int%d" % bits: "i%d" % bits for bits in (8, 16, 32, 64)},
    **{"uint%d" % bits: "u%d" % bits for bits in (8, 16, 32, 64)},
    "byte": "u8", "short": "i16", "int": "i64", "integer": "i64", "long": "i64", "bigint": "i64",
    "str": "utf8", "string": "utf8", "text": "utf8", "varchar": "utf8", "char": "utf8",
    "bytes": "binary", "blob": "binary", "bytea": "binary",
    "boolean": "bool", "bit": "bool", "array": "list", "record": "struct", "object": "struct",
}  # fmt: skip
FLOATS = frozenset(
    ("float", "double", "real", "float16", "float32", "float64", "f16", "f32", "f64")
)


@dataclass(frozen=True)
class Type:
    """A type. `names` and `children` are those of a `struct`; a list has one child, and a `size`
    where it is of fixed size.

    >>> Type("i32", nullable=True)
    Type('i32?')
    """

    kind: str
    nullable: bool = False
    names: Tuple[str, ...] = ()
    children: Tuple["Type", ...] = ()
    size: Optional[int] = None

    @property
    def is_leaf(self) -> bool:
        """Whether it is a boolean, an integer, a text or a byte string.

        >>> parse("utf8").is_leaf, parse("list<utf8>").is_leaf
        (True, False)
        """
        return self.kind in LEAVES

    @property
    def is_record(self) -> bool:
        """Whether it is a record.

        >>> parse({"a": "i32"}).is_record
        True
        """
        return self.kind == "struct"

    @property
    def is_list(self) -> bool:
        """Whether it is a list, of any size or of a fixed one.

        >>> parse("list<i32, 3>").is_list
        True
        """
        return self.kind in ("list", "fixed_size_list")

    def as_nullable(self, nullable: bool = True) -> "Type":
        """The same type with null as a value, or without.

        >>> parse("i32").as_nullable()
        Type('i32?')
        """
        return replace(self, nullable=nullable)

    def fields(self) -> Iterator[Tuple[str, "Type"]]:
        """The names and types of a record's parts.

        >>> list(parse({"a": "i32"}).fields())
        [('a', Type('i32'))]
        """
        return zip(self.names, self.children)

    def to_json(self) -> Dict[str, Any]:
        """As the program's lines have it.

        >>> parse("list<i32>?").to_json()
        {'kind': 'list', 'nullable': True, 'children': [{'kind': 'i32'}]}
        """
        found: Dict[str, Any] = {"kind": self.kind}
        if self.nullable:
            found["nullable"] = True
        if self.is_record:
            found["names"] = list(self.names)
        if self.size is not None:
            found["size"] = self.size
        if self.children or self.is_record:
            found["children"] = [child.to_json() for child in self.children]
        return found

    @classmethod
    def from_json(cls, value: Mapping[str, Any]) -> "Type":
        """What a line says.

        >>> Type.from_json({"kind": "u8", "nullable": True})
        Type('u8?')
        """
        children = tuple(cls.from_json(child) for child in value.get("children", ()))
        names = tuple(value.get("names", ()))
        nullable = bool(value.get("nullable", False))
        return cls(value["kind"], nullable, names, children, value.get("size"))

    def __str__(self) -> str:
        inner = ""
        if self.is_record:
            inner = ", ".join("%s: %s" % (quoted(name), part) for name, part in self.fields())
            inner = "struct<%s>" % inner
        elif self.is_list:
            size = "" if self.size is None else ", %d" % self.size
            inner = "list<%s%s>" % (self.children[0], size)
        return (inner or self.kind) + "?" * self.nullable

    def __repr__(self) -> str:
        return "Type(%r)" % str(self)


# What stands for a type wherever one is wanted.
TypeLike = Union[Type, str, Mapping[str, Any]]
# The steps of a path, or the one name of a column that isn't inside a record.
PathLike = Union[str, Sequence[str]]


# Words of written predicates, which as names stand between quotes.
WORDS = frozenset(
    ("and", "or", "not", "is", "null", "in", "between", "like", "true", "false")
)


def quoted(name: str) -> str:
    """A name as written types and predicates have it.

    >>> quoted("a"), quoted("and"), quoted("the name")
    ('a', '"and"', '"the name"')
    """
    is_plain = re.fullmatch(r"[^\W\d]\w*", name) and name.lower() not in WORDS
    return name if is_plain else '"%s"' % name.replace('"', '""')


def parse(written: TypeLike) -> Type:
    """A type of what stands for one: `i32?`, `utf8`, `list<i32?>`, `list<i32, 3>?`,
    `struct<q: i32, r: utf8?>?`, a dictionary of a record's parts, or a Type.

    >>> parse({"a": "i32?", "p": {"q": "utf8"}})
    Type('struct<a: i32?, p: struct<q: utf8>>')
    """
    if isinstance(written, Type):
        return written
    if isinstance(written, str):
        return _Reader(written).whole()
    if isinstance(written, Mapping):
        for name in written:
            if not isinstance(name, str):
                raise NoPlace(name, "is named by no text")
        parts = tuple(parse(part) for part in written.values())
        return Type("struct", False, tuple(written), parts)
    raise BadType("%r stands for no type: write one as 'i32?'" % (written,))


TOKEN = re.compile(r'\s*("(?:[^"]|"")*"|[^\W\d]\w*|\d+|[<>,:?]|\S)', re.UNICODE)


class _Reader:
    """Reads one written type, token by token."""

    def __init__(self, text: str) -> None:
        self.text = text
        self.tokens: List[str] = TOKEN.findall(text)
        self.at = 0

    def fail(self, why: str) -> BadType:
        return BadType("the type %r %s" % (self.text, why))

    def next(self) -> str:
        self.at += 1
        return self.tokens[self.at - 1] if self.at <= len(self.tokens) else ""

    def take(self, token: str) -> bool:
        """Whether this token stood here; then it is read."""
        found = self.at < len(self.tokens) and self.tokens[self.at] == token
        self.at += found
        return found

    def need(self, token: str) -> None:
        if not self.take(token):
            found = self.tokens[self.at] if self.at < len(self.tokens) else "its end"
            raise self.fail("has %s where %s belongs" % (found, token))

    def whole(self) -> Type:
        found = self.any_type()
        if self.at < len(self.tokens):
            raise self.fail("goes on behind its end, with %s" % self.tokens[self.at])
        return found

    def any_type(self) -> Type:
        kind = self.next()
        if kind == "list":
            found = self.list_type()
        elif kind == "struct":
            found = self.struct_type()
        elif kind in LEAVES:
            found = Type(kind)
        else:
            raise self.fail(no_kind(kind))
        return found.as_nullable(self.take("?"))

    def list_type(self) -> Type:
        self.need("<")
        child, size = self.any_type(), None
        if self.take(","):
            digits = self.next()
            if not (digits.isascii() and digits.isdigit() and int(digits) < 2**32):
                raise self.fail("has the size %s, which is none" % digits)
            size = int(digits)
        self.need(">")
        return Type("list" if size is None else "fixed_size_list", False, (), (child,), size)

    def struct_type(self) -> Type:
        self.need("<")
        names: List[str] = []
        children: List[Type] = []
        while not self.take(">"):
            if names:
                self.need(",")
            name = self.next()
            if name.startswith('"'):
                name = name[1:-1].replace('""', '"')
            elif not name.isidentifier():
                raise self.fail("has %s where a name belongs" % (name or "its end"))
            names.append(name)
            self.need(":")
            children.append(self.any_type())
        return Type("struct", False, tuple(names), tuple(children))


def no_kind(kind: str) -> str:
    """Why a word is no kind that a table holds.

    >>> no_kind("int32")
    'says int32, which is no kind: i32?'
    """
    low = kind.lower()
    if low in FLOATS:
        return "says %s, and no table holds floats: whole numbers go into i64, scaled" % kind
    if kind in UNKEPT:
        return "says %s, which no table holds" % kind
    if low in OTHER_NAMES:
        return "says %s, which is no kind: %s?" % (kind, OTHER_NAMES[low])
    if low in LEAVES:
        return "says %s, which is no kind: %s?" % (kind, low)
    known = "bool, %s, utf8, binary, list<..> and struct<..>" % ", ".join(sorted(RANGES))
    return "says %s, which is no kind: there are %s" % (kind or "nothing", known)


def record(written: TypeLike) -> Type:
    """The type of a table's rows: a record that isn't nullable, in which no name stands twice."""
    found = parse(written)
    if not found.is_record or found.nullable:
        raise BadType("a table's rows are records that aren't null, and %s is none" % found)
    return found


def path_of(path: PathLike) -> List[str]:
    """The steps of a path; a text is one step.

    >>> path_of("a"), path_of(("p", "q"))
    (['a'], ['p', 'q'])
    """
    return [path] if isinstance(path, str) else list(path)


def path_words(path: Sequence[Any]) -> str:
    """A path in words, as written predicates have it.

    >>> path_words(["p", "the q"])
    'p."the q"'
    """
    words = [quoted(step) if isinstance(step, str) else json.dumps(step) for step in path]
    return ".".join(words) if words else "the row"


def part_at(dtype: Type, path: Sequence[str]) -> Optional[Type]:
    """The type that a path leads to, if there is one."""
    found = dtype
    for step in path:
        if step not in found.names:
            return None
        found = found.children[found.names.index(step)]
    return found


def leaves(dtype: Type, here: Tuple[str, ...] = ()) -> Iterator[Tuple[Tuple[str, ...], Type]]:
    """The paths and types of all leaves that stand in records alone.

    >>> [path for path, part in leaves(parse({"a": "i32", "p": {"q": "utf8"}}))]
    [('a',), ('p', 'q')]
    """
    for name, part in dtype.fields():
        if part.is_leaf:
            yield (*here, name), part
        elif part.is_record:
            yield from leaves(part, (*here, name))
