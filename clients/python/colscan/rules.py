"""The rules of the guide that a line has to keep, or else is answered by 18.

`first_fault` says which one a line breaks, and where. The program decides which lines are bad; this
only finds out why.
"""
from __future__ import annotations

import difflib
import re
from typing import Any, Dict, Iterable, List, Optional, Sequence, Tuple

from .nodes import Fault, Node, read
from .types import FLOATS, OTHER_NAMES, RANGES

# The keys of each command, and those that may be missing.
COMMANDS: Dict[str, Tuple[Sequence[str], Sequence[str]]] = {
    "create": (("cmd", "dtype", "length"), ("lengths",)),
    "append": (("cmd", "dtype", "rows"), ("layouts",)),
    "scan": (("cmd", "paths", "where"), ()),
    "join": (("cmd", "group"), ()),
    "retype": (("cmd", "dtype"), ()),
    "compact": (("cmd",), ()),
    "describe": (("cmd", "path", "group"), ()),
}
OTHER_COMMANDS = {
    "insert": "append", "add": "append", "select": "scan", "filter": "scan", "query": "scan",
    "merge": "join", "cast": "retype", "alter": "retype", "stats": "describe", "load": "append",
}  # fmt: skip
# The keys of their own that kinds have, and how many children.
OWN: Dict[str, Sequence[str]] = {
    "decimal": ("precision", "scale"), "fixed_size_list": ("size",), "map": ("sorted",),
    "struct": ("names",), "union": ("names", "tags"), "extension": ("id",),
}  # fmt: skip
CHILDREN = {"list": 1, "fixed_size_list": 1, "map": 2, "extension": 1}
KINDS = frozenset(RANGES) | frozenset(OWN) | {
    "f16", "f32", "f64", "bool", "utf8", "binary", "variant", "null", "list"
}  # fmt: skip
# How many items a predicate has behind its name, and how many of these are predicates.
FORMS: Dict[str, Tuple[int, int]] = {
    **{name: (2, 2) for name in ("=", "!=", ">", ">=", "<", "<=", "and", "or")},
    **{name: (1, 1) for name in ("not", "is_null", "is_not_null", "is_nan")},
    "between": (5, 3), "like": (4, 2), "row_count": (0, 0), "stat": (2, 1),
}  # fmt: skip
OTHER_FORMS = {
    "==": "=", "<>": "!=", "eq": "=", "ne": "!=", "gt": ">", "ge": ">=", "gte": ">=", "lt": "<",
    "le": "<=", "lte": "<=", "&": "and", "&&": "and", "|": "or", "||": "or", "!": "not",
    "~": "not", "isnull": "is_null", "notnull": "is_not_null", "column": "col", "literal": "lit",
    "in": "or, of an = for each value", "ilike": "like", "not_like": "like, whose third is true",
}  # fmt: skip
STATISTICS = (
    "min", "max", "sum", "null_count", "nan_count", "uncompressed_size_in_bytes", "min_max",
    "all_null", "all_non_null", "all_nan", "all_non_nan",
)  # fmt: skip
LAYOUTS = ("plain", "dictionary", "constant")


def first_fault(line: bytes) -> Optional[Fault]:
    """The rule that a line breaks, or None where it keeps all.

    >>> first_fault(b'{"cmd":"join","group":1.0}').why
    '1.0 is no whole number: 1?'
    """
    try:
        text = line.decode("utf-8")
    except UnicodeDecodeError as error:
        at = len(line[: error.start].decode("utf-8"))
        return Fault(at, "the byte %02x is no UTF-8 here" % line[error.start], "Lines")
    try:
        command(read(text))
    except Fault as fault:
        return fault
    return None


def need(holds: bool, node: Node, why: str, section: str) -> None:
    if not holds:
        raise Fault(node.at, why, section)


def near(word: str, known: Iterable[str], others: Dict[str, str]) -> str:
    """What was meant, as far as that can be told.

    >>> near("int32", KINDS, OTHER_NAMES)
    ': i32?'
    """
    found = others.get(word.lower()) or others.get(word)
    if found is None:
        close = difflib.get_close_matches(word.lower(), sorted(known), 1, 0.7)
        found = close[0] if close else None
    return ": %s?" % found if found else ""


def keys(node: Node, needed: Sequence[str], free: Sequence[str], what: str, section: str) -> None:
    """Whether an object has these keys and no others."""
    for name, (key, _) in node.keys.items():
        if name not in needed and name not in free:
            hint = near(name, [*needed, *free], {})
            raise Fault(key.at, "%s has a key too many, %r%s" % (what, name, hint), section)
    for name in needed:
        if name not in node.keys:
            raise Fault(node.at, "%s lacks the key %r" % (what, name), section)


def command(node: Node) -> None:
    need(node.kind == "object", node, "a line is an object, between { and }", "Lines")
    name = node.get("cmd")
    if name is None:
        raise Fault(node.at, "the line lacks the key 'cmd'", "Lines")
    if name.kind != "string" or name.value not in COMMANDS:
        said = name.value if name.kind == "string" else "this"
        hint = near(str(said), COMMANDS, OTHER_COMMANDS)
        raise Fault(name.at, "%s is no command%s" % (said, hint), "Lines")
    needed, free = COMMANDS[name.value]
    keys(node, needed, free, name.value, name.value)
    for key in (*needed, *free):
        part = node.get(key)
        if part is not None and key in PARTS:
            PARTS[key](part)


def number(node: Node) -> None:
    is_one = node.kind == "number" and node.value >= 0
    need(is_one, node, "this is a whole number from 0", "Lines")


def array(node: Node, what: str, section: str) -> None:
    need(node.kind == "array", node, "%s is an array, between [ and ]" % what, section)


def rows(node: Node) -> None:
    array(node, "rows", "append")


def layouts(node: Node) -> None:
    array(node, "layouts", "append")
    for item in node.items:
        is_one = item.kind == "string" and item.value in LAYOUTS
        need(is_one, item, "a hint is one of " + ", ".join(LAYOUTS), "append")


def path(node: Node) -> None:
    array(node, "a path", "scan")
    for step in node.items:
        need(step.kind in ("string", "null"), step, "a step of a path is a name", "scan")


def paths(node: Node) -> None:
    array(node, "paths", "scan")
    for item in node.items:
        path(item)


def lengths(node: Node) -> None:
    array(node, "lengths", "create")
    for item in node.items:
        is_pair = item.kind == "array" and len(item.items) == 2
        need(is_pair, item, "a length is a pair of a path and a number", "create")
        number(item.items[1])
        path(item.items[0])


# ---- types


def dtype(node: Node) -> None:
    need(node.kind == "object", node, 'a type is an object, as {"kind":"i32"}', "Types")
    name = node.get("kind")
    if name is None:
        raise Fault(node.at, "the type lacks the key 'kind'", "Types")
    if name.kind != "string" or name.value not in KINDS:
        said = name.value if name.kind == "string" else "this"
        more = ", and no table holds floats" if str(said).lower() in FLOATS else ""
        hint = more or near(str(said), KINDS, OTHER_NAMES)
        raise Fault(name.at, "%s is no kind%s" % (said, hint), "Types")
    own = OWN.get(name.value, ())
    free = ["nullable", "children"] + ["metadata"] * (name.value == "extension")
    keys(node, ["kind", *own], free, "the kind " + name.value, "Types")
    nullable = node.get("nullable")
    if nullable is not None:
        need(nullable.kind == "bool", nullable, "nullable is true or false", "Types")
    own_keys(name.value, node)
    children(name.value, node)


def is_nullable(node: Node) -> bool:
    found = node.get("nullable")
    return found is not None and found.value is True


def own_keys(kind: str, node: Node) -> None:
    """What stands in the keys that a kind has of its own."""
    for key, low, high in (
        ("precision", 1, 76), ("scale", -76, 76), ("size", 0, 2**32 - 1)
    ):  # fmt: skip
        part = node.get(key)
        if part is not None:
            is_one = part.kind == "number" and low <= part.value <= high
            need(is_one, part, "%s goes from %d to %d" % (key, low, high), "Types")
    part = node.get("sorted")
    if part is not None:
        need(part.kind == "bool", part, "sorted is true or false", "Types")
    part = node.get("names")
    if part is not None:
        array(part, "names", "Types")
        for item in part.items:
            need(item.kind == "string", item, "a name is a string", "Types")
    if kind == "null":
        need(is_nullable(node), node, "the kind null is nullable", "Types")
    if kind == "extension":
        extension(node)
    part = node.get("tags")
    if part is not None:
        tags(part)


def tags(node: Node) -> None:
    array(node, "tags", "Types")
    seen: List[Any] = []
    for item in node.items:
        is_one = item.kind == "number" and -128 <= item.value <= 127
        need(is_one, item, "a tag is a number from -128 to 127", "Types")
        need(item.value not in seen, item, "the tag %s stands twice" % item.value, "Types")
        seen.append(item.value)


def extension(node: Node) -> None:
    part = node.get("id")
    if part is not None:
        need(part.kind == "string", part, "id is a string", "Types")
    part = node.get("metadata")
    if part is not None:
        need(is_hex(part), part, "metadata has two hexadecimal digits a byte", "Types")


def children(kind: str, node: Node) -> None:
    found, names, tags = node.get("children"), node.get("names"), node.get("tags")
    if found is not None:
        array(found, "children", "Types")
    items = found.items if found is not None else []
    wanted = len(names.items) if names is not None else CHILDREN.get(kind, 0)
    for part, what in ((found or node, items), (tags or node, tags.items if tags else None)):
        if what is not None and len(what) != wanted:
            words = "a type for each of its %d names" if names is not None else "%d types"
            of = "tag" if what is not items else "type"
            words = words.replace("type", of)
            why = "the kind %s has " + words + ", and here are %d"
            raise Fault(part.at, why % (kind, wanted, len(what)), "Types")
    for item in items:
        dtype(item)
    if kind == "map":
        need(not is_nullable(items[0]), items[0], "the keys of a map aren't nullable", "Types")
    if kind == "extension":
        same = is_nullable(items[0]) == is_nullable(node)
        need(same, items[0], "an extension is as nullable as what stores it", "Types")


# ---- predicates


def predicate(node: Node) -> None:
    array(node, "a predicate", "scan")
    name = node.items[0] if node.items else node
    need(name.kind == "string", name, "a predicate begins with its name", "scan")
    rest = node.items[1:]
    if name.value == "col":
        for step in rest:
            need(step.kind == "string", step, "a column is named by strings", "scan")
        return
    if name.value == "lit":
        need(len(rest) == 2, node, "a literal is [\"lit\",type,value]", "scan")
        dtype(rest[0])
        literal(rest[0], rest[1])
        return
    if name.value not in FORMS:
        hint = near(name.value, [*FORMS, "col", "lit"], OTHER_FORMS)
        raise Fault(name.at, "%s is no form of a predicate%s" % (name.value, hint), "scan")
    items, operands = FORMS[name.value]
    why = "%s has %d items behind its name, and here are %d" % (name.value, items, len(rest))
    need(len(rest) == items, node, why, "scan")
    for operand in rest[:operands]:
        predicate(operand)
    for flag in rest[operands:]:
        if name.value == "stat":
            is_one = flag.kind == "string" and flag.value in STATISTICS
            need(is_one, flag, "a statistic is one of " + ", ".join(STATISTICS), "scan")
        else:
            need(flag.kind == "bool", flag, "this is a flag, true or false", "scan")


def is_hex(node: Node) -> bool:
    return node.kind == "string" and bool(re.fullmatch("([0-9a-fA-F]{2})*", node.value))


def literal(kind_node: Node, node: Node) -> None:
    """Whether a value is one of the type; a type of which there are none is refused otherwise."""
    wrong = misfit(kind_node, node)
    if wrong is not None:
        raise Fault(wrong[0].at, wrong[1], "Values")


def misfit(kind_node: Node, node: Node) -> Optional[Tuple[Node, str]]:
    """The first part of a value that isn't one of its type, and why."""
    name = kind_node.get("kind")
    kind = str(name.value) if name is not None else ""
    parts = kind_node.get("children")
    types = parts.items if parts is not None else []
    if node.kind == "null":
        return None if is_nullable(kind_node) else (node, "null is no value of this %s" % kind)
    if kind in RANGES:
        low, high = RANGES[kind]
        if node.kind == "number" and low <= node.value <= high:
            return None
        said = str(node.value) if node.kind == "number" else "this"
        return node, "%s is no %s, which goes from %d to %d" % (said, kind, low, high)
    if kind in ("bool", "utf8"):
        wanted = {"bool": "bool", "utf8": "string"}[kind]
        return None if node.kind == wanted else (node, "this is no %s" % kind)
    if kind == "binary":
        why = "this is no binary: two hexadecimal digits a byte, between \""
        return None if is_hex(node) else (node, why)
    if kind not in ("struct", "list", "fixed_size_list"):
        return node, "no table holds a value of the kind %s" % kind
    if node.kind != "array":
        return node, "a %s is an array" % kind
    return misfit_inside(kind, kind_node, types, node)


def misfit_inside(
    kind: str, kind_node: Node, types: List[Node], node: Node
) -> Optional[Tuple[Node, str]]:
    """The same of a record or a list."""
    size = kind_node.get("size")
    wanted = len(types) if kind == "struct" else size.value if size is not None else None
    if wanted is not None and len(node.items) != wanted:
        return node, "here are %d values, and %d belong" % (len(node.items), wanted)
    for at, item in enumerate(node.items):
        found = misfit(types[at if kind == "struct" else 0], item)
        if found is not None:
            return found
    return None


PARTS = {
    "dtype": dtype,
    "length": number,
    "lengths": lengths,
    "rows": rows,
    "layouts": layouts,
    "paths": paths,
    "where": predicate,
    "group": number,
    "path": path,
}
