"""Lines of JSON read as commands of colscan, as directly as the definitions say it.

It is imported by reference.py and random_sessions.py, and is not called by itself. A type is read
as a tuple of its kind, its parts and whether it is nullable; a line that is no command is refused
by 18.
"""
import json

RANGES = {
    "u8": (0, 2**8 - 1),
    "u16": (0, 2**16 - 1),
    "u32": (0, 2**32 - 1),
    "u64": (0, 2**64 - 1),
    "i8": (-(2**7), 2**7 - 1),
    "i16": (-(2**15), 2**15 - 1),
    "i32": (-(2**31), 2**31 - 1),
    "i64": (-(2**63), 2**63 - 1),
}
# The kinds of leaves: integers, and these.
PLAIN = ("bool", "utf8", "binary")
DIGITS = "0123456789abcdefABCDEF"
TESTS = {
    "=": lambda x, y: x == y,
    "!=": lambda x, y: x != y,
    ">": lambda x, y: x > y,
    ">=": lambda x, y: x >= y,
    "<": lambda x, y: x < y,
    "<=": lambda x, y: x <= y,
}


class Refused(Exception):
    def __init__(self, number, at=None):
        self.number, self.at = number, at


def bad():
    raise Refused(18)


def need(fact):
    if not fact:
        bad()





def whole(text):
    """A number that JSON's reader keeps as a 64-bit whole number; anything else is kept as a float.
    """
    number = int(text)
    return number if -(2**63) <= number < 2**64 and text != "-0" else float(number)


def depth(value):
    if isinstance(value, list):
        return 1 + max(map(depth, value), default=0)
    if isinstance(value, dict):
        return 1 + max(map(depth, value.values()), default=0)
    return 0


def no_float(value):
    if isinstance(value, list):
        return all(map(no_float, value))
    if isinstance(value, dict):
        return all(map(no_float, value.values()))
    return not isinstance(value, float)


def read_line(line):
    try:
        value = json.loads(line.decode("utf-8"), parse_int=whole, parse_constant=lambda _: bad())
        # An escape of half a character is no text.
        json.dumps(value, ensure_ascii=False).encode("utf-8")
    except (ValueError, RecursionError):
        bad()
    need(depth(value) <= 127 and no_float(value))
    return value


def keys(value, needed, free=()):
    need(isinstance(value, dict) and set(needed) <= set(value) <= set(needed) | set(free))


# The keys of their own that kinds of types have beside `kind`, and those that may be missing.
OWN = {
    "decimal": ["precision", "scale"],
    "fixed_size_list": ["size"],
    "map": ["sorted"],
    "struct": ["names"],
    "union": ["names", "tags"],
    "extension": ["id"],
}
FREE = {"extension": ["metadata"]}
CHILDREN = {"list": 1, "fixed_size_list": 1, "map": 2, "extension": 1}
CHILDLESS = {*RANGES, "f16", "f32", "f64", "null", "bool", "utf8", "binary", "variant", "decimal"}


def is_between(value, low, high):
    return is_number(value) and low <= value <= high


def are_texts(values):
    return isinstance(values, list) and all(isinstance(value, str) for value in values)


def read_type(value):
    """A type as its kind, what it is made of, and whether null is a value. A record is made of
    pairs of a name and a type, a list of the type of its elements, one of fixed size of the size
    too."""
    need(isinstance(value, dict) and isinstance(value.get("kind"), str))
    kind = value["kind"]
    keys(value, ["kind", *OWN.get(kind, [])], ["nullable", "children", *FREE.get(kind, [])])
    nullable = value.get("nullable", False)
    need(isinstance(nullable, bool) and isinstance(value.get("children", []), list))
    children = [read_type(child) for child in value.get("children", [])]
    if kind == "struct":
        need(are_texts(value["names"]) and len(value["names"]) == len(children))
        return (kind, list(zip(value["names"], children)), nullable)
    if kind == "union":
        tags = value["tags"]
        need(
            are_texts(value["names"])
            and isinstance(tags, list)
            and len(value["names"]) == len(tags) == len(children)
        )
        need(all(is_between(tag, -128, 127) for tag in tags) and len(set(tags)) == len(tags))
        return (kind, None, nullable)
    need(kind in CHILDLESS or kind in CHILDREN)
    need(len(children) == CHILDREN.get(kind, 0))
    if kind == "null":
        need(nullable)
    if kind == "decimal":
        need(is_between(value["precision"], 1, 76) and is_between(value["scale"], -76, 76))
    if kind == "fixed_size_list":
        need(is_between(value["size"], 0, 2**32 - 1))
    if kind == "map":
        need(isinstance(value["sorted"], bool) and not children[0][2])
    if kind == "extension":
        metadata = value.get("metadata", "")
        need(isinstance(value["id"], str) and are_digits(metadata) and nullable == children[0][2])
    if kind == "list":
        return (kind, children[0], nullable)
    if kind == "fixed_size_list":
        return (kind, (children[0], value["size"]), nullable)
    return (kind, None, nullable)


def fields_of(dtype):
    return dtype[1] if dtype[0] == "struct" else []


def element_of(dtype):
    """The type of a list's elements, if it is one."""
    if dtype[0] == "fixed_size_list":
        return dtype[1][0]
    return dtype[1] if dtype[0] == "list" else None


def has_length(dtype, count):
    """Whether a list of the type may have so many elements."""
    return dtype[0] == "list" or dtype[1][1] == count


def is_leaf(dtype):
    return dtype[0] in RANGES or dtype[0] in PLAIN


def is_number(value):
    return isinstance(value, int) and not isinstance(value, bool)


def are_digits(value):
    """Whether a JSON value is a text of hexadecimal digits, two a byte."""
    return (
        isinstance(value, str) and len(value) % 2 == 0 and all(digit in DIGITS for digit in value)
    )


class Unreadable(Exception):
    pass


def reading(value, dtype):
    """What a JSON value says at the type: null, a truth value, a number, a text as str, bytes as
    bytes, or a list, of a record or of elements."""
    kind, fields, _ = dtype
    if value is None:
        return None
    if kind == "struct" and isinstance(value, list) and len(value) == len(fields):
        return [reading(v, f[1]) for v, f in zip(value, fields)]
    element = element_of(dtype)
    if element and isinstance(value, list) and has_length(dtype, len(value)):
        return [reading(item, element) for item in value]
    if kind == "bool" and isinstance(value, bool) or kind == "utf8" and isinstance(value, str):
        return value
    if kind == "binary" and are_digits(value):
        return bytes.fromhex(value)
    if kind in RANGES and is_between(value, *RANGES[kind]):
        return value
    raise Unreadable


def row_reading(value, dtype):
    """A row that says nothing is null, which no record at the root is."""
    try:
        return reading(value, dtype)
    except Unreadable:
        return None


def is_content(content, dtype):
    """Whether what was read is a value of the type."""
    kind, fields, nullable = dtype
    if content is None:
        return nullable
    if kind == "struct":
        return (
            isinstance(content, list)
            and len(content) == len(fields)
            and all(is_content(c, f[1]) for c, f in zip(content, fields))
        )
    element = element_of(dtype)
    if element:
        return (
            isinstance(content, list)
            and has_length(dtype, len(content))
            and all(is_content(item, element) for item in content)
        )
    if kind in PLAIN:
        return isinstance(content, {"bool": bool, "utf8": str, "binary": bytes}[kind])
    return kind in RANGES and is_between(content, *RANGES[kind])


def converts(content, source, target):
    """Whether a value of the one type is one of the other, which keeps its content: records go to
    records by position, lists of both kinds to each other by their elements."""
    element, other = element_of(source), element_of(target)
    if content is None:
        return target[2]
    if element and other:
        return has_length(target, len(content)) and all(
            converts(item, element, other) for item in content
        )
    if source[0] == target[0] == "struct":
        return len(source[1]) == len(target[1]) and all(
            converts(part, field[1], other[1])
            for part, field, other in zip(content, source[1], target[1])
        )
    return is_leaf(source) and is_leaf(target) and is_content(content, target)


def read_path(value):
    need(isinstance(value, list) and all(step is None or isinstance(step, str) for step in value))
    return value


# How many items an array has that is a predicate of this name, and how many of these, behind the
# name, are predicates themselves.
FORMS = {
    **{name: (3, 2) for name in (*TESTS, "and", "or")},
    **{name: (2, 1) for name in ("not", "is_null", "is_not_null", "is_nan")},
    "between": (6, 3),
    "like": (5, 2),
    "row_count": (1, 0),
    "stat": (3, 1),
}
AGGREGATES = (
    "min",
    "max",
    "sum",
    "null_count",
    "nan_count",
    "uncompressed_size_in_bytes",
    "min_max",
    "all_null",
    "all_non_null",
    "all_nan",
    "all_non_nan",
)


def read_literal(value):
    need(len(value) == 3)
    dtype = read_type(value[1])
    try:
        content = reading(value[2], dtype)
    except Unreadable:
        bad()
    need(is_content(content, dtype))
    return ("lit", dtype, content)


def read_predicate(value):
    """A predicate as its name, its operands and its flags."""
    need(isinstance(value, list) and value and isinstance(value[0], str))
    if value[0] == "lit":
        return read_literal(value)
    if value[0] == "col":
        need(are_texts(value[1:]))
        return ("col", value[1:])
    need(value[0] in FORMS)
    items, operands = FORMS[value[0]]
    need(len(value) == items)
    flags = value[1 + operands :]
    if value[0] == "stat":
        need(isinstance(flags[0], str) and flags[0] in AGGREGATES)
    else:
        need(all(isinstance(flag, bool) for flag in flags))
    return (value[0], *map(read_predicate, value[1 : 1 + operands]), *flags)


def read_length(value):
    need(isinstance(value, list) and len(value) == 2)
    need(is_number(value[1]) and value[1] >= 0)
    return (read_path(value[0]), value[1])


def read_command(line):
    value = read_line(line)
    need(isinstance(value, dict))
    if value.get("cmd") == "create":
        keys(value, ["cmd", "dtype", "length"], ["lengths"])
        need(is_number(value["length"]) and value["length"] >= 0)
        lengths = value.get("lengths", [])
        need(isinstance(lengths, list))
        return ("create", read_type(value["dtype"]), value["length"], [*map(read_length, lengths)])
    if value.get("cmd") == "retype":
        keys(value, ["cmd", "dtype"])
        return ("retype", read_type(value["dtype"]))
    if value.get("cmd") == "compact":
        keys(value, ["cmd"])
        return ("compact",)
    if value.get("cmd") == "append":
        keys(value, ["cmd", "dtype", "rows"], ["layouts"])
        layouts = value.get("layouts", [])
        need(
            isinstance(layouts, list)
            and all(name in ("plain", "dictionary", "constant") for name in layouts)
        )
        need(isinstance(value["rows"], list))
        dtype = read_type(value["dtype"])
        return ("append", dtype, [row_reading(row, dtype) for row in value["rows"]])
    if value.get("cmd") == "join":
        keys(value, ["cmd", "group"])
        need(is_number(value["group"]) and value["group"] >= 0)
        return ("join", value["group"])
    if value.get("cmd") == "describe":
        keys(value, ["cmd", "group", "path"])
        need(is_number(value["group"]) and value["group"] >= 0)
        return ("describe", read_path(value["path"]), value["group"])
    need(value.get("cmd") == "scan")
    keys(value, ["cmd", "paths", "where"])
    need(isinstance(value["paths"], list))
    return ("scan", list(map(read_path, value["paths"])), read_predicate(value["where"]))
