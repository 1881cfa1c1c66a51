"""What the second colscan says of types, paths and rows: which it refuses, what cuts leave of them,
and how they and values are written.

It is imported by reference.py and reference_proofs.py, and is not called by itself.
"""
import json

from reading import Refused, element_of, fields_of, is_leaf


def check_part(dtype):
    """A record's names go before its parts, and these from left to right."""
    fields = fields_of(dtype)
    if element_of(dtype):
        return check_part(element_of(dtype))
    if dtype[0] != "struct" and not is_leaf(dtype):
        raise Refused(3)
    if len({name for name, _ in fields}) != len(fields):
        raise Refused(4)
    for _, part in fields:
        check_part(part)


def check_type(dtype):
    kind, _, nullable = dtype
    if kind != "struct" or nullable:
        raise Refused(2)
    check_part(dtype)


def positions(dtype, path):
    """The positions of a path of names, and the type that it leads to."""
    places = []
    for step in path:
        places.append([name for name, _ in dtype[1]].index(step))
        dtype = dtype[1][places[-1]][1]
    return tuple(places), dtype


def check_path(dtype, path, at):
    for step in path:
        if step is None:
            raise Refused(10, at)
        parts = [part for name, part in fields_of(dtype) if name == step]
        if not parts:
            raise Refused(9, at)
        dtype = parts[0]


def part_at(dtype, path):
    for step in path:
        dtype = next(part for name, part in dtype[1] if name == step)
    return dtype


def column_value(dtype, path, row):
    """A column's value is null where a record on the way is null."""
    for name in path:
        if row is None:
            return None
        place = [other for other, _ in dtype[1]].index(name)
        row, dtype = row[place], dtype[1][place][1]
    return row


def in_order(value):
    """What stands for a value in comparisons: texts stand as their UTF-8."""
    return value.encode("utf-8") if isinstance(value, str) else value


def higher(character):
    """The least higher character of as many bytes of UTF-8, if there is one."""
    code = 0xE000 if character == "\ud7ff" else ord(character) + 1
    if code < 0x110000 and len(chr(code).encode("utf-8")) == len(character.encode("utf-8")):
        return chr(code)
    return None


def low(value, length):
    """The longest beginning of at most so many bytes, of a text of whole characters."""
    if isinstance(value, bytes):
        return value[:length]
    if isinstance(value, str):
        return value.encode("utf-8")[:length].decode("utf-8", "ignore")
    return value


def high(value, length):
    """The value where it is short; else the least such string of bytes above it, or its low as a
    text raised at the latest character that can be. None: there is
    no bound."""
    if not isinstance(value, (bytes, str)) or len(in_order(value)) <= length:
        return value
    begin = low(value, length)
    if isinstance(value, bytes):
        number = int.from_bytes(begin, "big") + 1
        return number.to_bytes(length, "big") if number < 256**length else None
    for place in reversed(range(len(begin))):
        if higher(begin[place]):
            return begin[:place] + higher(begin[place])
    return None


def is_kept(paths, here):
    """Whether one of the paths begins this one, or this one a path."""
    return any(path[: len(here)] == here[: len(path)] for path in paths)


def cut_type(dtype, paths, here):
    kind, fields, nullable = dtype
    if kind != "struct":
        return dtype
    return (
        kind,
        [
            (name, cut_type(part, paths, here + [name]))
            for name, part in fields
            if is_kept(paths, here + [name])
        ],
        nullable,
    )


def cut_row(dtype, row, paths, here):
    if dtype[0] != "struct" or row is None:
        return row
    return [
        cut_row(part, value, paths, here + [name])
        for (name, part), value in zip(dtype[1], row)
        if is_kept(paths, here + [name])
    ]


def type_json(dtype):
    kind, fields, nullable = dtype
    if element_of(dtype):
        return {
            "children": [type_json(element_of(dtype))],
            "kind": kind,
            "nullable": nullable,
            **({"size": fields[1]} if kind == "fixed_size_list" else {}),
        }
    if kind != "struct":
        return {"kind": kind, "nullable": nullable}
    return {
        "children": [type_json(part) for _, part in fields],
        "kind": kind,
        "names": [name for name, _ in fields],
        "nullable": nullable,
    }


def row_json(content):
    """Bytes are a text of hexadecimal digits, in lower case."""
    if isinstance(content, list):
        return [row_json(value) for value in content]
    return content.hex() if isinstance(content, bytes) else content


def compact(value):
    return json.dumps(value, separators=(",", ":"), ensure_ascii=False)
