#!/usr/bin/env python3
"""Random sessions of colscan.

random_sessions.py N FOLDER    writes N of them and the answers of reference.py to FOLDER, as NAME
                               and NAME.stdout
"""
import json
import os
import random
import sys

sys.dont_write_bytecode = True
from reading import AGGREGATES, FORMS, PLAIN, RANGES, TESTS
from reference import Session, answers, compact
from spellings import spelled


def random_kind(chance):
    kinds = list(RANGES) if chance.random() < 0.4 else PLAIN
    return {
        "kind": chance.choice(kinds),
        **({"nullable": chance.random() < 0.5} if chance.random() < 0.7 else {}),
    }


def random_list(chance, element):
    """Lists of the elements, of one size or of any."""
    dtype = {"kind": "list", "children": [element], "nullable": chance.random() < 0.4}
    if chance.random() < 0.4:
        dtype = {**dtype, "kind": "fixed_size_list", "size": chance.choice([0, 1, 2, 2, 3])}
    return dtype


def random_part(chance, depth):
    """A type for a field or for elements: a leaf, or where it may go deeper a record or lists."""
    roll = chance.random() if depth else 1
    if roll < 0.35:
        return random_record(chance, chance.choice([0, 1, 1, 2, 2, 3]), depth - 1)
    if roll < 0.6:
        return random_list(chance, random_part(chance, depth - 1))
    return random_kind(chance)


def random_record(chance, width, depth):
    names = chance.sample(["a", "b", "c", "\u00e9", 'd"e'], width)
    if width > 1 and chance.random() < 0.02:
        names[1] = names[0]
    children = [random_part(chance, depth) for _ in names]
    dtype = {"kind": "struct", "names": names, "children": children}
    if chance.random() < 0.5:
        dtype["nullable"] = True
    return dtype


def other_kind(chance):
    """A type that tables don't hold, or none at all."""
    child = random_kind(chance)
    dtype = chance.choice(
        [
            {"kind": "null", "nullable": True},
            {"kind": "null"},
            {"kind": "variant"},
            {"kind": "f32", "nullable": True},
            {"kind": "f64"},
            {
                "kind": "decimal",
                "precision": chance.randint(0, 77),
                "scale": chance.choice([-76, 0, 76, 77]),
            },
            {"kind": "list", "children": [{"kind": "variant"}]},
            {"kind": "list"},
            {"kind": "fixed_size_list", "children": [child]},
            {"kind": "map", "sorted": False, "children": [child, child]},
            {
                "kind": "union",
                "names": ["a", "b"],
                "tags": [0, chance.randint(0, 1)],
                "children": [child, child],
            },
            {"kind": "extension", "id": "x", "children": [child]},
            {
                "kind": "extension",
                "id": "x",
                "metadata": chance.choice(["", "0aFF", "0"]),
                "nullable": child.get("nullable", False),
                "children": [child],
            },
        ]
    )
    return {**dtype, **({"more": 0} if chance.random() < 0.05 else {})}


def random_type(chance, width):
    dtype = random_record(chance, width, chance.choice([0, 1, 1, 2, 3]))
    if chance.random() < 0.98:
        dtype.pop("nullable", None)
    if dtype["children"] and chance.random() < 0.1:
        dtype["children"][-1] = other_kind(chance)
    return dtype


def alike(chance, dtype):
    """The same records and lists, of other names, kinds, sizes and nullability; mostly so that rows
    can be converted."""
    if dtype["kind"] in PLAIN:
        return (
            {**dtype, "nullable": not dtype.get("nullable")}
            if chance.random() < 0.1
            else random_kind(chance)
            if chance.random() < 0.05
            else dtype
        )
    if dtype["kind"] in ("list", "fixed_size_list") and len(dtype.get("children", [])) == 1:
        element = alike(chance, dtype["children"][0])
        if chance.random() < 0.2:
            return random_list(chance, element)
        return {**dtype, "children": [element]}
    if dtype["kind"] not in RANGES and dtype["kind"] != "struct":
        return dtype
    if dtype["kind"] != "struct":
        return (
            {"kind": chance.choice(list(RANGES)), "nullable": True}
            if chance.random() < 0.3
            else dtype
        )
    names = chance.sample(["a", "b", "c", "\u00e9", 'd"e'], len(dtype["names"]))
    other = {
        "kind": "struct",
        "names": names,
        "children": [alike(chance, child) for child in dtype["children"]],
    }
    if dtype.get("nullable") or chance.random() < 0.05:
        other["nullable"] = True
    return other


def random_number(chance, kind):
    low, high = RANGES.get(kind, (0, 0))
    if chance.random() < 0.15:
        return chance.choice([low, high, low + 1, high - 1])
    number = chance.randint(-3, 9)
    return number if low <= number <= high or chance.random() < 0.005 else 0


# Of each length the least and the greatest character, the neighbours of those that are no
# characters, and some plain ones; those that JSON escapes too.
LETTERS = [
    "a",
    "b",
    "a",
    "b",
    "\x7f",
    "\x80",
    "\u07ff",
    "\u0800",
    "\ud7ff",
    "\ue000",
    "\uffff",
    "\U00010000",
    "\U0010ffff",
    "\U0001faa9",
    "\x00",
    "\n",
    '"',
    "\\",
    "/",
]


def random_text(chance):
    return "".join(
        chance.choice(LETTERS) for _ in range(chance.choice([0, 1, 1, 2, 2, 3, 4, 7, 20]))
    )


def random_bytes(chance):
    data = bytes(
        chance.choice([0, 1, 0x61, 0x7F, 0x80, 0xFE, 0xFF, 0xFF])
        for _ in range(chance.choice([0, 1, 1, 2, 2, 3, 4, 7, 20]))
    )
    digits = data.hex() if chance.random() < 0.8 else data.hex().upper()
    return digits + chance.choice(["0", "g0", "\u00e9", " "]) if chance.random() < 0.005 else digits


def random_leaf(chance, kind):
    if kind == "bool":
        return chance.random() < 0.5
    if kind == "utf8":
        return random_text(chance)
    return random_bytes(chance) if kind == "binary" else random_number(chance, kind)


def random_value(chance, dtype):
    if dtype.get("nullable") and chance.random() < 0.2:
        return None
    if dtype["kind"] in ("list", "fixed_size_list") and len(dtype.get("children", [])) == 1:
        count = dtype.get("size", chance.choice([0, 0, 1, 1, 2, 3]))
        count = count if chance.random() < 0.997 else count + 1
        return [random_value(chance, dtype["children"][0]) for _ in range(min(count, 4))]
    if dtype["kind"] != "struct":
        return (
            random_leaf(chance, dtype["kind"])
            if chance.random() < 0.998
            else chance.choice([True, 0, "", "x", "00", [], {}])
        )
    value = [random_value(chance, child) for child in dtype["children"]]
    if chance.random() < 0.003:
        value = chance.choice([None, [], {}, "x", 0, value + [0], [[0]] * len(value)])
    return value


def random_rows(chance, dtype):
    dtype = {**dtype, "nullable": chance.random() < 0.01}
    rows = [random_value(chance, dtype) for _ in range(chance.choice([0, 1, 1, 2, 3, 5, 12]))]
    # Rows that repeat, so that constants and dictionaries fit.
    return [chance.choice(rows[:2]) for _ in rows] if rows and chance.random() < 0.2 else rows


def random_layouts(chance, width):
    """A hint a column; at times too few or too many, or one that isn't there."""
    count = width if chance.random() < 0.8 else chance.choice([0, 1, width + 2])
    names = ["plain", "dictionary", "dictionary", "constant", "constant"]
    names = names if chance.random() < 0.98 else [*names, "sparse", None]
    return {"layouts": [chance.choice(names) for _ in range(count)]}


def parts_of(dtype, here):
    """Each part of a type with its path, from the root."""
    parts = [(here, dtype)]
    for name, child in zip(dtype.get("names", []), dtype.get("children", [])):
        parts += parts_of(child, here + [name])
    return parts


def random_literal(chance, kind):
    dtype = {"kind": kind, "nullable": chance.random() < 0.2}
    return [
        "lit",
        dtype,
        None if dtype["nullable"] and chance.random() < 0.3 else random_leaf(chance, kind),
    ]


def random_column(chance, leaves, kind):
    """A column of the kind, if there is one."""
    columns = [path for path, other in leaves if other == kind]
    return ["col"] + chance.choice(columns) if columns else random_literal(chance, kind)


def random_operand(chance, leaves, kind, depth):
    """An operand of the kind: a column or a literal, or for truth a predicate."""
    if kind == "bool" and depth and chance.random() < 0.5:
        return random_predicate(chance, leaves, depth - 1)
    if chance.random() < 0.6:
        return random_column(chance, leaves, kind)
    return random_literal(chance, kind)


def random_pattern(chance):
    """A LIKE pattern of the characters of texts, with wildcards."""
    letters = list(random_text(chance))
    for place in range(len(letters)):
        if chance.random() < 0.2:
            letters[place] = chance.choice(["%", "_", "_"])
    if chance.random() < 0.5:
        letters = letters[: chance.randint(0, len(letters))] + ["%"]
    text = "".join(letters)
    return text if chance.random() < 0.03 else text.replace("\\", "")


def random_like(chance, leaves):
    pattern = ["lit", {"kind": "utf8"}, random_pattern(chance)]
    operand = random_operand(chance, leaves, "utf8", 0)
    return ["like", operand, pattern, chance.random() < 0.2, False]


def random_odd(chance, leaves):
    """A form that no scan takes, or that is none, or that seldom fits where it stands."""
    column = ["col"] + (chance.choice(leaves)[0] if leaves else [])
    text = ["lit", {"kind": "utf8"}, "a"]
    return chance.choice(
        [
            column,
            column[:-1],
            [*column, "zz"],
            text,
            ["like", text, text, False, True],
            ["like", text, column, False, False],
            ["like", text, ["lit", {"kind": "utf8", "nullable": True}, None], False, False],
            ["like", text, ["lit", {"kind": "utf8"}, "a\\%"], False, False],
            ["row_count"],
            ["is_nan", column],
            ["stat", column, chance.choice(AGGREGATES)],
            ["stat", column, "mean"],
            ["lit", {"kind": "f32", "nullable": True}, None],
            ["lit", {"kind": "struct", "names": ["a"], "children": [{"kind": "i8"}]}, [1]],
            ["lit", {"kind": "list", "children": [{"kind": "i8", "nullable": True}]}, [1, None]],
            ["lit", {"kind": "list", "children": [{"kind": "i8"}]}, [None]],
            ["lit", {"kind": "fixed_size_list", "size": 1, "children": [{"kind": "bool"}]}, []],
            ["row_count", 1],
            ["not"],
            ["is_null", column, True],
            ["between", column, column, column, True, 1],
            ["like", column, column, False],
            ["xor", column, column],
            [],
            None,
        ]
    )


def spoiled(chance, predicate, leaves):
    """The predicate with one of its parts replaced by an odd one."""
    _, operands = FORMS.get(predicate[0], (0, 0))
    if not operands or chance.random() < 0.3:
        return random_odd(chance, leaves)
    place = chance.randint(1, operands)
    part = spoiled(chance, predicate[place], leaves)
    return [*predicate[:place], part, *predicate[place + 1 :]]


def random_predicate(chance, leaves, depth):
    kinds = [kind for _, kind in leaves] or ["bool"]
    kind = chance.choice(kinds) if chance.random() < 0.95 else chance.choice(["u16", *PLAIN])
    operand = lambda: random_operand(chance, leaves, kind, depth)
    roll = chance.random()
    if depth and roll < 0.4:
        inner = lambda: random_predicate(chance, leaves, depth - 1)
        name = chance.choice(["and", "and", "or", "or", "not"])
        return ["not", inner()] if name == "not" else [name, inner(), inner()]
    if roll < 0.65:
        return [chance.choice(list(TESTS)), operand(), operand()]
    if roll < 0.77:
        flags = [chance.random() < 0.5, chance.random() < 0.5]
        return ["between", operand(), operand(), operand(), *flags]
    if roll < 0.88:
        return [chance.choice(["is_null", "is_not_null"]), operand()]
    if roll < 0.96:
        return random_like(chance, leaves)
    return random_operand(chance, leaves, "bool", 0)


def random_scan(chance, dtype):
    leaves = [
        (path, part["kind"])
        for path, part in parts_of(dtype, [])
        if part["kind"] in RANGES or part["kind"] in PLAIN
    ]
    where = random_predicate(chance, leaves, chance.choice([0, 0, 0, 1, 1, 2, 3, 4, 5]))
    if chance.random() < 0.12:
        where = spoiled(chance, where, leaves)
    paths = [path for path, _ in parts_of(dtype, [])]
    paths = chance.sample(paths, min(len(paths), chance.choice([0, 1, 1, 2, 2, 3, 4, 9])))
    if chance.random() < 0.7 and [] in paths:
        paths.remove([])
    if chance.random() < 0.05:
        paths.append(chance.choice([["zz"], [None], ["a", None], ["a", "a"], ["b", "c", "zz"]]))
    return {"cmd": "scan", "paths": paths, "where": where}


def leaves_of(chance, dtype):
    """The paths of the leaves, at times of all that is no record."""
    others = ("struct",) if chance.random() < 0.1 else ("struct", "list", "fixed_size_list")
    return [path for path, part in parts_of(dtype, []) if part["kind"] not in others]


def random_lengths(chance, dtype):
    paths = [path for path in leaves_of(chance, dtype) if chance.random() < 0.5]
    if chance.random() < 0.1:
        paths.append(chance.choice([["zz"], [None], [], *paths]))
    return [[path, chance.choice([0, 1, 2, 3, 7, 20])] for path in paths]


def random_group(chance, groups):
    """The number of a group, where there are so many."""
    if chance.random() < 0.05:
        return chance.choice([max(groups, 0), groups + 2, 2**64 - 1])
    return chance.randint(0, max(groups - 1, 0))


def random_description(chance, dtype, groups):
    paths = leaves_of(chance, dtype)
    path = chance.choice(paths) if paths and chance.random() < 0.95 else []
    if chance.random() < 0.05:
        path = chance.choice([path + ["zz"], path + [None], ["zz"], path[:-1]])
    return {"cmd": "describe", "path": path, "group": random_group(chance, groups)}


def random_session(chance):
    dtype, lines, session = {"kind": "struct", "names": [], "children": []}, [], Session()
    for _ in range(chance.randint(5, 40)):
        roll, groups = chance.random(), len(session.table["groups"]) if session.table else 0
        if roll < 0.08 or not lines:
            dtype = random_type(chance, chance.randint(0, 4))
            lines.append(
                {
                    "cmd": "create",
                    "dtype": dtype,
                    "length": chance.choice([0, 1, 2, 3, 4, 5, 16, 2**64 - 1]),
                    **({"lengths": random_lengths(chance, dtype)} if chance.random() < 0.5 else {}),
                }
            )
        elif roll < 0.45:
            batch = dtype if chance.random() < 0.6 else alike(chance, dtype)
            if chance.random() < 0.05:
                batch = random_type(chance, len(dtype["names"]))
            hints = random_layouts(chance, len(batch["names"])) if chance.random() < 0.5 else {}
            rows = random_rows(chance, batch)
            lines.append({"cmd": "append", "dtype": batch, "rows": rows, **hints})
        elif roll < 0.5:
            other = alike(chance, dtype) if chance.random() < 0.9 else dtype
            lines.append({"cmd": "retype", "dtype": other})
        elif roll < 0.53:
            lines.append({"cmd": "compact", **({"group": 0} if chance.random() < 0.05 else {})})
        elif roll < 0.62:
            lines.append({"cmd": "join", "group": random_group(chance, groups - 1)})
        elif roll < 0.73:
            lines.append(random_description(chance, dtype, groups))
        elif roll < 0.8:
            every = ["lit", {"kind": "bool"}, True]
            lines.append({"cmd": "scan", "paths": [[]], "where": every})
        else:
            lines.append(random_scan(chance, dtype))
        answer = session.answer(json.dumps(lines[-1]).encode())
        if lines[-1]["cmd"] == "retype" and answer == compact({"ok": True}):
            dtype = lines[-1]["dtype"]
    return "".join(spelled(chance, line) + "\n" for line in lines).encode()


def main():
    for number in range(int(sys.argv[1])):
        data = random_session(random.Random(number))
        with open(os.path.join(sys.argv[2], "random%03d" % number), "wb") as file:
            file.write(data)
        with open(os.path.join(sys.argv[2], "random%03d.stdout" % number), "wb") as file:
            file.write(answers(data))


if __name__ == "__main__":
    main()
