"""What the second colscan says of predicates: which it refuses, the truth of one for a row, what is
known of the columns of a chunk or a group, and the proofs that are true of them.

It is imported by reference.py, and is not called by itself. A chunk is a list of rows, a group is a
chunk or the pair of those that were joined.
"""
import re

from reading import FORMS, RANGES, Refused, TESTS, fields_of, is_between, is_leaf
from reference_values import column_value, high, higher, in_order, low, part_at, positions


def chunks_in(group):
    return chunks_in(group[0]) + chunks_in(group[1]) if isinstance(group, tuple) else [group]


def column_type(dtype, path):
    for name in path:
        parts = [part for other, part in fields_of(dtype) if other == name]
        if not parts:
            raise Refused(12)
        dtype = parts[0]
    if not is_leaf(dtype):
        raise Refused(13)
    return dtype[0]


def predicate_type(dtype, predicate):
    """The type of a predicate of which no part is refused: operands go before their predicate, from
    left to right."""
    name = predicate[0]
    if name == "lit":
        if not is_leaf(predicate[1]):
            raise Refused(20)
        return predicate[1][0]
    if name == "col":
        return column_type(dtype, predicate[1])
    operands = operands_of(predicate)
    types = [predicate_type(dtype, operand) for operand in operands]
    if name == "stat":
        raise Refused(11)
    if name in ("is_nan", "row_count"):
        raise Refused(20)
    if name in TESTS or name == "between":
        if len(set(types)) > 1:
            raise Refused(14)
    if name in ("and", "or", "not") and set(types) != {"bool"}:
        raise Refused(15)
    if name == "like":
        if set(types) != {"utf8"}:
            raise Refused(14)
        pattern, ignores_case = operands[1], predicate[4]
        if ignores_case or pattern[0] != "lit" or pattern[2] is None or "\\" in pattern[2]:
            raise Refused(16)
    return "bool"


def check_predicate(dtype, predicate):
    if predicate_type(dtype, predicate) != "bool":
        raise Refused(15)


def operands_of(predicate):
    return predicate[1 : 1 + FORMS[predicate[0]][1]]


# ---- what is known of a column of a chunk and of a group: pairs of "exact" or "inexact" and a
# value, or None


def bound(value, of, length):
    """A value's low or high, which is exact where the value is short."""
    short = not isinstance(value, (bytes, str)) or len(in_order(value)) <= length
    made = of(value, length)
    return None if made is None else ("exact" if short else "inexact", made)


# The type of the sum of a type's values.
SUMS = {kind: "i64" if kind[0] == "i" else "u64" for kind in ("bool", *RANGES)}


def fitting(kind, total):
    """The sum of a column of this kind, where the sum's type holds it."""
    return ("exact", total) if is_between(total, *RANGES[SUMS[kind]]) else None


def zone_of(kind, values, length):
    """What is known of a chunk's values."""
    there = [value for value in values if value is not None]
    return {
        "min": bound(min(there, key=in_order), low, length) if there else None,
        "max": bound(max(there, key=in_order), high, length) if there else None,
        "null_count": ("exact", len(values) - len(there)),
        "sum": fitting(kind, sum(map(int, there))) if kind in SUMS else None,
        "constant": ("exact", all(value == values[0] for value in values)),
    }


def picked(pick, bounds):
    """The least or the greatest of bounds that are all there: exact where an exact one is it."""
    if None in bounds:
        return None
    value = pick((value for _, value in bounds), key=in_order)
    return ("exact" if ("exact", value) in bounds else "inexact", value)


def joined(kind, left, right):
    """What is known of two neighbours as one. Two constant ones are one value where their bounds
    from below are exact and equal."""
    either = lambda key: [left[key], right[key]]
    sums, constants = either("sum"), either("constant")
    constant = None
    if ("exact", False) in constants:
        constant = ("exact", False)
    elif None not in constants and all(low and low[0] == "exact" for low in either("min")):
        constant = ("exact", left["min"] == right["min"])
    return {
        "min": picked(min, either("min")),
        "max": picked(max, either("max")),
        "null_count": ("exact", left["null_count"][1] + right["null_count"][1]),
        "sum": None if None in sums else fitting(kind, sums[0][1] + sums[1][1]),
        "constant": constant,
    }


def zone(table, path, group):
    """What is known of a leaf column of a group, as its chunks were joined."""
    kind = part_at(table["dtype"], path)[0]
    if isinstance(group, tuple):
        return joined(kind, *(zone(table, path, part) for part in group))
    values = [column_value(table["dtype"], path, row) for row in group]
    places, _ = positions(table["dtype"], path)
    return zone_of(kind, values, table["lengths"].get(places, table["default"]))


# ---- truth: True, False, or None for null


def compared(op, x, y):
    return None if x is None or y is None else TESTS[op](in_order(x), in_order(y))


def negated(x):
    return None if x is None else not x


def all_of(*truths):
    return False if False in truths else None if None in truths else True


def any_of(*truths):
    return True if True in truths else None if None in truths else False


def between(x, lower, upper, lower_strict, upper_strict):
    return all_of(
        compared("<" if lower_strict else "<=", lower, x),
        compared("<" if upper_strict else "<=", x, upper),
    )


def is_like(pattern, text):
    signs = {"%": ".*", "_": "."}
    form = "".join(signs.get(sign, re.escape(sign)) for sign in pattern)
    return re.fullmatch(form, text, re.DOTALL) is not None


def value_of(dtype, predicate, row):
    name = predicate[0]
    if name == "lit":
        return predicate[2]
    if name == "col":
        return column_value(dtype, predicate[1], row)
    values = [value_of(dtype, operand, row) for operand in operands_of(predicate)]
    if name in TESTS:
        return compared(name, *values)
    if name == "and":
        return all_of(*values)
    if name == "or":
        return any_of(*values)
    if name == "not":
        return negated(*values)
    if name == "between":
        return between(*values, *predicate[4:])
    if name == "like":
        if None in values:
            return None
        return is_like(values[1], values[0]) != predicate[3]
    return (values[0] is None) == (name == "is_null")


# ---- proofs over what is known of a chunk or a group. A proof that isn't there is None; one that
# is there is a function from what is known to its truth.


def least(known, operand):
    """The bound from below: of a literal itself, of a column what is known of it, and else none."""
    if operand[0] == "lit":
        return operand[2]
    bound = known(operand[1])["min"] if operand[0] == "col" else None
    return bound and bound[1]


def greatest(known, operand):
    if operand[0] == "lit":
        return operand[2]
    bound = known(operand[1])["max"] if operand[0] == "col" else None
    return bound and bound[1]


def nulls(known, operand):
    if operand[0] == "lit":
        return int(operand[2] is None)
    return known(operand[1])["null_count"][1] if operand[0] == "col" else None


def null_proof(nothing, operand):
    """Whether no row is null, or every one is."""

    def proof(known, rows):
        count, least_nulls = nulls(known, operand), 0 if nothing else rows
        # `all_null` and `all_non_null` are known of columns alone.
        same = count == least_nulls if operand[0] == "col" else None
        return any_of(compared("=", count, least_nulls), same)

    return proof


def comparison_proof(op, x, y):
    def proof(known, rows):
        a, b, c, d = least(known, x), greatest(known, x), least(known, y), greatest(known, y)
        return {
            "=": any_of(compared(">", a, d), compared(">", c, b)),
            "!=": all_of(compared("=", a, d), compared("=", b, c)),
            ">": compared("<=", b, c),
            ">=": compared("<", b, c),
            "<": compared(">=", a, d),
            "<=": compared(">", a, d),
        }[op]

    return proof


def raised(text):
    """The text raised at the latest character that can be."""
    for place in reversed(range(len(text))):
        if higher(text[place]):
            return text[:place] + higher(text[place])
    return None


def like_proof(x, pattern):
    """Of a pattern that is a text, or begins with one that can be raised."""
    prefix = re.split("[%_]", pattern)[0]
    is_exact = prefix == pattern
    end = prefix if is_exact else raised(prefix)
    if end is None:
        return None

    def proof(known, rows):
        beyond = compared(">" if is_exact else ">=", least(known, x), end)
        return any_of(beyond, compared("<", greatest(known, x), prefix))

    return proof


def joined_proof(join, proofs):
    return lambda known, rows: join(*(proof(known, rows) for proof in proofs))


def falsifier(predicate):
    """Where it is true, no row satisfies the predicate."""
    name = predicate[0]
    if name == "lit":
        return None if predicate[2] is None else lambda known, rows: not predicate[2]
    if name in TESTS:
        return comparison_proof(*predicate)
    if name == "between":
        _, x, lower, upper, lower_strict, upper_strict = predicate
        return joined_proof(
            any_of,
            [
                comparison_proof("<" if lower_strict else "<=", lower, x),
                comparison_proof("<" if upper_strict else "<=", x, upper),
            ],
        )
    if name in ("is_null", "is_not_null"):
        return null_proof(name == "is_null", predicate[1])
    if name == "like" and not predicate[3]:
        return like_proof(predicate[1], predicate[2][2])
    if name in ("and", "or"):
        proofs = [proof for proof in map(falsifier, predicate[1:]) if proof]
        if len(proofs) == 2:
            return joined_proof(any_of if name == "and" else all_of, proofs)
        return proofs[0] if name == "and" and proofs else None
    return None


def satisfier(predicate):
    """Where it is true, every row satisfies the predicate."""
    if predicate[0] == "lit":
        return None if predicate[2] is None else lambda known, rows: predicate[2]
    if predicate[0] in ("is_null", "is_not_null"):
        return null_proof(predicate[0] == "is_not_null", predicate[1])
    return None


def is_proved(table, proof, group):
    """Whether a proof is there, and true of a chunk or a group."""
    rows = sum(map(len, chunks_in(group)))
    return proof is not None and proof(lambda path: zone(table, path, group), rows) is True
