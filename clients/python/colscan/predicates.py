"""Predicates, built of columns by Python's operators."""
from __future__ import annotations

from typing import Any, Iterable, Iterator, List, Mapping, NoReturn, Optional, Tuple, Union

from .errors import BadPredicate, BadValue, shown
from .types import RANGES, Type, TypeLike, parse, part_at, path_words
from .values import encode

# The comparisons, and what stands for each with its sides exchanged.
COMPARISONS = {"=": "=", "!=": "!=", ">": "<", ">=": "<=", "<": ">", "<=": ">="}
# Forms whose value is a boolean.
TRUTHS = frozenset(COMPARISONS) | {
    "and", "or", "not", "is_null", "is_not_null", "between", "like"
}  # fmt: skip
CLOSED = {
    "both": (False, False), "left": (False, True), "right": (True, False), "none": (True, True)
}  # fmt: skip
# The kinds of literals that aren't numbers.
PLAIN = {bool: "bool", str: "utf8", bytes: "binary"}
# A longer AND of ANDs or OR of ORs is sent as a balanced one, since lines nest to 127 at most.
LONG = 32
BINDS = (
    "&, | and ~ bind closer than comparisons, so each comparison needs brackets: "
    "(a > 5) & (b < 3)"
)
Literal = Union[bool, int, str, bytes]


class Predicate:
    """A column, a literal, or what operators make of them.

    `form` is its name in the program's lines, and `operands` what stands in it. Numbers, texts,
    bytes and booleans beside a column take the type of that column once a table is asked.

    >>> (col("a") > 5) & col("s").like("x%")
    (col('a') > 5) & col('s').like('x%')
    >>> col("a") > 5 & col("b")
    Traceback (most recent call last):
    ...
    colscan.errors.BadPredicate: 5 & col('b') is no predicate: 5 is no boolean. &, | and ~ bind \
closer than comparisons, so each comparison needs brackets: (a > 5) & (b < 3)
    """

    __slots__ = ("form", "operands", "flags")

    def __init__(self, form: str, operands: Tuple[Any, ...], flags: Tuple[bool, ...] = ()) -> None:
        self.form, self.operands, self.flags = form, operands, flags

    # ---- comparisons

    def _compare(self, op: str, other: Any) -> "Predicate":
        if other is None:
            test = "is_null" if op == "=" else "is_not_null"
            raise BadPredicate("null equals nothing, itself included: use .%s()" % test)
        other = _operand(other)
        for truth, side in ((self, other), (other, self)):
            number = side.form == "lit" and not isinstance(side.operands[0], bool)
            if truth.form in TRUTHS and number:
                words = (truth, op, side)
                raise BadPredicate("%r %s %r compares a boolean with none. " % words + BINDS)
        return Predicate(op, (self, other))

    def __eq__(self, other: Any) -> "Predicate":  # type: ignore[override]
        return self._compare("=", other)

    def __ne__(self, other: Any) -> "Predicate":  # type: ignore[override]
        return self._compare("!=", other)

    def __gt__(self, other: Any) -> "Predicate":
        return self._compare(">", other)

    def __ge__(self, other: Any) -> "Predicate":
        return self._compare(">=", other)

    def __lt__(self, other: Any) -> "Predicate":
        return self._compare("<", other)

    def __le__(self, other: Any) -> "Predicate":
        return self._compare("<=", other)

    __hash__ = object.__hash__

    def between(self, low: Any, high: Any, closed: str = "both") -> "Predicate":
        """Whether the value lies between two others, with the ends that `closed` names: `both`,
        `left`, `right` or `none`.

        >>> col("a").between(1, 9, closed="left")
        col('a').between(1, 9, closed='left')
        """
        if closed not in CLOSED:
            raise BadPredicate("closed is one of %s, not %r" % (", ".join(CLOSED), closed))
        ends = (self, _operand(low), _operand(high))
        return Predicate("between", ends, CLOSED[closed])

    def isin(self, values: Iterable[Any]) -> "Predicate":
        """Whether the value is one of these; an OR of as many comparisons, which skips a chunk
        exactly where none of them lies between its bounds.

        >>> col("a").isin([1, 5])
        (col('a') == 1) | (col('a') == 5)
        """
        tests = [self == value for value in values]
        return any_of(tests) if tests else lit(False)

    # ---- texts and nulls

    def like(self, pattern: str) -> "Predicate":
        """Whether the whole text matches the pattern, where `%` stands for any run of characters
        and `_` for one.

        >>> str(col("s").like("x%"))
        "s like 'x%'"
        """
        return Predicate("like", (self, _pattern(pattern)), (False, False))

    def not_like(self, pattern: str) -> "Predicate":
        """Whether the whole text doesn't match the pattern.

        >>> str(col("s").not_like("x%"))
        "s not like 'x%'"
        """
        return Predicate("like", (self, _pattern(pattern)), (True, False))

    def starts_with(self, prefix: str) -> "Predicate":
        """Whether the text begins with this one.

        >>> col("s").starts_with("x")
        col('s').like('x%')
        """
        if any(sign in prefix for sign in "%_"):
            why = "in a pattern %% and _ stand for other characters, and %r has one"
            raise BadPredicate(why % prefix)
        return self.like(prefix + "%")

    def is_null(self) -> "Predicate":
        """Whether the value is null.

        >>> str(col("a").is_null())
        'a is null'
        """
        return Predicate("is_null", (self,))

    def is_not_null(self) -> "Predicate":
        """Whether the value isn't null.

        >>> str(col("a").is_not_null())
        'a is not null'
        """
        return Predicate("is_not_null", (self,))

    # ---- logic

    def __and__(self, other: Any) -> "Predicate":
        return Predicate("and", (_truth(self, "&", self, other), _truth(other, "&", self, other)))

    def __or__(self, other: Any) -> "Predicate":
        return Predicate("or", (_truth(self, "|", self, other), _truth(other, "|", self, other)))

    def __rand__(self, other: Any) -> "Predicate":
        return Predicate("and", (_truth(other, "&", other, self), _truth(self, "&", other, self)))

    def __ror__(self, other: Any) -> "Predicate":
        return Predicate("or", (_truth(other, "|", other, self), _truth(self, "|", other, self)))

    def __invert__(self) -> "Predicate":
        if self.form == "lit" and not isinstance(self.operands[0], (bool, type(None))):
            raise BadPredicate("~%r is no predicate. " % self + BINDS)
        return Predicate("not", (self,))

    def __bool__(self) -> NoReturn:
        raise BadPredicate(
            "a predicate is true or false of each row, not by itself: use &, | and ~ in the place "
            "of and, or and not, .between(1, 5) in that of 1 < a < 5, and .isin(..) in that of in. "
            + BINDS
        )

    # ---- what it says

    def columns(self) -> List[List[str]]:
        """The paths of the columns that it reads, each once, from left to right.

        >>> ((col("b") > col("p", "q")) | (col("b") == 1)).columns()
        [['b'], ['p', 'q']]
        """
        found: List[List[str]] = []
        for part in self.parts():
            if part.form == "col" and list(part.operands) not in found:
                found.append(list(part.operands))
        return found

    def parts(self) -> Iterator["Predicate"]:
        """It, and all that stands in it, from left to right.

        >>> [part.form for part in (col("a") > 5).parts()]
        ['>', 'col', 'lit']
        """
        waiting = [self]
        while waiting:
            part = waiting.pop()
            yield part
            if part.form not in ("col", "lit"):
                waiting.extend(reversed(part.operands))

    def to_json(self, dtype: Union[TypeLike, Mapping[str, Any], None] = None) -> List[Any]:
        """As the program's lines have it. `dtype` is the table's type, by which numbers get their
        kind; without it they are `i64`.

        >>> (col("a") > 5).to_json({"a": "u8?"})
        ['>', ['col', 'a'], ['lit', {'kind': 'u8'}, 5]]
        """
        if isinstance(dtype, Mapping) and dtype.get("kind") == "struct" and "names" in dtype:
            dtype = Type.from_json(dtype)
        return _to_json(self, None if dtype is None else parse(dtype), None)

    def __repr__(self) -> str:
        return _python(self)

    def __str__(self) -> str:
        return _written(self)


def col(*path: str) -> Predicate:
    """A column, by its name, or by the names that lead to it through records.

    >>> col("p", "q").is_null()
    col('p', 'q').is_null()
    """
    for step in path:
        if not isinstance(step, str):
            raise BadPredicate("a column is named by texts, not by %s" % shown(step))
    return Predicate("col", path)


def lit(value: Optional[Literal], dtype: Optional[TypeLike] = None) -> Predicate:
    """A literal, of a type of its own where one is given.

    >>> lit(5, "u8") > col("a")
    lit(5, 'u8') > col('a')
    """
    made = None if dtype is None else parse(dtype)
    if made is None and value is None:
        raise BadPredicate("null needs a type: lit(None, 'i32?')")
    if made is not None and value is None:
        made = made.as_nullable()
    if value is not None and not isinstance(value, (bool, int, str, bytes)):
        raise BadPredicate(_no_literal(value))
    if made is not None:
        _encoded(made, value)
    return Predicate("lit", (value, made))


def any_of(tests: List[Predicate]) -> Predicate:
    """An OR of at least one, in which as few as can be stand in one another."""
    return balanced("or", tests)


def balanced(form: str, sides: List[Predicate]) -> Predicate:
    """An AND or OR of all sides."""
    if len(sides) == 1:
        return sides[0]
    half = len(sides) // 2
    return Predicate(form, (balanced(form, sides[:half]), balanced(form, sides[half:])))


def chain(predicate: Predicate) -> List[Predicate]:
    """The sides of an AND of ANDs, or of an OR of ORs, from left to right. It may be a long one."""
    found, waiting = [], [predicate]
    while waiting:
        part = waiting.pop()
        if part.form == predicate.form:
            waiting.extend(reversed(part.operands))
        else:
            found.append(part)
    return found


def _operand(value: Any) -> Predicate:
    """What stands for a predicate beside one."""
    if isinstance(value, Predicate):
        return value
    if hasattr(value, "item") and not isinstance(value, (bool, int, str, bytes)):
        # A number of numpy.
        value = value.item()
    if value is None:
        raise BadPredicate("null equals nothing: use .is_null() or .is_not_null()")
    return lit(value)


def _no_literal(value: Any) -> str:
    if isinstance(value, float):
        return "%r is a float, and no table holds floats: use a whole number" % value
    return "%s is no boolean, whole number, text or byte string" % shown(value)


def _pattern(pattern: Any) -> Predicate:
    if not isinstance(pattern, str):
        raise BadPredicate("a pattern is a text, not %s" % shown(pattern))
    if "\\" in pattern:
        raise BadPredicate("a pattern has no backslash, and %r has one" % pattern)
    return lit(pattern)


def _truth(value: Any, sign: str, left: Any, right: Any) -> Predicate:
    """A side of & or |, which are refused where a number or a text stands there."""
    if isinstance(value, Predicate) and value.form != "lit":
        return value
    found = value.operands[0] if isinstance(value, Predicate) else value
    if type(found).__name__ in ("bool_", "bool"):
        return value if isinstance(value, Predicate) else lit(bool(found))
    if isinstance(value, Predicate) and found is None:
        return value
    words = (shown(left), sign, shown(right), shown(value))
    raise BadPredicate("%s %s %s is no predicate: %s is no boolean. %s" % (*words, BINDS))


# ---- as lines have it


def _kind(predicate: Predicate, dtype: Optional[Type]) -> Optional[str]:
    """The kind of a side, where it is known without the other."""
    if predicate.form == "col":
        part = part_at(dtype, predicate.operands) if dtype is not None else None
        return part.kind if part is not None and part.is_leaf else None
    if predicate.form == "lit":
        value, own = predicate.operands
        if own is not None:
            return str(own.kind)
        return PLAIN.get(type(value))
    return "bool"


def _to_json(predicate: Predicate, dtype: Optional[Type], kind: Optional[str]) -> List[Any]:
    """`kind` is that of the sides that a literal stands beside."""
    form, operands = predicate.form, predicate.operands
    if form == "col":
        return ["col", *operands]
    if form == "lit":
        return _literal(operands[0], operands[1], kind)
    if form in ("and", "or"):
        sides = chain(predicate)
        if len(sides) > LONG:
            operands = balanced(form, sides).operands
    kinds = [_kind(operand, dtype) for operand in operands]
    beside = next((it for it in kinds if it is not None), None)
    if form not in COMPARISONS and form != "between":
        beside = None
    made = [_to_json(operand, dtype, beside) for operand in operands]
    return [form, *made, *predicate.flags]


def _literal(value: Any, own: Optional[Type], kind: Optional[str]) -> List[Any]:
    if own is None:
        own = Type(PLAIN.get(type(value)) or _number_kind(value, kind))
    return ["lit", own.to_json(), _encoded(own, value)]


def _number_kind(value: int, kind: Optional[str]) -> str:
    """A number beside no number stays one, which the program refuses by name."""
    if kind is not None and kind in RANGES:
        return kind
    return "i64" if value < 2**63 else "u64"


def _encoded(dtype: Type, value: Any) -> Any:
    try:
        return encode(dtype, [value], "")[0]
    except BadValue as error:
        raise BadPredicate("the literal %s %s" % (shown(value), error.why)) from None


# ---- as text


def _python(predicate: Predicate) -> str:
    form, operands = predicate.form, predicate.operands
    if form == "col":
        return "col(%s)" % ", ".join(map(repr, operands))
    if form == "lit":
        value, own = operands
        return "lit(%r)" % value if own is None else "lit(%r, %r)" % (value, str(own))
    if form in ("and", "or"):
        sign = " & " if form == "and" else " | "
        return sign.join(_bracketed(side) for side in chain(predicate))
    first = _bracketed(operands[0])
    rest = [_plainly(operand) for operand in operands[1:]]
    if form in COMPARISONS:
        sign = "==" if form == "=" else form
        second = operands[1]
        right = _plainly(second) if second.form == "lit" else _bracketed(second)
        return "%s %s %s" % (first, sign, right)
    if form == "not":
        return "~" + first
    if form == "between":
        closed = next(name for name, flags in CLOSED.items() if flags == predicate.flags)
        rest += ["closed=%r" % closed] if closed != "both" else []
    if form == "like" and predicate.flags[0]:
        form = "not_like"
    return "%s.%s(%s)" % (first, form, ", ".join(rest))


def _plainly(predicate: Predicate) -> str:
    """An operand that Python turns into a predicate by itself."""
    if predicate.form == "lit" and predicate.operands[1] is None:
        return repr(predicate.operands[0])
    return _python(predicate)


def _bracketed(predicate: Predicate) -> str:
    text = _python(predicate)
    is_open = predicate.form in COMPARISONS or predicate.form in ("and", "or", "not")
    return "(%s)" % text if is_open else text


def _written(predicate: Predicate) -> str:
    """The written form, as `colscan.where` reads it."""
    form, operands = predicate.form, predicate.operands
    if form == "col":
        return path_words(operands)
    if form == "lit":
        return _written_literal(*operands)
    if form in ("and", "or"):
        return (" %s " % form).join(_written_inner(side) for side in chain(predicate))
    words = [_written_inner(operand) for operand in operands]
    if form in COMPARISONS:
        return "%s %s %s" % (words[0], form, words[1])
    if form == "not":
        return "not " + words[0]
    if form in ("is_null", "is_not_null"):
        return "%s %s" % (words[0], form.replace("_", " "))
    if form == "like":
        return "%s %slike %s" % (words[0], "not " * predicate.flags[0], words[1])
    low, high = ("< " if strict else "<= " for strict in predicate.flags)
    if predicate.flags == (False, False):
        return "%s between %s and %s" % tuple(words)
    return "%s %s%s and %s %s%s" % (words[1], low, words[0], words[0], high, words[2])


def _written_inner(predicate: Predicate) -> str:
    text = _written(predicate)
    return text if predicate.form in ("col", "lit") else "(%s)" % text


def _written_literal(value: Any, own: Optional[Type]) -> str:
    if value is None or isinstance(value, bool):
        text = {None: "null", True: "true", False: "false"}[value]
    elif isinstance(value, bytes):
        text = "x'%s'" % value.hex()
    else:
        text = str(value) if isinstance(value, int) else "'%s'" % value.replace("'", "''")
    return text if own is None else "%s::%s" % (text, own)
