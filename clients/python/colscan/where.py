"""The written form of predicates: `a > 5 and s like 'x%'`.

| Written | What it is |
|---|---|
| `a`, `p.q`, `"the name"` | a column, a part of a record, a name that is no word |
| `5`, `'it''s'`, `x'00ff'`, `true`, `false` | literals |
| `5::u8`, `null::i32` | literals of a type of their own |
| `=`, `!=`, `>`, `>=`, `<`, `<=` | comparisons; `==` and `<>` are read too |
| `a between 1 and 9`, `a in (1, 5)`, `a not in (1, 5)` | both ends belong to it |
| `s like 'x%'`, `s not like '_'` | patterns |
| `a is null`, `a is not null` | null tests |
| `not x`, `x and y`, `x or y`, `(x)` | logic; of these `not` binds closest and `or` least |

Words are read in upper and lower case alike.
"""
from __future__ import annotations

import re
from typing import Any, List, NamedTuple, Optional

from .errors import BadPredicate, BadType, BadWhere
from .predicates import COMPARISONS, Predicate, col, lit
from .types import WORDS

TOKEN = re.compile(
    r"""\s*(?:
      (?P<bytes>[xX]'[^']*')
    | (?P<text>'(?:[^']|'')*')
    | (?P<name>"(?:[^"]|"")*")
    | (?P<number>-?\d[\w.]*)
    | (?P<word>[^\W\d]\w*)
    | (?P<sign>::|==|<>|!=|<=|>=|&&|\|\||\S)
    )""",
    re.VERBOSE,
)
# What people write by habit.
HABITS = {
    "&": "and", "&&": "and", "|": "or", "||": "or", "!": "not", "~": "not", "`": '"the name"',
}  # fmt: skip


class Token(NamedTuple):
    kind: str
    text: str
    at: int

    @property
    def word(self) -> str:
        """The token as a word of the form, or what else it is."""
        return self.text.lower() if self.kind == "word" else self.text


def parse_where(text: str) -> Predicate:
    """The predicate that a text says.

    >>> parse_where("a > 5 and s like 'x%'")
    (col('a') > 5) & col('s').like('x%')
    >>> parse_where("a > 5 & b < 3")
    Traceback (most recent call last):
    ...
    colscan.errors.BadWhere: & is no word here: and?
      a > 5 & b < 3
            ^
    """
    reader = Reader(text)
    try:
        found = reader.either()
        rest = reader.peek()
        if rest.kind != "end":
            raise reader.fail(rest, "%s belongs nowhere here" % rest.text)
        return found
    except RecursionError:
        raise BadWhere(text[:60], 0, "it has too many brackets inside one another") from None


def tokens(text: str) -> List[Token]:
    found, at = [], 0
    while True:
        match = TOKEN.match(text, at)
        if match is None:
            break
        kind = str(match.lastgroup)
        found.append(Token(kind, match.group(kind), match.start(kind)))
        at = match.end()
    found.append(Token("end", "the end", len(text)))
    return found


class Reader:
    """Reads one text, from the operators that bind least to those that bind closest."""

    def __init__(self, text: str) -> None:
        self.text = text
        self.tokens = tokens(text)
        self.at = 0

    def fail(self, token: Token, why: str) -> BadWhere:
        if token.text in HABITS:
            why = "%s is no word here: %s?" % (token.text, HABITS[token.text])
        if token.text in ("'", '"'):
            why = "%s has no end" % ("this text" if token.text == "'" else "this name")
        return BadWhere(self.text, token.at, why)

    def peek(self) -> Token:
        return self.tokens[self.at]

    def next(self) -> Token:
        token = self.tokens[self.at]
        self.at = min(self.at + 1, len(self.tokens) - 1)
        return token

    def take(self, *words: str) -> bool:
        """Whether these words stand here; then they are read."""
        found = [token.word for token in self.tokens[self.at : self.at + len(words)]]
        if found == list(words):
            self.at += len(words)
            return True
        return False

    def need(self, word: str) -> None:
        if not self.take(word):
            token = self.peek()
            raise self.fail(token, "%s stands where %s belongs" % (token.text, word))

    def either(self) -> Predicate:
        sides = [self.both()]
        while self.take("or"):
            sides.append(self.both())
        return self.sides("or", sides)

    def both(self) -> Predicate:
        sides = [self.negated()]
        while self.take("and"):
            sides.append(self.negated())
        return self.sides("and", sides)

    def sides(self, form: str, sides: List[Predicate]) -> Predicate:
        found = sides[0]
        for side in sides[1:]:
            found = Predicate(form, (found, side))
        return found

    def negated(self) -> Predicate:
        return Predicate("not", (self.negated(),)) if self.take("not") else self.tested()

    def tested(self) -> Predicate:
        """An operand, and the test behind it if there is one."""
        token = self.peek()
        found = self.operand()
        sign = self.peek().text
        op = {"==": "=", "<>": "!="}.get(sign, sign)
        if op in COMPARISONS:
            self.next()
            other = self.operand()
            if self.peek().text in COMPARISONS:
                why = "a comparison has two sides: write a > 1 and a < 5, or a between 1 and 5"
                raise self.fail(self.peek(), why)
            return self.made(token, lambda: found._compare(op, other))
        if self.take("is", "not", "null"):
            return found.is_not_null()
        if self.take("is", "null"):
            return found.is_null()
        if self.take("is"):
            raise self.fail(self.peek(), "behind is stands null or not null")
        is_negated = self.take("not")
        test = self.word_test(found)
        if test is None:
            if is_negated:
                raise self.fail(self.peek(), "behind not stands between, in or like here")
            return found
        if is_negated and test.form == "like":
            return Predicate("like", test.operands, (True, False))
        return Predicate("not", (test,)) if is_negated else test

    def word_test(self, found: Predicate) -> Optional[Predicate]:
        token = self.peek()
        if self.take("between"):
            low = self.operand()
            self.need("and")
            high = self.operand()
            return self.made(token, lambda: found.between(low, high))
        if self.take("in"):
            return self.made(token, lambda: found.isin(self.items()))
        if self.take("like"):
            pattern = self.next()
            if pattern.kind != "text":
                raise self.fail(pattern, "a pattern is a text, as 'x%'")
            return self.made(pattern, lambda: found.like(unquoted(pattern.text)))
        return None

    def items(self) -> List[Predicate]:
        self.need("(")
        found: List[Predicate] = []
        while not self.take(")"):
            if found:
                self.need(",")
            found.append(self.operand())
        return found

    def operand(self) -> Predicate:
        token = self.next()
        if token.kind == "sign" and token.text == "(":
            found = self.either()
            self.need(")")
            return found
        if token.kind == "name" or token.kind == "word" and token.word not in WORDS:
            return self.column(token)
        value = self.value(token)
        if self.take("::"):
            kind = self.next()
            written = kind.text + "?" * self.take("?")
            return self.made(kind, lambda: lit(value, written))
        if value is None:
            why = "null equals nothing: write is null or is not null, or give it a type: null::i32"
            raise self.fail(token, why)
        return lit(value)

    def column(self, token: Token) -> Predicate:
        """A name, and the names behind it that lead into records."""
        path = [unquoted(token.text) if token.kind == "name" else token.text]
        while self.take("."):
            token = self.next()
            if token.kind not in ("name", "word"):
                raise self.fail(token, "behind a . stands a name")
            path.append(unquoted(token.text) if token.kind == "name" else token.text)
        return col(*path)

    def value(self, token: Token) -> Any:
        text = token.text
        if token.kind == "number":
            if not re.fullmatch(r"-?[0-9]+", text):
                why = "%s is no whole number" % text
                is_float = re.fullmatch(r"-?\d+(\.\d*)?([eE]-?\d+)?", text)
                raise self.fail(token, why + ", and no table holds floats" * bool(is_float))
            return int(text)
        if token.kind == "text":
            return unquoted(text)
        if token.kind == "bytes":
            if not re.fullmatch("([0-9a-fA-F]{2})*", text[2:-1]):
                raise self.fail(token, "%s has other than two hexadecimal digits a byte" % text)
            return bytes.fromhex(text[2:-1])
        if token.word in ("true", "false", "null"):
            return {"true": True, "false": False}.get(token.word)
        raise self.fail(token, "%s stands where a column or a value belongs" % text)

    def made(self, token: Token, make: Any) -> Predicate:
        """What is made of operands, or the place of what can't be."""
        try:
            found: Predicate = make()
            return found
        except (BadPredicate, BadType) as error:
            raise self.fail(token, str(error)) from None


def unquoted(text: str) -> str:
    """What stands between quotes.

    >>> unquoted("'it''s'")
    "it's"
    """
    return text[1:-1].replace(text[0] * 2, text[0])
