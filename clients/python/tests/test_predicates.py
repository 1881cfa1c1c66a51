"""Predicates of operators: what they are, and what is refused with a hint."""
from __future__ import annotations

import unittest
from typing import Any, Callable

import common
from colscan import BadPredicate, Table, col, lit

A, B, S, T = col("a"), col("b"), col("s"), col("t")


class Slips(unittest.TestCase):
    """What Python reads otherwise than it was meant."""

    def refused(self, make: Callable[[], Any], *words: str) -> None:
        with self.assertRaises(BadPredicate) as caught:
            make()
        for word in words:
            self.assertIn(word, str(caught.exception))

    def test_brackets(self) -> None:
        for make in (
            lambda: A > 5 & B,
            lambda: A > 5 & B < 3,
            lambda: A == 1 | B == 2,
            lambda: A == "x" & B,
            lambda: A & 5 < B,
            lambda: A > 5 | T,
            lambda: T & A > 5,
            lambda: T | A == 5,
            lambda: ~A == 1,
            lambda: 5 < A & 7,
            lambda: A.is_null() & B == 3,
        ):
            self.refused(make, "brackets")

    def test_and_or_not_in(self) -> None:
        for make in (
            lambda: A > 5 and B < 3,
            lambda: A > 5 or B < 3,
            lambda: not T,
            lambda: 1 < A < 5,
            lambda: A in [1, 2],
            lambda: bool(A),
        ):
            self.refused(make, "use &, | and ~", "between", "isin")

    def test_null(self) -> None:
        self.refused(lambda: A == None, "is_null()")  # noqa: E711
        self.refused(lambda: A != None, "is_not_null()")  # noqa: E711
        self.refused(lambda: A > None, "null")
        self.refused(lambda: A.between(None, 5), "null")
        self.refused(lambda: lit(None), "type")

    def test_no_literals(self) -> None:
        self.refused(lambda: A > 1.5, "float")
        self.refused(lambda: A == [1], "no boolean")
        self.refused(lambda: A.isin([1.0]), "float")
        self.refused(lambda: col(3), "texts")  # type: ignore[arg-type]

    def test_patterns(self) -> None:
        self.refused(lambda: S.like("a\\%"), "backslash")
        self.refused(lambda: S.like(5), "text")  # type: ignore[arg-type]
        self.refused(lambda: S.starts_with("50%"), "%")

    def test_ends(self) -> None:
        self.refused(lambda: A.between(1, 2, closed="all"), "both")


class Forms(unittest.TestCase):
    def test_reflected(self) -> None:
        self.assertEqual((5 < A).to_json(), (A > 5).to_json())
        self.assertEqual((5 == A).to_json(), (A == 5).to_json())

    def test_literals_take_the_columns_kind(self) -> None:
        dtype = {"a": "u8?", "b": "i64", "s": "utf8", "p": {"q": "i16"}}
        items = lambda it: [part for part in it.to_json(dtype) if isinstance(part, list)]
        kinds = lambda it: [part[1]["kind"] for part in items(it) if part[0] == "lit"]
        self.assertEqual(kinds(A > 5), ["u8"])
        self.assertEqual(kinds(lit(5) < A), ["u8"])
        self.assertEqual(kinds(lit(3).between(A, 9)), ["u8", "u8"])
        self.assertEqual(kinds(col("p", "q") == 5), ["i16"])
        self.assertEqual(kinds(S == "x"), ["utf8"])
        self.assertEqual(kinds(A == "x"), ["utf8"])
        self.assertEqual(kinds(lit(2**63) == lit(1)), ["u64", "i64"])
        self.assertEqual(kinds(lit(5, "i8") == A), ["i8"])

    def test_out_of_range(self) -> None:
        with self.assertRaises(BadPredicate) as caught:
            (A > 300).to_json({"a": "u8"})
        self.assertIn("0 to 255", str(caught.exception))

    def test_isin(self) -> None:
        self.assertEqual(A.isin([]).to_json(), ["lit", {"kind": "bool"}, False])
        self.assertEqual(A.isin([3]).to_json(), (A == 3).to_json())
        many = A.isin(range(5000))
        self.assertLess(depth(many.to_json()), 30)

    def test_long_chains(self) -> None:
        found = A == 0
        for number in range(1, 3000):
            found = found | (A == number)
        self.assertEqual(found.columns(), [["a"]])
        self.assertLess(depth(found.to_json()), 60)
        self.assertEqual(str(found).count(" or "), 2999)
        self.assertEqual(repr(found).count(" | "), 2999)

    def test_longer_than_lines_nest(self) -> None:
        found = A == 0
        for number in range(1, 300):
            found = found | (A == number)
        with Table.create({"a": "i32"}, timeout=common.TIMEOUT) as table:
            table.append([[5], [300], [299]])
            self.assertEqual(table.scan(found).rows, [[5], [299]])
            self.assertEqual(table.scan(str(found)).rows, [[5], [299]])
            self.assertEqual(table.scan(A.isin(range(299))).rows, [[5]])

    def test_short_chains_stay(self) -> None:
        made = ((T & T) & T).to_json()
        self.assertEqual(made, ["and", ["and", ["col", "t"], ["col", "t"]], ["col", "t"]])

    def test_booleans(self) -> None:
        self.assertEqual((T & True).to_json()[2], ["lit", {"kind": "bool"}, True])
        self.assertEqual((True | T).to_json()[1], ["lit", {"kind": "bool"}, True])
        self.assertEqual((T == (A > 5)).to_json()[0], "=")

    def test_hash(self) -> None:
        self.assertEqual(len({A, A, B}), 2)


@common.needs("numpy")
class Numpy(unittest.TestCase):
    def test_numbers(self) -> None:
        import numpy

        self.assertEqual((A > numpy.int64(5)).to_json(), (A > 5).to_json())
        self.assertEqual((T & numpy.bool_(True)).to_json(), (T & True).to_json())


def depth(made: Any) -> int:
    return 1 + max(map(depth, made), default=0) if isinstance(made, list) else 0


if __name__ == "__main__":
    unittest.main()
