"""Frames of pandas, in and out. Most is skipped where pandas isn't there."""
from __future__ import annotations

import subprocess
import sys
import unittest
from typing import Any
from unittest import mock

import common
from colscan import BadValue, ColscanError, NoPlace, Table, col

HAS_PANDAS = common.is_there("pandas")
if HAS_PANDAS:
    import numpy
    import pandas

    from colscan import frames


class Without(unittest.TestCase):
    def test_a_frame_is_asked_for(self) -> None:
        with Table.create({"a": "i32"}, timeout=common.TIMEOUT) as table:
            table.append([[1]])
            with mock.patch.dict(sys.modules, {"pandas": None}):
                with self.assertRaises(ColscanError) as caught:
                    table.scan().to_frame()
                self.assertIn("pandas", str(caught.exception))
                table.append([[2]])

    def test_nothing_imports_it(self) -> None:
        code = "import sys, colscan.cli, colscan.table\nassert 'pandas' not in sys.modules"
        code = "import sys\nsys.path.insert(0, %r)\n" % common.CLIENT + code
        subprocess.run(common.python(code), check=True, timeout=common.TIMEOUT)


@common.needs("pandas")
class In(unittest.TestCase):
    def table(self, frame: "pandas.DataFrame", **more: Any) -> Table:
        return Table.from_frame(frame, timeout=common.TIMEOUT, **more)

    def test_types(self) -> None:
        for values, dtype, wanted in (
            ([1, 2], "int8", "i8"),
            ([1, 2], "uint64", "u64"),
            ([1, None], "Int16", "i16?"),
            ([1, 2], "UInt32", "u32?"),
            ([True, False], "bool", "bool"),
            ([True, None], "boolean", "bool?"),
            (["x", None], "string", "utf8?"),
            (["x", None], "object", "utf8?"),
            (["x", float("nan")], "object", "utf8?"),
            ([None, None], "object", "utf8?"),
            ([b"x", None], "object", "binary?"),
            ([1, None], "object", "i64?"),
            ([2**64 - 1, 1], "object", "u64?"),
            ([True, None], "object", "bool?"),
            ([[1], None, [2, None]], "object", "list<i64?>?"),
            ([{"q": 1}, {"r": "x"}, None], "object", "struct<q: i64?, r: utf8?>?"),
            (["x", "y"], "category", "utf8?"),
        ):
            with self.subTest(dtype, values=values):
                frame = pandas.DataFrame({"c": pandas.Series(values, dtype=dtype)})
                self.assertEqual(str(frames.type_of(frame).children[0]), wanted)
                with self.table(frame) as table:
                    found = table.scan().columns()["c"]
                there = [None if value is None or value != value else value for value in values]
                if isinstance(there[0], dict):
                    there = [{"q": 1, "r": None}, {"q": None, "r": "x"}, None]
                self.assertEqual(found, there)

    def test_no_place(self) -> None:
        times = pandas.to_datetime(["2020-01-01", "2020-01-02"])
        for values, words in (
            ([1.5, 2.0], "floats"),
            ([1.0, None], "Int64"),
            ([1j, 2j], "complex"),
            (times, "times"),
            (times.tz_localize("UTC"), "times"),
            (times - times[0], "spans"),
            (times.to_period("D"), "period"),
            (pandas.arrays.SparseArray([1, 0]), "sparse"),
            ([1, "x"], "int and str"),
            (numpy.array([1.5, "x"], dtype=object), "floats"),
            ([object(), None], "object"),
            ([{1: 2}, None], "key 1"),
            ([{"q": [1.5]}, None], "floats"),
        ):
            with self.subTest(words):
                frame = pandas.DataFrame({"good": [1, 2], "bad": pandas.Series(values)})
                # The session would have to be started: nothing is.
                with mock.patch("colscan.table.Session", side_effect=AssertionError):
                    with self.assertRaises(NoPlace) as caught:
                        self.table(frame)
                self.assertTrue(str(caught.exception.column).startswith("bad"))
                self.assertIn(words, str(caught.exception))

    def test_names(self) -> None:
        pairs = pandas.MultiIndex.from_tuples([("a", "b")])
        for frame, column in (
            (pandas.DataFrame({5: [1]}), 5),
            (pandas.DataFrame([[1, 2]], columns=["a", "a"]), "a"),
            (pandas.DataFrame([[1]], columns=pairs), ("a", "b")),
        ):
            with self.assertRaises(NoPlace) as caught:
                self.table(frame)
            self.assertEqual(caught.exception.column, column)

    def test_append(self) -> None:
        frame = pandas.DataFrame({"s": ["x", None], "a": [1, 2]}, index=[7, 7])
        with Table.create({"a": "u8", "s": "utf8?"}, timeout=common.TIMEOUT) as table:
            table.append(frame)
            table.append(frame[frame["a"] > 1], rows_per_chunk=1)
            self.assertEqual(table.scan().rows, [[1, "x"], [2, None], [2, None]])
            with self.assertRaises(BadValue) as caught:
                table.append(frame.assign(a=[1, 300]))
            self.assertEqual((caught.exception.row, caught.exception.column), (1, "a"))
            for bad in (frame.drop(columns="s"), frame.assign(z=1), frame.assign(a=[0.5, 1])):
                with self.assertRaises(NoPlace):
                    table.append(bad)
            self.assertEqual(table.chunk_rows, [2, 1])

    def test_category_is_a_dictionary(self) -> None:
        frame = pandas.DataFrame({"a": [1, 2], "c": pandas.Categorical(["x", "y"])})
        with self.table(frame) as table, mock.patch.object(
            table.session, "ask", wraps=table.session.ask
        ) as asked:
            table.append(frame)
            self.assertEqual(asked.call_args[0][0]["layouts"], ["plain", "dictionary"])

    def test_empty(self) -> None:
        with self.table(pandas.DataFrame({"a": pandas.Series([], dtype="int64")})) as table:
            self.assertEqual((table.chunk_rows, str(table.type)), ([], "struct<a: i64>"))

    def test_numpy_rows(self) -> None:
        with Table.create({"a": "i64", "b": "i64"}, timeout=common.TIMEOUT) as table:
            table.append(numpy.array([[1, 2], [3, 4]]))
            table.append({"a": numpy.array([5]), "b": pandas.Series([6])})
            self.assertEqual(table.scan().rows, [[1, 2], [3, 4], [5, 6]])


@common.needs("pandas")
class Out(unittest.TestCase):
    def test_dtypes(self) -> None:
        dtype = {
            "a": "i32", "b": "u8?", "c": "bool", "d": "bool?", "e": "utf8", "f": "binary?",
            "g": "list<i32>?", "h": {"q": "i32"},
        }  # fmt: skip
        rows = [
            [1, 2, True, None, "x", b"\x00", [1], {"q": 1}],
            [2, None, False, True, "y", None, None, {"q": 2}],
        ]
        with Table.create(dtype, timeout=common.TIMEOUT) as table:
            table.append(rows)
            frame = table.scan().to_frame()
            none = table.scan(col("a") > 9).to_frame()
        wanted = ["int32", "UInt8", "bool", "boolean", "string", "object", "object", "object"]
        self.assertEqual([str(it) for it in frame.dtypes], wanted)
        self.assertEqual([str(it) for it in none.dtypes], wanted)
        self.assertEqual((list(frame.columns), len(frame), len(none)), (list(dtype), 2, 0))
        self.assertTrue(pandas.isna(frame["b"][1]))
        self.assertEqual(list(frame["f"]), [b"\x00", None])
        self.assertEqual(list(frame["h"]), [{"q": 1}, {"q": 2}])

    def test_there_and_back(self) -> None:
        frame = pandas.DataFrame(
            {
                "a": pandas.Series([1, None, 3], dtype="Int64"),
                "b": pandas.Series([1, 2, 3], dtype="uint8"),
                "s": pandas.Series(["x", None, "\u00e9"], dtype="string"),
                "t": pandas.Series([True, None, False], dtype="boolean"),
            }
        )
        with Table.from_frame(frame, timeout=common.TIMEOUT, rows_per_chunk=2) as table:
            pandas.testing.assert_frame_equal(table.scan().to_frame(), frame)

    def test_no_columns(self) -> None:
        with Table.create({"a": "i32"}, timeout=common.TIMEOUT) as table:
            table.append([[1], [2]])
            self.assertEqual(table.scan(paths=[]).to_frame().shape, (2, 0))


if __name__ == "__main__":
    unittest.main()
