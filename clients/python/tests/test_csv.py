"""CSV files: types that are inferred or given, and cells that can't be read."""
from __future__ import annotations

import os
import tempfile
import unittest
from typing import Any, Dict, Optional

import common
from colscan import BadCell, NoPlace, Table
from colscan.csvfile import CsvFile


class Files(unittest.TestCase):
    def setUp(self) -> None:
        folder = tempfile.TemporaryDirectory()
        self.addCleanup(folder.cleanup)
        self.path = os.path.join(folder.name, "some.csv")

    def file(self, data: "str | bytes", **more: Any) -> CsvFile:
        with open(self.path, "wb") as file:
            file.write(data if isinstance(data, bytes) else data.encode("utf-8"))
        return CsvFile(self.path, **more)

    def column(self, *cells: str, types: Optional[Dict[str, str]] = None) -> Any:
        """The type of a column and its values."""
        found = self.file("k,c\n" + "".join("0,%s\n" % cell for cell in cells))
        dtype = found.infer(types)
        return str(dtype.children[1]), [row[1] for row in found.rows(dtype)]

    def test_inferred(self) -> None:
        for cells, kind, values in (
            (["1", "-2"], "i64", [1, -2]),
            (["1", ""], "i64?", [1, None]),
            (["0", str(2**64 - 1)], "u64", [0, 2**64 - 1]),
            (["true", "FALSE", ""], "bool?", [True, False, None]),
            (["true", "1"], "utf8", ["true", "1"]),
            (["007", "1"], "utf8", ["007", "1"]),
            (["1.5", "x"], "utf8", ["1.5", "x"]),
            (["+5", "1"], "utf8", ["+5", "1"]),
            (["x", ""], "utf8?", ["x", None]),
            (["", ""], "utf8?", [None, None]),
            (['"a,b"', '"c\nd"', '"e""f"'], "utf8", ["a,b", "c\nd", 'e"f']),
            ([], "utf8?", []),
        ):
            with self.subTest(cells=[cell[:9] for cell in cells]):
                self.assertEqual(self.column(*cells), (kind, values))

    def test_numbers_with_no_place(self) -> None:
        for cells, words in (
            (["1", "1.5"], "1.5 in row 1"),
            (["1e3", "2"], "1e3 in row 0"),
            ([".5", ""], ".5 in row 0"),
            (["-0.25"], "-0.25 in row 0"),
            ([str(2**64)], str(2**64)),
            (["-1", str(2**63)], str(2**63)),
            (["1", "9" * 5000], "999... in row 1"),
        ):
            with self.subTest(cells=cells):
                with self.assertRaises(NoPlace) as caught:
                    self.column(*cells)
                self.assertEqual(caught.exception.column, "c")
                self.assertIn(words, str(caught.exception))
                self.assertIn("c=utf8", str(caught.exception))
                kind, values = self.column(*cells, types={"c": "utf8"})
                self.assertEqual((kind, values), ("utf8", cells))

    def test_given(self) -> None:
        for cells, kind, values in (
            (["1", " 2 "], "u8", [1, 2]),
            (["+5", "007"], "i8", [5, 7]),
            (["", "1"], "i8?", [None, 1]),
            (["", "x"], "utf8", ["", "x"]),
            (["", "x"], "utf8?", [None, "x"]),
            (["00ff", ""], "binary", [b"\x00\xff", b""]),
            (["True", "false"], "bool", [True, False]),
        ):
            with self.subTest(cells=cells, kind=kind):
                self.assertEqual(self.column(*cells, types={"c": kind}), (kind, values))

    def test_bad_cells(self) -> None:
        for cell, kind, words in (
            ("x", "i32", "'x' is no whole number"),
            ("", "i32", "the empty cell is no whole number"),
            ("300", "u8", "from 0 to 255"),
            ("1.0", "i64", "no whole number"),
            ("yes", "bool", "neither true nor false"),
            ("0g", "binary", "hexadecimal"),
        ):
            with self.subTest(cell):
                first = {"i32": "1", "u8": "1", "i64": "1", "bool": "true", "binary": ""}[kind]
                with self.assertRaises(BadCell) as caught:
                    self.column(first, first, cell, types={"c": kind})
                found = caught.exception
                self.assertEqual((found.line, found.row, found.column), (4, 2, "c"))
                self.assertIn("line 4 (row 2), column c", str(found))
                self.assertIn(words, str(found))

    def test_lines(self) -> None:
        for data, line, row, words in (
            ("a,b\n1,2\n3\n", 3, 1, "1 cells, and 2 names"),
            ("a,b\n1,2,3\n", 2, 0, "3 cells, and 2 names"),
            ('a\n"x\ny"\n\n1,2\n', 5, 1, "2 cells"),
            ('a\n1\n"x', 3, 1, "end of data"),
            ('a\n1\n"x"y\n', 3, 1, "expected after"),
            (b"a\n1\n\xff\n", 3, 1, "byte 1 of the line"),
            (b"a\n" + b"1\n" * 9000 + b"ab\xff\n", 9002, 9000, "byte 3 of the line"),
        ):
            with self.subTest(words):
                with self.assertRaises(BadCell) as caught:
                    self.file(data).infer()
                found = caught.exception
                self.assertEqual((found.line, found.row), (line, row))
                self.assertIn(words, str(found))

    def test_names(self) -> None:
        for data, column in (("a,a\n", "a"), ("a,\n", "")):
            with self.assertRaises(NoPlace) as caught:
                self.file(data)
            self.assertEqual(caught.exception.column, column)
        with self.assertRaises(BadCell):
            self.file("")
        with self.assertRaises(OSError):
            CsvFile(self.path + ".not")
        found = self.file("\ufeffa,b\n1,2\n")
        self.assertEqual(found.names, ["a", "b"])
        for types in ({"z": "i32"}, {"a": "list<i32>"}):
            with self.assertRaises(NoPlace):
                found.infer(types)

    def test_options(self) -> None:
        found = self.file("1;2;x\n3;NA;y\n", delimiter=";", names=["a", "b", "c"], nulls=["", "NA"])
        dtype = found.infer()
        self.assertEqual(str(dtype), "struct<a: i64, b: i64?, c: utf8>")
        self.assertEqual(list(found.rows(dtype)), [[1, 2, "x"], [3, None, "y"]])
        found = self.file("a,b,c\n1,1.5,x\n", columns=["c", "a"])
        dtype = found.infer()
        self.assertEqual(list(found.rows(dtype)), [["x", 1]])
        with self.assertRaises(NoPlace):
            self.file("a\n", columns=["z"])

    def test_a_table(self) -> None:
        self.file("a,s\n" + "".join("%d,x%d\n" % (it, it) for it in range(25)))
        with Table.from_csv(
            self.path, {"a": "u8"}, rows_per_chunk=10, timeout=common.TIMEOUT
        ) as table:
            self.assertEqual(table.chunk_rows, [10, 10, 5])
            self.assertEqual(table.scan("a >= 23").rows, [[23, "x23"], [24, "x24"]])


if __name__ == "__main__":
    unittest.main()
