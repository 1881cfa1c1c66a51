"""Types, written and as lines have them, and values of them."""
from __future__ import annotations

import unittest

import common
from colscan import BadType, BadValue, NoPlace, Type, parse
from colscan.types import leaves, part_at, record
from colscan.values import decode, encode, named


class Types(unittest.TestCase):
    def test_written(self) -> None:
        for text in (
            "i32", "u64?", "bool", "utf8?", "binary", "list<i32>", "list<i32?>?", "list<utf8, 3>",
            "list<list<u8?, 0>?>", "struct<>", "struct<a: i32, b: struct<c: utf8?>?>?",
            'struct<"the a": i8, "d""e": bool>',
        ):  # fmt: skip
            with self.subTest(text):
                found = parse(text)
                self.assertEqual(str(found), text)
                self.assertEqual(Type.from_json(found.to_json()), found)
                self.assertEqual(parse(" " + text.replace(",", " , ")), found)

    def test_dictionaries(self) -> None:
        found = parse({"a": "i32?", "p": {"q": parse("utf8")}})
        self.assertEqual(str(found), "struct<a: i32?, p: struct<q: utf8>>")
        self.assertEqual([path for path, _ in leaves(found)], [("a",), ("p", "q")])
        self.assertEqual(str(part_at(found, ["p", "q"])), "utf8")
        self.assertIsNone(part_at(found, ["p", "z"]))
        self.assertIsNone(part_at(found, ["a", "z"]))

    def test_bad(self) -> None:
        for text, words in (
            ("int32", "i32?"),
            ("string", "utf8?"),
            ("I32", "i32?"),
            ("f64", "no table holds floats"),
            ("float", "no table holds floats"),
            ("decimal", "no table holds"),
            ("", "nothing"),
            ("i32??", "behind its end"),
            ("list", "<"),
            ("list<i32", ">"),
            ("list<i32, x>", "size"),
            ("struct<a i32>", ":"),
            ("struct<5: i32>", "name"),
            ("what", "there are"),
        ):
            with self.subTest(text):
                with self.assertRaises(BadType) as caught:
                    parse(text)
                self.assertIn(words, str(caught.exception))
        with self.assertRaises(BadType):
            parse(5)  # type: ignore[arg-type]
        with self.assertRaises(NoPlace):
            parse({5: "i32"})  # type: ignore[dict-item]
        for text in ("i32", "struct<a: i32>?"):
            with self.assertRaises(BadType):
                record(text)


class Values(unittest.TestCase):
    def test_encode(self) -> None:
        for text, value, wanted in (
            ("i32", 5, 5),
            ("i32?", None, None),
            ("u64", 2**64 - 1, 2**64 - 1),
            ("bool", True, True),
            ("utf8", "\u00e9", "\u00e9"),
            ("binary", b"\x00\xff", "00ff"),
            ("binary", bytearray(b"\x01"), "01"),
            ("list<i32?>", (1, None), [1, None]),
            ("list<binary, 1>", [b"a"], ["61"]),
            ("struct<a: i32, b: utf8?>", {"a": 1}, [1, None]),
            ("struct<a: i32, b: utf8?>", (1, "x"), [1, "x"]),
            ("struct<>", {}, []),
        ):
            with self.subTest(text):
                self.assertEqual(encode(parse(text), [value], "c"), [wanted])

    def test_bad(self) -> None:
        for text, values, row, column, words in (
            ("i32", [1, None], 1, "c", "isn't nullable"),
            ("i32", [1, "x"], 1, "c", "no whole number"),
            ("i32", [1, True], 1, "c", "no whole number"),
            ("i32", [1, 1.0], 1, "c", "1 is one"),
            ("i32?", [None, float("nan")], 1, "c", "None"),
            ("u8", [0, 256, -1], 1, "c", "0 to 255"),
            ("i8?", [None, None, 128], 2, "c", "-128 to 127"),
            ("bool", [1], 0, "c", "no boolean"),
            ("utf8", ["a", 5], 1, "c", "no text"),
            ("utf8", ["a", "\ud800"], 1, "c", "UTF-8"),
            ("binary", ["00"], 0, "c", "no byte string"),
            ("list<u8>", [[1], [], [2, 256]], 2, "c[]", "0 to 255"),
            ("list<u8, 2>", [[1, 2], [1]], 1, "c", "size 2"),
            ("list<u8>", ["ab"], 0, "c", "no list"),
            ("struct<a: u8>", [[1], [-1]], 1, "c.a", "0 to 255"),
            ("struct<a: u8>?", [None, [1], {"a": "x"}], 2, "c.a", "whole number"),
            ("struct<a: u8>", [{"a": 1}, {}], 1, "c", "lacks the key 'a'"),
            ("struct<a: u8>", [{"a": 1, "b": 2}], 0, "c", "key 'b' too many"),
            ("struct<a: u8>", [[1, 2]], 0, "c", "2 values where 1"),
            ("struct<a: u8>", [5], 0, "c", "no record"),
        ):
            with self.subTest(text, values=values):
                with self.assertRaises(BadValue) as caught:
                    encode(parse(text), values, "c")
                found = caught.exception
                self.assertEqual((found.row, found.column), (row, column))
                self.assertIn(words, str(found))

    def test_decode(self) -> None:
        dtype = parse("struct<a: list<binary?>?, b: struct<c: binary>?>")
        self.assertEqual(decode(dtype, [["00", None], ["ff"]]), [[b"\x00", None], [b"\xff"]])
        self.assertEqual(decode(dtype, [None, None]), [None, None])
        found = named(dtype, [[b"\x00"], [b"\xff"]])
        self.assertEqual(found, {"a": [b"\x00"], "b": {"c": b"\xff"}})
        self.assertEqual(named(parse("struct<p: struct<>>"), [[]]), {"p": {}})


@common.needs("numpy")
class Numpy(unittest.TestCase):
    def test_values(self) -> None:
        import numpy

        self.assertEqual(encode(parse("i32"), [numpy.int8(5)], "c"), [5])
        self.assertEqual(encode(parse("bool"), [numpy.bool_(True)], "c"), [True])
        self.assertEqual(encode(parse("list<i64>"), [numpy.array([1, 2])], "c"), [[1, 2]])
        for text, value in (("i32", numpy.bool_(True)), ("bool", numpy.int8(1))):
            with self.assertRaises(BadValue):
                encode(parse(text), [value], "c")


if __name__ == "__main__":
    unittest.main()
