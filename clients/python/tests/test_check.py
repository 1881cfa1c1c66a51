"""What is said of refused lines: that a broken rule is found exactly where the program answers 18,
and where it stands."""
from __future__ import annotations

import glob
import io
import json
import os
import random
import tempfile
import unittest
from typing import Any, List, Optional

import common
import random_sessions
import reading
from colscan.check import check_file, check_lines
from colscan.process import Session
from colscan.rules import first_fault

INT = '{"kind":"i32"}'
CREATE = '{"cmd":"create","dtype":{"kind":"struct","names":["a"],"children":[%s]},"length":16}'
SCAN = '{"cmd":"scan","paths":[],"where":%s}'
# Bad lines, the part at which the fault stands, and words of what is said.
BAD = [
    (CREATE % '{"kind":"int32"}', '"int32"', "int32 is no kind: i32?"),
    (CREATE % '{"kind":"string"}', '"string"', "utf8?"),
    (CREATE % '{"kind":"float"}', '"float"', "no table holds floats"),
    (CREATE % '{"kind":"i32","null":true}', '"null"', "'null'"),
    (CREATE % '{"nullable":true}', '{"nullable"', "lacks the key 'kind'"),
    (CREATE % '{"kind":"list"}', '{"kind":"list"', "1 types, and here are 0"),
    (CREATE % '{"kind":"null"}', '{"kind":"null"', "nullable"),
    (CREATE % '"i32"', '"i32"', '{"kind":"i32"}'),
    (CREATE % (INT + "," + INT), "[" + INT, "a type for each of its 1 names, and here are 2"),
    (CREATE % '{"kind":"i32","nullable":1}', "1}", "true or false"),
    (CREATE.replace("16", "-1") % INT, "-1", "whole number from 0"),
    (CREATE.replace("16", "16.0") % INT, "16.0", "16.0 is no whole number: 16?"),
    (CREATE.replace("16", "1e2") % INT, "1e2", "no whole number"),
    (CREATE.replace("16", "-0") % INT, "-0", "0?"),
    (CREATE.replace("16", "016") % INT, "016", "zeros"),
    (CREATE.replace("16", str(2**64)) % INT, str(2**64), "64 bits"),
    (CREATE.replace("16", "16,") % INT, "}", "a key belongs here"),
    (CREATE.replace("16", "16,\"more\":1") % INT, '"more"', "a key too many"),
    (CREATE.replace("length", "lenght") % INT, '"lenght"', "length?"),
    (CREATE.replace('"length":16', '"layouts":[]') % INT, '"layouts"', "a key too many"),
    (SCAN % '["==",["col","a"],["col","a"]]', '"=="', "== is no form of a predicate: =?"),
    (SCAN % '["=",["col","a"],5]', "5", "array"),
    (SCAN % '["=",["col","a"]]', '["=", ', "2 items behind its name, and here are 1"),
    (SCAN % '["lit",{"kind":"u8"},300]', "300", "300 is no u8, which goes from 0 to 255"),
    (SCAN % '["lit",{"kind":"i32"},1.0]', "1.0", "1.0 is no whole number: 1?"),
    (SCAN % '["lit",{"kind":"i32"},null]', "null", "null is no value"),
    (SCAN % '["lit",{"kind":"binary"},"0g"]', '"0g"', "hexadecimal"),
    (SCAN % '["lit",{"kind":"f64"},1]', "1]", "f64"),
    (SCAN % '["not",true]', "true", "array"),
    (SCAN % '["like",["col","a"],["col","a"],0,false]', "0,", "flag"),
    (SCAN % '["stat",["col","a"],"mean"]', '"mean"', "min, max"),
    (SCAN % "[]", "[]}", "begins with its name"),
    (SCAN % "['col','a']", "'col'", "between \""),
    (SCAN % "[True]", "True", "true?"),
    (SCAN % "[NaN]", "NaN", "no floats"),
    (SCAN % '["col","a",]', "]}", "comma"),
    (SCAN % '["col" "a"]', '"a"', "belongs"),
    (SCAN % '["col","a"', "}", "belongs"),
    (SCAN % '["col","a]', '"a]', "has no end"),
    (SCAN % '["col","\\x"]', "\\x", "no escape"),
    (SCAN % '["col","\\ud800"]', '"\\ud800', "half of a character"),
    (SCAN % '["col","a\tb"]', "\tb", "U+0020"),
    (SCAN.replace("[]", "[5]") % '["col"]', "5]", "array"),
    (SCAN.replace("[]", "[[5]]") % '["col"]', "5]", "name"),
    (SCAN.replace("[]", '"a"') % '["col"]', '"a"', "array"),
    ('{"cmd":"drop"}', '"drop"', "drop is no command"),
    ('{"cmd":"select"}', '"select"', "scan?"),
    ('{"cmd":5}', "5", "command"),
    ('{"dtype":{}}', "{", "'cmd'"),
    ('{"cmd":"join","group":0,"group":1.5}', "1.5", "no whole number"),
    ('{"cmd":"compact"} x', "x", "goes on behind its end"),
    ('{"cmd":"append","dtype":%s,"rows":{}}' % INT, "{}}", "array"),
    ('{"cmd":"append","dtype":%s,"rows":[],"layouts":["x"]}' % INT, '"x"', "plain"),
    ("[1]", "[1]", "object"),
    ("", "", "empty"),
    ("\ufeff{}", "\ufeff", "byte order"),
    (SCAN % ("[" * 127 + "]" * 127), None, "deeper than 127"),
]


class Faults(unittest.TestCase):
    def test_each(self) -> None:
        for line, part, words in BAD:
            with self.subTest(line[:90], words=words):
                fault = first_fault(line.encode("utf-8"))
                assert fault is not None
                self.assertIn(words, fault.why)
                self.assertTrue(is_bad(line.encode("utf-8")))
                if part is not None:
                    self.assertTrue(line[fault.at :].startswith(part.strip(", ")), fault.at)

    def test_utf8(self) -> None:
        fault = first_fault('{"cmd":"\u00e9'.encode("utf-8") + b"\xff")
        assert fault is not None
        self.assertEqual((fault.at, "byte ff" in fault.why), (9, True))

    def test_lines_of_the_sessions(self) -> None:
        for line in lines():
            self.compare(line)

    def test_random_lines(self) -> None:
        chance = random.Random(1)
        known = [line for line in lines() if len(line) < 1000]
        for seed in range(20):
            known += random_sessions.random_session(random.Random(seed)).split(b"\n")
        bad = 0
        for _ in range(3000):
            line = changed(chance, chance.choice(known))
            bad += self.compare(line)
        self.assertGreater(bad, 1000)
        self.assertLess(bad, 2950)

    def compare(self, line: bytes) -> bool:
        fault = first_fault(line)
        self.assertEqual(fault is not None, is_bad(line), line)
        if fault is not None:
            text = line.decode("utf-8", "replace")
            self.assertTrue(0 <= fault.at <= len(text), (line, fault.at))
        return fault is not None


def lines() -> List[bytes]:
    found: List[bytes] = []
    for path in sorted(glob.glob(os.path.join(common.TOP, "tests", "lines", "*.in"))):
        with open(path, "rb") as file:
            found += file.read().split(b"\n")
    return found


def is_bad(line: bytes) -> bool:
    """Whether the plain program takes a line as bad."""
    try:
        reading.read_command(line)
    except reading.Refused as refused:
        return bool(refused.number == 18)
    except RecursionError:
        # Python 3.13 reads what nests deeper than that program can look at.
        return True
    return False


def changed(chance: random.Random, line: bytes) -> bytes:
    """A line with a character or a part of it changed."""
    try:
        value = json.loads(line)
    except ValueError:
        value = None
    if value is not None and chance.random() < 0.7:
        return json.dumps(changed_value(chance, value), ensure_ascii=False).encode(
            "utf-8", "surrogatepass"
        )
    text = bytearray(line)
    at = chance.randrange(len(text) + 1)
    roll = chance.random()
    if roll < 0.4:
        text[at:at] = chance.choice(PIECES)
    elif roll < 0.8:
        del text[at : at + 1]
    else:
        text[at : at + 1] = bytes([chance.randrange(256)])
    return bytes(text).replace(b"\n", b" ")


PIECES = [b",", b" ", b"]", b"}", b'"', b"\\", b"0", b"-", b".", b"\xff"]
ODD: List[Any] = [
    None, True, False, 0, -1, 1.5, 2**64, "", "x", "i32", "00", [], {}, [[]], ["col", "a"],
    {"kind": "i32"}, {"kind": "int"}, ["row_count"], ["lit", {"kind": "u8"}, 256],
    {"kind": "list", "children": [{"kind": "utf8"}]}, {"kind": "null", "nullable": True},
    {"kind": "decimal", "precision": 77, "scale": 0}, {"kind": "fixed_size_list", "size": -1},
    {"kind": "union", "names": ["a"], "tags": [1], "children": [{"kind": "i8"}]},
    {"kind": "map", "sorted": 1, "children": [{"kind": "i8"}, {"kind": "i8"}]},
    {"kind": "extension", "id": "x", "metadata": "0", "children": [{"kind": "i8"}]},
]  # fmt: skip


def changed_value(chance: random.Random, value: Any) -> Any:
    if not isinstance(value, (list, dict)) or not value or chance.random() < 0.15:
        return chance.choice(ODD)
    if isinstance(value, list):
        made = list(value)
        at = chance.randrange(len(made))
        roll = chance.random()
        if roll < 0.1:
            del made[at]
        elif roll < 0.2:
            made.insert(at, chance.choice(ODD))
        else:
            made[at] = changed_value(chance, made[at])
        return made
    key = chance.choice(list(value))
    found = dict(value)
    roll = chance.random()
    if roll < 0.1:
        del found[key]
    elif roll < 0.2:
        found[chance.choice(["kind", "nullable", "size", "x", "cmd", "group"])] = chance.choice(ODD)
    else:
        found[key] = changed_value(chance, found[key])
    return found


class Explained(unittest.TestCase):
    """What is said of lines that the program refuses."""

    def check(self, *given: str) -> List[str]:
        with Session(timeout=common.TIMEOUT) as session:
            found = check_lines([line.encode("utf-8") for line in given], session)
            return [finding.words("f", given[at]) for at, finding in found]

    def test_each_number(self) -> None:
        dtype = '{"kind":"struct","names":["a","s"],"children":[{"kind":"u8"},{"kind":"utf8"}]}'
        made = '{"cmd":"create","dtype":%s,"length":16}' % dtype
        add = '{"cmd":"append","dtype":%s,"rows":%%s}' % dtype
        wide = add.replace('"u8"', '"i32"')
        text = '["lit",{"kind":"utf8"},"x\\\\"]'
        for line, part, words in (
            ('{"cmd":"retype","dtype":{"kind":"i32"}}', '{"kind"', "2 NotARecord"),
            (made.replace("u8", "f64"), '"f64"', "3 UnkeptType"),
            (made.replace('"s"', '"a"'), '"a"],', "4 RepeatedName"),
            (add % '[[1,"x"],[2,5]]', "5]", "row 1: this is no utf8"),
            (wide % '[[1,"x"],[300,""]]', "[300", "row 1"),
            ('{"cmd":"join","group":0}', None, "8 NoSuchGroup"),
            ('{"cmd":"scan","paths":[["a"],["z"]],"where":["row_count"]}', '["z"]', "9 Unknown"),
            ('{"cmd":"describe","path":[null],"group":0}', "[null", "10 ElementStep"),
            ('{"cmd":"describe","path":[],"group":0}', "[]", "13 NotALeaf"),
            (made.replace("16", '16,"lengths":[[["s"],1],[["s"],2]]'), '["s"],2', "21 Repeated"),
            (SCAN % '["and",["col","z"],["col"]]', '["col","z"', "12 UnknownColumn"),
            (SCAN % '["is_null",["col"]]', '["col"]', "13 NotALeaf"),
            (SCAN % '["=",["col","a"],["col","s"]]', '["=",', "u8 and utf8"),
            (SCAN % '["col","a"]', '["col"', "15 NotBoolean"),
            (SCAN % '["not",["col","a"]]', '["col"', "a u8 in not"),
            (SCAN % '["like",["col","s"],%s,false,false]' % text, '["lit"', "backslash"),
            (SCAN % '["like",["col","s"],["col","s"],false,false]', '["col","s"],f', "literal"),
            (SCAN % '["stat",["col","a"],"min"]', '["stat"', "11 Placeholder"),
            (SCAN % '["is_null",["lit",{"kind":"f64","nullable":true},null]]', '["lit"', "20 Uns"),
            (SCAN % '["row_count"]', '["row_count', "20 Unsupported"),
        ):
            with self.subTest(line):
                found = self.check(made, add % '[[1,"x"]]', line)
                self.assertEqual(len(found), 1)
                self.assertIn(words, found[0])
                at = self.place(found[0])
                if part is None:
                    self.assertIsNone(at)
                else:
                    self.assertTrue(line[at:].startswith(part), found[0])

    def place(self, words: str) -> Optional[int]:
        parts = words.split(":")
        self.assertEqual(parts[:2], ["f", "3"])
        return int(parts[2]) - 1 if parts[2].isdigit() else None

    def test_no_table(self) -> None:
        found = self.check('{"cmd":"compact"}')
        self.assertIn("the first command has to be a create", found[0])

    def test_sessions(self) -> None:
        """Each refused line of the sessions has words, and no line that isn't refused."""
        for name in ("refusals", "bad_lines", "kinds", "literals", "every_command"):
            path = os.path.join(common.TOP, "tests", "lines", name)
            with open(path + ".out", "rb") as file:
                answers = [json.loads(line) for line in file]
            wanted = [at for at, answer in enumerate(answers) if "error" in answer]
            with open(path + ".in", "rb") as file:
                data = file.read().split(b"\n")
            data = data[:-1] if data[-1] == b"" else data
            with Session(timeout=common.TIMEOUT) as session:
                found = list(check_lines(data, session))
            self.assertEqual([at for at, _ in found], wanted)
            for at, finding in found:
                self.assertEqual(finding.number, answers[at]["error"])
                self.assertNotIn("no broken rule", finding.why)

    def test_a_file(self) -> None:
        with tempfile.TemporaryDirectory() as folder:
            path = os.path.join(folder, "lines")
            with open(path, "w", encoding="utf-8") as file:
                file.write('{"cmd":"drop"}\n{"cmd":"compact"}')
            out = io.StringIO()
            self.assertEqual(check_file(path, out), 1)
            self.assertIn(path + ":1:8: 18 BadLine: drop is no command (Lines)\n", out.getvalue())
            self.assertTrue(out.getvalue().endswith("2 lines, 2 refused\n"))
            with open(path, "w", encoding="utf-8") as file:
                file.write(CREATE % INT)
            out = io.StringIO()
            self.assertEqual(check_file(path, out), 0)
            self.assertEqual(out.getvalue(), "1 lines, 0 refused\n")


if __name__ == "__main__":
    unittest.main()
