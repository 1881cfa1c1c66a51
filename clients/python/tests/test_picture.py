"""Pictures for a terminal: as many bars as chunks, groups in brackets, nothing too wide."""
from __future__ import annotations

import io
import random
import unittest
from types import SimpleNamespace
from typing import Any, List
from unittest import mock

import common
from colscan import Table, col
from colscan.picture import COLOURS, picture


def answer(outcomes: str, groups: List[int], rows: int = 5) -> Any:
    """What a picture reads of an answer."""
    return SimpleNamespace(
        chunk_rows=[rows] * len(outcomes),
        groups=groups,
        skipped=[at for at, letter in enumerate(outcomes) if letter == "s"],
        whole=[at for at, letter in enumerate(outcomes) if letter == "w"],
    )


def plain(of: Any, width: int = 60) -> List[str]:
    return picture(of, width=width, colour=False, blocks=False).split("\n")


class Lines(unittest.TestCase):
    def test_a_line_a_chunk(self) -> None:
        lines = plain(answer("stwt", [1, 3]), 40)
        self.assertEqual(lines[0], "4 chunks: 1 skipped, 1 taken whole, 2 tested")
        self.assertEqual([line[0] for line in lines[1:]], [" ", "/", "|", "\\"])
        self.assertEqual([line.split()[-1] for line in lines[1:]],
                         ["skipped", "tested", "whole", "tested"])

    def test_bars_are_as_long_as_chunks_have_rows(self) -> None:
        of = answer("ttt", [1, 1, 1])
        of.chunk_rows = [1, 500, 1000]
        bars = [line.count("#") for line in plain(of, 80)[1:]]
        self.assertEqual(bars[0], 1)
        self.assertEqual(bars[1], bars[2] // 2)
        self.assertTrue(all(len(line) <= 80 for line in plain(of, 80)))

    def test_no_chunk_and_one(self) -> None:
        self.assertEqual(len(plain(answer("", []))), 1)
        self.assertEqual(plain(answer("t", [1]))[0], "1 chunk: 0 skipped, 0 taken whole, 1 tested")


class Cells(unittest.TestCase):
    def test_a_cell_a_chunk(self) -> None:
        chance = random.Random(5)
        for count in (33, 100, 1000):
            outcomes = "".join(chance.choice("swt") for _ in range(count))
            groups = self.some_groups(chance, count)
            lines = plain(answer(outcomes, groups))
            cells = "".join(line.split(None, 1)[1] for line in lines[2:])
            drawn = cells.replace("[", "").replace("]", "")
            self.assertEqual(drawn, outcomes.translate(str.maketrans("swt", ".o#")))
            self.assertEqual(cells.count("["), sum(size > 1 for size in groups))
            self.assertEqual([len(part.split("]")[0]) for part in cells.split("[")[1:]],
                             [size for size in groups if size > 1])
            self.assertTrue(all(len(line) <= 60 for line in lines[2:]))

    @staticmethod
    def some_groups(chance: random.Random, count: int) -> List[int]:
        groups: List[int] = []
        while sum(groups) < count:
            groups.append(min(chance.choice([1, 1, 2, 5]), count - sum(groups)))
        return groups

    def test_a_line_begins_with_the_number_of_its_first_chunk(self) -> None:
        lines = plain(answer("s" * 100, [1] * 100), 30)
        self.assertEqual([int(line.split()[0]) for line in lines[2:]], [0, 27, 54, 81])

    def test_very_many_chunks_share_cells(self) -> None:
        outcomes = "s" * 10_000
        outcomes = outcomes[:7000] + "t" + outcomes[7001:]
        lines = plain(answer(outcomes, [1] * 10_000), 80)
        self.assertIn("a cell is 4 chunks", lines[1])
        cells = "".join(line.split()[1] for line in lines[2:])
        self.assertEqual(len(cells), 2500)
        # The one tested chunk isn't hidden by those that share its cell.
        self.assertEqual([at for at, sign in enumerate(cells) if sign == "#"], [7000 // 4])
        self.assertLessEqual(len(lines), 42)


class Terminals(unittest.TestCase):
    def drawn(self, encoding: str, is_terminal: bool, no_colour: str = "") -> str:
        out = io.TextIOWrapper(io.BytesIO(), encoding=encoding)
        with mock.patch("sys.stdout", out), \
                mock.patch.object(out, "isatty", lambda: is_terminal, create=True), \
                mock.patch.dict("os.environ", {"NO_COLOR": no_colour}):
            return picture(answer("stw", [1, 2]), width=50)

    def test_colours_on_a_terminal_alone(self) -> None:
        self.assertIn(COLOURS["t"], self.drawn("utf-8", True))
        self.assertNotIn("\x1b", self.drawn("utf-8", False))
        self.assertNotIn("\x1b", self.drawn("utf-8", True, "1"))

    def test_letters_where_there_are_no_blocks(self) -> None:
        self.assertTrue(self.drawn("ascii", False).isascii())
        self.assertIn("█", self.drawn("utf-8", False))


class Answers(unittest.TestCase):
    def test_of_a_scan(self) -> None:
        with Table.create({"a": "i32"}, program=common.program(), timeout=common.TIMEOUT) as table:
            table.append({"a": range(40)}, rows_per_chunk=10)
            table.join(2)
            drawn = table.scan(col("a") > 25).picture(width=60)
        lines = drawn.split("\n")
        self.assertEqual(lines[0], "4 chunks: 2 skipped, 0 taken whole, 2 tested")
        self.assertEqual(len(lines), 5)


if __name__ == "__main__":
    unittest.main()
