"""The command line, run as a program: in pipes, on a terminal, and where something is wrong."""
from __future__ import annotations

import contextlib
import io
import json
import os
import pty
import select
import subprocess
import sys
import tempfile
import time
import unittest
from typing import Any, Dict, List, Optional, Sequence, Tuple

import common
from colscan.cli import main, parsers, paths_of, split, types_of
from colscan.grid import columns, grid

WORDS = [sys.executable, "-m", "colscan"]
CSV = "a,s,b\n1,x,00ff\n7,,\n300,\u6f22\u5b57,61\n"


def environment(**more: str) -> Dict[str, str]:
    return {**os.environ, "PYTHONPATH": common.CLIENT, "PYTHONIOENCODING": "utf-8", **more}


class Files(unittest.TestCase):
    """A folder with a CSV file."""

    def setUp(self) -> None:
        folder = tempfile.TemporaryDirectory()
        self.addCleanup(folder.cleanup)
        self.folder = folder.name
        self.file = self.write("some.csv", CSV)

    def write(self, name: str, text: str) -> str:
        path = os.path.join(self.folder, name)
        with open(path, "w", encoding="utf-8") as file:
            file.write(text)
        return path


class Piped(Files):
    def run_words(
        self, *words: str, text: str = "", env: Optional[Dict[str, str]] = None
    ) -> Tuple[int, str, str]:
        run = subprocess.run(
            [*WORDS, *words],
            input=text.encode("utf-8"),
            stdout=subprocess.PIPE,
            stderr=subprocess.PIPE,
            timeout=common.TIMEOUT,
            env=env or environment(),
        )
        return run.returncode, run.stdout.decode("utf-8"), run.stderr.decode("utf-8")

    def run_here(self, *words: str) -> Tuple[int, str, str]:
        """The same without a process, which takes a while to start."""
        out, err = io.StringIO(), io.StringIO()
        with contextlib.redirect_stdout(out), contextlib.redirect_stderr(err):
            try:
                status = main(words)
            except SystemExit as ended:
                status = int(str(ended.code))
        return status, out.getvalue(), err.getvalue()

    def rows(self, *words: str, text: str = "") -> List[Any]:
        status, out, err = self.run_words(*words, text=text)
        self.assertEqual((status, err), (0, ""))
        return [json.loads(line) for line in out.splitlines()]

    def test_scan(self) -> None:
        found = self.rows("load", self.file, "scan", "a > 5")
        self.assertEqual(found[0], {"a": 7, "s": None, "b": None})
        self.assertEqual(found[1], {"a": 300, "s": "\u6f22\u5b57", "b": "61"})

    def test_steps(self) -> None:
        words = ["load", self.file, "--types", "a=i16,b=binary?", "--rows-per-chunk=1"]
        words += ["load", self.file, "join", "0", "compact", "scan", "a = 1", "--columns", "a,b"]
        found = self.rows(*words, "scan", "", "--columns", "a")
        wanted = [{"a": 1, "b": "00ff"}] * 2 + [{"a": it} for it in (1, 7, 300)] * 2
        self.assertEqual(found, wanted)

    def test_standard_input(self) -> None:
        found = self.rows("load", "-", "--null", "NA", "scan", "b is null", text="a,b\n1,NA\n2,3\n")
        self.assertEqual(found, [{"a": 1, "b": None}])

    def test_options(self) -> None:
        path = self.write("other.csv", "1\tx\n2\ty\n")
        words = ["load", path, "--delimiter", "tab", "--names", "k,v", "--columns=v"]
        self.assertEqual(self.rows(*words, "scan", "v = 'y'"), [{"v": "y"}])

    def test_describe(self) -> None:
        words = ["load", self.file, "--types", "b=binary?", "--length", "1", "describe"]
        status, out, _ = self.run_words(*words, "b")
        self.assertEqual(status, 0)
        self.assertIn('min        "00" (shortened)', out)
        self.assertIn("sum        not known", out)
        self.assertIn("null_count 1", out)

    def test_stats(self) -> None:
        words = ["load", self.file, "--rows-per-chunk", "1", "scan", "a > 8", "--stats"]
        status, out, err = self.run_words(*words)
        self.assertEqual((status, out.count("\n")), (0, 1))
        self.assertIn("of 3 chunks 2 skipped", err)

    def test_a_column_named_scan(self) -> None:
        path = self.write("other.csv", "scan\ntrue\nfalse\n")
        self.assertEqual(self.rows("load", path, "scan", "scan"), [{"scan": True}])

    def test_check(self) -> None:
        path = self.write("lines", '{"cmd":"join","group":1.0}\n')
        status, out, err = self.run_words("check", path)
        self.assertEqual((status, err), (1, ""))
        self.assertIn("%s:1:23: 18 BadLine: 1.0 is no whole number: 1?" % path, out)
        status, out, err = self.run_words("check", "-", text='{"cmd":"compact"}\n')
        self.assertIn("-:1: 19 NoTable", out)

    def test_wrong(self) -> None:
        bad = self.write("bad.csv", "a,b\n1,2\nx,3\n")
        floats = self.write("floats.csv", "price\n1.5\n")
        for words, said in (
            (["scan", "a > 5"], "load FILE.csv"),
            (["load", self.file + ".not"], "some.csv.not"),
            (["load", bad, "--types", "a=i32"], "line 3 (row 1), column a: 'x' is no whole number"),
            (["load", floats], "column 'price' holds 1.5"),
            (["load", bad, "--types", "a"], "a=i32?"),
            (["load", bad, "--types", "a=int32"], "i32?"),
            (["load", bad, "--types", "z=i32"], "'z'"),
            (["load", self.file, "scan", "a > "], "belongs"),
            (["load", self.file, "scan", "z > 1"], "12 UnknownColumn"),
            (["load", self.file, "scan", "a", "--columns", "a b"], "a,p.q"),
            (["load", self.file, "join", "0"], "8 NoSuchGroup"),
        ):
            with self.subTest(words):
                status, out, err = self.run_here(*words)
                self.assertEqual((status, out), (1, ""))
                self.assertIn(said, err)
                self.assertNotIn("Traceback", err)

    def test_usage(self) -> None:
        self.assertEqual(self.run_here()[0], 2)
        for words in (["--help"], ["load", "--help"], ["scan", "-h"]):
            status, out, _ = self.run_here(*words)
            self.assertEqual(status, 0)
            self.assertIn("usage", out)
        for words in (["what"], ["load"], ["load", self.file, "what"], ["load", self.file, "--no"]):
            with self.subTest(words):
                status, out, err = self.run_here(*words)
                self.assertEqual(status, 2)
                self.assertIn("usage", err)
                self.assertNotIn("Traceback", err)

    def test_no_program(self) -> None:
        env = environment(COLSCAN="/nowhere/colscan")
        status, _, err = self.run_words("load", self.file, env=env)
        self.assertEqual(status, 1)
        self.assertIn("/nowhere/colscan", err)

    def test_a_reader_that_has_enough(self) -> None:
        rows = "".join("%d,%s\n" % (it, "x" * 200) for it in range(2000))
        path = self.write("long.csv", "a,s\n" + rows)
        with subprocess.Popen(
            [*WORDS, "load", path, "scan", ""],
            stdout=subprocess.PIPE,
            stderr=subprocess.PIPE,
            env=environment(),
        ) as run:
            assert run.stdout is not None and run.stderr is not None
            self.assertEqual(json.loads(run.stdout.readline())["a"], 0)
            run.stdout.close()
            self.assertEqual(run.wait(common.TIMEOUT), 1)
            self.assertEqual(run.stderr.read(), b"")


class OnATerminal(Files):
    """The same program with a terminal as its output."""

    def on_terminal(self, *words: str, program: Sequence[str] = WORDS) -> str:
        master, slave = pty.openpty()
        run = subprocess.Popen(
            [*program, *words],
            stdin=subprocess.DEVNULL,
            stdout=slave,
            stderr=slave,
            env=environment(COLUMNS="60"),
        )
        os.close(slave)
        said, end = b"", time.monotonic() + common.TIMEOUT
        try:
            while time.monotonic() < end:
                if not select.select([master], [], [], 0.2)[0]:
                    continue
                try:
                    piece = os.read(master, 65536)
                except OSError:
                    # The last end of the terminal was closed.
                    break
                if not piece:
                    break
                said += piece
        finally:
            run.kill()
            run.wait()
            os.close(master)
        return said.decode("utf-8").replace("\r\n", "\n")

    def test_grid(self) -> None:
        said = self.on_terminal("load", self.file, "scan", "a > 5")
        wanted = "  a  s     b\n---  ----  ----\n  7  null  null\n300  \u6f22\u5b57  61\n"
        self.assertIn(wanted, said)
        self.assertIn("3 rows in 1 chunks: struct<a: i64, s: utf8?, b: utf8?>", said)
        self.assertIn("2 rows; of 1 chunks 0 skipped", said)

    def test_many_rows(self) -> None:
        path = self.write("long.csv", "a\n" + "".join("%d\n" % it for it in range(100)))
        said = self.on_terminal("load", path, "scan", "", "--rows", "7")
        self.assertIn("\n6\nand 93 more rows", said)
        said = self.on_terminal("load", path, "scan", "", "--rows", "0")
        self.assertIn("\n99\n", said)
        said = self.on_terminal("load", path, "scan", "a < 1", "--json")
        self.assertIn('{"a": 0}\n', said)

    def test_a_bar(self) -> None:
        # It is drawn from the first tenth of a second on, and this takes less.
        code = "import colscan.progress, colscan.cli\ncolscan.progress.PAUSE = 0.0\n"
        code += "colscan.cli.main(['load', %r, '--rows-per-chunk', '1'])" % self.file
        self.assertIn("\rappend 2 rows", self.on_terminal(program=common.python(code)))


class Words(unittest.TestCase):
    def test_split(self) -> None:
        found = parsers()
        for words, steps in (
            ("load f --length=2 scan x", ["load f --length=2", "scan x"]),
            ("load --length 2 f compact compact", ["load --length 2 f", "compact", "compact"]),
            ("scan scan --stats scan load --rows 5", ["scan scan --stats", "scan load --rows 5"]),
        ):
            self.assertEqual([" ".join(it) for it in split(words.split(), found)], steps)

    def test_lists(self) -> None:
        found = types_of("s=struct<a: i8, b: i8>,t=u8")
        self.assertEqual(found, ["s=struct<a: i8, b: i8>", "t=u8"])
        self.assertEqual(paths_of('"a,b".c,d'), [["a,b", "c"], ["d"]])


class Grids(unittest.TestCase):
    def test_narrow(self) -> None:
        rows = [["x" * 100, 1, "y" * 30], ["\u6f22" * 50, None, ""]]
        for width in (20, 40, 60, 200):
            for line in grid(["long", "n", "s"], rows, width).splitlines():
                self.assertLessEqual(columns(line), max(width, 8 + 2 + 4 + 2 + 8))

    def test_no_tricks(self) -> None:
        shown = grid(["a\x1b[2J"], [["b\x1b]0;x\x07\n"], ["\u202eabc"]], 80)
        self.assertNotIn("\x1b", shown)
        self.assertNotIn("\u202e", shown)
        self.assertEqual(len(shown.splitlines()), 4)

    def test_nothing(self) -> None:
        self.assertEqual(grid([], [[], []], 80), "\n\n\n")
        self.assertIn("a", grid(["a"], [], 80))


if __name__ == "__main__":
    unittest.main()
