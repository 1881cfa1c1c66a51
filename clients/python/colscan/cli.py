"""The command line: `python3 -m colscan load FILE.csv scan 'a > 5'`.

A table lives as long as its process, so one command line loads it and asks it, step by step.
"""
from __future__ import annotations

import argparse
import json
import os
import shutil
import sys
from typing import Any, Dict, List, Optional, Sequence, TextIO

from . import check
from .csvfile import CsvFile, kept
from .errors import ColscanError
from .grid import grid
from .table import ROWS_PER_CHUNK, Answer, Table
from .values import without_bytes

USAGE = """python3 -m colscan load FILE.csv [scan 'WHERE'] [more steps]
       python3 -m colscan check FILE

Steps are done from left to right on one table, which ends with the command:

  load FILE.csv      makes the table, or adds a file to it; - is standard input
  scan 'WHERE'       answers rows, as "a > 5 and s like 'x%'"; '' answers all
  describe COLUMN    says what is known of a column in a group
  join GROUP         makes one group of this one and the next
  compact            lays lists end to end
  check FILE         says what is wrong with each refused line of a file of commands

Each step has --help."""
# How many words each step takes that are no options.
STEPS = {"load": 1, "scan": 1, "describe": 1, "join": 1, "compact": 0, "check": 1}


def load_parser() -> argparse.ArgumentParser:
    found = argparse.ArgumentParser("load", description="Makes a table of a CSV file.")
    add = found.add_argument
    add("file", help="a CSV file in UTF-8 with a line of names, or -")
    add("--types", default="", help="types of columns, as a=i32?,s=utf8; others are inferred")
    add("--columns", help="which columns to load, as a,s; else all")
    add("--names", help="names of all columns of a file without a line of names")
    add("--delimiter", default=",", help="what stands between cells; tab for a tab")
    add("--null", action="append", help="a cell that is null, beside the empty one")
    add("--length", type=int, default=16, help="the most bytes of a bound (16)")
    rows = "rows of a chunk (%d)" % ROWS_PER_CHUNK
    add("--rows-per-chunk", type=int, default=ROWS_PER_CHUNK, help=rows)
    return found


def scan_parser() -> argparse.ArgumentParser:
    found = argparse.ArgumentParser("scan", description="Answers the rows of a predicate.")
    add = found.add_argument
    add("where", help="a written predicate, or '' for all rows")
    add("--columns", help="which columns to answer, as a,p.q; else all")
    add("--rows", type=int, default=40, help="the most rows on a terminal (40); 0 is all")
    add("--json", action="store_true", help="JSON lines on a terminal too")
    add("--stats", action="store_true", help="says on standard error how the scan went")
    add("--picture", action="store_true", help="draws the chunks on standard error")
    add("--explain", metavar="FILE", help="writes a page of bounds and what was skipped")
    return found


def other_parsers() -> Dict[str, argparse.ArgumentParser]:
    describe = argparse.ArgumentParser("describe", description="What is known of a column.")
    describe.add_argument("column", help="a column, as a or p.q")
    describe.add_argument("--group", type=int, default=0, help="the number of the group (0)")
    join = argparse.ArgumentParser("join", description="Joins a group and the next.")
    join.add_argument("group", type=int, help="the number of the first, from 0")
    compact = argparse.ArgumentParser("compact", description="Lays lists end to end.")
    lines = argparse.ArgumentParser("check", description="Explains refused lines.")
    lines.add_argument("file", help="a file of commands, one a line, or -")
    return {"describe": describe, "join": join, "compact": compact, "check": lines}


def parsers() -> Dict[str, argparse.ArgumentParser]:
    return {"load": load_parser(), "scan": scan_parser(), **other_parsers()}


def split(words: Sequence[str], found: Dict[str, argparse.ArgumentParser]) -> List[List[str]]:
    """The words of each step. A predicate may be the word `scan`, so words are counted.

    >>> split(["load", "f.csv", "--length", "2", "scan", "scan"], parsers())
    [['load', 'f.csv', '--length', '2'], ['scan', 'scan']]
    """
    steps: List[List[str]] = []
    wanted = at = 0
    while at < len(words):
        word = words[at]
        if steps and word.startswith("--") and word != "--":
            takes = "=" not in word and _takes_value(found[steps[-1][0]], word)
            steps[-1] += words[at : at + 1 + takes]
            at += takes
        elif wanted:
            steps[-1].append(word)
            wanted -= 1
        elif word in STEPS:
            steps.append([word])
            wanted = STEPS[word]
        else:
            print("usage: %s\n\n%r is no step" % (USAGE, word), file=sys.stderr)
            raise SystemExit(2)
        at += 1
    return steps


def _takes_value(parser: argparse.ArgumentParser, word: str) -> bool:
    for action in parser._actions:
        if any(option.startswith(word) for option in action.option_strings):
            return action.nargs != 0
    return False


def paths_of(text: str) -> List[List[str]]:
    """Columns of a written list.

    >>> paths_of('a,p.q,"x,y"')
    [['a'], ['p', 'q'], ['x,y']]
    """
    from .where import Reader

    reader = Reader(text)
    found = [list(reader.operand().operands)]
    while reader.take(","):
        found.append(list(reader.operand().operands))
    if reader.peek().kind != "end":
        raise reader.fail(reader.peek(), "columns stand in a list as a,p.q")
    return found


class Run:
    """A table, if there is one yet, and what steps do with it."""

    def __init__(self, out: TextIO, err: TextIO) -> None:
        self.out, self.err = out, err
        self.table: Optional[Table] = None

    def need(self) -> Table:
        if self.table is None:
            raise ColscanError("there is no table yet: the first step is load FILE.csv")
        return self.table

    def load(self, given: argparse.Namespace) -> None:
        if given.file == "-":
            with kept(sys.stdin.buffer) as path:
                self._load(given, path)
        else:
            self._load(given, given.file)
        table = self.need()
        words = (table.row_count, len(table.chunk_rows))
        if self.err.isatty():
            print("%d rows in %d chunks: %s" % (*words, table.type), file=self.err)

    def _load(self, given: argparse.Namespace, path: str) -> None:
        found = CsvFile(
            path,
            delimiter={"tab": "\t"}.get(given.delimiter, given.delimiter),
            names=listed(given.names),
            columns=listed(given.columns),
            nulls=["", *(given.null or [])],
        )
        types = dict(pair.split("=", 1) for pair in types_of(given.types))
        how: Dict[str, Any] = {"rows_per_chunk": given.rows_per_chunk}
        if self.table is None:
            self.table = Table.from_csv(found, types, given.length, **how)
            return
        known = {name: part for name, part in self.table.type.fields() if name in found.names}
        made = found.infer({**known, **types})
        rows = (dict(zip(found.names, row)) for row in found.rows(made))
        self.table.append(rows, **how)

    def scan(self, given: argparse.Namespace) -> None:
        table = self.need()
        paths = None if given.columns is None else paths_of(given.columns)
        answer = table.scan(given.where or None, paths)
        if self.out.isatty() and not given.json:
            self._rows(answer, given.rows)
        else:
            for row in answer.dicts():
                print(json.dumps(without_bytes(row), ensure_ascii=False), file=self.out)
        if given.stats or self.out.isatty():
            print(answer.summary(), file=self.err)
        if given.picture:
            print(answer.picture(), file=self.err)
        if given.explain:
            answer.explain(given.explain)

    def _rows(self, answer: Answer, most: int) -> None:
        width = shutil.get_terminal_size().columns
        rows = answer.rows[:most] if most else answer.rows
        print(grid(answer.names, rows, width), file=self.out)
        if len(rows) < len(answer):
            more = len(answer) - len(rows)
            print("and %d more rows; --rows 0 shows all" % more, file=self.out)

    def describe(self, given: argparse.Namespace) -> None:
        path = paths_of(given.column)[0]
        found = self.need().describe(path, given.group)
        for name, known in found._asdict().items():
            value = "not known" if known is None else json.dumps(without_bytes(known.value))
            how = "" if known is None or known.exact else " (shortened)"
            print("%-10s %s%s" % (name, value, how), file=self.out)

    def join(self, given: argparse.Namespace) -> None:
        self.need().join(given.group)

    def compact(self, given: argparse.Namespace) -> None:
        self.need().compact()

    def check(self, given: argparse.Namespace) -> int:
        return check.check_file(given.file, self.out)


def listed(text: Optional[str]) -> Optional[List[str]]:
    """The names of a list such as a,b."""
    return text.split(",") if text else None


def types_of(text: str) -> List[str]:
    """Pairs of a name and a type; a comma inside <..> parts none.

    >>> types_of("a=i32?,l=list<i32, 3>")
    ['a=i32?', 'l=list<i32, 3>']
    """
    found, depth = [""], 0
    for character in text:
        depth += (character == "<") - (character == ">")
        if character == "," and depth == 0:
            found.append("")
        else:
            found[-1] += character
    pairs = [pair for pair in found if pair]
    for pair in pairs:
        if "=" not in pair:
            raise ColscanError("%r gives no type: write one as a=i32?" % pair)
    return pairs


def run(words: Sequence[str], out: TextIO, err: TextIO) -> int:
    found = parsers()
    if not words or words[0] in ("-h", "--help", "help"):
        print("usage: " + USAGE, file=out)
        return 0 if words else 2
    steps = split(words, found)
    parsed = [(step[0], found[step[0]].parse_args(step[1:])) for step in steps]
    session = Run(out, err)
    status = 0
    try:
        for name, given in parsed:
            status = max(status, getattr(session, name)(given) or 0)
    finally:
        if session.table is not None:
            session.table.session.kill()
    return status


def main(words: Optional[Sequence[str]] = None) -> int:
    """Runs a command line, and returns its status: 1 where something was refused."""
    try:
        status = run(sys.argv[1:] if words is None else words, sys.stdout, sys.stderr)
        sys.stdout.flush()
        return status
    except ColscanError as error:
        print("colscan: %s" % error, file=sys.stderr)
        return 1
    except BrokenPipeError:
        # Who reads has seen enough; Python would fail once more at its end.
        os.dup2(os.open(os.devnull, os.O_WRONLY), sys.stdout.fileno())
        return 1
    except OSError as error:
        print("colscan: %s" % error, file=sys.stderr)
        return 1
    except KeyboardInterrupt:
        return 130
