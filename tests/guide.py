#!/usr/bin/env python3
"""Runs each line that the pages for users show, and compares its answer byte for byte.

guide.py [PROGRAM]    PROGRAM is crates/colscan/out/colscan, which `rt ci` and `rt run` leave there

A section of a page is one session of the program. Its lines and answers stand there in one of
three ways. In a block, behind each line its answer, broken over several lines or not; a line with
none behind it is accepted. In a table that has the columns `Line` and `Answer`, where an empty cell
is an empty line. In a table that has the columns `Example` and `Rows`, an example is the predicate
of a scan for the column `id`, and `Rows` is what this scan answers. A page has to have as many
lines as `{"cmd"` stands in it, and one at least, so a line that stands in no such place is a
failure. The last line is 'N passed, M failed'; the status is 0 if none failed.
"""
import os
import re
import subprocess
import sys

sys.dont_write_bytecode = True
import outcome

PAGES = ("README.md", "docs/GUIDE.md")
COMMAND = '{"cmd"'
ACCEPTED = '{"ok":true}'
INDENT = "    "
SCAN = '{"cmd":"scan","paths":[["id"]],"where":%s}'
ROWS = re.compile(r'"rows":(.*),"rows_tested":')
# A cell is a text between bars. No line of a page has a bar in it.
CELL = re.compile(r"^`(.*)`$")
# Longer than what a session may take.
SECONDS = 60


class Shown:
    """A line of a page: its place, and what the page shows of its answer."""

    def __init__(self, place, line, answer, picks=lambda answer: answer):
        self.place, self.line, self.answer, self.picks = place, line, answer, picks

    def is_answered(self, answer):
        return self.picks(answer) == (self.answer or ACCEPTED)


def rows_of(answer):
    """The rows of an answer, as they stand in it."""
    found = ROWS.search(answer)
    return found[1] if found else answer


def cells_of(row):
    """The cells of a table's row, without the marks of code."""
    return [CELL.sub(r"\1", cell.strip()) for cell in row.strip().strip("|").split("|")]


def of_table(first, rows):
    """The lines of a table whose first row has this number. Its second row is a rule."""
    head, *cells = map(cells_of, rows)
    for number, row in enumerate(cells[1:], first + 2):
        by_name = dict(zip(head, row))
        if "Line" in head and "Answer" in head:
            yield Shown(number, by_name["Line"], by_name.get("Answer", "none"))
        elif "Example" in head and "Rows" in head:
            yield Shown(number, SCAN % by_name["Example"], by_name.get("Rows", "none"), rows_of)


def of_block(first, lines):
    """The lines of a block whose first line has this number."""
    shown = None
    for number, line in enumerate(map(str.strip, lines), first):
        if line.startswith(COMMAND):
            if shown:
                yield shown
            shown = Shown(number, line, "")
        elif shown:
            shown.answer += line
    if shown:
        yield shown


def kind_of(line):
    return "table" if line.startswith("|") else "block" if line.startswith(INDENT) else "text"


def parts_of(lines):
    """The stretches of a page that are a table, a block or text: the number of the first line, the
    kind, and the lines."""
    first = 0
    for number in range(1, len(lines) + 1):
        if number == len(lines) or kind_of(lines[number]) != kind_of(lines[first]):
            yield first + 1, kind_of(lines[first]), lines[first:number]
            first = number


def sessions_of(lines):
    """The lines that each section of a page shows, in order."""
    sessions = [[]]
    for first, kind, part in parts_of(lines):
        if kind == "table":
            sessions[-1] += of_table(first, part)
        elif kind == "block":
            sessions[-1] += of_block(first, part)
        elif any(line.startswith("#") for line in part):
            sessions.append([])
    return [session for session in sessions if session]


def answers_of(program, session):
    read = "".join(shown.line + "\n" for shown in session)
    run = subprocess.run([program], input=read.encode(), capture_output=True, timeout=SECONDS)
    return run.stdout.decode().splitlines()


def faults_of(program, name, lines):
    """How many lines of the page were run, and a line for each fault."""
    ran, faults = 0, []
    sessions = sessions_of(lines)
    for session in sessions:
        answers = answers_of(program, session)
        if len(answers) != len(session):
            faults.append("%s:%d: a session of other length" % (name, session[0].place))
        for shown, answer in zip(session, answers):
            ran += 1
            if not shown.is_answered(answer):
                at = "%s:%d" % (name, shown.place)
                faults.append("%s: not the answer to %s\n%s" % (at, shown.line, answer))
    written = sum(line.count(COMMAND) for line in lines)
    # The lines that stand in a page as they are. Those of examples are made, and empty ones are not
    # seen in it.
    plain = (it for session in sessions for it in session if it.picks is not rows_of)
    found = sum(it.line.count(COMMAND) for it in plain)
    if found != written or not written:
        faults.append("%s: %d lines stand in it, and %d were found" % (name, written, found))
    return ran, faults


def main():
    ran, faults = 0, []
    for name in PAGES:
        with open(os.path.join(outcome.TOP, name), encoding="utf-8") as file:
            lines_run, found = faults_of(outcome.program(), name, file.read().splitlines())
        ran, faults = ran + lines_run, faults + found
    for fault in faults:
        print("guide: FAILED: " + fault)
    outcome.end(max(ran - len(faults), 0), len(faults))


main()
