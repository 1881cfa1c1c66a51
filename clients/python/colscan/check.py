"""Why lines are refused: `python3 -m colscan check FILE`."""
from __future__ import annotations

import sys
from typing import Any, Dict, Iterator, List, Optional, TextIO, Tuple

from .errors import MEANINGS
from .nodes import Fault, Node, read
from .process import Program, Session
from .rules import first_fault, misfit
from .types import LEAVES, Type, part_at, path_words

# So many characters of a line are shown around a place.
AROUND = 34


class Finding:
    """A refused line: its number, the place in it from 0 if there is one, and what is wrong."""

    def __init__(self, line: int, at: Optional[int], number: int, name: str, why: str) -> None:
        self.line, self.at, self.number, self.name, self.why = line, at, number, name, why

    def words(self, file: str, text: str) -> str:
        """The finding as it is printed, with the piece of the line that it is about."""
        place = "%s:%d" % (file, self.line) + (":%d" % (self.at + 1) if self.at is not None else "")
        found = "%s: %d %s: %s" % (place, self.number, self.name, self.why)
        return found if self.at is None else found + "\n" + pointed(text, self.at)


def pointed(text: str, at: int) -> str:
    """A piece of a line, and a sign below the place.

    >>> print(pointed('{"cmd":"drop"}', 7))
        {"cmd":"drop"}
               ^
    """
    first = max(at - AROUND, 0)
    piece = text[first : at + AROUND]
    before, behind = "..." * (first > 0), "..." * (at + AROUND < len(text))
    piece = "".join(it if it.isprintable() else " " for it in piece)
    return "    %s%s%s\n    %s^" % (before, piece, behind, " " * (len(before) + at - first))


def check_lines(lines: List[bytes], session: Session) -> Iterator[Tuple[int, Finding]]:
    """What is wrong with each refused line, by its place in the list."""
    table: Optional[Type] = None
    for at, line in enumerate(lines):
        answer = session.ask_line(line)
        if "error" in answer:
            yield at, explained(line, at + 1, answer, table)
            continue
        if first_fault(line) is None:
            table = type_after(read(line.decode("utf-8")), table)


def type_after(command: Node, table: Optional[Type]) -> Optional[Type]:
    """The table's type behind an accepted line."""
    name, dtype = command.get("cmd"), command.get("dtype")
    if name is not None and dtype is not None and name.value in ("create", "retype"):
        return Type.from_json(plain(dtype))
    return table


def plain(node: Node) -> Any:
    """A node as Python has its value."""
    if node.kind == "array":
        return [plain(item) for item in node.items]
    if node.kind == "object":
        return {key: plain(value) for key, (_, value) in node.keys.items()}
    return node.value


def explained(line: bytes, number: int, answer: Dict[str, Any], table: Optional[Type]) -> Finding:
    code, name, row = answer["error"], str(answer.get("name")), answer.get("at")
    if code == 18:
        fault = first_fault(line)
        if fault is None:
            why = "no broken rule was found here; the guide's section Refusals lists them"
            return Finding(number, None, code, name, why)
        return Finding(number, fault.at, code, name, "%s (%s)" % (fault.why, fault.section))
    why = MEANINGS.get(code, "a refusal that this package doesn't know")
    try:
        place = Places(read(line.decode("utf-8")), table).find(code, row)
    except Fault:
        place = None
    if place is None:
        return Finding(number, None, code, name, why + ("" if row is None else ", at %d" % row))
    node, more = place
    return Finding(number, node.at, code, name, why + (": " + more if more else ""))


class Places:
    """Where in a command a refusal has its reason."""

    def __init__(self, command: Node, table: Optional[Type]) -> None:
        self.command, self.table = command, table

    def find(self, code: int, row: Optional[int]) -> Optional[Tuple[Node, str]]:
        """The place of a refusal and more words on it, if it is found."""
        dtype, where = self.command.get("dtype"), self.command.get("where")
        if code in (2, 3, 4) and dtype is not None:
            return (dtype, "") if code == 2 else self.in_type(code, dtype)
        if code in (5, 6) and row is not None:
            return self.in_rows(code, row)
        if code in (9, 10, 13, 21) and (where is None or code in (9, 10)):
            return self.in_paths(code, row)
        if where is not None:
            return self.in_predicate(code, where)
        return None

    def in_type(self, code: int, node: Node) -> Optional[Tuple[Node, str]]:
        """The first part that no table holds, or the first name that stands twice."""
        kind, names, children = node.get("kind"), node.get("names"), node.get("children")
        is_kept = kind is not None and (
            kind.value in LEAVES or kind.value in ("struct", "list", "fixed_size_list")
        )
        if code == 3 and kind is not None and not is_kept:
            return kind, str(kind.value)
        seen: List[Any] = []
        for name in names.items if names is not None and code == 4 else []:
            if name.value in seen:
                return name, path_words([name.value])
            seen.append(name.value)
        found = (self.in_type(code, part) for part in (children.items if children else []))
        return next((it for it in found if it is not None), None)

    def in_rows(self, code: int, row: int) -> Optional[Tuple[Node, str]]:
        rows, dtype = self.command.get("rows"), self.command.get("dtype")
        if rows is None or dtype is None or row >= len(rows.items):
            return None
        node = rows.items[row]
        found = misfit(dtype, node) if code == 5 else None
        if found is not None:
            return found[0], "row %d: %s" % (row, found[1])
        return node, "row %d" % row

    def in_paths(self, code: int, row: Optional[int]) -> Optional[Tuple[Node, str]]:
        paths, lengths = self.command.get("paths"), self.command.get("lengths")
        node = self.command.get("path")
        found = [item.items[0] for item in lengths.items] if lengths is not None else []
        found = paths.items if paths is not None else found
        if row is not None and row < len(found):
            node = found[row]
        return None if node is None else (node, path_words(plain(node)))

    def in_predicate(self, code: int, node: Node) -> Optional[Tuple[Node, str]]:
        """The first part, operands before what they stand in, that this refusal is about."""
        try:
            if self.kind(node) != "bool":
                raise Reason(15, node, "")
        except Reason as reason:
            if reason.code == code:
                return reason.node, reason.more
        return None

    def kind(self, node: Node) -> str:
        """The kind of a predicate's value."""
        form, rest = str(node.items[0].value), node.items[1:]
        if form == "lit":
            kind = str(plain(rest[0])["kind"])
            if kind not in LEAVES:
                raise Reason(20, node, "a literal of the kind %s" % kind)
            return kind
        if form == "col":
            return self.column(node, [step.value for step in rest])
        kinds = [self.kind(item) for item in rest if item.kind == "array"]
        if form == "stat":
            raise Reason(11, node, "")
        if form in ("is_nan", "row_count"):
            raise Reason(20, node, form)
        if form in ("and", "or", "not"):
            for item, kind in zip(rest, kinds):
                if kind != "bool":
                    raise Reason(15, item, "a %s in %s" % (kind, form))
        elif form == "like":
            self.like(node, kinds)
        elif not form.startswith("is_") and len(set(kinds)) > 1:
            raise Reason(14, node, " and ".join(dict.fromkeys(kinds)))
        return "bool"

    def column(self, node: Node, steps: List[str]) -> str:
        part = self.table
        for at, step in enumerate(steps):
            part = part_at(part, [step]) if part is not None else None
            if part is None:
                raise Reason(12, node, path_words(steps[: at + 1]))
        if part is None or not part.is_leaf:
            raise Reason(13, node, path_words(steps))
        return part.kind

    def like(self, node: Node, kinds: List[str]) -> None:
        pattern, case = node.items[2], node.items[4]
        if set(kinds) != {"utf8"}:
            raise Reason(14, node, " and ".join(dict.fromkeys(kinds)))
        if case.value is True:
            raise Reason(16, case, "it ignores case")
        if plain(pattern.items[0]) != "lit" or pattern.items[2].kind != "string":
            raise Reason(16, pattern, "the pattern is no literal text")
        if "\\" in pattern.items[2].value:
            raise Reason(16, pattern, "the pattern has a backslash")


class Reason(Exception):
    """Why a predicate is refused, and where."""

    def __init__(self, code: int, node: Node, more: str) -> None:
        super().__init__(code)
        self.code, self.node, self.more = code, node, more


def check_file(path: str, out: TextIO, program: Optional[Program] = None) -> int:
    """Prints what is wrong with each refused line, and the counts. The status is 1 if any was."""
    if path == "-":
        data = sys.stdin.buffer.read()
    else:
        with open(path, "rb") as file:
            data = file.read()
    lines = data.split(b"\n")
    if lines[-1] == b"":
        lines.pop()
    refused = 0
    with Session(program) as session:
        for at, finding in check_lines(lines, session):
            print(finding.words(path, lines[at].decode("utf-8", "replace")), file=out)
            refused += 1
    print("%d lines, %d refused" % (len(lines), refused), file=out)
    return 1 if refused else 0
