"""A reader of JSON that keeps where each part of a line stands, for messages about lines."""
from __future__ import annotations

import json
import re
from typing import Any, Dict, List, NoReturn, Optional, Tuple

NUMBER = re.compile(r"-?(?:0|[1-9][0-9]*)(?:\.[0-9]+)?(?:[eE][-+]?[0-9]+)?")
WORD = re.compile(r"[^\W\d]\w*|\S")
PLAIN = re.compile(r'[^"\\\x00-\x1f]*')
WHITE = " \t\r\n"
ESCAPES = {'"', "\\", "/", "b", "f", "n", "r", "t"}
# Arrays and objects stand in one another to this depth.
DEPTH = 127
# What other languages write for JSON's words.
WORDS = {"True": "true", "False": "false", "None": "null", "nil": "null", "undefined": "null"}


class Fault(Exception):
    """A broken rule: where in the line, which, and in which section of the guide it stands."""

    def __init__(self, at: int, why: str, section: str) -> None:
        super().__init__(why)
        self.at, self.why, self.section = at, why, section


class Node:
    """A value, where it stands, and what is in it: `items` of an array, and `keys` of an object,
    of which the last counts where one stands twice."""

    __slots__ = ("kind", "value", "at", "end", "items", "keys")

    def __init__(self, kind: str, value: Any, at: int, end: int) -> None:
        self.kind, self.value, self.at, self.end = kind, value, at, end
        self.items: List[Node] = []
        self.keys: Dict[str, Tuple[Node, Node]] = {}

    def get(self, key: str) -> Optional["Node"]:
        """The value of a key."""
        found = self.keys.get(key)
        return found[1] if found else None


def fail(at: int, why: str) -> NoReturn:
    raise Fault(at, why, "Lines")


def read(text: str) -> Node:
    """The one value of a line.

    >>> read('{"a": [1, true]}').get("a").items[1].at
    10
    """
    reader = Reader(text)
    node = reader.value(0)
    reader.skip()
    if reader.at < len(text):
        fail(reader.at, "the line goes on behind its end")
    only_whole_numbers(node)
    return node


def only_whole_numbers(node: Node) -> None:
    """Other numbers are JSON, so one that a key's second value replaces is no fault."""
    if node.kind == "no number":
        fail(node.at, node.value)
    for item in node.items or [value for _, value in node.keys.values()]:
        only_whole_numbers(item)


def no_whole_number(text: str) -> str:
    """Why a number of JSON is none that lines have.

    >>> no_whole_number("1.0"), no_whole_number("7")
    ('1.0 is no whole number: 1?', '')
    """
    if not re.fullmatch("-?[0-9]+", text):
        whole = text.split(".")[0] if re.fullmatch(r"-?[0-9]+\.0+", text) else ""
        return "%s is no whole number%s" % (text, whole and ": %s?" % whole)
    if text == "-0":
        return "-0 is no whole number here: 0?"
    if len(text) > 20 or not -(2**63) <= int(text) < 2**64:
        return "%s has more than 64 bits" % (text if len(text) < 60 else text[:57] + "...")
    return ""


class Reader:
    """Reads one line, character by character."""

    def __init__(self, text: str) -> None:
        self.text = text
        self.at = 0

    def skip(self) -> str:
        """The next character that isn't white, or nothing."""
        while self.at < len(self.text) and self.text[self.at] in WHITE:
            self.at += 1
        return self.text[self.at : self.at + 1]

    def value(self, depth: int) -> Node:
        sign, at = self.skip(), self.at
        if sign == "":
            fail(at, "the line ends where a value belongs" if at else "the line is empty")
        if sign in "[{":
            if depth == DEPTH:
                fail(at, "arrays and objects stand in one another deeper than %d" % DEPTH)
            self.at += 1
            return self.array(at, depth) if sign == "[" else self.object(at, depth)
        if sign == '"':
            return self.string()
        if sign in "-0123456789":
            return self.number()
        return self.word(sign)

    def word(self, sign: str) -> Node:
        at = self.at
        match = WORD.match(self.text, at)
        word = match.group() if match else sign
        self.at += len(word)
        if word in ("true", "false", "null"):
            kind = "null" if word == "null" else "bool"
            return Node(kind, {"true": True, "false": False}.get(word), at, self.at)
        if word in WORDS:
            fail(at, "%s is no word of JSON: %s?" % (word, WORDS[word]))
        if word == "'":
            fail(at, 'strings stand between ", not between \'')
        if word == "\ufeff":
            fail(at, "a mark of the byte order stands before the line")
        if word in "]}":
            fail(at, "%s stands where a value belongs; no comma stands behind the last" % word)
        if word in ("NaN", "Infinity"):
            fail(at, "%s is no word of JSON, and there are no floats" % word)
        fail(at, "%s is no beginning of a value of JSON" % word)

    def number(self) -> Node:
        at = self.at
        match = NUMBER.match(self.text, at)
        if match is None:
            fail(at, "a - stands before no number")
        text = match.group()
        self.at = match.end()
        if self.text[self.at : self.at + 1].isdigit():
            fail(at, "a number has no zeros before it")
        why = no_whole_number(text)
        if why:
            return Node("no number", why, at, self.at)
        return Node("number", int(text), at, self.at)

    def string(self) -> Node:
        start = self.at
        self.at += 1
        while True:
            match = PLAIN.match(self.text, self.at)
            self.at = match.end() if match else self.at
            sign = self.text[self.at : self.at + 1]
            if sign == '"':
                break
            if sign == "":
                fail(start, "the string that begins here has no end")
            if sign != "\\":
                fail(self.at, "a string has no character below U+0020: %s" % json.dumps(sign))
            self.escape()
        self.at += 1
        value = json.loads(self.text[start : self.at])
        if any("\ud800" <= character <= "\udfff" for character in value):
            fail(start, "an escape of this string is half of a character")
        return Node("string", value, start, self.at)

    def escape(self) -> None:
        sign = self.text[self.at + 1 : self.at + 2]
        digits = self.text[self.at + 2 : self.at + 6]
        if sign == "u" and re.fullmatch("[0-9a-fA-F]{4}", digits):
            self.at += 6
        elif sign in ESCAPES:
            self.at += 2
        else:
            fail(self.at, "\\%s is no escape of JSON" % sign)

    def array(self, at: int, depth: int) -> Node:
        node = Node("array", None, at, at)
        if self.skip() == "]":
            self.at += 1
        else:
            while True:
                node.items.append(self.value(depth + 1))
                if not self.comma("]"):
                    break
        node.end = self.at
        return node

    def object(self, at: int, depth: int) -> Node:
        node = Node("object", None, at, at)
        if self.skip() == "}":
            self.at += 1
        else:
            while True:
                if self.skip() != '"':
                    fail(self.at, 'a key belongs here, between "')
                key = self.string()
                if self.skip() != ":":
                    fail(self.at, "a : belongs behind the key")
                self.at += 1
                node.keys[key.value] = (key, self.value(depth + 1))
                if not self.comma("}"):
                    break
        node.end = self.at
        return node

    def comma(self, end: str) -> bool:
        """Whether one more follows; else the end is read."""
        sign = self.skip()
        if sign not in (",", end) or not sign:
            found = sign or "the end of the line"
            fail(self.at, "%s stands where , or %s belongs" % (found, end))
        self.at += 1
        return sign == ","
