#!/usr/bin/env python3
"""Sees to it that lack of memory is answered only where memory ran out.

false_memory.py    at any place; it reads the src of each crate of crates.txt

A body that answers lack of memory of itself meets any contract, since each call may lack memory.
So in code a value of these names may be made only

- in an `impl From<AllocError>` or `impl From<AllocFailed<..>>`;
- in an arm of a `match`, a branch of an `if` or a closure, where the pattern, the condition or the
  parameters say that there is such a value already (each alternative of the pattern).

A body can also ask for more than there is: so no request, by a call or by `vec!`, may be of a number
that is large whatever came in, as `usize::MAX` or a name that a `let` or `const` gives one.

Clauses and ghost items are no code. Every other place is printed; the last line counts, and the
status is 1 if there is one.
"""
import re
import sys

sys.dont_write_bytecode = True
import sources

# The names of errors for lack of memory, of variants and of std's types.
NAMES = {"Memory", "NoMemory", "OutOfMemory", "AllocError", "AllocFailed"}
# A call that asks an error whether it is one, and one that asks an answer.
TESTS = {"is_memory", "is_out_of_memory"}
ASKS = {"lacks_memory"}
# The calls that ask for memory by a number of items.
REQUESTS = {"with_capacity", "reserve", "reserve_exact", "resize"}
# What makes a number large by itself: words, and the least literal.
LARGE_WORDS = re.compile(r"MAX|<<|!|pow|wrapping_\w+|saturating_(?!sub$|div$)\w+")
LARGE = 1 << 30
TOKEN = re.compile(r"\w+|::|=>|->|==|!=|<=|>=|<<|&&|\|\||\.\.=?|[^\w\s]")
CLOSES = {"(": ")", "[": "]", "{": "}"}
CLAUSES = {"requires", "ensures"}
# A `|` after one of these, or at the start, begins a closure.
BEFORE_CLOSURE = {",", "=", "=>", "move", "return", "(", "&&", "||", "else", ";"}


class Node:
    """A token, or a group in brackets with the nodes in it."""

    def __init__(self, text, at, inner=None):
        self.text, self.at, self.inner = text, at, inner

    def is_block(self):
        return self.text == "{" and self.inner is not None

    def __str__(self):
        return self.text if self.inner is None else self.text + said(self.inner) + CLOSES[self.text]


def said(nodes):
    """The nodes as text, with a space only between words."""
    text = ""
    for node in nodes:
        word = str(node)
        text += " " * bool(re.search(r"\w$", text) and re.match(r"\w", word)) + word
    return text


def parsed(text):
    """The tokens of blanked text in their groups. Brackets that don't pair are a ValueError."""
    stack = [Node("{", 0, [])]
    for found in TOKEN.finditer(text):
        token = found[0]
        if token in CLOSES:
            stack.append(Node(token, found.start(), []))
        elif token in CLOSES.values():
            group = stack.pop()
            if not stack or CLOSES[group.text] != token:
                raise ValueError("line %d: %s" % (sources.line_at(text, found.start()), token))
            stack[-1].inner.append(group)
        else:
            stack[-1].inner.append(Node(token, found.start()))
    if len(stack) != 1:
        raise ValueError("line %d: %s" % (sources.line_at(text, stack[-1].at), stack[-1].text))
    return stack[0].inner


def index_of(nodes, start, *words):
    """The first place from here on of one of these tokens, or the end."""
    places = (it for it in range(start, len(nodes)) if nodes[it].text in words)
    return next((it for it in places if nodes[it].inner is None), len(nodes))


def block_after(nodes, start):
    """The first place from here on of a block that is no clause's, or the end."""
    is_clause = False
    for place in range(start, len(nodes)):
        node = nodes[place]
        if node.is_block():
            if not is_clause:
                return place
            is_clause = False
        elif node.text in CLAUSES:
            is_clause = True
    return len(nodes)


def split(nodes, *words):
    """The nodes between these tokens."""
    parts = [[]]
    for node in nodes:
        if node.inner is None and node.text in words:
            parts.append([])
        else:
            parts[-1].append(node)
    return parts


def names_memory(nodes):
    """Whether a pattern says in each of its alternatives that memory was lacking."""
    for part in split(nodes, "|"):
        words = [it for it in part if it.inner is None]
        groups = [it for it in part if it.inner is not None]
        if not any(it.text in NAMES for it in words):
            if not any(names_memory(it.inner) for it in groups):
                return False
        if any(not names_memory(it.inner) for it in groups if len(split(it.inner, "|")) > 1):
            return False
    return True


def tests_memory(nodes):
    """Whether a condition holds only where memory was lacking."""
    text = said(nodes)
    if nodes and nodes[0].text == "let":
        return names_memory(nodes[1 : index_of(nodes, 1, "=")])
    equal = re.fullmatch(r"[^!|]*==(\w+::)*(%s)" % "|".join(NAMES), text)
    asked = re.fullmatch(r"[^!|]*\.(%s)\(\)" % "|".join(TESTS), text)
    told = re.fullmatch(r"(?:\w+\.)?(%s)\([^!|]*\)" % "|".join(ASKS), text)
    return bool(equal or asked or told)


def large_number(word):
    """Whether the word is a literal of a large number."""
    found = re.fullmatch(r"(0x[0-9a-fA-F_]+|[0-9][0-9_]*)([iu](8|16|32|64|size))?", word)
    return bool(found) and int(found[1].replace("_", ""), 0 if found[1][:2] == "0x" else 10) >= LARGE


class Walk:
    """A walk over the code of a file, which finds where lack of memory is answered."""

    def __init__(self, crate, file, text):
        self.crate, self.file, self.text = crate, file, text
        # Where it is made without being met: the place, the function, and what leads to it.
        self.found = []
        # The names of numbers that are large whatever came in.
        self.large = set()

    def items(self, nodes, of="", is_from=False):
        """Walks over items: those of a file, of a module, of a trait or of an impl."""
        at = 0
        while at < len(nodes):
            word = nodes[at].text if nodes[at].inner is None else ""
            if word in ("impl", "trait", "mod"):
                block = block_after(nodes, at)
                stop = index_of(nodes, at, ";")
                if block < stop:
                    head = nodes[at + 1 : block]
                    self.items(nodes[block].inner, self.name_of(word, head), self.converts(head))
                at = min(block, stop) + 1
            elif word == "fn":
                at = self.function(nodes, at, of, is_from)
            elif word in ("const", "static") and nodes[at + 1].text != "fn":
                end = index_of(nodes, at, ";")
                start = index_of(nodes, at, "=")
                self.bind(nodes[at + 1], nodes[start + 1 : end])
                self.code(nodes[start + 1 : end], of or self.file, [])
                at = end + 1
            else:
                at += 1

    def name_of(self, word, head):
        """The type that the items of an impl are called by."""
        if word == "mod":
            return ""
        text = said(head)
        text = re.sub(r"^<(?:[^<>]|<[^<>]*>)*>", "", text)
        text = re.split(r"\bfor ", text)[-1]
        name = re.match(r"&?\s*(\w+)", text)
        return name[1] if name else ""

    def converts(self, head):
        return bool(re.search(r"\bFrom<Alloc(Error|Failed)\b", said(head)))

    def function(self, nodes, at, of, is_from):
        """Walks over a function's body, and answers the index after it."""
        name = "::".join(it for it in (of, nodes[at + 1].text) if it)
        block, stop = block_after(nodes, at), index_of(nodes, at, ";")
        if block < stop and not is_from:
            outside = {*self.large}
            self.code(nodes[block].inner, name, [])
            self.large = outside
        return min(block, stop) + 1

    def code(self, nodes, name, met):
        """Walks over an expression or statements. `met` is what led here: each a string of it, and
        whether it says that memory was lacking."""
        at = 0
        while at < len(nodes):
            at = self.step(nodes, at, name, met)

    def step(self, nodes, at, name, met):
        node, word = nodes[at], nodes[at].text if nodes[at].inner is None else ""
        if node.inner is not None:
            self.code(node.inner, name, met)
        elif word == "#":
            return at + (3 if nodes[at + 1 : at + 2] and nodes[at + 1].text == "!" else 2)
        elif word in ("use", "type", "ghost"):
            return self.skip(nodes, at)
        elif word in CLAUSES:
            while not nodes[at].is_block():
                at += 1
        elif word == "fn":
            return self.function(nodes, at, "", False)
        elif word == "match":
            return self.match(nodes, at, name, met)
        elif word in ("if", "while"):
            return self.branch(nodes, at, name, met)
        elif word == "let":
            start, end = index_of(nodes, at, "="), index_of(nodes, at, ";")
            self.bind(nodes[at + (2 if nodes[at + 1].text == "mut" else 1)], nodes[start + 1 : end])
            return min(start, end) + 1
        elif word == "for":
            return index_of(nodes, at, "in") + 1
        elif word in ("prove", "matches") and at + 2 < len(nodes) and nodes[at + 1].text == "!":
            inner = split(nodes[at + 2].inner, ",")[0] if word == "matches" else []
            self.code(inner, name, met)
            return at + 3
        elif word in ("|", "||") and (at == 0 or nodes[at - 1].text in BEFORE_CLOSURE):
            return self.closure(nodes, at, name, met)
        elif word in NAMES and self.makes(nodes, at):
            self.made(node, name, met)
        elif word in REQUESTS and at + 1 < len(nodes) and nodes[at + 1].text == "(":
            if self.is_large(nodes[at + 1].inner):
                self.report(node, "%s: %s of a large number" % (name, word))
        elif word == "vec" and at + 2 < len(nodes) and nodes[at + 1].text == "!":
            if self.is_large(split(nodes[at + 2].inner, ";")[-1]):
                self.report(node, "%s: vec! of a large number" % name)
        return at + 1

    def skip(self, nodes, at):
        """The index after a ghost item, a `use` or a `type`: after its `;`, or its block."""
        end = index_of(nodes, at, ";")
        blocks = [it for it in range(at, end) if nodes[it].is_block()]
        is_use = "use" in (nodes[at].text, nodes[at + 1].text)
        is_block = blocks and not is_use and index_of(nodes, at, "=") > blocks[0]
        return blocks[0] + 1 if is_block else end + 1

    def match(self, nodes, at, name, met):
        block = block_after(nodes, at)
        self.code(nodes[at + 1 : block], name, met)
        matched, arms, place = said(nodes[at + 1 : block]), nodes[block].inner, 0
        while place < len(arms):
            arrow = index_of(arms, place, "=>")
            pattern = [it for it in arms[place:arrow] if it.text != ","]
            if arrow + 1 < len(arms) and arms[arrow + 1].is_block():
                end = arrow + 2
            else:
                end = index_of(arms, arrow, ",")
            guard = index_of(pattern, 0, "if")
            tests = names_memory(pattern[:guard]) or tests_memory(pattern[guard + 1 :])
            led = "%s is %s" % (matched, said(pattern))
            self.code(arms[arrow + 1 : end], name, [*met, (led, tests)])
            place = end + 1 if end < len(arms) and arms[end].text == "," else end
        return block + 1

    def branch(self, nodes, at, name, met):
        block = block_after(nodes, at)
        condition = nodes[at + 1 : block]
        self.code(condition, name, met)
        if block < len(nodes):
            inner = [*met, (said(condition), tests_memory(condition))]
            self.code(nodes[block].inner, name, inner)
        return block + 1

    def closure(self, nodes, at, name, met):
        """Walks over a closure, whose parameters can say that memory was lacking."""
        close = index_of(nodes, at + 1, "|") if nodes[at].text == "|" else at
        given = nodes[at + 1 : close]
        block, end = block_after(nodes, close), index_of(nodes, close, ",", ";")
        end = block + 1 if block < end else end
        inner = [*met, ("|%s|" % said(given), bool(given) and names_memory(given))]
        self.code(nodes[close + 1 : end], name, inner)
        return end

    def makes(self, nodes, at):
        """Whether the name there is a value that is made: no type, and no side of a comparison."""
        start = at
        while start >= 2 and nodes[start - 1].text == "::":
            start -= 2
        before = nodes[start - 1].text if start else ""
        after = nodes[at + 1].text if at + 1 < len(nodes) else ""
        is_type = after == ">" or before in ("<", "as", "->")
        return not (is_type or before in ("==", "!=") or after in ("==", "!=", "::"))

    def made(self, node, name, met):
        if any(tests for _, tests in met):
            return
        behind = " behind `%s`" % met[-1][0] if met else ""
        self.report(node, "%s: %s is made%s" % (name, node.text, behind))

    def report(self, node, what):
        line = sources.line_at(self.text, node.at)
        self.found.append("crates/%s/src/%s:%d: %s" % (self.crate, self.file, line, what))

    def bind(self, name, nodes):
        """Notes whether the name is a large number from here on."""
        self.large.discard(name.text)
        if name.inner is None and self.is_large(nodes):
            self.large.add(name.text)

    def is_large(self, nodes):
        """Whether an expression has a number that is large whatever came in. In a call it may be
        anything, so what a group holds counts as what is beside it."""
        before = ""
        for node in nodes:
            if node.inner is not None:
                if not node.is_block() and self.is_large(node.inner):
                    return True
            elif LARGE_WORDS.fullmatch(node.text) or large_number(node.text):
                return True
            elif node.text in self.large and before != ".":
                return True
            before = node.text
        return False


def main():
    found = []
    for crate in sources.crates():
        for file in sources.source_files(crate):
            text = sources.blanked(sources.read(crate, file))
            walk = Walk(crate, file, text)
            try:
                walk.items(parsed(text))
            except ValueError as why:
                walk.found.append("crates/%s/src/%s: not read: %s" % (crate, file, why))
            found += walk.found
    for it in found:
        print("false memory: " + it)
    print("false memory: %d places" % len(found))
    return 1 if found else 0


if __name__ == "__main__":
    sys.exit(main())
