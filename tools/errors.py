#!/usr/bin/env python3
"""Lists public functions whose contracts say little or nothing of how they are refused.

errors.py [CRATE ..]    the crates of crates.txt where none is given

It is a help for whoever strengthens contracts, and no gate: the status is 0. A function of
crates/*/src is public by its own `pub`, or as one of a trait, whether a door leads to it or not. A
line for each function that
- has no `ensures` at all,
- answers a `Result` of which no clause says when it is an error: none has a word for that side
  (`IfErr`, `OnErr`, `IsErrOf`, `MatchResult`), `result` with a case of its own, a relation that
  `result` is handed to, or `IsOk result` alone, by which there is none,
- or whose clauses on errors allow each of them: the relations that are handed the error are defined
  as `Unit` in each line.
Where the type of the error has one value, as `AllocError` or a struct without fields, no clause can
tell two errors apart, so such functions are counted apart. Each crate that has any begins with its
counts; the last line has all.
"""
import collections
import os
import re
import sys

sys.dont_write_bytecode = True
import sources
from contracts import Reader

# Words of clauses that say something where an answer is an error, and those that don't.
OF_ERRORS = re.compile(r"\b(?:IfErr|OnErr|IsErrOf|MatchResult|ForErr)\b")
OF_VALUES = {"IfOk", "OnOk", "IsOk", "ForOk", "OnSome", "IfSome"}
# A relation that is handed the answer itself: a name before it, with other words between, where
# arguments in brackets are taken away.
HANDED = re.compile(r"\b([A-Z]\w*)(?:\s+[\w.]+)*\s+result\b(?!\.)")
ARGUMENT = re.compile(r"\s\((?:(?!\bresult\b)[^()])*\)")
# An answer that is compared with an error, or taken apart.
TAKEN = re.compile(r"\bresult\s*[≡≢]|[≡≢]\s*result\b|\bErr\b|\bas_err\b")
RESULT = re.compile(r"->\s*((?:\w+::)*)Result<")
# Types of errors that have one value, beside the structs without fields of the crates themselves.
SINGLE = {"AllocError", "AllocFailed", "Error", "Infallible", "io::Error", "fmt::Error"}
WITHOUT_FIELDS = re.compile(r"\bpub struct (\w+);")
# A clause's relation on the error that it names, as `λ e. IsFault e`.
ON_ERROR = re.compile(r"λ\s+(\w+)\.\s+(\w+)\s+\1\b")
PUBLIC = re.compile(r"\bpub\s+(?:unsafe\s+|const\s+)*$")

# What is found of a function: its path and the type of its error, or None.
Found = collections.namedtuple("Found", "path error")


class Signatures(Reader):
    """Collects the contracts of one file, with the public functions' heads."""

    def __init__(self, crate, text):
        super().__init__(crate, text)
        self.heads, self.in_trait = {}, False

    def block(self, item, word, path, end):
        before, self.in_trait = self.in_trait, word == "trait"
        at = super().block(item, word, path, end)
        self.in_trait = before
        return at

    def function(self, item, path):
        """Keeps the head of a public function: its text up to its clauses, or its body."""
        before = len(self.found)
        at = super().function(item, path)
        if self.in_trait or PUBLIC.search(self.code[: item.start()]):
            head = re.split(r"\b(?:requires|ensures)\b|\{", self.code[item.end() : at])[0]
            self.heads[before] = " ".join(head.split())
        return at


def error_of(head):
    """The type of the error of a `Result` that a function answers, or None."""
    found = RESULT.search(head)
    if not found:
        return None
    depth, parts = 0, [""]
    for letter in head[found.end() :].replace("->", "  "):
        depth += (letter in "<([") - (letter in ">)]")
        if depth < 0:
            break
        if letter == "," and depth == 0:
            parts.append("")
        else:
            parts[-1] += letter
    return parts[1].strip() if parts[1:] else (found[1] + "Error")


def says_of_errors(text):
    """Whether a clause says something where `result` is an error."""
    if OF_ERRORS.search(text) or TAKEN.search(text) or text == "IsOk result":
        return True
    taken = 1
    while taken:
        text, taken = ARGUMENT.subn("", text)
    return any(found[1] not in OF_VALUES for found in HANDED.finditer(text))


def definitions(crates):
    """For each relation of the crates' specs, by name, the right sides of all its lines."""
    sides = collections.defaultdict(list)
    for crate in crates:
        for at, _, names in os.walk(os.path.join(sources.TOP, "crates", crate, "specs")):
            for name in names:
                with open(os.path.join(at, name), encoding="utf-8") as file:
                    text = re.sub(r"--[^\n]*", "", file.read())
                for line in re.finditer(r"^ *([A-Z]\w*)\b[^=\n:]*=\s*(\S+)", text, re.M):
                    sides[line[1]].append(line[2])
    return sides


def allows_all(clauses, sides):
    """Whether the relations on errors are true of each."""
    texts = [it.text for it in clauses if OF_ERRORS.search(it.text)]
    named = [found[2] for text in texts for found in ON_ERROR.finditer(text)]
    if not texts or len(named) < len(texts):
        return False
    return all(sides[it] and set(sides[it]) == {"Unit"} for it in named)


def read(crate):
    """The public functions of a crate, each with its clauses and the type of its error."""
    for file in sources.source_files(crate):
        text = sources.read(crate, file)
        modules = [it for it in file[:-3].split("/") if it not in ("lib", "mod")]
        reader = Signatures(crate, text)
        reader.read(0, len(text), (crate, *modules))
        for number, head in reader.heads.items():
            contract = reader.found[number]
            clauses = [it for it in contract.clauses if it.word == "ensures"]
            yield Found("::".join(contract.path), error_of(head)), clauses


def without_fields(crates):
    """The structs of the crates that have no field."""
    texts = (sources.read(it, file) for it in crates for file in sources.source_files(it))
    return {name for text in texts for name in WITHOUT_FIELDS.findall(text)}


def judged(crate, sides, single):
    """The functions of a crate by what their contracts lack, and how many it has."""
    lists, count = collections.defaultdict(list), 0
    for found, clauses in read(crate):
        count += 1
        if not clauses:
            lists["no ensures"].append(found)
        elif found.error and not any(says_of_errors(it.text) for it in clauses):
            kind = "errors of one kind" if found.error in single else "nothing of errors"
            lists[kind].append(found)
        elif found.error and allows_all(clauses, sides):
            lists["each error allowed"].append(found)
    return lists, count


KINDS = ("nothing of errors", "each error allowed", "errors of one kind", "no ensures")


def main():
    all_crates, total, functions = list(sources.crates()), collections.Counter(), 0
    sides, single = definitions(all_crates), SINGLE | without_fields(all_crates)
    for crate in sys.argv[1:] or all_crates:
        lists, count = judged(crate, sides, single)
        functions += count
        if not lists:
            continue
        told = ", ".join("%d %s" % (len(lists[it]), it) for it in KINDS if lists[it])
        print("%s: of %d public functions %s" % (crate, count, told))
        for kind in KINDS:
            total[kind] += len(lists[kind])
            for found in lists[kind]:
                error = ", " + found.error if found.error else ""
                print("    %s: %s%s" % (kind, found.path, error))
    told = ", ".join("%d %s" % (total[it], it) for it in KINDS)
    print("errors: of %d public functions %s" % (functions, told))


if __name__ == "__main__":
    main()
