#!/usr/bin/env python3
"""Compares the contracts of two revisions: what each function requires, ensures and says by ghosts.

contracts.py OLD NEW            two revisions, as `git rev-parse` takes them
    --names FILE                names that changed between them, one change a line
    --specs                     definitions of crates/*/specs in place of contracts

It is a help for whoever reviews a change that moves or renames much. For each function of
crates/*/src (free, of an impl or of a trait) whose clauses differ it prints what both say, what the
old one alone (-) and the new one alone (+), and so the functions that are gone or new; the last
line counts them. Ghost members count as clauses of their impl or trait. The order of clauses, their
names, white space, comments and the names of bound variables make no difference; attributes and
bodies are not looked at. A clause says no more than the definitions that it cites: `--specs`
compares these, each with the lines up to the next empty one.

A line of FILE is `old new` or `old new CRATE`: what is in the old revision, what in the new
one, and the one crate of the old revision where that is so. The old one is an identifier, or the
path of a definition as `crate.specs.Module.name`, or that of a function as `crate::module::name`
(the words that begin it suffice). `#` begins a comment.
A function that isn't found at its mapped path is looked for by its type and name alone.
"""
import argparse
import collections
import os
import re
import subprocess
import sys

sys.dont_write_bytecode = True
import sources

# A function or an impl: its crate, its path, its clauses with the word that begins each, and where
# the names are that its file brings in by `ghost use`.
Contract = collections.namedtuple("Contract", "crate path clauses uses")
Clause = collections.namedtuple("Clause", "word text")
# A function's body: the function's name, and where its `fn`, the body's brace and its end are.
Body = collections.namedtuple("Body", "name starts opens ends")
ITEM = re.compile(
    r"\b(?:(impl)\b|(?:unsafe\s+)?(trait)\s+(\w+)|(mod)\s+(\w+)\s*(?=\{)|"
    r"(macro_rules)!\s*(\w+)|(fn)\s+([$\w]+)|(ghost)\s+(?!use\b)(\w+))|([{(\[])"
)
CLAUSE = re.compile(r"\b(requires|ensures|ghost)\b[ *]*\w*\s*(?::\s*)?(?=\{)")
USE = re.compile(r"\buse\s+Rattle\.([\w.]+?)\.\{([^}]*)\}")
NO_DEFINITION = re.compile(r"^(?:use|mod|pub mod|module|default)\b[^\n]*", re.M)
OWN = re.compile(r"^(?:(?:abbrev|mutual|pub|record|data)\s+)+([^\s:(]+)", re.M)
DEFINED = re.compile(r"(?:(?:abbrev|mutual|pub|record|data)\s+)*([^\s:(]+)")
BINDERS = re.compile(r"λ((?:\s+[\w']+)+)\s*\.|\((\w[\w']*(?:\s+\w[\w']*)*)\s+:\s")


def git(*words):
    made = subprocess.run(["git", "-C", sources.TOP, *words], capture_output=True, text=True)
    if made.returncode:
        sys.exit("contracts: git %s: %s" % (words[0], made.stderr.strip()))
    return made.stdout


def files_at(revision, form):
    """The files of the revision whose names have this form, as crate, modules and text."""
    for name in git("ls-tree", "-r", "--name-only", revision, "crates/").splitlines():
        found = re.fullmatch("crates/([^/]+)/" + form, name)
        if found:
            modules = [it for it in found[2].split("/") if it not in ("lib", "mod")]
            yield found[1], modules, git("show", "%s:%s" % (revision, name))


def without_comments(text):
    """The text with spaces in place of comments, each line as long as it was."""
    blank = lambda it: re.sub(r"[^\n]", " ", it[0]) if it[0][:2] in ("//", "/*") else it[0]
    return sources.NOT_CODE.sub(blank, text)


def folded(text):
    """The text with one space between its words, and none within brackets beside them."""
    text = " ".join(text.split())
    return re.sub(r"(?<=[(\[{]) | (?=[)\]},])", "", text)


def names_of(use):
    """The names that a `use` brings in, with where each is."""
    for name in use[2].split(","):
        name, _, given = name.strip().partition(" as ")
        yield given.strip() or name, "%s.%s" % (use[1], name)


class Reader:
    """Collects the contracts of one file, and where its bodies are."""

    def __init__(self, crate, text):
        self.crate, self.code, self.text = crate, sources.blanked(text), without_comments(text)
        self.uses, self.found, self.bodies = {}, [], []
        for use in USE.finditer(self.text):
            self.uses.update(names_of(use))

    def read(self, start, end, path):
        """The items between these offsets. Ghost members found there are those of the path."""
        at, ghosts = start, []
        while True:
            item = ITEM.search(self.code, at, end)
            if item is None:
                break
            word = next(it for it in item.groups() if it)
            if word == "fn":
                at = self.function(item, path)
            elif word == "ghost":
                at = self.to_semicolon(item.end())
                ghosts.append(Clause("ghost", folded(self.text[item.start(11) : at - 1])))
            elif word in ("impl", "trait", "mod", "macro_rules"):
                at = self.block(item, word, path, end)
            else:
                at = sources.end_of_group(self.code, item.start())
        if ghosts:
            self.keep(path, ghosts)

    def keep(self, path, clauses):
        self.found.append(Contract(self.crate, path, clauses, self.uses))

    def block(self, item, word, path, end):
        opened = sources.end_of_head(self.code, item.end())
        if opened >= end:
            return item.end()
        if self.code[opened] == ";":
            return opened + 1
        closed = sources.end_of_group(self.code, opened)
        if word == "impl":
            inner = head_of_impl(folded(self.text[item.end() : opened]))
        else:
            inner = item[3] or item[5] or item[7]
        self.read(opened + 1, closed - 1, (*path, inner))
        return closed

    def function(self, item, path):
        """Keeps the function's clauses. The answer is the offset after it."""
        at = self.code.index("(", item.end())
        at = sources.end_of_group(self.code, self.start_of_parameters(item.end(), at))
        clauses = []
        while True:
            opened = sources.end_of_head(self.code, at)
            clause = CLAUSE.search(self.code, at, opened + 1)
            if clause is None:
                break
            at = sources.end_of_group(self.code, opened)
            clauses.append(Clause(clause[1], folded(self.text[opened + 1 : at - 1])))
        self.keep((*path, item[9]), clauses)
        if self.code[opened] == ";":
            return opened + 1
        ends = sources.end_of_group(self.code, opened)
        self.bodies.append(Body(item[9], item.start(), opened, ends))
        return ends

    def start_of_parameters(self, at, first):
        """The bracket after the name and its type parameters, whose bounds may have some too."""
        depth = 0
        for place in range(at, len(self.code)):
            letter = self.code[place]
            depth += (letter == "<") - (letter == ">" and self.code[place - 1] not in "-=")
            if letter == "(" and depth == 0:
                return place
        return first

    def to_semicolon(self, at):
        depth = 0
        for place in range(at, len(self.code)):
            letter = self.code[place]
            depth += (letter in "([{") - (letter in ")]}")
            if letter == ";" and depth == 0:
                return place + 1
        return len(self.code)


def head_of_impl(head):
    """An impl's head without its own type parameters and its where clause."""
    if head.startswith("<"):
        depth = 0
        for at, letter in enumerate(head):
            depth += (letter == "<") - (letter == ">" and head[at - 1] not in "-=")
            if depth == 0:
                head = head[at + 1 :]
                break
    return "impl " + head.partition(" where ")[0].strip()


def contracts_at(revision):
    made = []
    for crate, modules, text in files_at(revision, r"src/(.+)\.rt"):
        reader = Reader(crate, text)
        reader.read(0, len(text), (crate, *modules))
        made += reader.found
    return made


def definitions_at(revision):
    """The definitions of specs/, each as a contract of one clause. A mutual group is one."""
    made = []
    for crate, modules, text in files_at(revision, r"specs/(.+)\.antt"):
        text = re.sub(r"--[^\n]*", "", text)
        at = ".".join((crate, "specs", *modules))
        uses = {it[1]: "%s.%s" % (at, it[1]) for it in OWN.finditer(text)}
        for use in USE.finditer(text):
            uses.update(names_of(use))
        for part in re.split(r"\n\s*\n", NO_DEFINITION.sub("", text)):
            name = DEFINED.match(part.strip())
            if name:
                path = (crate, "specs", *modules, name[1])
                made.append(Contract(crate, path, [Clause("says", folded(part))], uses))
    return made


class Names:
    """The changes of a table of names: of words, of definitions, and of paths with `::`."""

    def __init__(self, file):
        self.words, self.paths = collections.defaultdict(dict), {}
        for line in open(file, encoding="utf-8") if file else ():
            parts = line.partition("#")[0].split()
            if len(parts) not in (0, 2, 3):
                sys.exit("contracts: not `old new` or `old new crate`: %s" % line.strip())
            if parts and "::" in parts[0]:
                self.paths[tuple(parts[0].split("::"))] = tuple(parts[1].split("::"))
            elif parts:
                self.words[parts[2] if parts[2:] else None][parts[0]] = parts[1]

    def text(self, text, crate, uses):
        def new(found):
            is_part = text[: found.start()].endswith(".")
            for name in (found[0],) if is_part else (uses.get(found[0]), found[0]):
                for scope in (crate, None):
                    if name in self.words[scope]:
                        return self.words[scope][name]
            return found[0]

        return folded(re.sub(r"[^\W\d][\w']*", new, text))

    def path(self, path, crate, uses):
        for size in range(len(path), 0, -1):
            if path[:size] in self.paths:
                return self.paths[path[:size]] + self.path(path[size:], crate, uses)
        return tuple(self.text(it, crate, uses) for it in path)


def by_order(text):
    """The text with the names of its bound variables by the order in which they are bound."""
    bound = [it for found in BINDERS.finditer(text) for it in (found[1] or found[2]).split()]
    names = {it: "#%d" % at for at, it in enumerate(dict.fromkeys(bound)) if it != "_"}
    return re.sub(r"(?<![.\w'])[^\W\d][\w']*(?!\s*:=)", lambda it: names.get(it[0], it[0]), text)


def says(contract):
    """What the contract says, for a comparison: its clauses in any order."""
    return collections.Counter(Clause(it.word, by_order(it.text)) for it in contract.clauses)


def kept(contract):
    """The path without its modules: the impl, or the trait, and the function's name."""
    return contract.path[-2:] if contract.path[-2].startswith("impl ") else contract.path[-1:]


def paired(old, new):
    """Pairs of an old and a new contract, with None for one that has no partner."""
    left, right = collections.defaultdict(list), collections.defaultdict(list)
    for them, side in ((old, left), (new, right)):
        for it in them:
            side[it.path].append(it)
    pairs = []
    for path in [it for it in left if it in right]:
        while left[path] and right[path]:
            pairs.append((left[path].pop(0), right[path].pop(0)))
    for key in (lambda it: (it.path[0], kept(it)), kept, lambda it: it.path[-1]):
        rest = collections.defaultdict(lambda: ([], []))
        for at, side in enumerate((left, right)):
            for it in [it for them in side.values() for it in them]:
                rest[key(it)][at].append(it)
        for them, others in rest.values():
            if len(them) == len(others) == 1:
                pairs.append((them[0], others[0]))
                left[them[0].path].remove(them[0])
                right[others[0].path].remove(others[0])
    pairs += [(it, None) for them in left.values() for it in them]
    pairs += [(None, it) for them in right.values() for it in them]
    return sorted(pairs, key=lambda it: (it[1] or it[0]).path)


def show(old, new):
    """The clauses of both, of the old one alone and of the new one alone."""
    there = says(new) if new else collections.Counter()
    also = says(old) if old else collections.Counter()
    for sign, it, other in ((" ", old, there), ("-", old, there), ("+", new, also)):
        left = other.copy()
        for clause in it.clauses if it else ():
            key = Clause(clause.word, by_order(clause.text))
            if (left[key] > 0) == (sign == " "):
                print("  %s %s { %s }" % (sign, *clause))
            left[key] -= 1


def main():
    parser = argparse.ArgumentParser(description=__doc__.partition("\n")[0])
    parser.add_argument("old")
    parser.add_argument("new")
    parser.add_argument("--names")
    parser.add_argument("--specs", action="store_true")
    words = parser.parse_args()
    read = definitions_at if words.specs else contracts_at
    names = Names(words.names)
    mapped = []
    for it in read(words.old):
        new = lambda text: names.text(text, it.crate, it.uses)
        clauses = [Clause(one.word, new(one.text)) for one in it.clauses]
        mapped.append(it._replace(path=names.path(it.path, it.crate, it.uses), clauses=clauses))
    counts = collections.Counter()
    for old, new in paired(mapped, read(words.new)):
        if old and new and says(old) == says(new):
            counts["equal"] += 1
            continue
        what = "differs" if old and new else "gone" if old else "new"
        counts[what] += 1
        print("%s: %s" % (what, "::".join((new or old).path)))
        if old and new and old.path != new.path:
            print("  was %s" % "::".join(old.path))
        show(old, new)
    said = ["%d %s" % (counts[it], it) for it in ("equal", "differs", "gone", "new")]
    print("contracts: %s" % ", ".join(said))
    return 0


if __name__ == "__main__":
    sys.exit(main())
