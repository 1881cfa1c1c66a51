#!/usr/bin/env python3
"""Tries wrong bodies function by function: each crates/NAME/wrong-bodies/*.edit has to be refused.

mutants.py [--anew] [--jobs N] [--unedited] [CRATE ..]    over the libraries that `rt ci` or
                                                          `rt lib` built; all crates that have such
                                                          a folder, if none is named

An edit begins with a line `function: PATH`, the function that has to lose its proof, named as a
check prints it, below its crate. What follows is read as `rt must-fail` reads an edit.

`rt ci` proves a crate whole once more for its first must-fail edit, which costs far more than the
functions that the edits are of. Here only those are checked, each under its edit, where it must not
be proved. As they stand they have to be: where the crate's own library, which only a proved crate
has, is older than one of its files, they are checked so first, with what they call. A proof reads
the contracts of what its function calls and no bodies. So edits of different functions are tried by
one check, where each function has to lose its own proof; those that only call what lost it are
tried again without it, and so is one that does not fit behind the others. And what the library
shows to be proved is not proved again: in the copy that is checked the other functions have no body
and a hole for a proof (left_out.py). `--unedited` sees that in these copies, with no edit written,
each function of an edit has its proof: it is run where left_out.py was changed.

A verdict is kept in the folder nuldvaki/mutants of XDG_CACHE_HOME, or else of ~/.cache, by the
checksum of all that it rests on: the line of `rt version`; src, specs and proofs of the crate and
of those below it, which crates.txt names; the libraries as they were built; and the edit. So a run
tries what changed, and `--anew` tries all. That folder can be removed at any time. `--jobs N` works
on N crates at a time, and else on as many as processors and memory allow. The last line is
'N passed, M failed', counted in edits; the status is 0 if none failed, 1 if some did, and 2 if
nothing could be tried.
"""
import argparse
import concurrent.futures
import hashlib
import importlib.machinery
import importlib.util
import json
import os
import re
import shutil
import subprocess
import sys
import tempfile

sys.dont_write_bytecode = True
TOP = os.path.dirname(os.path.dirname(os.path.abspath(__file__)))
sys.path.insert(0, os.path.join(TOP, "tools"))
import lanes
import left_out
import sources

PARTS = ("src", "specs", "proofs")
FOLDER = "wrong-bodies"
# To be raised when edits are judged in another way, so that no earlier verdict counts.
JUDGED_BY = "3"
WELL = "refused, as it must be"


def stop(why):
    """Ends the run with one line where nothing can be tried."""
    print("mutants: " + why, file=sys.stderr)
    sys.exit(2)


class Kit:
    """All that is taken of the kit: names of its own `rt`, and the words of its `rattle check`.

    Where a newer kit no longer has one of them, the run ends here, and only here is it mended."""

    # Of `rattle check --help`: the flags that are used, and how a check with `--only` ends.
    FLAGS = ("--only <PATH>", "--incremental <DIR>", "--jobs <N>", "--allow-holes")
    FLAGS += ("`only=N proved=M`", "`only=N holes=K`")
    LAST_LINE = re.compile(r"only=(\d+) (?:proved|holes)=(\d+)")
    # In a built library, the modules that its build made: a line each, a list that names it first.
    MADE = os.path.join("toolchain", "made.json")
    # A function that isn't proved; one that isn't for a reason of its own, and not only since it
    # calls another; and a path that `--only` finds nothing by.
    UNPROVED = r"^fn %s::([\w:]+): (?:not proved|no proof)"
    LOST = UNPROVED + "(?!: it calls )"
    UNKNOWN = re.compile(r"error: `\w+` has no function `([\w:]+)`")
    # A name that a file of the copy does not find in a module.
    LACKS = r"^(?:note: )?\./(\S+)/\w+\.antt:[\d:]+ error: module `(\S+)` has no "

    def __init__(self):
        path = shutil.which("rt") or stop("there is no `rt` on the path")
        rt = self.module(os.path.realpath(path))
        rtlib = self.named(rt, "rtlib")
        # `rt`'s words before a command, which ends with this run, and its reading of an edit.
        self.guarded = self.named(rtlib, "guarded")
        self.edited = self.named(rt, "edited")
        self.unread = self.named(rt, "unread")
        self.rattle = self.named(rtlib, "RATTLE")
        found = self.named(rtlib, "crates_below")(TOP)
        # The words of a check of each crate, which name the libraries that it is checked over.
        self.words = {it.name: self.words_of(it) for it in found}
        self.line = self.said(["rt", "version"])
        usage = self.said([self.rattle, "check", "--help"])
        for flag in self.FLAGS:
            if flag not in usage:
                self.unfit("`rattle check --help` names no %s" % flag)
        self.try_out()

    @staticmethod
    def unfit(why):
        stop("this kit does not fit the class Kit of tests/mutants.py: " + why)

    def module(self, path):
        loader = importlib.machinery.SourceFileLoader("rt", path)
        made = importlib.util.module_from_spec(importlib.util.spec_from_loader("rt", loader))
        try:
            loader.exec_module(made)
        except Exception as why:
            self.unfit("its `rt` cannot be read as Python: %r" % why)
        return made

    def named(self, holder, name):
        if not hasattr(holder, name):
            self.unfit("%s has no name `%s`" % (getattr(holder, "__name__", holder), name))
        return getattr(holder, name)

    def words_of(self, crate):
        try:
            return crate.words(["--jobs", "1"], keeps=False)
        except (AttributeError, TypeError) as why:
            self.unfit("its words for a check are not to be had: %s" % why)

    def try_out(self):
        """Calls what is taken once, as it is called below."""
        try:
            texts, why = self.edited("", TOP)
            fits = texts is None and why and not self.unread("", {}) and self.guarded()
        except (TypeError, ValueError) as error:
            self.unfit("`guarded`, `edited` or `unread` is called otherwise: %s" % error)
        if not fits:
            self.unfit("`edited` or `unread` answers otherwise")

    def said(self, words):
        ran = subprocess.run(words, stdin=subprocess.DEVNULL, capture_output=True, text=True)
        if ran.returncode:
            self.unfit("`%s` ends with status %d" % (" ".join(words), ran.returncode))
        return ran.stdout.strip()

    def check(self, crate, copy, flags, functions):
        """What the check of these functions says of a copy."""
        only = [word for it in functions for word in ("--only", it)]
        words = [*self.guarded(), self.rattle, "check", *self.words[crate.name], *flags, *only]
        with tempfile.TemporaryFile("w+", errors="replace") as said:
            how = {"stdin": subprocess.DEVNULL, "stdout": said, "stderr": subprocess.STDOUT}
            ran = subprocess.Popen(words, cwd=copy, **how)
            used = os.wait4(ran.pid, 0)[2]
            ran.returncode = 0
            crate.checks += 1
            crate.seconds += used.ru_utime + used.ru_stime
            said.seek(0)
            return said.read()

    def ends(self, said):
        """How many functions a check was asked for and proved, or None, and its last line."""
        last = said.rstrip("\n").split("\n")[-1]
        found = self.LAST_LINE.fullmatch(last)
        return found and (int(found[1]), int(found[2])), last

    def unproved(self, crate, said):
        """The functions that are not proved, or that there are none of."""
        unproved = re.findall(self.UNPROVED % crate.name, said, re.M)
        return {*unproved, *self.UNKNOWN.findall(said)}

    def lost(self, crate, said):
        """The functions that lost their own proof."""
        return set(re.findall(self.LOST % crate.name, said, re.M))

    def strayed(self, crate, said):
        """The first line that tells of a file which can't be read for want of what is not of its
        own function, or ''. An edit changes what can be named of its function alone."""
        for found in re.finditer(self.LACKS, said, re.M):
            own = "Rattle.%s.%s." % (crate.name, found[1].replace("/", "."))
            if not found[2].startswith(own):
                return found[0]
        return ""

    def made(self, crate):
        """The modules that the build of the crate's library made below `proofs`."""
        with open(os.path.join(os.path.dirname(crate.library()), self.MADE), "rb") as it:
            names = {json.loads(line)[0] for line in it}
        return {it[len("proofs/") :] for it in names if it.startswith("proofs/")}


class Edit:
    """One file of a crate's wrong-bodies."""

    def __init__(self, crate, file):
        self.name = file[: -len(".edit")]
        with open(os.path.join(crate.folder, FOLDER, file), encoding="utf-8") as it:
            self.text = it.read()
        first = re.match(r"function: ([\w:]+)\n", self.text)
        self.function = first[1] if first else ""


class Crate:
    """A line of crates.txt: the crate's name, its folder, and the libraries that it uses."""

    def __init__(self, name, uses):
        self.name, self.uses = name, uses
        self.folder = os.path.join(TOP, "crates", name)
        self.below = []
        # How many checks it took in this run, and their processor seconds.
        self.checks, self.seconds = 0, 0.0

    def edits(self):
        folder = os.path.join(self.folder, FOLDER)
        files = sorted(os.listdir(folder)) if os.path.isdir(folder) else []
        for it in files:
            if not it.endswith(".edit"):
                stop("crates/%s/%s/%s is no edit: its name ends in .edit" % (self.name, FOLDER, it))
        return [Edit(self, it) for it in files]

    def library(self):
        """The file of a built library that has the sums of all others."""
        return os.path.join(self.folder, "out", "rlib", self.name + ".rlib", "format")

    def is_proved(self):
        """Whether its own library was built since its files were last written: only a crate whose
        functions are all proved has one."""
        if not os.path.isfile(self.library()):
            return False
        built = os.path.getmtime(self.library())
        return all(os.path.getmtime(path) < built for _, path in files_of(self.folder))


def crates_listed():
    """The crates of crates.txt by name, each with all those below it."""
    crates = {name: Crate(name, uses) for name, uses in sources.crates().items()}

    def add(crate, found):
        for name in crate.uses:
            if name in crates and crates[name] not in found:
                add(crates[name], found)
                found.append(crates[name])
        return found

    for crate in crates.values():
        crate.below = add(crate, [])
    return crates


def files_of(folder):
    """The files of src, specs and proofs, as their path in the folder and their place."""
    for part in PARTS:
        for at, folders, names in os.walk(os.path.join(folder, part)):
            folders.sort()
            for name in sorted(names):
                path = os.path.join(at, name)
                yield os.path.relpath(path, folder), path


def sum_of_files(files):
    total = hashlib.sha256()
    for label, path in files:
        with open(path, "rb") as it:
            total.update(repr((label, it.read())).encode())
    return total.hexdigest()


def sum_below(crate):
    """The sum of the crates below: their line, their files, and the libraries built of them."""
    parts = []
    for it in crate.below:
        files = [*files_of(it.folder), ("library", it.library())]
        parts.append((it.name, it.uses, sum_of_files(files)))
    return hashlib.sha256(repr(parts).encode()).hexdigest()


class Verdicts:
    """What earlier runs found, a file for each verdict, whose name is the sum of what it rests on.

    An edit that is refused has the verdict '', and any other why it is not."""

    def __init__(self, kit, crate, copy, anew):
        cache = os.environ.get("XDG_CACHE_HOME") or os.path.expanduser("~/.cache")
        self.folder = os.path.join(cache, "nuldvaki", "mutants")
        self.crate, self.anew, self.below = crate, anew, sum_below(crate)
        # The copy is what the checks read, whatever happens to the checkout meanwhile.
        self.own = [JUDGED_BY, kit.line, crate.name, crate.uses, sum_of_files(files_of(copy))]

    def path(self, edit):
        rests_on = repr([*self.own, self.below, edit.text])
        return os.path.join(self.folder, hashlib.sha256(rests_on.encode()).hexdigest())

    def known(self, edit):
        """The verdict on the edit, or None."""
        try:
            with open(self.path(edit), encoding="utf-8") as it:
                why = json.load(it)["why"]
            return why if isinstance(why, str) and not self.anew else None
        except (OSError, ValueError, KeyError, TypeError):
            return None

    def keep(self, found):
        """Keeps what was found of edits, unless a library changed since the run began."""
        if sum_below(self.crate) != self.below:
            return
        try:
            os.makedirs(self.folder, exist_ok=True)
            for edit, why in found:
                with tempfile.NamedTemporaryFile("w", dir=self.folder, delete=False) as it:
                    json.dump({"crate": self.crate.name, "edit": edit.name, "why": why}, it)
                os.replace(it.name, self.path(edit))
        except OSError:
            # Without a place to keep them, each run tries all.
            pass


def in_groups(edits):
    """The edits in groups that one check tries: no two of a group are of one function."""
    groups = []
    for edit in edits:
        is_apart = lambda group: all(edit.function != it.function for it in group)
        group = next(filter(is_apart, groups), None)
        if group is None:
            groups.append([edit])
        else:
            group.append(edit)
    return groups


class Bench:
    """A copy of a crate on which its edits are tried, and what the checks of it kept."""

    def __init__(self, kit, crate, room):
        self.kit, self.crate = kit, crate
        self.copy, kept = os.path.join(room, "crate"), os.path.join(room, "kept")
        # What earlier checks of the copy found is kept for those behind them.
        self.flags = ["--incremental", kept]
        for part in PARTS:
            if os.path.isdir(os.path.join(crate.folder, part)):
                shutil.copytree(os.path.join(crate.folder, part), os.path.join(self.copy, part))

    def read(self, edit):
        """Reads what the edit makes of the crate. Says why it can't be tried, or ''."""
        if not edit.function:
            return "its first line is no 'function: PATH'"
        return self.kit.edited(edit.text, self.copy)[1] or ""

    def write(self, texts):
        """Writes these texts into the copy, and answers those that stood there."""
        were = {}
        for path, text in texts.items():
            with open(os.path.join(self.copy, path), "r+", encoding="utf-8") as file:
                were[path] = file.read()
                file.seek(0)
                file.truncate()
                file.write(text)
        return were

    def leave_out(self, edits):
        """Leaves nothing to be proved in the copy but what the functions of these edits are."""
        functions = {it.function for it in edits}
        left_out.Copy(self.crate.name, self.copy, self.kit.made(self.crate), functions).leave_out()
        self.flags.append("--allow-holes")

    def check(self, edits):
        functions = sorted({it.function for it in edits})
        return self.kit.check(self.crate, self.copy, self.flags, functions)

    def sound(self, edits):
        """The edits whose functions are proved as they stand, and why the others can't be tried."""
        why = {}
        while edits:
            said = self.check(edits)
            ended, last = self.kit.ends(said)
            if ended and ended[0] == ended[1]:
                break
            unproved = self.kit.unproved(self.crate, said)
            lost = [it for it in edits if it.function in unproved] or edits
            told = "not tried: its function is not proved as it stands: %s" % last[:200]
            why.update({it.name: told for it in lost})
            edits = [it for it in edits if it not in lost]
        return edits, why

    def unedited(self, edits):
        """Each edit, and why its function has no proof in the copy as it is, or ''."""
        said = self.check(edits)
        ended, last = self.kit.ends(said)
        lost = self.kit.unproved(self.crate, said)
        is_well = lambda it: ended and it.function not in lost
        return [(it.name, "" if is_well(it) else "NOT PROVED in the copy: " + last) for it in edits]

    def apply(self, group):
        """Writes the edits into the copy, one behind the other.

        Answers what stood there, by path, and the edits that do not fit behind the others."""
        were, apart = {}, []
        for edit in group:
            texts, why = self.kit.edited(edit.text, self.copy)
            if why:
                apart.append(edit)
                continue
            for path, text in self.write(texts).items():
                were.setdefault(path, text)
        return were, apart

    def judged(self, group):
        """Each edit of the group with its verdict, and whether it is one that lasts."""
        were, apart = self.apply(group)
        group = [it for it in group if it not in apart]
        said = self.check(group)
        self.write(were)
        alone = [it for edit in apart for it in self.judged([edit])]
        lines = said.split("\n")
        unread = next((it for it in lines if self.kit.unread(it, were)), "")
        unread = unread or self.kit.strayed(self.crate, said)
        ended, last = self.kit.ends(said)
        if len(group) > 1 and (unread or not ended):
            # One of them can't be read, or the check broke off: each is tried alone.
            return alone + [it for edit in group for it in self.judged([edit])]
        if unread or not ended:
            return alone + [(group[0], "not judged: " + (unread or last), False)]
        lost = self.kit.lost(self.crate, said)
        found = alone + [(it, "", True) for it in group if it.function in lost]
        unclear = [it for it in group if it.function not in lost]
        if len(group) == 1:
            return found + [(it, "NOT REFUSED: " + last, True) for it in unclear]
        if len(unclear) < len(group):
            # Each may only call what lost its proof, which now stands as it was.
            return found + (self.judged(unclear) if unclear else [])
        return found + [it for edit in unclear for it in self.judged([edit])]


def lacking(crate):
    """The first library below the crate that isn't built, or None."""
    return next((it for it in crate.below if not os.path.isfile(it.library())), None)


def tried(kit, crate, anew, unedited):
    """Each of the crate's edits with its verdict, '' where it is refused, and how many were tried.
    With `unedited`, whether their functions are proved in the copy that they are tried on."""
    edits, missing = crate.edits(), lacking(crate)
    if missing:
        why = "not tried: the library %s is not built: run `rt ci`" % missing.name
        return [(it.name, why) for it in edits], 0
    with tempfile.TemporaryDirectory(prefix="mutants-") as room:
        bench = Bench(kit, crate, room)
        verdicts = Verdicts(kit, crate, bench.copy, anew)
        found = {it.name: verdicts.known(it) for it in edits}
        new = [it for it in edits if found[it.name] is None]
        for edit in new:
            found[edit.name] = bench.read(edit)
        new = [it for it in new if not found[it.name]]
        if unedited and not crate.is_proved():
            why = "not tried: the library %s is older than its files: run `rt ci`" % crate.name
            return [(it.name, why) for it in edits], 0
        if new and crate.is_proved():
            bench.leave_out(new)
            if unedited:
                return bench.unedited(new), len(new)
        elif new:
            new, why = bench.sound(new)
            found.update(why)
        for group in in_groups(new):
            judged = bench.judged(group)
            verdicts.keep([(edit, why) for edit, why, lasts in judged if lasts])
            found.update({edit.name: why for edit, why, _ in judged})
        return sorted(found.items()), len(new)


def arguments():
    usage = argparse.ArgumentParser(description="Tries the wrong bodies of crates.")
    usage.add_argument("--anew", action="store_true", help="try also what an earlier run tried")
    usage.add_argument("--jobs", type=int, default=0, metavar="N", help="N crates at a time")
    usage.add_argument("--unedited", action="store_true", help="check the copies with no edit")
    usage.add_argument("crates", nargs="*", metavar="CRATE")
    return usage.parse_args()


def main():
    given, listed = arguments(), crates_listed()
    unknown = [it for it in given.crates if it not in listed]
    if unknown:
        stop("crates.txt has no crate %s" % unknown[0])
    os.chdir(TOP)
    kit = Kit()
    crates = [listed[it] for it in given.crates] or [*listed.values()]
    # Those with the most edits first, so that none of them is left alone at the end.
    crates = sorted((it for it in crates if it.edits()), key=lambda it: -len(it.edits()))
    passed, failed, new = 0, 0, 0
    with concurrent.futures.ThreadPoolExecutor(given.jobs or lanes.lanes()) as pool:
        anew = given.anew or given.unedited
        runs = pool.map(lambda it: tried(kit, it, anew, given.unedited), crates)
        for crate, (found, count) in zip(crates, runs):
            new += count
            for name, why in found:
                well = "proved in the copy" if given.unedited else WELL
                print("mutants %s/%s: %s" % (crate.name, name, why or well), flush=True)
                passed, failed = passed + (not why), failed + bool(why)
            if count:
                took = (crate.name, crate.checks, crate.seconds)
                print("mutants %s: %d checks, %.0f processor seconds" % took, flush=True)
    minutes = sum(it.seconds for it in crates) / 60
    of = "%d of %d wrong bodies were tried in this run" % (new, passed + failed)
    print("mutants: %s, in %.1f processor minutes; the others are kept" % (of, minutes))
    print("%d passed, %d failed" % (passed, failed))
    return 1 if failed or not passed else 0


if __name__ == "__main__":
    sys.exit(main())
