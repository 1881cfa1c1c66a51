"""A copy of a crate in which only what some of its functions rest on is left to be proved.

It is used by mutants.py, and is not called by itself. A proof reads the contracts of what its
function calls and no bodies. So each other function of the copy keeps its contract, loses its body
to one that never returns, and has a hole for its proof, past which a check with `--allow-holes`
goes on. That is for the copy of a crate whose functions are all proved as they stand.
"""
import os
import re
import shutil
import sys

TOP = os.path.dirname(os.path.dirname(os.path.abspath(__file__)))
sys.path.insert(0, os.path.join(TOP, "tools"))
import contracts
import sources

# What a proof is made with, and the file that stands for a whole one.
GIVEN = ("Answers.antt", "Invariants.antt")
PROOF = "Proof.antt"
HOLE = """use Rattle.{crate}.proofs.{module}.Statement.{{statement}}

pub {name}_spec : {{M : Type 1}} → statement M
{name}_spec = ?
"""
NO_BODY = "{ loop {} }"
CYCLE = re.compile(r"#\[cycle\(\w+\)\]\n\s*")


class Bodies(contracts.Reader):
    """The bodies of one file, but for those that a trait or a macro gives."""

    def __init__(self, crate, text):
        super().__init__(crate, text)
        self.read(0, len(self.code), ())

    def block(self, item, word, path, end):
        opened = self.code.find("{", item.end(), end)
        if word in ("trait", "macro_rules") and opened >= 0:
            return sources.end_of_group(self.code, opened)
        return super().block(item, word, path, end)


def last_of(path):
    return path.rpartition("/")[2]


def of_closure(path):
    """The names of the function that a closure stands in, and of its type, if it has one."""
    _, is_closure, function = path.partition("/fn/")
    return function.split("/")[:-1] if is_closure else []


def files_below(folder, ending):
    for at, _, names in os.walk(folder):
        yield from (it for it in (os.path.join(at, name) for name in names) if it.endswith(ending))


class Copy:
    """The copy, and what is left to be proved in it: the functions with these paths, and those that
    have a name of theirs, or stand in a cycle of calls with one of them.

    `made` are the modules that the build of the crate's library made below `proofs`."""

    def __init__(self, crate, folder, made, functions):
        self.crate, self.folder, self.made = crate, folder, made
        self.proofs = os.path.join(folder, "proofs")
        self.kept = {it.replace("::", "/") for it in functions}
        self.names = {last_of(name) for it in self.kept for name in (it, *of_closure(it))}
        self.cycles = {it: self.members(it) for it in self.proofs_made() if last_of(it)[0] == "+"}
        while any(self.keep_whole(it) for it in self.cycles.values()):
            pass

    def proofs_made(self):
        return {it[: -len("/Proof")] for it in self.made if it.endswith("/Proof")}

    def members(self, cycle):
        """The functions of a cycle of calls, for the walk of each of which a module is made."""
        above = cycle.rpartition("/")[0]
        walks = {it[len(cycle) + 1 :] for it in self.made if it.startswith(cycle + "/Lts-")}
        walks = {it[len("Lts-") :].replace("-", "/") for it in walks if "/" not in it}
        return {"/".join(filter(None, (above, it))) for it in walks}

    def keep_whole(self, cycle):
        """Keeps all functions of a cycle of which one is kept. Tells whether that is news."""
        names = {last_of(it) for it in cycle if "++" not in it}
        if not names & self.names or names <= self.names:
            return False
        self.names |= names
        return True

    def is_kept(self, cycle):
        return any(last_of(it) in self.names for it in self.cycles[cycle])

    def leave_out(self):
        for path in files_below(os.path.join(self.folder, "src"), ".rt"):
            with open(path, encoding="utf-8") as it:
                text = it.read()
            with open(path, "w", encoding="utf-8") as it:
                it.write(self.without_bodies(text))
        self.remove_proofs()
        kept = {it for cycle in self.cycles if self.is_kept(cycle) for it in self.cycles[cycle]}
        written = {os.path.dirname(it) for it in files_below(self.proofs, "/" + PROOF)}
        written = {os.path.relpath(it, self.proofs) for it in written}
        for path in (self.proofs_made() | written) - self.kept - kept:
            if self.is_function(path):
                self.put_hole(path)

    def without_bodies(self, text):
        for body in reversed(Bodies(self.crate, text).bodies):
            if body.name not in self.names:
                before = self.without_cycle(text[: body.starts])
                between = text[body.starts : body.opens]
                text = before + between + NO_BODY + text[body.ends :]
        return text

    @staticmethod
    def without_cycle(text):
        """The text in front of a function, without the attribute that puts it in a cycle."""
        found = list(CYCLE.finditer(text))
        if not found or re.search(r"[;}]|\bfn\b", sources.blanked(text[found[-1].end() :])):
            return text
        return text[: found[-1].start()] + text[found[-1].end() :]

    def remove_proofs(self):
        """Removes the proofs of what is no longer there: closures of bodies, and cycles."""
        for at, _, _ in os.walk(self.proofs, topdown=False):
            function = of_closure(os.path.relpath(at, self.folder))[-1:]
            if function and function[0] not in self.names:
                shutil.rmtree(at)
        for cycle in self.cycles:
            if not self.is_kept(cycle):
                shutil.rmtree(os.path.join(self.proofs, cycle), ignore_errors=True)

    def is_function(self, path):
        """Whether a proof is of a function, and of no closure, cycle, law or letting go."""
        name = last_of(path)
        is_own = not name.startswith(("The", "+")) and "++" not in path
        return is_own and "fn" not in path.split("/") and path + "/Statement" in self.made

    def put_hole(self, path):
        folder = os.path.join(self.proofs, path)
        os.makedirs(folder, exist_ok=True)
        for it in GIVEN:
            if os.path.exists(os.path.join(folder, it)):
                os.remove(os.path.join(folder, it))
        module = path.replace("/", ".")
        with open(os.path.join(folder, PROOF), "w", encoding="utf-8") as it:
            it.write(HOLE.format(crate=self.crate, module=module, name=last_of(path)))
