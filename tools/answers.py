#!/usr/bin/env python3
"""Finds written answers that make the check of a crate faster, and writes them into the crate.

answers.py CRATE [SECONDS]    at the top of the repository, with the libraries below the crate
built, as `rt check CRATE` leaves them

At a goal with no answer the check tries one call of a tactic after another. The first ones walk
over each form of a type, so even the call that closes the goal can take seconds, where another
takes none. Each function whose goals took over SECONDS (2, where none are given) is tried with a
written answer for each goal that one call closes, in two orders of the calls; it keeps what is
faster by a second at least, and else leaves the function as it was. The crate is checked whole two or three times, by one job, and processor
seconds are compared, which other work on the machine changes little. What it wrote is seen by
`git diff`.
"""
import bisect
import importlib.machinery
import os
import re
import shutil
import subprocess
import sys
import tempfile
import time

sys.dont_write_bytecode = True
COMMON = "Rattle.std.proofs.Common"
# The short search, which is not in the check's own list at a goal on a type that holds itself.
SHORT = ("search rules", ((COMMON, "rules"),))
# What `search` and `grind` name without a module in what the check prints.
BARE = ("rules", "ints", "get_or_read", "tests", "stepping", "returning", "as_err")
FASTER = 1.0


def load():
    """The kit's own `rt`, whose words for a check are used here."""
    return importlib.machinery.SourceFileLoader(
        "rt", os.path.realpath(shutil.which("rt"))
    ).load_module()


class Tried:
    """A copy of a crate, on which answers are tried."""

    def __init__(self, name):
        rt = load()
        self.lib, self.name = rt.rtlib, name
        self.lib.guarded()
        self.crate = next(it for it in self.lib.crates_below(os.getcwd()) if it.name == name)
        self.room = tempfile.mkdtemp(prefix="answers-")
        self.copy, self.kept, self.printed = (
            os.path.join(self.room, it) for it in ("crate", "kept", "printed")
        )
        shutil.copytree(
            self.crate.folder, self.copy, ignore=shutil.ignore_patterns("out", "must-fail")
        )
        self.own = {
            self.function_of(path): text_of(path)
            for path in files_named("Answers.antt", os.path.join(self.copy, "proofs"))
        }

    def function_of(self, path):
        return os.path.relpath(os.path.dirname(path), os.path.join(self.copy, "proofs"))

    def file_of(self, function):
        return os.path.join(self.copy, "proofs", function, "Answers.antt")

    def check(self, *flags):
        words = self.crate.words(["--jobs", "1"], keeps=False)
        words = [self.lib.RATTLE, "check", *words, "--incremental", self.kept, *flags]
        with tempfile.TemporaryFile("w+", errors="replace") as said:
            how = {"stdin": subprocess.DEVNULL, "stdout": said, "stderr": subprocess.STDOUT}
            ran = subprocess.Popen([*self.lib.guarded(), *words], cwd=self.copy, **how)
            self.clock = clock_of(ran)
            said.seek(0)
            return said.read()

    def times(self):
        """The processor seconds that each function's goals took in the last check, by when their
        files were written."""
        files = sorted(
            (os.stat(path).st_mtime, os.path.basename(path)) for path in files_named("", self.kept)
        )
        took = {}
        for (before, _), (at, name) in zip(files, files[1:]):
            found = re.match(
                r"Rattle-%s-proofs\.(.*)\.(Proof|Answers)(\.decls)?\.oantt$" % self.name, name
            )
            if found:
                function = found.group(1).replace(".", "/")
                spent = spent_by(self.clock, at) - spent_by(self.clock, before)
                took[function] = took.get(function, 0.0) + spent
        return took

    def times_anew(self):
        """The same, once the crate was checked whole. Nothing where it isn't proved."""
        shutil.rmtree(self.kept)
        return self.times() if "logic=proved" in self.check() else {}

    def goals(self, function):
        """Each open goal of the function: its arguments and the calls that the check tries at it."""
        file = os.path.join(self.printed, "Rattle-%s-proofs" % self.name, function, "Proof.antt")
        if not os.path.exists(file):
            return {}
        answered = set(re.findall(r"^(?:abbrev )?pub (\S+) :", self.own.get(function, ""), re.M))
        return {
            goal: found for goal, found in goals_in(text_of(file)).items() if goal not in answered
        }

    def write(self, function, goals, answers):
        """Writes the function's own answers and these."""
        text = self.own.get(function, "")
        if answers:
            text = with_answers(
                text,
                "Rattle.%s.proofs.%s.Goals" % (self.name, function.replace("/", ".")),
                {goal: (goals[goal][0], *call) for goal, call in answers.items()},
            )
        put(self.file_of(function), text)

    def refused(self, said):
        """The goals whose answers the check refused, and a goal None for a file that it could not
        read."""
        found = set()
        for path, line in re.findall(
            r"^(?:note: )?(?:\./)?proofs/(\S+)/Answers\.antt:(\d+):\d+: .*error", said, re.M
        ):
            above = text_of(self.file_of(path)).split("\n")[: int(line)]
            names = [
                it.group(1)
                for it in (re.match(r"(?:abbrev )?pub (\S+) :", row) for row in above)
                if it
            ]
            found.add((path, names[-1] if names else None))
        return found


def clock_of(process):
    """Waits for the process. Answers, in order, moments and the processor seconds spent by then."""
    ticks, clock = os.sysconf("SC_CLK_TCK"), [(0.0, 0.0)]
    while process.poll() is None:
        with open("/proc/%d/stat" % process.pid) as it:
            parts = it.read().rpartition(")")[2].split()
        clock.append((time.time(), (int(parts[11]) + int(parts[12])) / ticks))
        time.sleep(0.05)
    return clock


def spent_by(clock, moment):
    """The processor seconds spent by a moment, read off between the two next to it."""
    at = bisect.bisect(clock, (moment,))
    if at in (0, len(clock)):
        return clock[at - 1][1]
    (before, spent), (after, all_spent) = clock[at - 1], clock[at]
    return spent + (all_spent - spent) * (moment - before) / (after - before)


def files_named(name, folder):
    return [
        os.path.join(at, it)
        for at, _, files in os.walk(folder)
        for it in files
        if it == name or not name
    ]


def text_of(path):
    with open(path, encoding="utf-8") as file:
        return file.read()


def put(path, text):
    """Writes the file, or removes it and the folders that it leaves empty where there is no text."""
    if text:
        os.makedirs(os.path.dirname(path), exist_ok=True)
        with open(path, "w", encoding="utf-8") as file:
            file.write(text)
    elif os.path.exists(path):
        os.remove(path)
        folder = os.path.dirname(path)
        while not os.listdir(folder):
            os.rmdir(folder)
            folder = os.path.dirname(folder)


def goals_in(text):
    """The goals of a printed proof for which the check has a list of calls."""
    whole, bare = {}, {}
    for module, names, path, other in re.findall(
        r"^use (\S+?)(?:\.\{([^}]*)\}|()| as (\S+))$", text, re.M
    ):
        if names:
            bare.update(
                {
                    it.strip().split(" as ")[-1]: (module, it.strip().split(" as ")[0])
                    for it in names.split(",")
                }
            )
        else:
            whole[other or module.split(".")[-1]] = module
    lines, found = text.split("\n"), {}
    begins = [
        it
        for it, line in enumerate(lines)
        if re.match(r"\s*[^\s=()]+ (?:[^\s:()→]+ )*=( |$)", line)
        and not line.lstrip().startswith(("let ", "use ", "--"))
    ]
    stated = [it for it, line in enumerate(lines) if re.match(r"\s*(pub )?[^\s=()]+ :( |$)", line)]
    for at in begins:
        goal, arguments = re.match(r"\s*([^\s=()]+) ((?:[^\s=:()→]+ )*)=", lines[at]).groups()
        body = "\n".join(
            lines[at : min([it for it in begins + stated if it > at], default=len(lines))]
        )
        if arguments and "first_of (" in body:
            found[goal] = arguments.strip(), [
                named(it, whole, bare) for it in calls_in(body[body.index("first_of (") :])
            ]
    return found


def calls_in(text):
    """The calls of tactics in a string, in order, each in one line and without its bounds."""
    found, after = [], 0
    for it in re.finditer(r"\b(search|grind) ", text):
        if it.start() < after:
            continue
        at = it.end()
        if text[at] == "(":
            depth = 0
            while depth or at == it.end():
                depth += {"(": 1, ")": -1}.get(text[at], 0)
                at += 1
        else:
            at = re.compile(r"[^\s,)]+").match(text, at).end()
        after = at
        found.append(plain(re.sub(r"\s+", " ", text[it.start() : at])))
    return found


def plain(call):
    """The call with what a file of answers can name: lemmas, and what is known in the goal."""
    word, _, rest = call.partition(" (")
    if not rest:
        return call
    depth, parts = 0, [""]
    for letter in rest[:-1]:
        depth += {"(": 1, ")": -1}.get(letter, 0)
        if letter == "," and not depth:
            parts.append("")
        else:
            parts[-1] += letter
    parts = [it.strip() for it in parts]
    return "%s (%s)" % (
        word,
        ", ".join(it for it in parts if re.fullmatch(r"[^\s()]+|\(as_err c\.[^\s()]+\)\.1", it)),
    )


def named(call, whole, bare):
    """The call with bare names, and what it imports."""
    imports = []

    def short(it):
        module, name = whole.get(it.group(1)), it.group(2)
        if module is None:
            return it.group(0)
        if name == "arith":
            imports.append((COMMON, name))
        elif name == "the_lemmas":
            as_name = {"TheTie": "laws"}.get(module.split(".")[-1]) or re.sub(
                r"(?<=[a-z])(?=[A-Z])", "_", module.split(".")[-2]
            ).lower() + "_folds"
            imports.append((module + " as", as_name))
            return "%s.%s" % (as_name, name)
        else:
            imports.append((module, name))
        return name

    call = re.sub(r"(?<![\w.])([A-Z][\w']*)\.([^\s,()]+)", short, call)
    for name in BARE:
        if re.search(r"(?<![\w.])%s(?![\w.])" % name, call) and not any(
            it == name for _, it in imports
        ):
            imports.append((COMMON, name) if name == "rules" else bare.get(name, (COMMON, name)))
    return call, tuple(imports)


def with_answers(text, goals_module, answers):
    """A file of answers with these added: goal to arguments, call and imports."""
    lines = text.split("\n")
    count = next((at for at, line in enumerate(lines) if not line.startswith("use ")), len(lines))
    uses, body = [
        it for it in lines[:count] if not it.startswith("use %s as" % goals_module)
    ], "\n".join(lines[count:]).strip("\n")
    wanted = {}
    for _, _, imports in answers.values():
        for module, name in imports:
            wanted.setdefault(module, {})[name] = None
    for module, names in wanted.items():
        if module.endswith(" as"):
            line = "use %s %s" % (module, *names)
            uses = [*(it for it in uses if it != line), line]
            continue
        had = [it for it in uses if it.startswith("use %s.{" % module)]
        known = [it.strip() for line in had for it in line.split("{")[1].rstrip("}").split(",")]
        uses = [
            *(it for it in uses if it not in had),
            "use %s.{%s}" % (module, ", ".join([*known, *(it for it in names if it not in known)])),
        ]
    uses.sort(
        key=lambda it: (not it.startswith("use %s." % COMMON), not it.startswith("use Rattle.std."))
    )
    written = [
        "pub %s : goal.%s\n%s %s = %s" % (goal, goal, goal, arguments, call)
        for goal, (arguments, call, _) in answers.items()
    ]
    return (
        "\n\n".join(
            [
                "\n".join([*uses, "use %s as goal" % goals_module]),
                *([body] if body else []),
                *written,
            ]
        )
        + "\n"
    )


def closed(tried, goals, orders):
    """For each function, the goals that a call of its order closes, with the first that does."""
    found, left = {it: {} for it in goals}, {
        (function, goal) for function in goals for goal in goals[function]
    }
    for turn in range(4):
        calls = {key: orders[key][turn] for key in left if turn < len(orders[key])}
        if not calls:
            break
        for function in goals:
            tried.write(
                function,
                goals[function],
                {goal: calls.get((function, goal), ("?", ())) for goal in goals[function]},
            )
        refused = tried.refused(tried.check("--allow-holes"))
        for function, goal in calls:
            if not refused & {(function, goal), (function, None)}:
                found[function][goal] = calls[function, goal]
                left.discard((function, goal))
    return found


def orders_of(goals, is_short):
    """The calls to try at each goal, in order: those of `grind` that the check would try, below the
    short search or without it."""
    calls = {
        (function, goal): [it for it in goals[function][goal][1] if it[0].startswith("grind")]
        for function in goals
        for goal in goals[function]
    }
    return {
        key: list(dict.fromkeys([*([SHORT] if is_short else []), *found]))
        for key, found in calls.items()
    }


def main(name, seconds=2.0):
    tried = Tried(name)
    said = tried.check("--generated", tried.printed)
    before = tried.times()
    if not before:
        sys.exit(said[-2000:])
    goals = {
        function: tried.goals(function) for function, took in before.items() if took >= seconds
    }
    goals = {function: found for function, found in goals.items() if found}
    best = {function: (before[function], {}) for function in goals}
    for is_short in (True, False):
        slow = {function: found for function, found in goals.items() if not best[function][1]}
        found = closed(tried, slow, orders_of(slow, is_short))
        for function in goals:
            tried.write(function, goals[function], found.get(function) or best[function][1])
        after = tried.times_anew() if any(found.values()) else {}
        for function in slow:
            print(
                "%s: %s: %.1f s, %.1f with answers for %d of %d goals"
                % (
                    name,
                    function,
                    before[function],
                    after.get(function, 0.0),
                    len(found[function]),
                    len(goals[function]),
                ),
                flush=True,
            )
            if (
                found[function]
                and after.get(function, before[function]) < best[function][0] - FASTER
            ):
                best[function] = after[function], found[function]
    for function, (took, answers) in best.items():
        tried.write(function, goals[function], answers)
        put(
            os.path.join(tried.crate.folder, "proofs", function, "Answers.antt"),
            text_of(tried.file_of(function)) if os.path.exists(tried.file_of(function)) else "",
        )
    said = tried.check()
    print(
        "%s: %d answers, %.0f s less, %s"
        % (
            name,
            sum(len(it) for _, it in best.values()),
            sum(before[it] - took for it, (took, _) in best.items()),
            "proved" if "logic=proved" in said else "NOT PROVED",
        )
    )
    shutil.rmtree(tried.room)


if __name__ == "__main__":
    if len(sys.argv) not in (2, 3):
        sys.exit(__doc__.strip())
    main(sys.argv[1], *map(float, sys.argv[2:]))
