#!/usr/bin/env python3
"""Refuses each of colscan's allocations in turn, and looks for an answer that changes in place of
error 1.

out_of_memory.py [PROGRAM]    PROGRAM is crates/colscan/out/colscan, which `rt ci` and `rt run`
leave there

For each session of tests/lines and some random ones the Nth request for memory is refused, for N =
1, 2, .. as long as a run that is refused none makes such a request: for every fourth N with all
that follow until the program writes, so that what it answers then takes no memory, and else alone.
In each run every line is to be answered as `reference.py` answers it, but those that are answered
by error 1 and leave the table as it was: at most one where one request is refused, and else none
but what one read brought. Behind each line that may change the table stand a scan of all rows and a
description of a column, so the answers that follow show the table. The run that is refused none has
no such line, and in each session some run has one.

A library stands before the C library's functions that ask for memory. At each request it forks: the
child is refused this one, and goes on to the session's end. The parent waits for it and goes on
with the memory, so it is the run that is refused none, and what a child shares with it is done
once. Runs that are started one by one would do it again for each request, and take longer to start
than for what they do. A thousand requests are refused in one run of the program, and the next
thousand in another, so that what the children write is never much. The last line is 'N passed, M
failed', counted in sessions.
"""
import collections
import copy
import functools
import glob
import json
import os
import random
import re
import struct
import subprocess
import sys
import tempfile

sys.dont_write_bytecode = True
import outcome
import random_sessions
import reading
import reference
from outcome import make_library, read_file, write_file

MEMORY = b'{"error":1,"name":"Memory"}'
ALL_ROWS = (
    b'{"cmd":"scan","paths":[[]],"where":["=",["lit",{"kind":"u8"},1],["lit",{"kind":"u8"},1]]}'
)
# A line that changes no table, as it is mostly spelled.
LOOKS = re.compile(rb'"cmd":\s*"(scan|describe)"')
# How many requests are refused in one run of the program.
AT_ONCE = 1000
# Of each so many requests one is refused with all behind it until the program writes.
LASTING = 4
# How many bytes a read brings at most.
MOST_READ = 1000
# Longer than such a run may take.
SECONDS = 600

# Of the run that is refused no request: how many were refused to it for all that, and how many it
# made; and the first request for which it forks, and for how many it does.
Plain = collections.namedtuple("Plain", "refused requests first many")
# Of a child: how many requests were refused to it, how it ended as the system says it, and where in
# the output what it wrote begins and ends.
Child = collections.namedtuple("Child", "refused status begin end")
RECORD = struct.Struct("4q")
# What a run of the program leaves: of the run that is refused none its status and what is known of
# it; what is known of the children; what all said on standard error; and what each of them wrote.
Ended = collections.namedtuple("Ended", "status said plain children outputs")
NOT_RUN = -1

# It needs no header and no library to compile. All runs write into one file, one behind the other,
# since a parent waits for its child; it also puts the input back to where it stood. A read brings
# so few bytes that some lines come in two pieces, and memory is refused to the second. A refusal is
# counted where the program gets no memory, and not where it is decided. A child that hangs ends by
# a signal. Behind a child that ends badly no other is tried.
LIBRARY = r"""
typedef unsigned long size;
extern void *__libc_malloc(size), *__libc_calloc(size, size), *__libc_realloc(void *, size);
extern void *__libc_memalign(size, size), *mmap(void *, size, int, int, int, long), _exit(int);
extern int open(const char *, int, ...), _Fork(void), waitpid(int, int *, int);
extern long lseek(int, long, int), __read(int, void *, size), __write(int, const void *, size);
extern unsigned alarm(unsigned);
extern char *getenv(const char *);
static struct { long refused, requests, first, many; } *plain = 0;
static struct child { long refused, status, begin, end; } *now = 0;
/* whether a child is refused all that it asks for */
static int lasts = 0;
static void begin(void) {
    int file = open(getenv("RUNS"), 2);
    plain = mmap(0, lseek(file, 0, 2), 3, 1, file, 0);
}
static int refuses(void) {
    if (now) return lasts;
    if (!plain) begin();
    long number = ++plain->requests - plain->first;
    if (number < 0 || number >= plain->many) return 0;
    struct child *child = (struct child *)(plain + 1) + number;
    long input = lseek(0, 0, 1);
    int status, id;
    child->begin = lseek(1, 0, 1);
    id = _Fork();
    if (id == 0) { alarm(20); now = child; lasts = plain->requests %% %d == 0; return 1; }
    if (id < 0 || waitpid(id, &status, 0) != id || lseek(0, input, 0) != input) _exit(99);
    child->end = lseek(1, 0, 1);
    child->status = status;
    if (status) _exit(99);
    return 0;
}
static void *nothing(void) {
    if (now) now->refused++; else plain->refused++;
    return 0;
}
long read(int file, void *at, size n) { return __read(file, at, n < %d ? n : %d); }
long write(int file, const void *at, size n) {
    if (file == 1) lasts = 0;
    return __write(file, at, n);
}
void *malloc(size n) { return refuses() ? nothing() : __libc_malloc(n); }
void *calloc(size m, size n) { return refuses() ? nothing() : __libc_calloc(m, n); }
void *realloc(void *p, size n) { return refuses() ? nothing() : __libc_realloc(p, n); }
void *aligned_alloc(size a, size n) { return refuses() ? nothing() : __libc_memalign(a, n); }
int posix_memalign(void **p, size a, size n) {
    void *at = refuses() ? nothing() : __libc_memalign(a, n);
    return at ? *p = at, 0 : 12;
}
""" % (LASTING, MOST_READ, MOST_READ)


def with_lf(lines):
    return b"".join(line + b"\n" for line in lines)


def leaves_of(dtype, here=()):
    """The paths of the leaves that records alone lead to."""
    if reading.is_leaf(dtype):
        return [[*here]]
    parts = reading.fields_of(dtype)
    return [path for name, part in parts for path in leaves_of(part, (*here, name))]


def description(session, number):
    """A description of one of the table's columns in one of its groups, by turns, if it has any."""
    leaves = leaves_of(session.table["dtype"]) if session.table else []
    if not leaves or not session.table["groups"]:
        return []
    group = number % len(session.table["groups"])
    line = {"cmd": "describe", "path": leaves[number % len(leaves)], "group": group}
    return [json.dumps(line).encode()]


def with_looks(lines):
    """The lines, behind each of which that may change the table others show it."""
    session, made = reference.Session(), []
    for number, line in enumerate(lines):
        session.answer(line)
        looks = [] if LOOKS.search(line) else [ALL_ROWS, *description(session, number)]
        made += [line, *looks]
    return made


def sessions():
    """Lists of lines, by name."""
    found = {}
    for path in sorted(glob.glob(os.path.join(outcome.TOP, "tests", "lines", "*.in"))):
        found[os.path.basename(path)[:-3]] = read_file(path)
    for number in range(3):
        found["random%03d" % number] = random_sessions.random_session(random.Random(number))
    lines = {
        name: (data[:-1] if data.endswith(b"\n") else data).split(b"\n")
        for name, data in found.items()
        if data
    }
    return {name: with_looks(lines[name]) for name in lines}


def answers(lines):
    """What the lines are answered where memory is refused to some of them: a function of their
    places, in order."""
    session, before, plain = reference.Session(), [], []
    for line in lines:
        before.append(copy.deepcopy(session))
        plain.append(session.answer(line).encode())
    states = [repr(vars(session)) for session in before]

    @functools.lru_cache(None)
    def wanted(refused):
        if not refused:
            return with_lf(plain)
        session, found = copy.deepcopy(before[refused[0]]), plain[: refused[0]]
        # From where the table is as if nothing was refused, the answers are so too.
        while len(found) < len(lines) and (
            len(found) <= refused[-1] or repr(vars(session)) != states[len(found)]
        ):
            at = len(found)
            found.append(MEMORY if at in refused else session.answer(lines[at]).encode())
        return with_lf(found + plain[len(found) :])

    return wanted


def refused_lines(lines, wanted, name, output):
    """The places of the lines that a run answered by error 1. It has to answer all others as
    wanted."""
    found = output.split(b"\n")
    refused = tuple(at for at, answer in enumerate(found) if answer == MEMORY)
    if output != wanted(refused):
        for line, answer, want in zip(lines, found[:-1], wanted(refused).split(b"\n")):
            assert answer == want, "%s: %s is answered %s" % (name, line, answer)
        told = name, len(found) - 1, len(found[-1]), len(lines)
        raise AssertionError("%s: %d answers and %d bytes to %d lines" % told)
    return refused


def outputs(path, children):
    """What each child has written with its parent, and at last what the parent has."""
    written, at = b"", 0
    with open(path, "rb") as file:
        for child in children:
            # Between two children the parent may have written.
            written += file.read(child.begin - at)
            yield written + file.read(child.end - child.begin)
            at = child.end
        yield written + file.read()


def run_program(program, library, folder, first):
    """Runs the session that lies in the folder. It is refused requests from this one on."""
    records, source, out, err = (os.path.join(folder, it) for it in ("runs", "in", "out", "err"))
    plain, child = Plain(0, 0, first, AT_ONCE), Child(0, NOT_RUN, 0, 0)
    write_file(records, RECORD.pack(*plain) + AT_ONCE * RECORD.pack(*child))
    words = {"env": {"LD_PRELOAD": library, "RUNS": records}, "timeout": SECONDS}
    with open(source, "rb") as stdin, open(out, "wb") as stdout, open(err, "wb") as stderr:
        status = subprocess.run(
            [program], stdin=stdin, stdout=stdout, stderr=stderr, **words
        ).returncode
    plain, *children = RECORD.iter_unpack(read_file(records))
    plain = Plain(*plain)
    children = [Child(*it) for it in children[: max(0, plain.requests - first + 1)]]
    return Ended(status, read_file(err), plain, children, outputs(out, children))


def judge_end(name, child):
    """Refuses a child that didn't run, or ended badly."""
    assert child.status != NOT_RUN, "%s: not run" % name
    status = os.waitstatus_to_exitcode(child.status)
    assert status == 0, "%s: status %d" % (name, status)


def judge_refusals(number, child, lines, refused):
    """Refuses a child that was refused other requests than it should, or that answered more lines
    by error 1 than these can be of."""
    if number % LASTING:
        fits = child.refused == 1 and len(refused) <= 1
    else:
        # The last may have only begun.
        between = lines[refused[0] + 1 : refused[-1]] if refused else []
        fits = child.refused >= 1 and len(with_lf(between)) < MOST_READ
    told = number, child.refused, refused
    assert fits, "request %d: refused %d times, error 1 for lines %s" % told


def judge_runs(lines, judge, first, ended):
    """Judges the runs that were refused requests from this one on, and the one refused none.

    Answers in how many of them a line was answered by error 1."""
    refusals, last, refused = 0, None, ()
    for number, child in enumerate(ended.children, first):
        name = "request %d" % number
        judge_end(name, child)
        output = next(ended.outputs)
        # It mostly is the one of the child before.
        if output != last:
            last, refused = output, judge(name, output)
        judge_refusals(number, child, lines, refused)
        refusals += refused != ()
    name = "no request"
    assert ended.status == 0, "%s: status %d" % (name, ended.status)
    refused = judge(name, next(ended.outputs))
    assert refused == () and ended.plain.refused == 0, "error 1 where no request was refused"
    assert ended.said == b"", "%r on standard error" % ended.said[-100:]
    return refusals


def sweep(program, library, folder, lines):
    """Refuses each request in turn. Returns how many there were, and in how many runs a line was
    answered by error 1."""
    write_file(os.path.join(folder, "in"), with_lf(lines))
    judge = functools.partial(refused_lines, lines, answers(lines))
    requests, tried, refusals = None, 0, 0
    while tried != requests:
        ended = run_program(program, library, folder, tried + 1)
        refusals += judge_runs(lines, judge, tried + 1, ended)
        made = ended.plain.requests
        assert requests in (None, made), "%s requests, and then %d" % (requests, made)
        requests, tried = made, tried + len(ended.children)
    assert tried > 0, "no request for memory was seen"
    assert refusals > 0, "%d requests were refused, and no line answered by error 1" % tried
    return tried, refusals


def main():
    passed, failed = 0, 0
    with tempfile.TemporaryDirectory() as folder:
        library = make_library(LIBRARY, folder)
        for name, lines in sessions().items():
            try:
                print(
                    "out of memory %s: %d requests refused in turn, "
                    "%d answers by error 1, all others right"
                    % (name, *sweep(outcome.program(), library, folder, lines))
                )
                passed += 1
            except (AssertionError, OSError, subprocess.SubprocessError) as why:
                print("out of memory %s: FAILED: %s" % (name, why))
                failed += 1
    outcome.end(passed, failed)


main()
