#!/usr/bin/env python3
"""Cuts colscan's input and output anywhere, and lets each read and write fail in turn.

cuts.py [PROGRAM]    PROGRAM is crates/colscan/out/colscan, which `rt ci` and `rt run` leave there

The session is tests/lines/every_command, for which tests/calls/table_run tries these cases in
memory, with a flush that fails too: on the program's own output no flush can fail. Reads are of at
most one byte, of at most two, and so on; the input ends at each of its bytes; and each read, of
seven bytes, and each write, of one, fails or takes nothing.

A library stands before the C library's `read` and `write`, and cuts them. Before `main` it forks a
child for each case, since some thousands of new processes would take longer than what they do. The
program reads and writes by these two alone, with no buffer between, so how a case ends is known to
the byte: the answers to the lines that a read brought go out before the next read, and nothing is
read or written after a failure. The last line is 'N passed, M failed', counted in parts; the status
is 0 if none failed.
"""
import collections
import errno
import os
import struct
import subprocess
import sys
import tempfile

sys.dont_write_bytecode = True
import outcome
from outcome import make_library, read_file, write_file

SESSION = os.path.join(outcome.TOP, "tests", "lines", "every_command")
BAD_LINE = b'{"error":18,"name":"BadLine"}\n'
READ_FAILED = b"colscan: read failed\n"
WRITE_FAILED = b"colscan: write failed\n"
# How many bytes a read brings where one fails, as in tests/calls/table_run.
SEVEN = 7
# More than any run reads or writes at once, and more often.
ALWAYS = 2**62
# In place of an error: the call that fails takes no byte.
NOTHING = 0
# An interrupted call has failed as any other.
OF_READS = (errno.EIO, errno.EINTR)
OF_WRITES = (errno.EIO, errno.EINTR, NOTHING)
# Longer than all cases of a part may take.
SECONDS = 120
# How many wrong cases of a part are told.
MOST_TOLD = 12

# How a case is cut: where the input ends, how much a read brings at most and how many of them are
# good, the same of writes, and what the next one fails by.
Cut = collections.namedtuple("Cut", "end most_read good_reads most_written good_writes error")
# How a run ends: its status, and what it wrote on both outputs.
End = collections.namedtuple("End", "status written said")
Case = collections.namedtuple("Case", "name cut wanted")

# A case of the library's: a cut, how many reads and writes there were, how the run ended as the
# system says it, and how long both outputs of all runs are then.
RECORD = struct.Struct("11q")
NOT_RUN = -1

# It needs no header and no library to compile. A child that reads or writes after a failure ends
# with status 99, and one that hangs by a signal.
LIBRARY = r"""
typedef unsigned long size;
extern long __read(int, void *, size), __write(int, const void *, size), lseek(int, long, int);
extern int *__errno_location(void), open(const char *, int, ...), fork(void);
extern int waitpid(int, int *, int);
extern unsigned alarm(unsigned);
extern void _exit(int), *mmap(void *, size, int, int, int, long);
extern char *getenv(const char *);
static struct {
    long end, most_read, good_reads, most_written, good_writes, error;
    long reads, writes, status, written, said;
} *now;
static long at = 0;
static int has_failed = 0;
static size least(size a, size b) { return a < b ? a : b; }
static int fails(long number, long good) {
    if (has_failed) _exit(99);
    return has_failed = number == good;
}
static long fault(void) {
    *__errno_location() = now->error;
    return now->error ? -1 : 0;
}
long read(int from, void *to, size most) {
    if (from != 0) return __read(from, to, most);
    if (fails(now->reads++, now->good_reads)) return fault();
    long got = __read(from, to, least(most, least(now->most_read, now->end - at)));
    at += got;
    return got;
}
long write(int to, const void *from, size most) {
    if (to != 1) return __write(to, from, most);
    if (fails(now->writes++, now->good_writes)) return fault();
    return __write(to, from, least(most, now->most_written));
}
/* The children write one behind the other into the same two files, and count in the shared case. */
__attribute__((constructor)) static void serve(void) {
    int file = open(getenv("CASES"), 2), child, status;
    long length = lseek(file, 0, 2);
    now = mmap(0, length, 3, 1, file, 0);
    for (long left = length / sizeof *now; left > 0; left--, now++) {
        lseek(0, 0, 0);
        child = fork();
        if (child == 0) { alarm(20); return; }
        if (child < 0 || waitpid(child, &status, 0) != child) _exit(1);
        now->status = status;
        now->written = lseek(1, 0, 1);
        now->said = lseek(2, 0, 1);
    }
    _exit(0);
}
"""


def read_session():
    """The lines of the session, each with its answer and without LF."""
    lines, answers = (read_file(SESSION + it).split(b"\n")[:-1] for it in (".in", ".out"))
    assert len(lines) == len(answers) > 0, "%d answers to %d lines" % (len(answers), len(lines))
    return list(zip(lines, answers))


def with_lf(lines):
    return b"".join(line + b"\n" for line in lines)


def input_of(session):
    return with_lf(line for line, _ in session)


def output_of(session):
    return with_lf(answer for _, answer in session)


def answered(session, end):
    """The answers to the whole lines among so many bytes of the input."""
    return output_of(session[: input_of(session)[:end].count(b"\n")])


def cut_anywhere(session):
    """Reads of at most one byte, of at most two, and so on to the whole input; writes of at most
    one, two or three bytes."""
    end, wanted = len(input_of(session)), End(0, output_of(session), b"")
    for most in range(1, end + 1):
        cut = Cut(end, most, ALWAYS, 1 + most % 3, ALWAYS, NOTHING)
        yield Case("reads of at most %d" % most, cut, wanted)


def ended_anywhere(session):
    """The input without its end, from none of its bytes to all of them. A command that is cut is a
    bad line, but where only its LF is gone."""
    given = input_of(session)
    for end in range(len(given) + 1):
        written = answered(session, end)
        whole, last = given[:end].count(b"\n"), given[:end].split(b"\n")[-1]
        if last:
            line, answer = session[whole]
            written += answer + b"\n" if last == line else BAD_LINE
        cut = Cut(end, ALWAYS, ALWAYS, ALWAYS, ALWAYS, NOTHING)
        yield Case("an end at %d" % end, cut, End(0, written, b""))


def failed_reads(session):
    """Reads of seven bytes, of which the first fails, or the second, and so on until none does."""
    end, output = len(input_of(session)), output_of(session)
    # Those that bring bytes, and one more that finds the end.
    needed = -(-end // SEVEN) + 1
    for good in range(needed + 1):
        cut = Cut(end, SEVEN, good, ALWAYS, ALWAYS, OF_READS[good % len(OF_READS)])
        failed = End(1, answered(session, SEVEN * good), READ_FAILED)
        wanted = failed if good < needed else End(0, output, b"")
        yield Case("%d good reads" % good, cut, wanted)


def failed_writes(session):
    """Writes of one byte, of which the first fails, or the second, and so on until none does; and a
    first one that takes nothing."""
    end, output = len(input_of(session)), output_of(session)
    tried = [(good, OF_WRITES[good % len(OF_WRITES)]) for good in range(len(output) + 1)]
    for good, error in [*tried, (0, NOTHING)]:
        cut = Cut(end, ALWAYS, ALWAYS, 1, good, error)
        failed = End(1, output[:good], WRITE_FAILED)
        wanted = failed if good < len(output) else End(0, output, b"")
        by = errno.errorcode.get(error, "one that takes nothing")
        yield Case("%d good writes, and then %s" % (good, by), cut, wanted)


PARTS = {
    "reads and writes may be cut anywhere": cut_anywhere,
    "an input may end anywhere": ended_anywhere,
    "each read may fail": failed_reads,
    "each write may fail": failed_writes,
}


def run_cuts(program, library, folder, given, cuts):
    """Runs the program under each of these cuts. Answers what is known of each, the last fields of
    its record, and all that was written on both outputs."""
    cases, source, out, err = (os.path.join(folder, it) for it in ("cases", "in", "out", "err"))
    write_file(cases, b"".join(RECORD.pack(*cut, 0, 0, NOT_RUN, 0, 0) for cut in cuts))
    write_file(source, given)
    words = {"env": {"LD_PRELOAD": library, "CASES": cases}, "timeout": SECONDS}
    with open(source, "rb") as stdin, open(out, "wb") as stdout, open(err, "wb") as stderr:
        try:
            subprocess.run([program], stdin=stdin, stdout=stdout, stderr=stderr, **words)
        except subprocess.TimeoutExpired:
            # The cases that were not run say so.
            pass
    found = [it[len(Cut._fields) :] for it in RECORD.iter_unpack(read_file(cases))]
    return found, read_file(out), read_file(err)


def is_cut(cut, end, reads, writes):
    """Whether the library can have cut the run: it counted as many reads and writes as it takes."""
    are_enough = writes * cut.most_written >= len(end.written)
    return are_enough and (end.status != 0 or reads * cut.most_read >= cut.end)


def told(end, wanted):
    """How a wrong run ended."""
    if end.status is None:
        return "not run"
    right = len(os.path.commonprefix([end.written, wanted.written]))
    return "status %d, %d bytes written, of which %d right and %d wanted, %r said" % (
        end.status, len(end.written), right, len(wanted.written), end.said[-100:]
    )


def wrong_cases(program, library, folder, session, cases):
    """What is told of each case that doesn't end as it should."""
    cuts = [case.cut for case in cases]
    found, written, said = run_cuts(program, library, folder, input_of(session), cuts)
    from_written = from_said = 0
    for case, (reads, writes, status, to_written, to_said) in zip(cases, found):
        status = None if status == NOT_RUN else os.waitstatus_to_exitcode(status)
        end = End(status, written[from_written:to_written], said[from_said:to_said])
        if end != case.wanted:
            yield "%s: %s" % (case.name, told(end, case.wanted))
        elif not is_cut(case.cut, end, reads, writes):
            yield "%s: %d reads and %d writes can't be all" % (case.name, reads, writes)
        from_written, from_said = to_written, to_said


def try_parts(program, folder):
    """How many parts passed, and how many failed."""
    library, session, outcomes = make_library(LIBRARY, folder), read_session(), []
    for name, part in PARTS.items():
        cases = list(part(session))
        wrong = list(wrong_cases(program, library, folder, session, cases))
        for it in wrong[:MOST_TOLD]:
            print("cuts: FAILED: " + it)
        print("cuts %s: %d runs right, %d wrong" % (name, len(cases) - len(wrong), len(wrong)))
        outcomes.append(not wrong)
    return sum(outcomes), len(outcomes) - sum(outcomes)


def main():
    with tempfile.TemporaryDirectory() as folder:
        try:
            passed, failed = try_parts(outcome.program(), folder)
        except (AssertionError, AttributeError, OSError, ValueError,
                subprocess.SubprocessError) as why:
            # Not all of them were tried.
            print("cuts: FAILED: %s" % why)
            passed, failed = 0, len(PARTS)
    outcome.end(passed, failed)


main()
