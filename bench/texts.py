#!/usr/bin/env python3
"""Times colscan on strings: a million short ones, and 10,000 of 100,000 bytes.

Usage: bench/texts.py [PROGRAM [SHORT LONG BYTES]]     (PROGRAM: crates/colscan/out/colscan, which
`rt run` in crates/colscan leaves there;
1000000 short strings, 10000 long ones of 100000 bytes each)

Strings are handed in in 100 appends of equal size, in ascending order, so that chunks hold ranges
of their own. The long ones are alike but for their last 16 bytes: bounds of length 16 tell nothing
of them, and bounds of their own length tell all. For each: seconds of ingest (create and appends);
of a scan for one string; of a scan that tests all rows and answers each without its columns; of a
scan that answers every string; and the peak of memory after the ingest and at the end. Long strings
are a GB in all, and their full answer is another.
"""
import os
import subprocess
import sys
import time

HERE = os.path.dirname(os.path.abspath(__file__))
PROGRAM = (
    sys.argv[1]
    if len(sys.argv) > 1
    else os.path.join(HERE, "..", "crates", "colscan", "out", "colscan")
)
SHORT, LONG, BYTES = map(int, sys.argv[2:5]) if len(sys.argv) > 4 else (1_000_000, 10_000, 100_000)
DTYPE = '{"kind":"struct","names":["s"],"children":[{"kind":"utf8"}]}'
APPENDS = 100


def text(number, size):
    """A string of `size` bytes that ends in its number."""
    return "x" * (size - 16) + "%016d" % number


def scan(operator, value, paths="[[]]"):
    return '{"cmd":"scan","paths":%s,"where":["%s",["col","s"],["lit",{"kind":"utf8"},"%s"]]}\n' % (
        paths,
        operator,
        value,
    )


class Session:
    """One run of the program, fed line by line."""

    def __init__(self):
        self.process = subprocess.Popen([PROGRAM], stdin=subprocess.PIPE, stdout=subprocess.PIPE)

    def ask(self, line):
        line = line.encode()
        started = time.perf_counter()
        self.process.stdin.write(line)
        self.process.stdin.flush()
        answer = self.process.stdout.readline()
        return answer, time.perf_counter() - started

    def peak(self):
        """The peak of resident memory so far, in bytes."""
        with open("/proc/%d/status" % self.process.pid) as status:
            return next(int(line.split()[1]) * 1024 for line in status if line.startswith("VmHWM"))

    def end(self):
        self.process.stdin.close()
        assert self.process.wait() == 0


def measure(count, size, length):
    """Seconds of ingest and of the three scans, peak bytes after the ingest and at the end, and how
    many chunks the scan for one text skipped."""
    session, ingest, each = Session(), 0.0, count // APPENDS
    answer, seconds = session.ask('{"cmd":"create","dtype":%s,"length":%d}\n' % (DTYPE, length))
    assert answer == b'{"ok":true}\n', answer
    ingest += seconds
    for first in range(0, each * APPENDS, each):
        rows = ",".join('["%s"]' % text(number, size) for number in range(first, first + each))
        answer, seconds = session.ask('{"cmd":"append","dtype":%s,"rows":[%s]}\n' % (DTYPE, rows))
        assert answer == b'{"ok":true}\n', answer
        ingest += seconds
    loaded = session.peak()
    answer, one = session.ask(scan("=", text(each * APPENDS // 2, size)))
    assert answer.count(b'[["x') == 1 or size == 16 and answer.count(b'[["0') == 1, answer[:200]
    skipped = answer.rpartition(b'"skipped":[')[2].partition(b"]")[0]
    answer, tested = session.ask(scan("!=", "", "[]"))
    assert answer.count(b"[]") >= each * APPENDS, "rows are missing"
    answer, full = session.ask(scan("!=", ""))
    assert answer.count(b'["') >= each * APPENDS, "rows are missing"
    peak = session.peak()
    session.end()
    return ingest, one, tested, full, loaded, peak, skipped.count(b",") + 1 if skipped else 0


def main():
    print(
        "%9s %7s %9s %9s %9s %9s %10s %9s %10s %9s"
        % (
            "texts",
            "bytes",
            "length",
            "ingest s",
            "one s",
            "skipped",
            "all rows s",
            "full s",
            "loaded MB",
            "peak MB",
        )
    )
    for count, size, length in (
        (SHORT, 16, 16),
        (SHORT, 16, 8),
        (LONG, BYTES, 16),
        (LONG, BYTES, BYTES),
    ):
        ingest, one, tested, full, loaded, peak, skipped = measure(count, size, length)
        print(
            "%9d %7d %9d %9.3f %9.5f %9d %10.3f %9.3f %10.1f %9.1f"
            % (count, size, length, ingest, one, skipped, tested, full, loaded / 1e6, peak / 1e6),
            flush=True,
        )


main()
