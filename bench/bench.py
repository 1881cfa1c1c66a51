#!/usr/bin/env python3
"""Times colscan on tables of 10,000, 100,000 and 1,000,000 rows of three integer columns.

Usage: bench/bench.py [PROGRAM]     (PROGRAM: crates/colscan/out/colscan, which `rt run` in
crates/colscan leaves there)

Three ways of handing in the same rows: one append; appends of 100 rows; and 100 appends of equal
size. For each: seconds of ingest (create and appends), of a scan that skips all chunks but one
(where the table has several), of a full scan that answers every row, and the peak of memory: after
the ingest (loaded) and after the full scan, whose answer holds every row once more.
"""
import os
import subprocess
import sys
import time

HERE = os.path.dirname(os.path.abspath(__file__))
PROGRAM = (
    sys.argv[1]
    if len(sys.argv) > 1
    else os.path.join(HERE, "..", "crates", "colscan", "out", "colscan")
)
DTYPE = (
    '{"kind":"struct","names":["time","key","value"],'
    '"children":[{"kind":"i64"},{"kind":"u32"},{"kind":"i64","nullable":true}]}'
)
START = 1_700_000_000_000


def rows(first, last):
    """Rows by number: a growing time stamp, a key and a value, which is null in every tenth row."""
    return ",".join(
        "[%d,%d,%s]"
        % (
            START + i,
            i * 2654435761 % 4294967296,
            "null" if i % 10 == 0 else str(i * 7919 - 10**9),
        )
        for i in range(first, last)
    )


def append(first, last):
    return '{"cmd":"append","dtype":%s,"rows":[%s]}\n' % (DTYPE, rows(first, last))


def scan(operator, number, paths="[[]]"):
    return '{"cmd":"scan","paths":%s,"where":["%s",["col","time"],["lit",{"kind":"i64"},%d]]}\n' % (
        paths,
        operator,
        number,
    )


class Session:
    """One run of the program, fed line by line."""

    def __init__(self):
        self.process = subprocess.Popen([PROGRAM], stdin=subprocess.PIPE, stdout=subprocess.PIPE)

    def ask(self, line):
        started = time.perf_counter()
        self.process.stdin.write(line)
        self.process.stdin.flush()
        answer = self.process.stdout.readline()
        return answer, time.perf_counter() - started

    def peak(self):
        """The peak of resident memory so far, in bytes."""
        with open("/proc/%d/status" % self.process.pid) as status:
            return next(int(line.split()[1]) * 1024 for line in status if line.startswith("VmHWM"))

    def end(self):
        self.process.stdin.close()
        assert self.process.wait() == 0


def measure(count, size):
    """Seconds of ingest, of a selective and of a full scan; peak bytes after ingest and at the end;
    bytes of the longest line and of all."""
    lines = ['{"cmd":"create","dtype":%s,"length":16}\n' % DTYPE]
    lines += [append(first, min(first + size, count)) for first in range(0, count, size)]
    lines = [line.encode() for line in lines]
    session = Session()
    ingest = 0.0
    for line in lines:
        answer, seconds = session.ask(line)
        assert answer == b'{"ok":true}\n', answer
        ingest += seconds
    loaded = session.peak()
    answer, selective = session.ask(scan(">=", START + count - 1).encode())
    assert b'"rows":[[%d,' % (START + count - 1) in answer, answer[:200]
    answer, full = session.ask(scan(">=", START).encode())
    assert answer.count(b"[%d" % (START // 10**9)) >= count, "rows are missing"
    scanned = session.peak()
    session.end()
    return ingest, selective, full, loaded, scanned, max(map(len, lines)), sum(map(len, lines))


def main():
    print(
        "%9s %8s %9s %9s %12s %11s %9s %10s %9s %9s"
        % (
            "rows",
            "a chunk",
            "ingest s",
            "rows/s",
            "selective s",
            "full scan s",
            "rows/s",
            "longest MB",
            "loaded MB",
            "peak MB",
        )
    )
    for label, size_of in (
        ("one append", lambda count: count),
        ("appends of 100 rows", lambda count: 100),
        ("100 appends", lambda count: count // 100),
    ):
        print("-- " + label)
        for count in (10_000, 20_000, 100_000, 200_000, 500_000, 1_000_000):
            ingest, selective, full, loaded, scanned, longest, total = measure(
                count, size_of(count)
            )
            print(
                "%9d %8d %9.3f %9.0f %12.5f %11.3f %9.0f %10.2f %9.1f %9.1f   "
                "loading took %.1f times the longest line"
                % (
                    count,
                    size_of(count),
                    ingest,
                    count / ingest,
                    selective,
                    full,
                    count / full,
                    longest / 1e6,
                    loaded / 1e6,
                    scanned / 1e6,
                    loaded / longest,
                )
            )


main()
