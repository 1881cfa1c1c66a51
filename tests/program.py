#!/usr/bin/env python3
"""Runs colscan on real streams: how it ends, and what it says on standard error.

program.py [PROGRAM]    PROGRAM is crates/colscan/out/colscan, which `rt ci` and `rt run` leave there

Contracts say when `run` answers which error, and nothing of the program's status. So each way to
end is tried: an input that ends, one that can't be read, an output that can't be written, and an
input that comes in pieces. The last line is 'N passed, M failed'; the status is 0 if none failed.
"""
import os
import subprocess
import sys
import tempfile

sys.dont_write_bytecode = True
import outcome

# Longer than what a run that fails may take.
SECONDS = 60


def ends(words, stdin, stdout=subprocess.PIPE):
    """The status, and what was written on both outputs."""
    run = subprocess.run(
        words, stdin=stdin, stdout=stdout, stderr=subprocess.PIPE, timeout=SECONDS
    )
    return run.returncode, run.stdout, run.stderr


def in_pieces(words, pieces):
    """What is answered to an input that comes in pieces, each once the one before was taken."""
    run = subprocess.Popen(words, stdin=subprocess.PIPE, stdout=subprocess.PIPE)
    for piece in pieces:
        run.stdin.write(piece)
        run.stdin.flush()
    written, _ = run.communicate(timeout=SECONDS)
    return run.returncode, written


def main():
    program = outcome.program()
    at, outcomes = os.path.join(outcome.TOP, "tests", "lines", "first"), []
    first, answers = outcome.read_file(at + ".in"), outcome.read_file(at + ".out")
    with open(os.devnull, "rb") as nothing:
        outcomes.append(("no input", ends([program], nothing) == (0, b"", b"")))
    with open(at + ".in", "rb") as file:
        found = ends([program, "--any", "words"], file)
        outcomes.append(("words behind the program", found == (0, answers, b"")))
    with tempfile.TemporaryDirectory() as folder:
        # A folder can be opened, and each read of it fails.
        unread = os.open(folder, os.O_RDONLY)
        found = ends([program], unread)
        os.close(unread)
        outcomes.append(("an input that fails", found == (1, b"", b"colscan: read failed\n")))
    with open(at + ".in", "rb") as file, open("/dev/full", "wb") as full:
        found = ends([program], file, full)
        outcomes.append(("a full device", found == (1, None, b"colscan: write failed\n")))
    pieces = [first[at : at + 7] for at in range(0, len(first), 7)]
    outcomes.append(("an input in pieces", in_pieces([program], pieces) == (0, answers)))
    outcome.end_by("program", outcomes)


main()
