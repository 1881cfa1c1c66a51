"""What the scripts share that try the program: which one it is, how they end, and libraries that
stand before the C library's functions. It is imported, and is not called by itself.
"""
import os
import subprocess
import sys

TOP = os.path.dirname(os.path.dirname(os.path.abspath(__file__)))
# What `rt ci` and `rt run` leave.
PROGRAM = os.path.join(TOP, "crates", "colscan", "out", "colscan")


def program():
    """The program that the script's only word names."""
    return os.path.abspath(sys.argv[1] if len(sys.argv) > 1 else PROGRAM)


def end(passed, failed):
    print("%d passed, %d failed" % (passed, failed))
    sys.exit(1 if failed else 0)


def end_by(script, outcomes):
    """Ends by what was tried, by name, and whether it holds."""
    wrong = [name for name, holds in outcomes if not holds]
    for name in wrong:
        print("%s: FAILED: %s" % (script, name))
    end(len(outcomes) - len(wrong), len(wrong))


def make_library(text, folder):
    """The library of this C text, which names no header, as the kit's compiler makes it."""
    source, made = os.path.join(folder, "before.c"), os.path.join(folder, "before.so")
    write_file(source, text.encode())
    kit = os.path.dirname(subprocess.run(["rt", "doc"], capture_output=True, text=True).stdout)
    words = [os.path.join(kit, "toolchain", "bin", "clang"), "-fuse-ld=lld", "-shared", "-fPIC"]
    words += ["-O1", "-fno-builtin", "-nostdlib", "-o", made, source]
    subprocess.run(words, check=True)
    return made


def write_file(path, data):
    with open(path, "wb") as file:
        file.write(data)


def read_file(path):
    with open(path, "rb") as file:
        return file.read()
