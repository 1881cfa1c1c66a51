"""What is shared by all that hands crates to the kit's own tools as source: where the kit lies,
what crates are below some, and the words that name the libraries.

It is imported, and is not called by itself.
"""
import os
import re
import subprocess

import sources


def folder():
    """The folder of the kit whose `rt` is on the path."""
    page = subprocess.run(["rt", "doc"], capture_output=True, text=True, check=True)
    return os.path.dirname(page.stdout)


def crates_of(gathers):
    """What these crates and those below them use, by name, lowest first."""
    uses, wanted = sources.crates(), {}

    def add(crate):
        if crate in uses and crate not in wanted:
            for below in uses[crate]:
                add(below)
            wanted[crate] = uses[crate]

    for crate in gathers:
        add(crate)
    return wanted


def libraries(root, kit, uses):
    """The words that name the sources of all libraries below the last of these crates: those of the
    repository at this root, and the kit's."""
    words, of_kit = [], ["core", "std"]
    for crate in list(uses)[:-1]:
        source = os.path.join(root, "crates", crate, "src", "lib.rt")
        words += ["--lib", "%s:%s=%s" % (crate, ",".join(["core", "std", *uses[crate]]), source)]
    for below in uses.values():
        of_kit += [it for it in below if it not in uses and it not in of_kit]
    for library in of_kit:
        with open(os.path.join(kit, "rlibs", library + ".rlib", "format")) as file:
            below = re.findall(r"^dep (\w+)$", file.read(), re.M)
        of_kit += [it for it in below if it not in of_kit]
        source = os.path.join(kit, "rattle", library, "src", "lib.rt")
        words += ["--lib", "%s:%s=%s" % (library, ",".join(below), source)]
    return words
