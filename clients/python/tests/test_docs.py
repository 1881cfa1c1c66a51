"""The examples of all docstrings, of the client's README and of its page."""
from __future__ import annotations

import doctest
import importlib
import os
import pkgutil
import re
import unittest
from typing import Any, Dict, List

import common
import colscan

# Marks an example that needs this package.
MARKS = {doctest.register_optionflag(name.upper()): name for name in common.OPTIONAL}
README = os.path.join(common.CLIENT, "README.md")
PAGE = os.path.join(common.TOP, "docs", "PYTHON.md")


def names() -> Dict[str, Any]:
    return {name: getattr(colscan, name) for name in colscan.__all__}


def kept(test: doctest.DocTest) -> List[str]:
    """Takes out the examples whose package isn't there, and says which packages those are."""
    missing = []
    for example in list(test.examples):
        for mark, name in MARKS.items():
            if example.options.pop(mark, False) and not common.is_there(name):
                missing.append(name)
                if example in test.examples:
                    test.examples.remove(example)
    return missing


class Docstrings(unittest.TestCase):
    """One test a module is made below, and one for each with examples that need a package."""

    def run_examples(self, test: doctest.DocTest) -> None:
        said: List[str] = []
        flags = doctest.NORMALIZE_WHITESPACE | doctest.ELLIPSIS
        runner = doctest.DocTestRunner(verbose=False, optionflags=flags)
        result = runner.run(test, out=said.append)
        self.assertEqual(result.failed, 0, "".join(said))


def add(name: str, tests: List[doctest.DocTest]) -> None:
    """A test of the examples that need nothing, and one for each package that some need."""
    plain = [test for test in tests if not needed(test)]

    def run_plain(self: Docstrings) -> None:
        for test in plain:
            self.run_examples(test)

    if plain:
        setattr(Docstrings, "test_" + name, run_plain)
    for test in tests:
        for package in needed(test):
            add_optional(name, package, test)


def needed(test: doctest.DocTest) -> List[str]:
    found = [MARKS[mark] for example in test.examples for mark in example.options if mark in MARKS]
    return sorted(set(found))


def add_optional(name: str, package: str, test: doctest.DocTest) -> None:
    @common.needs(package)
    def run(self: Docstrings) -> None:
        kept(test)
        self.run_examples(test)

    words = re.sub(r"\W", "_", "%s_%s" % (name, test.name.split(".")[-1]))
    setattr(Docstrings, "test_%s_with_%s" % (words, package), run)


def add_modules() -> None:
    finder = doctest.DocTestFinder(exclude_empty=True)
    for found in pkgutil.iter_modules(colscan.__path__):
        if found.name == "__main__":
            continue
        module = importlib.import_module("colscan." + found.name)
        tests = finder.find(module, extraglobs=names())
        add(found.name, [test for test in tests if test.examples])
    tests = finder.find(colscan, extraglobs=names())
    add("package", [test for test in tests if test.examples])


def add_pages() -> None:
    for name, path in (("readme", README), ("page", PAGE)):
        with open(path, encoding="utf-8") as file:
            text = file.read()
        parser = doctest.DocTestParser()
        add(name, [parser.get_doctest(text, names(), name, path, 0)])


add_modules()
add_pages()

if __name__ == "__main__":
    unittest.main()
