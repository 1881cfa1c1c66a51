#!/usr/bin/env python3
"""Compares what the doors export with tools/required_items.txt, and prints what is missing.

required.py     the status is 1 if an item or a call is missing that the list doesn't call owed, or
                if one is there that it calls owed
"""
import os
import sys

sys.dont_write_bytecode = True
import items
import sources

LIST = os.path.join(sources.TOP, "tools", "required_items.txt")


def lines_of(text):
    """Of each line of the list the member, the items and the calls."""
    for line in text.split("\n"):
        line = line.partition("#")[0].strip()
        if line:
            member, names, calls = (line + ": ").split(":")[:3]
            yield member.strip(), names.split(), calls.split()


def exported(door):
    """The calls of each item of a door, by its name there."""
    found = {}
    for export in items.exports(door):
        if export.found.word == "kit":
            found.setdefault(export.name, set())
            continue
        for calls in items.calls_of(export.found).values():
            found.setdefault(export.name, set()).update(calls)
    return found


def faults(text):
    """What is missing, or there though it is called owed."""
    doors = {}
    for member, names, calls in lines_of(text):
        if member not in doors:
            doors[member] = exported(member)
        there = doors[member]
        plain = [it.lstrip("~") for it in names]
        has = set().union(*[there.get(it, set()) for it in plain])
        for name in names:
            if (name.lstrip("~") in there) == name.startswith("~"):
                yield "%s: %s" % (member, name)
        for call in calls:
            if (call.lstrip("~") in has) == call.startswith("~"):
                yield "%s: %s of %s" % (member, call, plain[0])


def main():
    with open(LIST, encoding="utf-8") as file:
        wrong = list(faults(file.read()))
    for it in wrong:
        print("required: %s" % it)
    if wrong:
        print("required: a `~` is there though the list calls it owed; all else is missing")
        return 1
    print("required: each item and call of tools/required_items.txt is exported")
    return 0


if __name__ == "__main__":
    sys.exit(main())
