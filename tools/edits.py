#!/usr/bin/env python3
"""edits.py: which must-fail edits no longer apply.

    tools/edits.py

An edit names a file of its crate and texts that occur in it exactly once, each replaced before the next is looked for.
A change of that line leaves the edit behind, and `rt ci` then only notes a bad edit. This says so at once and ends with
a status that is not 0. It proves nothing.
"""
import glob
import os
import sys


def pairs(path):
    """(file of the crate, text to be replaced, text in its place) of each pair of an edit"""
    name = old = ""
    with open(path, encoding="utf-8") as edit:
        for line in edit.read().split("\n"):
            if line.startswith("file: "):
                name = line[6:].strip()
            elif line.startswith("old: "):
                old = line[5:]
            elif line.startswith("new:"):
                yield name, old, line[5:]


def misfits(path):
    """what is wrong with an edit, a line each"""
    crate = os.path.dirname(os.path.dirname(path))
    texts = {}
    for name, old, new in pairs(path):
        source = os.path.join(crate, name)
        if name not in texts:
            texts[name] = open(source, encoding="utf-8").read() if os.path.isfile(source) else ""
        found = texts[name].count(old)
        if found != 1:
            yield f"{found} times in {name}: {old}"
        elif old == new:
            yield f"the same again in {name}: {old}"
        texts[name] = texts[name].replace(old, new)
    if not texts:
        yield "it replaces nothing"


def main():
    os.chdir(os.path.join(os.path.dirname(os.path.abspath(__file__)), ".."))
    edits, bad = sorted(glob.glob("crates/*/must-fail/*.edit")), 0
    for path in edits:
        for line in misfits(path):
            bad += 1
            print(f"{path}: {line}")
    print(f"{len(edits)} edits, {bad} texts that do not occur once")
    return 1 if bad else 0


if __name__ == "__main__":
    sys.exit(main())
