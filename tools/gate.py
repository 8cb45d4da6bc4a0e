#!/usr/bin/env python3
"""gate.py: what the gate costs, crate by crate, read from what `rt ci` printed.

    rt ci | tee target/gate.log           the gate, its output kept
    tools/gate.py target/gate.log         the table of docs/GATE.md
    tools/gate.py BEFORE.log AFTER.log    both side by side, for a landing note

Seconds are those that `rt` printed until rattle-kit-5b: of a crate's proof, and of a must-fail edit. Today's `rt` prints
none, and those columns are empty then.
"""
import re
import sys

PROVED = re.compile(r"^rt: (\w+) (?:proved(?: \((\d+) s\))?$|is kept: )")
FUNCTIONS = re.compile(r"^logic=proved functions=(\d+) ")
TESTS = re.compile(r"^== \w+: its tests")
VERDICT = re.compile(r"^\d+ passed, \d+ failed")
EDIT = re.compile(r"^rt: must-fail (\w+)/(\w+)(?:\.edit)?: refused(?:.*?(\d+) s\))?")


def read(path):
    """(crate -> [functions, seconds of the proof, seconds of each edit], the verdict); None for what is not told"""
    rows, functions, tests, last = {}, None, False, "no verdict"
    with open(path, encoding="utf-8", errors="replace") as log:
        for line in log:
            if VERDICT.match(line):
                last = line.strip()
            elif line.startswith("== "):
                tests = TESTS.match(line)
            elif m := FUNCTIONS.match(line):
                functions = functions if tests else int(m.group(1))
            elif m := PROVED.match(line):
                rows[m.group(1)] = [functions, seconds(m.group(2)), []]
                functions = None
            elif m := EDIT.match(line):
                rows.setdefault(m.group(1), [None, None, []])[2].append(seconds(m.group(3)))
    return rows, last


def seconds(text):
    return None if text is None else int(text)


def told(value):
    return "" if value is None else value


def mean(each):
    known = [s for s in each if s is not None]
    return str(round(sum(known) / len(known))) if known else ""


def table(rows):
    print("| Crate | Functions | Proof, s | Must-fail edits | Edits, s each |")
    print("|---|---|---|---|---|")
    for name, (functions, proof, edits) in rows.items():
        print(f"| {name} | {told(functions)} | {told(proof)} | {len(edits)} | {mean(edits)} |")
    total(rows)


def both(before, after):
    print("| Crate | Proof, s: before | after | Edits: before | after | Edits, s each: before | after |")
    print("|---|---|---|---|---|---|---|")
    for name in list(after) + [n for n in before if n not in after]:
        cells = []
        for rows in (before, after):
            row = rows.get(name)
            cells.append(("", "", "") if row is None else (told(row[1]), len(row[2]), mean(row[2])))
        (p, n, s), (q, k, t) = cells
        print(f"| {name} | {p} | {q} | {n} | {k} | {s} | {t} |")
    total(before)
    total(after)


def total(rows):
    proofs = [r[1] for r in rows.values() if r[1] is not None]
    edits = [s for r in rows.values() for s in r[2]]
    known = [s for s in edits if s is not None]
    cost = lambda each: f", {sum(each)} s of one core" if each else ""
    print(f"\n{len(rows)} crates{cost(proofs)}; {len(edits)} edits refused{cost(known)}.")


logs = [read(p) for p in sys.argv[1:]]
if len(logs) == 1:
    table(logs[0][0])
elif len(logs) == 2:
    both(logs[0][0], logs[1][0])
else:
    sys.exit(__doc__.strip())
for _, last in logs:
    print(last)
