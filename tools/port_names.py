#!/usr/bin/env python3
"""Spells the repository's own names as today's Rattle does: words in snake case, `'` for a prime.

usage: tools/port_names.py        at the top of the repository, once, right after /opt/rattle/port/port.py

It reads the definitions and lemmas that specs/ and proofs/ declare, takes those with a dash or with a capital inside, and
respells them there, in the clauses of src/, in must-fail/, README.md and docs/. Functions of src/, exported names,
strings, inputs and outputs stay, and so do the names that Rattle makes of a function's goals.
Where a definition (`textOutput`) and its law (`text-output`) would fall together, the law gets `_law` after its name; so
does a law that would meet a name of Rattle's library in one file. The crate `hex` becomes `intel_hex`, since today's
library has a crate of that name. It prints what it renamed, one a line.
"""
import collections
import os
import re
import subprocess
import sys

EDGE = r"\s(){}\[\].,;:|\"`@«»⟨⟩λ⌜⌝"
TOK = re.compile(rf"[^{EDGE}]+")
DEF = re.compile(
    r"^ *(?:(?:pub|abbrev|unfoldable|opaque|instance|rewrite) )*([^\s:(){}\[\].]+)(?: \{[^{}\n]*\})* :(?:\s|$)", re.M
)
# Names of the library that some file of the repository has beside an own name of that spelling.
LIBRARY = {"bit_and", "bit_or", "level_of"}
# Laws that port.py had respelled already, and that a definition's new name would meet.
FIRST = {
    "mark_set": "mark_set_law",
    "end_line": "end_line_law",
    "in_frame": "in_frame_law",
    "byte_fits": "byte_fits_law",
    "room_fits": "room_fits_law",
    "count_fits": "count_fits_law",
}


def snake(name):
    name = re.sub(r"(?<=[a-z0-9])([A-Z])", lambda m: "_" + m[1].lower(), name)
    return name.replace("-", "_")


def read_all():
    files = {}
    for folder, dirs, names in os.walk("crates"):
        dirs[:] = sorted(d for d in dirs if d != "out")
        for n in sorted(names):
            if n.endswith((".antt", ".rt", ".edit")):
                p = os.path.join(folder, n)
                with open(p, encoding="utf-8") as f:
                    files[p] = f.read()
    return files


def is_walk(path):
    return path.endswith("/Proof.antt")


def is_ones(path):
    return path.endswith("/Ones.antt")


def declared(files):
    """name -> the files that declare it; and the names that are fields of an own record."""
    found = collections.defaultdict(set)
    for p, t in files.items():
        if p.endswith(".antt") and not is_walk(p):
            for m in DEF.finditer(re.sub(r"--.*", "", t)):
                found[m[1]].add(p)
    return found


def mapping(found):
    to = {}
    camel = {n for n in found if n[0].islower() and re.search(r"[a-z0-9][A-Z]", n) and "-" not in n}
    taken = {snake(n) for n in camel} | {n for n in found if "-" not in n and n not in camel and n not in FIRST}
    for n in sorted(camel):
        to[n] = snake(n)
    for n in sorted(found):
        if n in camel or not n[0].islower() or "-" not in n:
            continue
        s = snake(n)
        if s in taken or s in LIBRARY or s in FIRST:
            s += "_law"
        to[n] = s
    to.update({a: b for a, b in FIRST.items() if a in found})
    back = collections.defaultdict(list)
    for a, b in to.items():
        back[b].append(a)
    for b, names in back.items():
        if len(names) > 1:
            sys.exit(f"{' and '.join(names)} fall together as {b}")
    return to


def turner(to):
    words = "|".join(sorted(map(re.escape, to), key=len, reverse=True))
    return re.compile(rf"(?<![^{EDGE}])(?:{words})(?=$|[{EDGE}'])")


def turn_text(text, to, pattern, skip=()):
    return pattern.sub(lambda m: m[0] if m[0] in skip else to[m[0]], text)


def own_imports(text):
    """The names that a file imports from crates of the repository, but for what Rattle makes."""
    names = set()
    for m in re.finditer(r"(?m)^use (Rattle\.[^\s{]+)\.\{([^}]*)\}", text):
        if not re.search(r"\.(Statement|Tie|Kinds|Reads|Goals|Given|Lts)$", m[1]) and not m[1].startswith("Rattle.std."):
            names |= {n.strip().split(" as ")[0] for n in m[2].split(",")}
    return names


def turn_walk(text, to):
    """A function's proof: labels of goals stay, and so does what stands behind a dot, where Rattle makes the names."""
    mine = {n: s for n, s in to.items() if n in own_imports(text)}
    if not mine:
        return text
    pattern = turner(mine)

    def line(l):
        if re.match(r"use .*\.(Statement|Tie)\b", l):
            return l
        return pattern.sub(lambda m: m[0] if m.start() and l[m.start() - 1] == "." and not l.startswith("use ") else mine[m[0]], l)

    return "\n".join(line(l) for l in text.split("\n"))


def turn_ones(text, to):
    """Ones.antt: the theorems' own names, not the modules that Rattle makes of functions."""
    mine = {n: s for n, s in to.items() if re.search(rf"(?m)^(pub )?{re.escape(n)} ", text)}
    if not mine:
        return text
    words = "|".join(sorted(map(re.escape, mine), key=len, reverse=True))
    return re.sub(rf"(?m)^((?:pub )?)({words})(?=\s)", lambda m: m[1] + mine[m[2]], text)


CLAUSE = re.compile(r"\b(?:requires|ensures|ghost)\b")


def turn_rt(text, to, pattern, dashed):
    """Source: ghost lines, clauses and comments. A dash is a minus outside of them."""
    out, depth, ghost = [], 0, False
    for l in text.split("\n"):
        code, slash, comment = l.partition("//")
        if code.count('"') % 2:
            code, slash, comment = l, "", ""
        starts = CLAUSE.search(code) is not None
        inside = ghost or starts
        if inside:
            code = turn_text(code, to, pattern)
            if starts and not ghost:
                depth = 0
            depth += code.count("{") - code.count("}")
            ghost = depth > 0 if not code.lstrip().startswith("ghost use") else False
        # in a comment a dash may be a plain word's
        comment = turn_text(comment, to, pattern, dashed)
        out.append(code + slash + comment)
    return "\n".join(out)


def turn_antt(text, to, pattern, dashed):
    out = []
    for l in text.split("\n"):
        code, dash, comment = l.partition("--")
        out.append(turn_text(code, to, pattern) + dash + turn_text(comment, to, pattern, dashed))
    return "\n".join(out)


def turn_edit(text, to, pattern, dashed):
    source, out = True, []
    for l in text.split("\n"):
        head, colon, rest = l.partition(":")
        if head == "file":
            source = rest.strip().endswith(".rt")
        elif head in ("old", "new"):
            if not source:
                rest = turn_text(rest, to, pattern)
            elif CLAUSE.search(rest):
                rest = turn_text(rest, to, pattern)
        out.append(head + colon + rest)
    return "\n".join(out)


def turn_page(text, to, pattern):
    return re.sub(r"`[^`\n]+`", lambda m: turn_text(m[0], to, pattern), text)


def rename_crate(old, new):
    if not os.path.isdir(f"crates/{old}"):
        return
    subprocess.run(["git", "mv", f"crates/{old}", f"crates/{new}"], check=True)
    for p, t in read_all().items():
        s = re.sub(rf"(?<![\w.-])Rattle\.{old}\.", f"Rattle.{new}.", t)
        if p.endswith((".rt", ".edit")):
            s = re.sub(rf"(?<![\w:.]){old}::", f"{new}::", s)
            s = re.sub(rf"(?m)^(pub )?use {old};", rf"\1use {new};", s)
        if s != t:
            with open(p, "w", encoding="utf-8") as f:
                f.write(s)
    with open("crates.txt", encoding="utf-8") as f:
        t = f.read()
    s = "\n".join(
        re.sub(rf"(?<![\w]){old}(?![\w])", new, l) if not l.startswith("#") or l.startswith(f"# {old}:") else l
        for l in t.split("\n")
    )
    with open("crates.txt", "w", encoding="utf-8") as f:
        f.write(s)
    print(f"crate {old} -> {new}")


def main():
    files = read_all()
    found = declared(files)
    to = mapping(found)
    # A law that stands under a definition's coming name gives it up first.
    pattern = turner(to)
    dashed = {n for n in to if "-" in n or "_" in n}
    for p, t in files.items():
        if p.endswith(".edit"):
            s = turn_edit(t, to, pattern, dashed)
        elif p.endswith(".rt"):
            plain = {n: v for n, v in to.items() if n not in FIRST}
            s = turn_rt(t, plain, turner(plain), dashed)
        elif is_walk(p):
            s = turn_walk(t, to)
        elif is_ones(p):
            s = turn_ones(t, to)
        else:
            s = turn_antt(t, to, pattern, dashed)
        if s != t:
            with open(p, "w", encoding="utf-8") as f:
                f.write(s)
    pages = ["README.md"] + sorted(f"docs/{n}" for n in os.listdir("docs") if n.endswith(".md"))
    pages = [p for p in pages if p not in ("docs/PORT.md",)]
    pages += sorted(f"docs/landings/{n}" for n in os.listdir("docs/landings"))
    named = {n: v for n, v in to.items() if n not in FIRST}
    pattern = turner(named)
    for p in pages:
        with open(p, encoding="utf-8") as f:
            t = f.read()
        s = turn_page(t, named, pattern).replace("′`", "'`")
        if s != t:
            with open(p, "w", encoding="utf-8") as f:
                f.write(s)
    for a, b in sorted(to.items()):
        print(a, "->", b)
    rename_crate("hex", "intel_hex")
    for c in sorted(os.listdir("crates")):
        subprocess.run(["rt", "fmt"], cwd=f"crates/{c}", stdout=subprocess.DEVNULL)


if __name__ == "__main__":
    main()
