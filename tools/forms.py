#!/usr/bin/env python3
"""Counts, in crates/*/src, the places that docs/DESIGN-PASS.md speaks of, a number for each point.

    python3 tools/forms.py          the counts
    python3 tools/forms.py -v       each place too
"""
import re
import sys
from collections import defaultdict
from pathlib import Path

ROOT = Path(__file__).resolve().parent.parent


def sources():
    for path in sorted(ROOT.glob("crates/*/src/*.rt")):
        yield path.relative_to(ROOT), path.read_text()


def blocks(text, head):
    """(line, name, body) of each item whose first line matches head."""
    for m in re.finditer(head, text, re.M):
        i = text.find("{", m.end())
        depth, j = 1, i + 1
        while depth and j < len(text):
            depth += (text[j] == "{") - (text[j] == "}")
            j += 1
        yield text.count("\n", 0, m.start()) + 1, m.group(1), text[i + 1 : j - 1]


def functions(text):
    """(line, name, parameters, requires, body) of each function."""
    for m in re.finditer(r"^ *(?:pub(?:\(crate\))? )?(?:extern \"C\" )?fn (\w+)", text, re.M):
        i = text.index("(", m.end())
        depth, j = 1, i + 1
        while depth:
            depth += (text[j] == "(") - (text[j] == ")")
            j += 1
        parameters = text[i + 1 : j - 1]
        k = text.find("\n", j)
        clauses = []
        body_at = None
        rest = text[j:]
        # clauses are lines that begin with requires or ensures; the body is the next brace on a line of its own, or
        # the one that ends the signature's line
        line = rest.split("\n", 1)[0]
        if line.rstrip().endswith("{"):
            body_at = j + len(line.rstrip()) - 1
        elif line.rstrip().endswith(";"):
            continue
        else:
            b = re.search(r"\n *\{\n", rest)
            if not b:
                continue
            body_at = j + b.end() - 2
            clauses = re.findall(r"requires(?: \w+)? \{(.*?)\}\s*(?=\n)", rest[: b.start() + 1], re.S)
        depth, e = 1, body_at + 1
        while depth and e < len(text):
            depth += (text[e] == "{") - (text[e] == "}")
            e += 1
        yield text.count("\n", 0, m.start()) + 1, m.group(1), parameters, clauses, text[body_at + 1 : e - 1]


def main():
    places = defaultdict(list)
    bodies = defaultdict(list)
    facts = defaultdict(list)
    together = defaultdict(list)
    pairs = [("memory", "identification"), ("bytes", "bits"), ("positions", "readings"), ("interval", "limit"),
             ("bytes", "marks"), ("address", "bytes")]
    for path, text in sources():
        def note(point, line, what):
            places[point].append(f"{path}:{line}: {what}")

        for line, name, body in blocks(text, r"^pub(?:\(crate\))? enum (\w+)|^enum (\w+)"):
            if re.search(r"\bRefused\(", body):
                note("1 enums in the shape of Result", line, name)
        for line, name, body in blocks(text, r"^(?:pub(?:\(crate\))? )?struct (\w+)"):
            if re.search(r"\b(?:outcome|answer): ", body) and body.count(": ") > 1:
                note("1 an outcome with a value beside it", line, name)
            for field in re.findall(r"\b(kind|part|place|headed|mode): u8", body):
                note("1 numbers for kinds", line, f"{name}.{field}")
            if "bytes: [u8;" in body and "marks: [" in body:
                note("6 parallel arrays, lengths beside buffers", line, name)
        for m in re.finditer(r"^//.*\b(\d+ for (?:no|none)\b.*|0 where there is none.*)|^const NO_\w+", text, re.M):
            note("1 numbers for nothing", text.count("\n", 0, m.start()) + 1, m.group(0).strip())
        for m in re.finditer(r"^ *while .*$", text, re.M):
            note("3 while loops", text.count("\n", 0, m.start()) + 1, m.group(0).strip())
        for m in re.finditer(r"^( *)for (\w+) in [^\n]*\.\.[^\n]*\{\n(.*?)^\1\}", text, re.M | re.S):
            if re.search(r"\[[^\]]*\b" + m.group(2) + r"\b[^\]]*\]", m.group(3)):
                note("3 for loops that index", text.count("\n", 0, m.start()) + 1, m.group(0).split("\n")[0].strip())
        for line, name, parameters, clauses, body in functions(text):
            arms = re.findall(r"=> (\w+),", body)
            if len(arms) > 2 and set(arms) <= {"true", "false"}:
                note("4 tests and numbers written by hand", line, name)
            elif re.fullmatch(r"\s*match self \{(?:\s*\w+::\w+(?:\(\w+\))? => [\w.()]+,)+\s*\}\s*", body):
                note("4 tests and numbers written by hand", line, name)
            elif re.fullmatch(r"\s*(?:if \w+ \{ 1 \} else \{ 0 \}|if \w+ < \w+ \{ \w+ \} else \{ \w+ \}"
                              r"|\w+ as u\d+|if \w+ < \w+ \{ \w+ - \w+ \} else \{ 0 \})\s*", body):
                note("4 tests and numbers written by hand", line, name)
            for a, b in pairs:
                if re.search(rf"\b{a}: ", parameters) and re.search(rf"\b{b}: ", parameters):
                    together[f"{a}, {b}"].append(f"{path}:{line}: {name}")
            for clause in clauses:
                for fact in re.split(r"\)\s*×\s*\(|^\s*\(|\)\s*$", clause):
                    fact = " ".join(fact.split())
                    if fact:
                        facts[fact].append(f"{path}:{line}: {name}")
            shape = re.sub(r"//.*", "", body)
            if shape.count("\n") >= 3:
                shape = re.sub(r"\b[A-Z]\w*(?:::\w+)?|\b\d\w*|\b(?:set|on|is|put|of)_\w+", "#", shape)
                bodies[" ".join(shape.split())].append(f"{path}:{line}: {name}")
        for m in re.finditer(r"^ *match (?:self\.)?(?:place|kind|step)\b.*$", text, re.M):
            note("7 switches on a number", text.count("\n", 0, m.start()) + 1, m.group(0).strip())
        for m in re.finditer(r"^(?: *let mut (?:count|n|len): usize = 0;)$", text, re.M):
            note("6 parallel arrays, lengths beside buffers", text.count("\n", 0, m.start()) + 1, m.group(0).strip())
    for where in bodies.values():
        if len(where) > 1:
            places["2 twins: bodies that differ in a type, a constant or a called name"].append("  ".join(where))
    for pair, where in together.items():
        if len(where) > 2:
            places["5 parameters that travel together"].append(f"{pair}: {len(where)} functions")
    for fact, where in sorted(facts.items()):
        if len(where) > 2:
            places["5 facts in three or more contracts"].append(f"{fact}: {len(where)} functions")
    answers = list(ROOT.glob("crates/*/proofs/**/Answers.antt"))
    places["8 files of answers"] = [str(p.relative_to(ROOT)) for p in answers]
    for point in sorted(places):
        print(f"{len(places[point]):5}  {point}")
        if "-v" in sys.argv and not point.startswith("8"):
            for place in places[point]:
                print(f"         {place}")
    lines = sum(len(p.read_text().split("\n")) for p in answers)
    print(f"{lines:5}  8 lines of answers")


if __name__ == "__main__":
    main()
