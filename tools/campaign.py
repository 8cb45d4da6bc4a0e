#!/usr/bin/env python3
"""Wrong programs by the hundred: one-line edits of a crate's src/ that keep its shape, each handed to the prover.

  tools/campaign.py CRATE [--each N] [--call N] [--only FUNCTION] [--seed N]

Takes up to N edits (--each, 2) of each function's body: another literal, a bound one off, another comparison, another operator, a swapped field,
level, status or refusal, another argument of the same call, another name in scope, the body of another arm, a test turned round. Then takes more, until each public
function has N (--call, 10) in its code, which is its own body and those of the crate's functions that it calls, or has no more. Each edit is tried
alone, in a copy of the tree in a temporary folder. Prints a line for each edit that the prover accepts (a survivor: it changes nothing, or a promise is too
weak), a line for each public function, and a summary. Needs python3 and rt.
"""
import os
import random
import re
import shutil
import subprocess
import sys
import tempfile

ROOT = os.path.dirname(os.path.dirname(os.path.abspath(__file__)))

SWAPS = [
    ("true", "false"), ("false", "true"), ("<=", "<"), ("==", "!="), (" < ", " <= "), (" > ", " >= "), (" + ", " - "), (" - ", " + "), (" * ", " / "), (" / ", " % "),
    (" % ", " / "), (" & ", " | "), (" | ", " & "), ("<< ", ">> "), (">> ", "<< "), ("+= ", "-= "), (".bp1", ".bp0"), (".bp0", ".bp1"), (".srwd", ".wel"),
    (".wel", ".srwd"), (".left", ".cycle"), (".cycle", ".left"), (".last", ".left"), (".bytes", ".marks"), (".marks", ".bytes"), (".status", ".kind"),
    (".kind", ".status"), (".pins.c", ".pins.d"), (".pins.d", ".pins.c"), (".pins.s", ".pins.hold"), (".pins.hold", ".pins.w"), (".pins.w", ".pins.s"),
    (".bits", ".shown"), (".shown", ".bits"), (".taken", ".bits"), (".partial", ".out"), (".out,", ".partial,"), (".code", ".value"), (".value", ".code"),
    (".held", ".s"), (".s ", ".c "), (".c ", ".s "), (".pages", ".frames"), (".frames", ".pages"), ("MemoryLength", "RecordRange"), ("RecordRange", "MemoryLength"),
    ("OutputLength", "BitCount"), ("BitCount", "FrameLength"), ("FrameLength", "BitCount"), ("AddressRange", "PollRange"), ("PollRange", "AddressRange"),
    ("CycleLength", "RecordRange"), ("Wren", "Wrdi"), ("Wrdi", "Wren"), ("Rdsr", "Read"), ("Read", "Rdsr"), ("Wrsr", "Write"), ("Write", "Wrsr"),
    ("Protected", "Open"), ("Open", "Protected"), ("TimedOut", "NotTaken"), ("NotTaken", "TimedOut"), ("Level::Zero", "Level::One"), ("Level::One", "Level::Z"),
    ("Level::Z,", "Level::Zero,"), ("interval", "limit"), ("limit", "interval"), (".number()", ".value()"), (".value()", ".number()"),
    (".pages()", ".frames()"), (".frames()", ".pages()"), (".undriven()", ".number()"), ("_refusal(", "_parts("), ("_parts(", "_refusal("), ("_address(", "_length("),
    ("_length(", "_address("), ("set_s(", "set_d("), ("set_d(", "set_w("), ("set_w(", "set_hold("), ("set_hold(", "set_s("), (".q()", ".status()"), (".status()", ".q()"),
]


def functions(path):
    """The lines of a file, and (name, public, first line, first body line, line after the body) of each function."""
    lines = open(path, encoding="utf-8").read().split("\n")
    found = []
    at = 0
    while at < len(lines):
        m = re.match(r"( *)(pub )?(?:pub\(crate\) )?(?:extern \"C\" )?fn (\w+)", lines[at])
        if not m:
            at += 1
            continue
        indent = m.group(1)
        start = at
        while lines[start] != indent + "{" and not lines[start].rstrip().endswith("{"):
            start += 1
        end = start
        while lines[end] != indent + "}":
            end += 1
        found.append((m.group(3), bool(m.group(2)), at, start + 1, end))
        at = end + 1
    return lines, found


def edits_of(line):
    """Every edit of one line by itself."""
    code = line.split("//")[0]
    out = []
    for old, new in SWAPS:
        for m in re.finditer(re.escape(old), code):
            before, after = code[m.start() - 1:m.start()], code[m.end():m.end() + 1]
            if old[0] != "_" and re.match(r"\w", old) and re.match(r"\w", before) or re.match(r"\w", old[-1]) and re.match(r"\w", after):
                continue
            if old in ("<=", "==") or before not in ("<", ">"):
                out.append(code[:m.start()] + new + code[m.end():])
    for m in re.finditer(r"(?<![\w.])(0x[0-9a-f]+|\d+)(?=(?:u8|u32|u64|usize)?(?!\w))", code):
        value = int(m.group(1), 0)
        for other in (value + 1, value - 1):
            if other >= 0:
                out.append(code[:m.start()] + str(other) + code[m.end():])
    for m in re.finditer(r"\(([a-z_.]+), ([a-z_.]+)", code):
        out.append(code[:m.start()] + "(" + m.group(2) + ", " + m.group(1) + code[m.end():])
    m = re.match(r"( *if )(.*)( \{)$", code)
    if m:
        out.append(m.group(1) + "!(" + m.group(2) + ")" + m.group(3))
    return sorted(set(e for e in out if e != code))


def names(lines, first, start, end):
    """Another name of the function, a parameter or a local, in place of one."""
    known = re.findall(r"[(,]\s*(?:mut )?(\w+): ", " ".join(lines[first:start]).split("requires")[0].split("ensures")[0])
    known += re.findall(r"let (?:mut )?(\w+)", "\n".join(lines[start:end]))
    known = sorted(set(known))
    for i in range(start, end):
        for m in re.finditer(r"(?<![\w.])(\w+)(?![\w(:!])", lines[i].split("//")[0]):
            if m.group(1) in known and not re.search(r"let (?:mut )?$", lines[i][:m.start()]):
                for other in known:
                    if other != m.group(1):
                        yield i, lines[i][:m.start()] + other + lines[i][m.end():]


def arms(lines, start, end):
    """An arm of a match with the body of the next arm."""
    arm = re.compile(r"( *\S.* => )([^{]*,)$")
    for i in range(start, end - 1):
        a, b = arm.match(lines[i]), arm.match(lines[i + 1])
        if a and b and a.group(2) != b.group(2):
            yield i, a.group(1) + b.group(2)


def main():
    args = sys.argv[1:]
    if not args or args[0].startswith("-"):
        sys.exit(__doc__.strip())
    crate = args[0]
    value = lambda name, default: args[args.index(name) + 1] if name in args else default
    each, call, only, seed = int(value("--each", "2")), int(value("--call", "10")), value("--only", ""), int(value("--seed", "1"))
    pick = random.Random(seed)
    # Not below the repository: rt ci stops at a source that crates.txt does not know.
    room = tempfile.TemporaryDirectory(prefix="campaign-")
    copy = os.path.join(room.name, "tree")
    shutil.copytree(ROOT, copy, ignore=lambda d, names: [n for n in names if n in (".git", "target", "out")])
    folder = os.path.join(copy, "crates", crate)
    src = os.path.join(folder, "src")
    texts, functions_of, bodies, public, choices = {}, [], {}, [], {}
    for name in sorted(os.listdir(src)):
        lines, found = functions(os.path.join(src, name))
        texts[name] = lines
        for function, pub, first, start, end in found:
            key = (name, function)
            functions_of.append(key)
            bodies[key] = "\n".join(lines[start:end])
            if pub:
                public.append(key)
            choices[key] = [(i, e) for i in range(start, end) for e in edits_of(lines[i])] + list(arms(lines, start, end))
            pick.shuffle(choices[key])
            others = list(names(lines, first, start, end))
            pick.shuffle(others)
            choices[key] = others[:20] + choices[key]

    def code_of(key):
        """The functions of the crate that one reaches."""
        reached, todo = {key}, [key]
        while todo:
            called = set(re.findall(r"(\w+)\(", bodies[todo.pop()]))
            for other in functions_of:
                if other[1] in called and other not in reached:
                    reached.add(other)
                    todo.append(other)
        return reached

    tried, refused = {key: 0 for key in functions_of}, {key: 0 for key in functions_of}
    unbuilt = 0

    def try_one(key):
        """One more edit of a function: whether there was one that is a program."""
        nonlocal unbuilt
        name, function = key
        lines, path = texts[name], os.path.join(src, name)
        while choices[key]:
            i, edit = choices[key].pop()
            with open(path, "w", encoding="utf-8") as f:
                f.write("\n".join(lines[:i] + [edit] + lines[i + 1:]))
            run = subprocess.run(["rt", "check"], cwd=folder, stdout=subprocess.PIPE, stderr=subprocess.STDOUT)
            with open(path, "w", encoding="utf-8") as f:
                f.write("\n".join(lines))
            text = run.stdout.decode("utf-8", "replace")
            if "logic=" not in text:
                unbuilt += 1
                continue
            tried[key] += 1
            if "logic=proved" in text:
                print(f"survives: {name}:{i + 1} in {function}: {lines[i].strip()}  ->  {edit.strip()}", flush=True)
            else:
                refused[key] += 1
            return True
        return False

    for key in functions_of:
        if not only or key[1] == only:
            for _ in range(each):
                try_one(key)
    for key in public:
        if only and key[1] != only:
            continue
        code = sorted(code_of(key))
        more = True
        while more and sum(tried[k] for k in code) < call:
            more = any([try_one(k) for k in code if sum(tried[j] for j in code) < call])
        print(f"{key[1]}: {sum(tried[k] for k in code)} tried in its code, {sum(refused[k] for k in code)} refused", flush=True)
    total, good = sum(tried.values()), sum(refused.values())
    print(f"{crate}: {total} wrong programs tried, {good} refused, {total - good} survive; {unbuilt} edits were no programs")


main()
