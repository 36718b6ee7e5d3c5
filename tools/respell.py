#!/usr/bin/env python3
"""Brings the names that this repository declares in .antt files to one spelling: words in snake case.

usage: python3 tools/respell.py          at the top, after the kit's port/port.py: rewrites specs/, proofs/ and the clauses of src/
       python3 tools/respell.py --list   prints OLD NEW for each name, and changes nothing

Types and modules keep their camel case. Names of src/, of the library and of generated files are left as they are.
Names that would fall together are printed, and nothing is written.
"""
import os
import re
import sys

WORD = r"[A-Za-z_◌][\w'◌-]*"
HEAD = re.compile(r"^(?P<at> *)(?P<words>(?:(?:pub|abbrev|unfoldable|opaque) )*)(?P<name>%s) :(?: |$)" % WORD)
FIELD = re.compile(r"^ +(?:pub )?(?P<name>%s) :(?: |$)" % WORD)
BOX = re.compile(r"^(?:pub )?(?:data|record) [A-Z]")
TOKEN = re.compile(WORD)


# A lemma whose name would fall together with a definition's takes `_holds`.
LEMMAS = ["all-land", "in-class", "index-after", "values-at", "record-at", "first-unclean", "batch-onto", "batches-onto", "bit-or", "code-bytes", "has-next", "is-after", "is-header", "payments-onto", "same-letter", "to-trailer", "with-next", "written-valid"]


# Names of the library that the repository declares anew.
KEPT = ["length-map"]


def files(root, ending):
    for folder, dirs, names in os.walk(os.path.join(root, "crates")):
        dirs[:] = sorted(d for d in dirs if d != "out")
        for f in sorted(names):
            if f.endswith(ending):
                yield os.path.join(folder, f)


def of_function(path):
    """Whether the file is the proof of one function: its own names are those of its goals."""
    return os.path.basename(path) in ("Proof.antt", "Answers.antt", "Invariants.antt") and "/proofs/" in path and os.path.basename(os.path.dirname(path)) != "proofs"


def snake(name):
    name = re.sub(r"(?<=[a-z0-9])([A-Z])", lambda m: "_" + m.group(1).lower(), name)
    return name.replace("-", "_")


def declared(text, fields_alone=False):
    inside = False
    lines = text.splitlines()
    for i, line in enumerate(lines):
        if line and not line[0].isspace():
            inside = bool(BOX.match(line))
        m = (FIELD if inside else HEAD).match(line)
        if not m:
            continue
        if inside:
            yield m.group("name")
        elif not fields_alone:
            at, name = m.group("at"), m.group("name")
            if not at or m.group("words") or any(l.startswith(at + name) and l[len(at + name):][:1] in (" ", "") for l in lines[i + 1:i + 16]):
                yield name


def library_names(text):
    """Names that a file takes from outside the repository."""
    for m in re.finditer(r"use (?!Rattle\.(?!std\.|core\.))[\w.'+-]+\.\{([^}]*)\}", text):
        yield from TOKEN.findall(m.group(1))


def code_words(line):
    """A .rt line's part that clauses and imports are in."""
    return not line.lstrip().startswith("//") and re.search(r"\b(ghost|requires|ensures|decreases|invariant)\b", line)


def clause_lines(text):
    """For each line of a .rt file, whether it lies in a clause or a ghost item."""
    depth, on = 0, False
    for line in text.splitlines(keepends=True):
        starts = bool(code_words(line))
        if starts and depth == 0:
            on = True
        yield line, on
        if on:
            depth += line.count("{") - line.count("}")
            if depth <= 0:
                depth, on = 0, False


def main(argv):
    root = "."
    antt = {p: open(p, encoding="utf-8").read() for p in files(root, ".antt")}
    rt = {p: open(p, encoding="utf-8").read() for p in files(root, ".rt")}
    own, foreign, fields = set(), set(), set()
    for p, t in antt.items():
        foreign |= set(library_names(t))
        fields |= set(declared(t, True))
        if not of_function(p):
            own |= set(declared(t))
    for t in rt.values():
        foreign |= set(library_names(t))
    table = {}
    for n in sorted(own):
        if n[0].isupper() or n.startswith("◌") or n in KEPT:
            continue
        new = snake(n) + ("_holds" if n in LEMMAS else "")
        if new != n:
            table[n] = new
    if "--list" in argv:
        for a, b in table.items():
            print(a, b)
    bad = []
    back = {}
    for a, b in table.items():
        back.setdefault(b, set()).add(a)
    for p, t in antt.items():
        here = set(declared(t)) | set(TOKEN.findall(" ".join(re.findall(r"\{([^}]*)\}", t))))
        for b in set(back) & ({table.get(n, n) for n in here}):
            olds = (back[b] | {b}) & here
            if len(olds) > 1:
                bad.append(f"{p}: {' and '.join(sorted(olds))} would both be {b}")
    for a in table:
        if a in foreign:
            bad.append(f"{a} is a name of the library too")
    for b in bad:
        print("together:", b)
    if "--list" in argv:
        return 0
    if bad:
        return 1

    def turn(text, aliases):
        def one(m):
            before = m.string[:m.start()]
            if before.endswith(".") and m.group(0) not in fields and TOKEN.findall(before)[-1:] not in aliases:
                return m.group(0)
            return table.get(m.group(0), m.group(0))

        return TOKEN.sub(one, text)

    def aliases_of(text):
        return [[a] for a in re.findall(r"use Rattle\.(?!std\.)[\w.'+-]+ as ([\w'-]+)", text)]

    n = 0
    for p, t in antt.items():
        new = "".join(l if l.lstrip().startswith("--") else turn(l, aliases_of(t)) for l in t.splitlines(keepends=True))
        if new != t:
            n += 1
            open(p, "w", encoding="utf-8").write(new)
    for p, t in rt.items():
        new = "".join(turn(l, aliases_of(t)) if on else l for l, on in clause_lines(t))
        if new != t:
            n += 1
            open(p, "w", encoding="utf-8").write(new)
    print(f"{len(table)} names, {n} files")
    return 0


if __name__ == "__main__":
    raise SystemExit(main(sys.argv[1:]))
