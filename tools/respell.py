#!/usr/bin/env python3
"""Brings the definitions and lemmas of this repository to the spelling of today's Rattle: words in snake case, and a dash only between two names.

usage: python3 tools/respell.py          at the top of the repository, once, right after the kit's port.py
       python3 tools/respell.py --list   what it would rename, and what falls together

`firstPlace` becomes `first_place`; `words-are-whole` becomes `words_are_whole`; `length-put` keeps its dash, since `length` and `put` are both names. What Rattle makes
keeps its spelling (steps and goals of proof files), as do names of the kit, functions and fields of src/, and what a C program sees.
"""
import os
import re
import sys

TOP = os.getcwd()
DELIMITED = re.compile(r"[^\s(){}\[\].;,λ⌜⌝`\"@]+")
DEFINES = re.compile(r"^\s*((?:(?:abbrev|unfoldable|pub|record|data)\s+)*)([^\s:(){}λ→=,;.]+)(?=\s*:(?:\s|$)|\s*[({].*:(?:\s|$)|\s+[({])")
OWN = sorted(os.listdir(os.path.join(TOP, "crates")))
# Lemmas that port.py turned, whose names the functions of the same words take now.
BY_HAND = {n: n + "_lem" for n in ("all_short", "all_words", "at_rest", "below_of", "record_of", "shown_by")}


def files(ends, below="."):
    for folder, dirs, names in os.walk(os.path.join(TOP, below)):
        dirs[:] = sorted(d for d in dirs if d not in (".git", "out", "target", "build"))
        for n in sorted(names):
            if n.endswith(ends):
                yield os.path.join(folder, n)


def text_of(path):
    with open(path, encoding="utf-8") as f:
        return f.read()


def is_walk(path):
    parts = os.path.relpath(path, TOP).split(os.sep)
    return "proofs" in parts and os.path.basename(path) in ("Proof.antt",)


def snake(name):
    return re.sub(r"([a-z0-9'])([A-Z])", lambda m: m.group(1) + "_" + m.group(2).lower(), name)


# The functions after which lemmas are named: behind them a dash stays, where a name follows.
HEADS = ("length", "out_point", "root_of", "shape_of")


def parts_of_dash(name, names):
    spelled = name.replace("-", "_")
    for head in HEADS:
        if spelled.startswith(head + "_") and spelled[len(head) + 1:] in names:
            return head + "-" + spelled[len(head) + 1:]
    return spelled


def code_functions():
    return {m.group(1) for p in files(".rt", "crates") for m in re.finditer(r"\bfn (\w+)", text_of(p))}


# Names of parameters.
PARAMETERS = {"ofPosition": "of_position", "byPosition": "by_position"}


def collect():
    defined, functions, imported, fields = {}, set(), set(), set()
    for p in files(".antt", "crates"):
        t = text_of(p)
        for m in re.finditer(r"^use ([^\s{]+)\.\{([^}]*)\}", t, re.M):
            head = m.group(1).split(".")
            if not (head[0] == "Rattle" and head[1] in OWN):
                imported.update(x.strip().split(" as ")[0] for x in m.group(2).split(","))
        if is_walk(p):
            continue
        for line in t.split("\n"):
            m = DEFINES.match(line)
            if not m or line.lstrip().startswith("--"):
                continue
            marks, name = m.group(1), m.group(2)
            if name in ("use", "module", "infixl", "infixr", "infix", "unfolding", "let", "elim", "record", "data", "pub", "in", "ruleset", "_") or "◌" in name:
                continue
            # A clause `f (a) ..` of a definition is no definition, but its name is one.
            if ":" not in line and name not in defined:
                continue
            defined.setdefault(name, set()).add(p)
            if ("abbrev" in marks or "unfoldable" in marks) and os.sep + "specs" + os.sep in p and name[0].islower():
                functions.add(snake(name))
            if line.startswith("  "):
                fields.add(name)
    return defined, functions, imported, fields


def table():
    defined, functions, imported, fields = collect()
    kit = {n for n in imported if re.fullmatch(r"[a-z][a-z0-9_]+", n)}
    names = functions | kit
    taken = functions | kit | code_functions() | {snake(n) for n in defined if "-" not in n}
    new = dict(PARAMETERS)
    for n in sorted(defined):
        if n in imported or re.search(r"[^\w'⊕⊖⊗⊘₀-₉^-]", n):
            continue
        if n in BY_HAND:
            new[n] = BY_HAND[n]
            continue
        s = n
        if re.search(r"[a-z0-9][A-Z]", s) and s[0].islower():
            s = "-".join(snake(w) for w in s.split("-"))
        if "-" in s:
            s = parts_of_dash(s, names)
            if s in taken:
                s += "_lem"
        if s != n:
            new[n] = s
    return new, defined, imported, fields


def told(new, defined, imported):
    """Names that fall together: two old names of one new one, or a new name that something already has."""
    by = {}
    for n in defined:
        by.setdefault(new.get(n, n), set()).add(n)
    for s in sorted(by):
        if len(by[s]) > 1 or (s in imported and by[s] != {s}):
            print("falls together:", s, "<-", sorted(by[s]), "and the kit's" if s in imported else "")


def turned_code(line, new, fields, walk, code=False):
    def one(m):
        n = m.group(0)
        if n not in new or (code and n in BY_HAND):
            return n
        if walk and m.start() > 0 and line[m.start() - 1] == "." and n not in fields:
            return n
        return new[n]
    return DELIMITED.sub(one, line)


def turned_text(line, new):
    return re.sub(r"`[^`]*`", lambda m: DELIMITED.sub(lambda k: new.get(k.group(0), k.group(0)), m.group(0)), line)


def turned(path, t, new, fields):
    walk, out = is_walk(path), []
    mark = "--" if path.endswith(".antt") else "//"
    for line in t.split("\n"):
        bare = line.lstrip()
        if path.endswith((".antt", ".rt")):
            line = turned_text(line, new) if bare.startswith(mark) else turned_code(line, new, fields, walk, path.endswith(".rt"))
        elif path.endswith(".edit"):
            line = turned_code(line, new, fields, False, True) if bare.startswith(("old:", "new:")) else turned_text(line, new)
        else:
            line = turned_text(line, new)
        out.append(line)
    return "\n".join(out)


def main():
    new, defined, imported, fields = table()
    if "--list" in sys.argv:
        for n in sorted(new):
            print(n, new[n])
        told(new, defined, imported)
        return
    changed = 0
    for p in files((".antt", ".rt", ".edit", ".md")):
        t = text_of(p)
        s = turned(p, t, new, fields)
        if s != t:
            with open(p, "w", encoding="utf-8") as f:
                f.write(s)
            changed += 1
    print(f"respell: {len(new)} names, {changed} files")


main()
