#!/usr/bin/env python3
"""Spells the repository's own definitions and lemmas in snake case, after port.py of the kit has run. Run once, at the top of the repository.

A name is taken where a file of specs/ or a file right in proofs/ declares it, as `commandOf` or `read-whole`. It is renamed wherever it stands in crates/,
and in backquotes in README and docs/. Rust names, the names that Rattle makes, strings, inputs and outputs keep theirs. Where two names would fall together,
the lemma or field gets `_lem` at its end."""

import os
import re
import sys

ROOT = os.path.dirname(os.path.dirname(os.path.realpath(__file__)))
if len(sys.argv) > 1:
    ROOT = sys.argv[1]
CRATES = os.path.join(ROOT, "crates")
NAME = re.compile(r"(?<![\w'-])[A-Za-z][\w']*(?:-[\w'*]+)*")
DECLARED = re.compile(r"^[ \t]*((?:abbrev |unfoldable |pub )*)([a-z][\w']*(?:-[\w']+)*)\s*:\s", re.M)


def files(top, *ends):
    for folder, dirs, names in os.walk(top):
        dirs[:] = sorted(d for d in dirs if d not in ("out", ".git", "target"))
        for n in sorted(names):
            if n.endswith(ends):
                yield os.path.join(folder, n)


def place(path):
    """'specs', 'lemmas' (right in proofs/) or 'function' (below it)."""
    parts = os.path.relpath(path, CRATES).split(os.sep)
    if parts[1] == "specs":
        return "specs"
    return "lemmas" if parts[1] == "proofs" and len(parts) == 3 else "function"


def read(path):
    with open(path, encoding="utf-8") as f:
        return f.read()


def snake(name):
    name = re.sub(r"(?<=[a-z0-9])([A-Z])", lambda m: "_" + m.group(1).lower(), name)
    return name.replace("-", "_")


def is_odd(name):
    return "-" in name or re.search(r"[a-z0-9][A-Z]", name) is not None


def main():
    antt = list(files(CRATES, ".antt"))
    declared = {}
    tokens = set()
    for path in antt:
        text = read(path)
        code = re.sub(r"--.*", "", text)
        tokens.update(NAME.findall(code))
        if place(path) == "function":
            continue
        for m in DECLARED.finditer(text):
            declared.setdefault(m.group(2), set()).add(place(path))
        # constructors of a `data`, which stand after a colon with `|` or in lines below
        for m in re.finditer(r"^[ \t]*(?:pub )?\|?\s*([a-z]\w*[A-Z]\w*)\s*:", text, re.M):
            declared.setdefault(m.group(1), set()).add(place(path))
    # what others declare keeps its name
    theirs = set()
    for path in antt + list(files(CRATES, ".rt")):
        for m in re.finditer(r"use (?!Rattle\.(?!std\.|core\.))[\w.+]+\.\{([^}]*)\}", read(path)):
            theirs.update(w.strip() for w in m.group(1).split(","))
    for path in antt:
        for m in re.finditer(r"use (Rattle\.std|Rattle\.core)[\w.]*\.\{([^}]*)\}", read(path)):
            theirs.update(w.strip() for w in m.group(2).split(","))
    odd = sorted(n for n in declared if is_odd(n) and n not in theirs)
    # definitions first, so that they have the plain name
    odd.sort(key=lambda n: ("-" in n, n))
    taken = {t for t in tokens if not is_odd(t)} & ({n for n in declared} | theirs)
    renamed = {}
    lemmas = {}
    for n in odd:
        to = snake(n)
        if to in taken:
            if "-" not in n and declared.get(to) == {"lemmas"} and to not in theirs:
                lemmas[to] = to + "_lem"
                print(f"falls together: {n}, so the lemma {to} is {to}_lem", file=sys.stderr)
            else:
                print(f"falls together: {n}, now {to}_lem", file=sys.stderr)
                to += "_lem"
        taken.add(to)
        renamed[n] = to
    for path in antt + list(files(CRATES, ".rt", ".edit")):
        text = read(path)
        function = path.endswith(".antt") and place(path) == "function"

        def turn(m):
            n = m.group(0)
            after_dot = text[m.start() - 1 : m.start()] == "."
            if n in lemmas and path.endswith(".antt") and not after_dot:
                return lemmas[n]
            return n if n not in renamed or function and after_dot else renamed[n]

        done = NAME.sub(turn, text)
        if done != text:
            with open(path, "w", encoding="utf-8") as f:
                f.write(done)
    pages = [os.path.join(ROOT, "README.md"), os.path.join(ROOT, "CHANGELOG.md")] + list(files(os.path.join(ROOT, "docs"), ".md"))
    for path in pages:
        text = read(path)
        done = re.sub(r"`[^`\n]*`", lambda q: NAME.sub(lambda m: renamed.get(m.group(0), m.group(0)), q.group(0)), text)
        if done != text:
            with open(path, "w", encoding="utf-8") as f:
                f.write(done)
    print(f"{len(renamed)} names")


main()
