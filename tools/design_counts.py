#!/usr/bin/env python3
"""Counts the places of the points of docs/DESIGN-PASS.md. usage, at the top of the repository: python3 tools/design_counts.py [POINT..]
With no point the numbers of all are told; with points, such as 1a or 3, their places too. By text: each point's line says what is looked for."""

import collections
import glob
import itertools
import re
import sys

SOURCES = [(f, open(f).read()) for f in sorted(glob.glob("crates/*/src/**/*.rt", recursive=True))]
PROOFS = sorted(f for f in glob.glob("crates/*/proofs/**/*.antt", recursive=True) if "/out/" not in f)
FUNCTION = re.compile(r"(?ms)^( *)(?:pub(?:\(crate\))? )?(?:extern \"C\" )?fn (\w+)\b.*?^\1\}")
KEYWORDS = set("let mut if else match return for in while loop break continue fn impl as true false self Some None Ok Err bool".split())


def line(text, at):
    return text.count("\n", 0, at) + 1


def functions():
    for f, t in SOURCES:
        for m in FUNCTION.finditer(t):
            yield f"{f}:{line(t, m.start())} {m.group(2)}", m.group(0)


def body(text):
    """A function's body, without its head and clauses."""
    m = re.search(r"(?m)^( *)\{\n", text)
    return text[m.end():] if m else text.split("{", 1)[-1]


def lines(pattern, skip=None):
    for f, t in SOURCES:
        for i, l in enumerate(t.split("\n"), 1):
            code = l.split("//")[0]
            if re.search(pattern, code) and not re.match(r" *(ensures|requires|ghost)", code) and not (skip and re.search(skip, code)):
                yield f"{f}:{i} {l.strip()}"


def own_enums():
    for f, t in SOURCES:
        for m in re.finditer(r"(?ms)^(?:pub(?:\(crate\))? )?enum (\w+)[^{]*\{(.*?)^\}", t):
            variants = [x.strip() for x in re.findall(r"(?ms)^    (\w+(?:\(.*?\)| \{.*?\})?)(?: = \w+)?,$", re.sub(r"//.*", "", m.group(2)))]
            full = [x for x in variants if "(" in x or "{" in x]
            if len(variants) == 2 and full and (len(full) == 1 or any(x.startswith("Refused") for x in variants)):
                yield f"{f}:{line(t, m.start())} {m.group(1)}"


def never():
    for f, t in SOURCES:
        for m in re.finditer(r"else \{\n *// never", t):
            yield f"{f}:{line(t, m.start())}"


def refused_by_hand():
    """A refusal handed on, or a nothing, by a `let .. else` or a match, where `?` could."""
    for name, text in functions():
        taken = r"let [\w:]+\(\w+\) = [^;{]* else \{\s*return (?:None|(?:Err|\w+::\w+)(?:\(Refusal::\w+\))?);\s*\}"
        for m in re.finditer(taken + r"|Err\((\w+)\) => (?:return )?Err\(\1\)[,;]|None => (?:return )?None[,;]", text):
            yield f"{name}: {' '.join(m.group(0).split())[:80]}"


def sentinels():
    for f, t in SOURCES:
        for m in re.finditer(r"(?m)^ *//.*\b0 where (?:none|there is none|nothing)\b.*$", t):
            if "ostelumiv" not in f:
                yield f"{f}:{line(t, m.start())} {m.group(0).strip()[:100]}"


def twins():
    """Functions whose bodies are the same but for names and numbers, of three lines or more."""
    shapes = collections.defaultdict(list)
    for name, text in functions():
        b = re.sub(r"//.*", "", body(text))
        words = re.findall(r"[A-Za-z_]\w*|\d\w*|[^\w\s]", b)
        shape = " ".join(w if w in KEYWORDS or not re.match(r"\w", w) else "x" for w in words)
        if b.count("\n") >= 3:
            shapes[shape].append(name)
    for names in shapes.values():
        if len(names) > 1:
            yield f"{len(names)}: " + ", ".join(names)


def index_loops():
    return lines(r"^ *(while |loop \{)|= loop \{")


def equality():
    for name, text in functions():
        arms = re.findall(r"=> (.*?),?$", text, re.M)
        if "-> bool" in text and arms and all(re.sub(r"return |;", "", a).strip(" {}") in ("true", "false", "") for a in arms):
            yield name


def to_enum():
    for name, text in functions():
        if len(re.findall(r"(?m)^ *(?:0x[0-9A-Fa-f]+|\d+) => \w+(?:::|\()", text)) >= 2:
            yield name


def from_enum():
    for name, text in functions():
        if len(re.findall(r"(?m)^ *\w+::\w+(?:\(_\))? => (?:0x[0-9A-Fa-f]+|\d+|b'.'),", text)) >= 2:
            yield name


def arithmetic():
    """min, max, saturating and checked arithmetic written out."""
    for name, text in functions():
        b = " ".join(body(text).split())
        if re.search(r"if ([\w.]+(?:\(\w*\))?) (<|<=) ([\w.]+(?:\(\w*\))?) \{ (?:return )?(?:\1|\3|\1 - \3|\3 - \1|0|\1 \+ 1)(?: - \w+)?;? \}", b):
            yield name


def printing():
    """A text or a number printed by a call of its own."""
    return lines(r"^\s*(?:console::)?(?:text|number|small|hex)\(rt|rt\.print\(")


def facts():
    """Facts of `requires`, numbers and names of buffers set to one, that stand in three contracts or more."""
    count = collections.Counter()
    for f, t in SOURCES:
        for m in re.finditer(r"(?m)^ *requires (?:\w+ )?\{(.*)\}$", t):
            fact = re.sub(r"\d+|most_line", "N", m.group(1).strip())
            count[re.sub(r"\b(out|text|gather|output|store|buffer|room|b)\.(old|now)", "buffer", fact)] += 1
    for fact, n in count.most_common():
        if n >= 3:
            yield f"{n}: {fact}"


def groups():
    """Three parameters or more, by name and type, that stand together in three functions or more; the largest such groups."""
    count = collections.Counter()
    for f, t in SOURCES:
        for m in re.finditer(r"(?m)^ *(?:pub(?:\(crate\))? )?fn \w+(?:<[^>]*>)?\(([^{;]*?)\)(?: ->|\s*$|\s*\{|\s+ensures|\s+requires)", t):
            own = sorted({re.sub(r"\s+", " ", x.strip()) for x in m.group(1).split(",") if ":" in x})
            for k in range(3, 7):
                for s in itertools.combinations(own, k):
                    count[s] += 1
    often = {s: n for s, n in count.items() if n >= 3}
    for s, n in sorted(often.items(), key=lambda x: (-x[1], x[0])):
        if not any(set(s) < set(o) for o in often):
            yield f"{n}: {', '.join(s)}"


def lengths():
    return lines(r"^ *pub (count|len|length|data_len|payload_len|gathered|text): (usize|u32|u16|u8),$")


def searches():
    return lines(r"(old|m\.connections|list|ends\.list|held|out)\[(i|k|j|n)\]|=> old\[[0-7]\]")


def switches():
    """A match of which nearly each arm is a call, of different functions."""
    for f, t in SOURCES:
        for m in re.finditer(r"(?ms)^( *)(?:let \w+ = |return )?match ([^{\n]+) \{\n(.*?)^\1\}", t):
            arms = re.findall(r"(?m)^ *[\w:]+(?:\([^)]*\)| \{[^}]*\})? => (?:return )?([a-z_][\w:.]*)\(.*\)[,;?]*$", m.group(3))
            n = len(re.findall(r"(?m)^" + m.group(1) + r"    \S.*=>", m.group(3)))
            if len(set(arms)) >= 2 and len(arms) >= n - 1:
                yield f"{f}:{line(t, m.start())} match {m.group(2)}: {', '.join(arms)}"


def answers():
    for f in PROOFS:
        if f.endswith("/Answers.antt"):
            for i, l in enumerate(open(f), 1):
                if re.match(r"pub [^ ]+ :( |$)", l):
                    yield f"{f}:{i} {l.strip()}"


def lemma_lines():
    for f in PROOFS:
        if not f.endswith(("/Answers.antt", "/Invariants.antt", "/Lib.antt")):
            for i, l in enumerate(open(f), 1):
                if l.strip():
                    yield f"{f}:{i}"


POINTS = {
    "1a": ("own enums of the shape of Option or Result", own_enums),
    "1b": ("a branch that never comes, where a proved unwrap() could stand", never),
    "1c": ("a refusal or a nothing handed on by hand, where ? could", refused_by_hand),
    "1d": ("a number that means none", sentinels),
    "2": ("functions of one shape, by groups", twins),
    "3": ("while and loop", index_loops),
    "4a": ("equality by hand: a bool from a match of true and false", equality),
    "4b": ("an enum from a number by hand", to_enum),
    "4c": ("a number or letter from an enum by hand", from_enum),
    "4d": ("min, max, saturating and checked arithmetic by hand", arithmetic),
    "4e": ("a text or a number printed by a call of its own", printing),
    "5a": ("facts of requires that stand three times or more", facts),
    "5b": ("parameters that stand together in three functions or more, by groups", groups),
    "6a": ("a length beside a buffer or an array", lengths),
    "6b": ("places of an array by index or by name", searches),
    "7": ("a switch on which function is called", switches),
    "8a": ("answers in Answers.antt", answers),
    "8b": ("lines of lemma files", lemma_lines),
}


def main():
    chosen = sys.argv[1:]
    for point, (what, find) in POINTS.items():
        if chosen and not any(point.startswith(c) for c in chosen):
            continue
        places = list(find())
        print(f"{point} {what}: {len(places)}")
        if chosen:
            print("".join(f"    {p}\n" for p in places), end="")


main()
