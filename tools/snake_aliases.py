#!/usr/bin/env python3
"""Spells what snake_names.py left in snake case: aliases of imports, and constructors whose declaration names no type beside them. Run once, after it."""

import os
import re
import sys

ROOT = sys.argv[1] if len(sys.argv) > 1 else os.path.dirname(os.path.dirname(os.path.realpath(__file__)))
ODD = re.compile(r"(?<![\w'-])[a-z][a-z0-9]*(?:[A-Z][a-z0-9]*)+(?![\w'-])")

for folder, dirs, names in os.walk(os.path.join(ROOT, "crates")):
    dirs[:] = [d for d in dirs if d != "out"]
    for name in names:
        if name.endswith((".antt", ".rt")):
            path = os.path.join(folder, name)
            with open(path, encoding="utf-8") as f:
                text = f.read()
            done = ODD.sub(lambda m: re.sub(r"[A-Z]", lambda c: "_" + c.group(0).lower(), m.group(0)), text)
            if done != text:
                with open(path, "w", encoding="utf-8") as f:
                    f.write(done)
