#!/usr/bin/env python3
"""Respells the repository's own definitions and lemmas, as tools/respell.txt lists them: a line 'OLD NEW' for each.

usage: python3 tools/respell.py    at the top of the repository, once, after the kit's port.py

It replaces whole words in every .rt and .antt file below crates/: in source files only in ghost lines and clauses, which are the only
places where such a word stands. Running it again changes nothing.
"""

import os
import re

HERE = os.path.dirname(os.path.realpath(__file__))
# what may stand in a word of a proof file, so that 'fold-reads' is no part of 'refold-reads' or 'fold-reads-x'
WORD = re.compile(r"[^\s(){}\[\],.;:λ=«»\"`]+")


def table():
    with open(os.path.join(HERE, "respell.txt"), encoding="utf-8") as f:
        return dict(line.split() for line in f if line.strip())


def main():
    new = table()
    top = os.path.join(os.path.dirname(HERE), "crates")
    changed = 0
    for folder, dirs, files in os.walk(top):
        dirs[:] = sorted(d for d in dirs if d != "out")
        for name in sorted(files):
            if not name.endswith((".rt", ".antt")):
                continue
            path = os.path.join(folder, name)
            with open(path, encoding="utf-8") as f:
                old = f.read()
            text = WORD.sub(lambda m: new.get(m.group(0), m.group(0)), old)
            if text != old:
                changed += 1
                with open(path, "w", encoding="utf-8") as f:
                    f.write(text)
    print(f"respell: {changed} files changed")


main()
