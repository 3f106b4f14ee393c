#!/usr/bin/env python3
"""Gives the repository's own definitions and lemmas the spelling of today's Rattle.

usage: python3 tools/respell.py [FOLDER]      FOLDER: the top of a checkout, here by default

Run once, right after the kit's port.py: it replaces each name of tools/respelled-names.txt (old new, one pair a line)
where it stands whole, in all .antt files and in the clauses, imports and ghost members of all .rt files. Functions are
in snake case; a lemma's dash stays where it joins the names of two functions; a lemma that would have its function's
name gets `_lem`. No text in quotes and no comment of a .rt file is touched.
"""
import os
import re
import sys

HERE = os.path.dirname(os.path.realpath(__file__))
TOP = sys.argv[1] if len(sys.argv) > 1 else os.path.dirname(HERE)


def table():
    with open(os.path.join(HERE, "respelled-names.txt"), encoding="utf-8") as f:
        pairs = [line.split() for line in f if line.strip()]
    assert len({old for old, _ in pairs}) == len(pairs) == len({new for _, new in pairs}), "names fall together"
    return dict(pairs)


NAMES = table()
WORD = re.compile(r"(?<![\w'-])[^\W\d][\w']*(?:-[\w']+)*(?![\w'-])")
KEPT = re.compile(r'"(?:\\.|[^"\\])*"|//[^\n]*')


def respelled(text):
    return WORD.sub(lambda m: NAMES.get(m.group(), m.group()), text)


def code(text):
    """A source file: strings and comments stay."""
    out, last = [], 0
    for m in KEPT.finditer(text):
        out += [respelled(text[last:m.start()]), m.group()]
        last = m.end()
    return "".join(out + [respelled(text[last:])])


changed = 0
for folder, dirs, files in os.walk(os.path.join(TOP, "crates")):
    dirs[:] = sorted(d for d in dirs if d != "out")
    for name in sorted(files):
        if not name.endswith((".rt", ".antt")):
            continue
        path = os.path.join(folder, name)
        with open(path, encoding="utf-8") as f:
            old = f.read()
        new = respelled(old) if name.endswith(".antt") else code(old)
        if new != old:
            changed += 1
            with open(path, "w", encoding="utf-8") as f:
                f.write(new)
print(f"{changed} files respelled")
