#!/usr/bin/env python3
"""Calls the recursion over a list's elements by its own name.

usage: python3 tools/all_by_recursion.py [FOLDER]      FOLDER: the top of a checkout, here by default

Run after tools/respell.py: the kit's script imports `AllByRecursion` under the name `All`, which today is another word
of the library, so `rt ci` refuses that import. The recursion is what the definitions meant, and now they say its name.
"""
import os
import re
import sys

TOP = sys.argv[1] if len(sys.argv) > 1 else os.path.dirname(os.path.dirname(os.path.realpath(__file__)))
for folder, dirs, files in os.walk(os.path.join(TOP, "crates")):
    dirs[:] = sorted(d for d in dirs if d != "out")
    for name in sorted(files):
        if name.endswith((".antt", ".rt")):
            path = os.path.join(folder, name)
            with open(path, encoding="utf-8") as f:
                text = f.read()
            if "AllByRecursion as All" in text:
                text = text.replace("AllByRecursion as All", "AllByRecursion")
                # A source file's comments stay.
                parts = re.split(r"(//[^\n]*)", text) if name.endswith(".rt") else [text]
                parts[::2] = [re.sub(r"(?<![\w'.-])All(?![\w'-])", "AllByRecursion", part) for part in parts[::2]]
                text = "".join(parts)
                with open(path, "w", encoding="utf-8") as f:
                    f.write(text)
                print(path)
