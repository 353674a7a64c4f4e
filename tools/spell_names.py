#!/usr/bin/env python3
"""Brings this repository's own definitions and lemmas to one spelling: words in snake case, types and facts in camel case.

usage: python3 tools/spell_names.py        at the top of a checkout, once, after the kit's port.py

tools/spelling.tsv has a row for each name: old, a tab, new. Whole words turn, in .antt and .rt files below crates/, comments aside.
"""
import os
import re
import sys

WORD = re.compile(r"[^\s(){}.;,@\"«»\[\]|]+")
HERE = os.path.dirname(os.path.abspath(__file__))


def table():
    with open(os.path.join(HERE, "spelling.tsv"), encoding="utf-8") as f:
        return dict(line.rstrip("\n").split("\t") for line in f)


def turn(text, mark, names):
    out = []
    for line in text.split("\n"):
        code, sep, comment = line.partition(mark)
        if mark == "--" and sep and code and not code[-1].isspace():
            code, sep, comment = line, "", ""
        out.append(WORD.sub(lambda m: names.get(m.group(0), m.group(0)), code) + sep + comment)
    return "\n".join(out)


def main():
    names, turned = table(), 0
    for folder, dirs, files in os.walk("crates"):
        dirs[:] = sorted(d for d in dirs if d != "out")
        for name in sorted(files):
            if not name.endswith((".antt", ".rt")):
                continue
            path = os.path.join(folder, name)
            with open(path, encoding="utf-8") as f:
                old = f.read()
            new = turn(old, "--" if name.endswith(".antt") else "//", names)
            if new != old:
                turned += 1
                with open(path, "w", encoding="utf-8") as f:
                    f.write(new)
    print(f"{turned} files turned")


sys.exit(main())
