#!/usr/bin/env python3
"""Gives the repository's own definitions and lemmas the spelling of today's Rattle, once, after the kit's port.py:

    python3 tools/respell.py

Types, facts and modules are in upper camel case, every other name in snake case; a dash stays where it joins two functions' names.
tools/respelled.txt has a line for each name, the old one and the new one. A word is turned only where it stands whole, in the
files of specs/ and proofs/, in ghost items and clauses of src/, and between backticks on the pages. The module laws becomes Laws.
"""
import os
import re
import subprocess

TOP = os.path.dirname(os.path.dirname(os.path.realpath(__file__)))
WORD = re.compile(r"[^\s(){};,.⌜⌝⟦⟧\"`«»]+")
LAWS = re.compile(r"\bspecs\.laws\b")


def names():
    with open(os.path.join(TOP, "tools", "respelled.txt"), encoding="utf-8") as f:
        return dict(line.split() for line in f)


def tracked(*patterns):
    said = subprocess.run(["git", "ls-files", "-z", *patterns], cwd=TOP, capture_output=True, text=True, check=True).stdout
    return [p for p in said.split("\0") if p and os.path.exists(os.path.join(TOP, p))]


def turned(text, table):
    return WORD.sub(lambda w: table.get(w.group(0), w.group(0)), LAWS.sub("specs.Laws", text))


def quoted(text, table):
    return re.sub(r"`[^`\n]+`", lambda q: turned(q.group(0), table), text)


def rewrite(path, change, table):
    full = os.path.join(TOP, path)
    with open(full, encoding="utf-8") as f:
        old = f.read()
    new = change(old, table)
    if new != old:
        with open(full, "w", encoding="utf-8") as f:
            f.write(new)


def move_laws():
    for crate in sorted(os.listdir(os.path.join(TOP, "crates"))):
        specs = os.path.join("crates", crate, "specs")
        for old, new in (("laws", "Laws"), ("laws.antt", "Laws.antt")):
            if os.path.exists(os.path.join(TOP, specs, old)):
                subprocess.run(["git", "mv", os.path.join(specs, old), os.path.join(specs, new)], cwd=TOP, check=True)
        lib = os.path.join(specs, "Lib.antt")
        if os.path.exists(os.path.join(TOP, lib)):
            rewrite(lib, lambda text, _: re.sub(r"(?m)^((?:pub )?mod )laws$", r"\1Laws", text), {})


def main():
    table = names()
    for path in tracked("crates/*.antt", "crates/*.rt"):
        rewrite(path, turned, table)
    for path in tracked("README.md", "docs/*.md"):
        rewrite(path, quoted, table)
    move_laws()


main()
