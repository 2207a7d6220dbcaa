#!/usr/bin/env python3
"""Spells the definitions and lemmas of this repository's crates as the kit does: respell.tsv has a row for each, old name, new name, crates that declare it.

usage: python3 tools/respell.py [FOLDER]     after the kit's port.py, once, at the top of the repository

A row turns whole words, in specs/, proofs/ and must-fail edits of the crates that declare the name and of those above them, and in clauses and ghost items of their src/.
Names that Rattle makes (behind 'goal.' and 'c.') and text of src/ outside clauses stay.
"""

import os
import re
import sys

HERE = os.path.dirname(os.path.realpath(__file__))
WORD = re.compile(r"(?<![^\s(){}\[\];,@←.:])[^\s(){}\[\].;,@:]+")
GHOST = re.compile(r"^\s*(?:ghost\b|requires\b|ensures\b)")


def rows():
    with open(os.path.join(HERE, "respell.tsv"), encoding="utf-8") as f:
        return [line.rstrip("\n").split("\t") for line in f if line.strip()]


def above(top):
    """For each crate, itself and the crates below it."""
    below = {}
    with open(os.path.join(top, "crates.txt"), encoding="utf-8") as f:
        for line in f:
            name, _, deps = line.split("#")[0].partition(":")
            if name.strip():
                below[name.split()[0]] = deps.split()
    return {c: {c, *ds} for c, ds in below.items()}


def turn(text, table, made):
    def word(m):
        w = m.group(0)
        if made and text[: m.start()].endswith(("goal.", "c.")):
            return w
        return table.get(w, w)

    return WORD.sub(word, text)


def main():
    top = sys.argv[1] if len(sys.argv) > 1 else "."
    reach = above(top)
    for crate in sorted(os.listdir(os.path.join(top, "crates"))):
        table = {old: new for old, new, owners in rows() if reach.get(crate, {crate}) & set(owners.split(","))}
        for folder, _, files in os.walk(os.path.join(top, "crates", crate)):
            for name in files:
                path = os.path.join(folder, name)
                if "/out" in folder or not name.endswith((".antt", ".rt", ".edit")):
                    continue
                with open(path, encoding="utf-8") as f:
                    text = f.read()
                if name.endswith(".antt"):
                    new = turn(text, table, "/proofs/" in path)
                else:
                    edit = name.endswith(".edit")
                    new = "".join(turn(t, table, False) if edit or GHOST.match(t) else t for t in text.splitlines(True))
                if new != text:
                    with open(path, "w", encoding="utf-8") as f:
                        f.write(new)


main()
