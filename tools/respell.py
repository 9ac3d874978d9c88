#!/usr/bin/env python3
"""Brings this repository's own names of definitions and lemmas to today's spelling, by the table spelling.tsv beside it.

usage: python3 tools/respell.py [ROOT]

Run once, right after /opt/rattle/port/port.py, on the commit that this port began with. ROOT is the top of a checkout (this one, if left out).
A line of the table is OLD, a tab, NEW and perhaps a tab and a path: the file or folder in which alone the line holds.
Turned are whole names in crates/*/{src,specs,proofs}/ and must-fail/*.edit, and in pages and scripts the names that stand in backquotes
or quotes. What Rattle makes of a function (proofs/F/*.antt: names of goals) is turned too where it has the same name, which the check mends.
"""
import os
import re
import sys

HERE = os.path.dirname(os.path.realpath(__file__))
NAME = re.compile(r"[^\s(){}\[\].,;:`'\"⌜⌝]+(?:'+(?![^\s(){}.,;:`\"]))?")


def table():
    everywhere, places = {}, []
    with open(os.path.join(HERE, "spelling.tsv"), encoding="utf-8") as f:
        for line in f:
            words = line.rstrip("\n").split("\t")
            if not line.strip() or line.startswith("#"):
                continue
            if len(words) == 2:
                everywhere[words[0]] = words[1]
            else:
                places.append((words[2], words[0], words[1]))
    return everywhere, places


def names_for(path, everywhere, places):
    names = dict(everywhere)
    for place, old, new in places:
        if path == place or path.startswith(place.rstrip("/") + "/"):
            names[old] = new
    return names


def turn(text, names):
    return NAME.sub(lambda m: names.get(m.group(0), m.group(0)), text)


def turn_source(text, names):
    """A .rt file: clauses, ghost lines and comments. Rust's own names are not in the table; a text in quotes stays."""
    pieces = re.split(r'("(?:[^"\\\n]|\\.)*")', text)
    return "".join(p if i % 2 else turn(p, names) for i, p in enumerate(pieces))


def turn_page(text, names):
    return re.sub(r"`[^`\n]+`", lambda m: turn(m.group(0), names), text)


def main(root):
    everywhere, places = table()
    changed = 0
    for folder, dirs, files in os.walk(root):
        dirs[:] = sorted(d for d in dirs if d not in ("out", ".git", "target", "__pycache__", "tools"))
        for f in sorted(files):
            path = os.path.join(folder, f)
            short = os.path.relpath(path, root)
            names = names_for(short, everywhere, places)
            if f.endswith((".antt", ".edit")):
                how = turn
            elif f.endswith(".rt"):
                how = turn_source
            elif f.endswith(".md"):
                how = turn_page
            else:
                continue
            with open(path, encoding="utf-8") as it:
                text = it.read()
            new = how(text, names)
            if new != text:
                changed += 1
                with open(path, "w", encoding="utf-8") as it:
                    it.write(new)
    print(f"respell: {changed} files changed")


if __name__ == "__main__":
    main(os.path.abspath(sys.argv[1] if len(sys.argv) > 1 else os.path.join(HERE, "..")))
