#!/usr/bin/env python3
"""Brings the names of this repository's own definitions and fields to snake case, in every source, specification, proof and must-fail edit.

usage: python3 tools/spelling.py            at the top of the repository, once, after the kit's port.py

A word in lower camel case becomes one in snake case, and so does a dashed field of a record in specs/. A lemma keeps its dashes: they join two names.
Functions of src/, exported names, strings, inputs and outputs have no such word, and keep theirs.
It stops if two names would fall together, and says which.
"""

import os
import re
import sys

WORD = re.compile(r"(?<![\w'])[a-z][a-z0-9]*[A-Z]\w*")
FIELD = re.compile(r"(?m)^ +pub ([a-z]\w*(?:-\w+)+) :")
EDGE_BEFORE = r"(?<![\w'\u25cc-])"
EDGE_AFTER = r"(?![\w'\u25cc-])"

# Lemmas and an alias that stand in one file with a definition that gets their name: the first four are back to their dash.
APART = {
    "intersection_params/proofs/Laws.antt": {"read_back": "read-back"},
    "line_join/proofs/Answers.antt": {"read_join": "read-join"},
    "skeletons/proofs/Marches.antt": {"set_out": "set-out"},
    "walks_in_place/proofs/Walkers.antt": {"open_step": "open-step"},
}


def snake(word):
    return re.sub(r"(?<=[a-z0-9])[A-Z]", lambda m: "_" + m.group().lower(), word)


def files(endings):
    for folder, dirs, names in os.walk("crates"):
        dirs[:] = sorted(d for d in dirs if d != "out")
        for name in sorted(names):
            if name.endswith(endings):
                yield os.path.join(folder, name)


def read(path):
    with open(path, encoding="utf-8") as f:
        return f.read()


def turned(text, words):
    for old, new in words.items():
        text = re.sub(EDGE_BEFORE + re.escape(old) + EDGE_AFTER, new, text)
    return text


def main():
    sources = {p: read(p) for p in files((".rt", ".antt"))}
    words = {w: snake(w) for t in sources.values() for w in WORD.findall(t) if "_" not in w}
    fields = {f: f.replace("-", "_") for p, t in sources.items() if "/specs/" in p for f in FIELD.findall(t)}

    if not words:
        sys.exit("nothing to turn")
    together = sorted(n for n in set(words.values()) if sum(v == n for v in words.values()) > 1)
    if together:
        sys.exit("fall together: " + ", ".join(together))

    word = re.compile(r"(?<![\w'])(?:" + "|".join(sorted(map(re.escape, words), key=len, reverse=True)) + r")(?![\w'])")
    for path in list(sources) + list(files((".edit",))):
        old = read(path)
        text = turned(old, APART.get(os.path.relpath(path, "crates"), {}))
        text = word.sub(lambda m: words[m.group()], text)
        text = turned(text, fields)
        if text != old:
            with open(path, "w", encoding="utf-8") as f:
                f.write(text)


if __name__ == "__main__":
    main()
