#!/usr/bin/env python3
"""Respells the repository's own definitions and lemmas in snake case: every name that begins with a small letter and has capitals in it.

Run once at the top of the repository, after the kit's port.py. It goes over specs/, proofs/, the clauses of src/ and the must-fail edits of every
crate. Names of functions and types in src/ have no such spelling, so nothing of the code moves. A few names had a namesake in snake case
already; FIRST gives those namesakes a name of their own before the rest is respelled.
"""
import os
import re
import sys

# A namesake in snake case, the files below which it stands, and the name that it takes.
FIRST = [
    ("kept_in", ("mending",), "kept_in_lem"),
    ("entry_in", ("theory", "rows"), "entry_in_lem"),
    ("too_long", ("meaning", "line"), "too_long_lem"),
    ("built_in", ("theory",), "built_in_lem"),
    ("answer_at", ("codes",), "answer_at_lem"),
    ("all_named", ("meaning",), "all_named_lem"),
    ("none_named", ("meaning",), "none_named_lem"),
]
WORD = re.compile(r"(?<![A-Za-z0-9_'])[a-z][a-z0-9_]*[A-Z][A-Za-z0-9_]*")


def snake(word):
    return re.sub(r"[A-Z]", lambda m: "_" + m.group(0).lower(), word)


def respelled(text):
    return WORD.sub(lambda m: snake(m.group(0)), text)


def files(top):
    for folder, _, names in os.walk(top):
        if "/out" in folder:
            continue
        for name in names:
            if name.endswith((".antt", ".rt", ".edit")):
                yield os.path.join(folder, name)


def main():
    for path in sorted(files("crates")):
        crate = path.split(os.sep)[1]
        with open(path, encoding="utf-8") as f:
            old = f.read()
        new = old
        if path.endswith(".antt"):
            for word, crates, name in FIRST:
                if crate in crates:
                    new = re.sub(r"(?<![A-Za-z0-9_'\-])%s(?![A-Za-z0-9_'\-])" % word, name, new)
        new = respelled(new)
        if new != old:
            with open(path, "w", encoding="utf-8") as f:
                f.write(new)


sys.exit(main())
