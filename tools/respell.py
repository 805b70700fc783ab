#!/usr/bin/env python3
"""Respells the repository's own definitions, lemmas and record fields: words in snake case, facts in camel case.

usage: python3 tools/respell.py      at the top of the repository, once, after the toolchain's port.py

tools/respelled.tsv has each name, old and new. A name is replaced where it stands as a whole word, in .antt files, in the
.rt files, in must-fail edits, and between backticks in README.md and docs/. A word behind a dot is a field or a
name that the toolchain makes: it is replaced only in `use` lines and where it is a field of a record in that list.
"""

import glob
import os
import re

HERE = os.path.dirname(os.path.realpath(__file__))
WORD = re.compile(r"[^\s(){}\[\];,.λ:`\"|]+")
FIELDS = {
    "edge-fits", "size-fits", "count-fits", "absent-fill", "adds-up", "limit-small", "past-limit", "past-width",
    "some-edge", "some-count", "zero-so-far", "total-so-far", "laid-so-far",
}


def table():
    with open(os.path.join(HERE, "respelled.tsv"), encoding="utf-8") as f:
        return dict(line.rstrip("\n").split("\t") for line in f)


def respelled(names, line, imports):
    def one(m):
        word = m.group()
        behind_dot = m.start() > 0 and line[m.start() - 1] == "."
        if behind_dot and not imports and word not in FIELDS:
            return word
        return names.get(word, word)
    return WORD.sub(one, line)


def code(names, text):
    return "".join(
        respelled(names, line, re.match(r"\s*(pub )?(ghost )?use ", line) is not None)
        for line in text.splitlines(keepends=True)
    )


def prose(names, text):
    return re.sub(r"`[^`\n]+`", lambda m: respelled(names, m.group(), False), text)


def main():
    names = table()
    files = [(p, code) for kind in ("antt", "rt", "edit") for p in glob.glob(f"crates/**/*.{kind}", recursive=True)]
    files += [(p, prose) for p in ["README.md"] + sorted(glob.glob("docs/*.md")) if not p.startswith("docs/PORT")]
    for path, turn in files:
        if "/out/" in path:
            continue
        with open(path, encoding="utf-8") as f:
            old = f.read()
        new = turn(names, old)
        if new != old:
            with open(path, "w", encoding="utf-8") as f:
                f.write(new)


main()
