#!/usr/bin/env python3
"""Respells the repository's own definitions and lemmas as today's Rattle spells names: words in snake case.

usage: python3 tools/respell.py [FOLDER]

Run once, right after /opt/rattle/port/port.py, in a repository that was written for the older Rattle. The table
respell.tsv beside this script has each old name and its new one. Only whole names are replaced: in the definitions and
proofs, in what the sources say to the check (clauses and ghost items), in the must-fail edits, and in the pages. A lemma
that would get its definition's name ends in _lem; the names of event records end in _name, apart from the kinds of event.
"""

import os
import re
import sys

HERE = os.path.dirname(os.path.realpath(__file__))
NAME = re.compile(r"[^\W\d][\w'′]*(?:-[\w'′]+)*")
IMPORT = re.compile(r"^\s*(?:pub )?(?:ghost )?use ([\w.+·]+)\.\{([^}]*)\}", re.M)
SPAN = re.compile(r"`[^`\n]+`")


def table():
    with open(os.path.join(HERE, "respell.tsv"), encoding="utf-8") as f:
        return dict(line.rstrip("\n").split("\t") for line in f)


def files(root):
    for folder in ("crates", "docs"):
        for at, dirs, names in os.walk(os.path.join(root, folder)):
            dirs[:] = sorted(d for d in dirs if d != "out")
            yield from (os.path.join(at, n) for n in sorted(names) if n.endswith((".antt", ".rt", ".edit", ".md")))


def respelled(text, names, own):
    # a name that this file takes from a library keeps its spelling
    kept = set()
    for m in IMPORT.finditer(text):
        part = m.group(1).split(".")
        if not (part[0] == "Rattle" and len(part) > 1 and part[1] in own):
            kept |= {n.strip().split(" as ")[0] for n in m.group(2).split(",")}
    return NAME.sub(lambda m: m.group() if m.group() in kept else names.get(m.group(), m.group()), text)


def main(argv):
    root = argv[0] if argv else os.path.dirname(HERE)
    names = table()
    own = set(os.listdir(os.path.join(root, "crates")))
    for path in files(root):
        with open(path, encoding="utf-8") as f:
            old = f.read()
        if path.endswith(".md"):
            new = SPAN.sub(lambda m: respelled(m.group(), names, own), old)
        elif path.endswith(".rt"):
            # only what has a dash or a capital inside is a name of a definition there
            new = respelled(old, {n: v for n, v in names.items() if n != n.lower() or "-" in n}, own)
        else:
            new = respelled(old, names, own)
        if new != old:
            with open(path, "w", encoding="utf-8") as f:
                f.write(new)


if __name__ == "__main__":
    main(sys.argv[1:])
