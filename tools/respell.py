#!/usr/bin/env python3
"""Respells this repository's own names of definitions, fields and lemmas: a dash becomes '_'.

usage: python3 tools/respell.py [FOLDER]     once, after the kit's port.py, at the top of the repository

A name is one that a line of crates/*/specs/**/*.antt or crates/*/proofs/**/*.antt declares, or that a `let` binds.
Names that Rattle makes (a goal, a step, a loop) are not declared here and stay, and so do names that a file imports
from the kit. What is touched: .antt files, the clauses and ghost lines of .rt files, and .edit files.
It stops where two names would fall together, and tells (look:) where a file has a name already that one of its
names would get.
"""

import glob
import os
import re
import sys

DASHED = r"[A-Za-z_][\w']*(?:-[\w']+)+"
DECLARED = re.compile(r"^\s*(?:(?:abbrev|pub|unfoldable)\s+)*(?:(?:data|record)\s+)?(" + DASHED + r")(?:\s+:|\s+\(\w[^)]*:.*:\s*Type)")
BOUND = re.compile(r"\blet (" + DASHED + r")\s*[:=]")
WORD = re.compile(r"(?<![\w'◌-])" + DASHED + r"(?![\w'◌-])")
# a use line of a module that is not this repository's, and the names that it imports
LENT = re.compile(r"^use (?!Rattle\.(?:OWN)\.)[\w.'◌-]+\.\{([^}]*)\}")
GOAL = re.compile(r":\s*goal\.")
# lines of a .rt file that clauses and ghost items stand on
GHOST = re.compile(r"^\s*(?:ghost\b|requires\b|ensures\b|ensures\*|requires\*|also_|\)\s*$)|⌜|[{]\s*λ|≡")


def lent(text, own):
    """The names that a file imports from the kit, which keep their spelling there."""
    line = re.compile(LENT.pattern.replace("OWN", "|".join(own)), re.M)
    return {n.strip().split(" as ")[0] for m in line.findall(text) for n in m.split(",")}


def files(top, kind):
    return sorted(glob.glob(f"{top}/crates/*/{kind}", recursive=True))


def main():
    top = sys.argv[1] if len(sys.argv) > 1 else "."
    own = [os.path.basename(d) for d in glob.glob(f"{top}/crates/*")]
    antt = files(top, "specs/**/*.antt") + files(top, "proofs/**/*.antt")
    names = set()
    for path in antt:
        for line in open(path, encoding="utf-8"):
            if line.lstrip().startswith("--") or GOAL.search(line):
                continue
            m = DECLARED.match(line)
            if m:
                names.add(m.group(1))
            names.update(BOUND.findall(line))
    new = {n: n.replace("-", "_") for n in names}
    if len(set(new.values())) != len(new):
        sys.exit("respell: two names fall together")

    def turned(text, kept=()):
        return WORD.sub(lambda m: m.group(0) if m.group(0) in kept else new.get(m.group(0), m.group(0)), text)

    others = files(top, "src/**/*.rt") + files(top, "must-fail/*.edit")
    changed = 0
    for path in antt + others:
        old = open(path, encoding="utf-8").read()
        if path.endswith(".antt"):
            here = set(re.findall(r"(?<![\w'◌.-])[\w']+", old))
            kept = lent(old, own)
            both = {n for n in WORD.findall(old) if n in new and n not in kept and new[n] in here}
            if both:
                print(f"respell: look: {path}: {', '.join(sorted(both))}")
            text = turned(old, kept)
        elif path.endswith(".rt"):
            text = "".join(turned(l) if GHOST.search(l) and not l.lstrip().startswith("//") else l for l in old.splitlines(True))
        else:
            text = turned(old)
        if text != old:
            open(path, "w", encoding="utf-8").write(text)
            changed += 1
    print(f"respell: {len(names)} names, {changed} files")


main()
