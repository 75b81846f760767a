#!/usr/bin/env python3
"""Respells this repository's own names in specs/, proofs/, contracts and edits: words and lemmas in snake case, types in camel case.

usage: python3 tools/respell.py [--list]      at the top of the repository, once, after the kit's port.py

Only whole names that the repository declares in its own specs/ and proofs/ are turned (and names that an 'as' gives). Names that Rattle makes
(goals, invariants, steps), functions of src/, strings, inputs and outputs stay. A new name that would fall together with another is printed.
"""

import glob
import os
import re
import sys

NAME = r"[^\s(){}\[\];,.:⌜⌝`\"]+"
DECLARED = re.compile(r"^\s*(?:(?:abbrev|unfoldable|pub|record|data)\s+)*(" + NAME + r")\s*(?:\{|\(|:)", re.M)
GIVEN = re.compile(r"\bas\s+(" + NAME + r")")
MADE = re.compile(
    r"^(returns|loop|invariant|decreases|overflow|bounds|slice-bounds|offset-bounds|ghost|then|else|in|if|index|ensures|place|cast)-|"
    r"-(requires|preserved|init|smaller|back)(-\d+)?$|-preserved-"
)
# variants of src/ have the plain names
CHOSEN = {"Too-great": "IsTooGreat", "Too-many": "IsTooMany", "Too-large": "IsTooLarge"}


def texts():
    for ext in ("antt", "rt", "edit"):
        for f in sorted(glob.glob(f"crates/*/**/*.{ext}", recursive=True)):
            if "/out/" not in f:
                yield f


def turned(name):
    if name in CHOSEN:
        return CHOSEN[name]
    if "-" not in name and "′" not in name:
        return name
    name = name.replace("′", "'")
    if name[0].isupper():
        return "".join(p[:1].upper() + p[1:] for p in name.split("-"))
    head, dash, tail = name.rpartition("-")
    if tail and not re.match(r"[\w']", tail):
        return head.replace("-", "_") + "-" + tail
    return name.replace("-", "_")


def declared():
    names = set()
    for f in texts():
        t = open(f, encoding="utf-8").read()
        if f.endswith(".antt"):
            own = "/specs/" in f or re.search(r"/proofs/[^/]+\.antt$", f)
            for m in DECLARED.finditer(t):
                n = m.group(1)
                line = t[m.start() : t.find("\n", m.end())]
                if n.startswith("--") or ": goal." in line:
                    continue
                if own or not MADE.search(n):
                    names.add(n)
        for m in GIVEN.finditer(t):
            names.add(m.group(1))
    return {n for n in names if turned(n) != n}


def main():
    names = {n: turned(n) for n in declared()}
    whole = re.compile(r"(?<![\w'′◌-])(" + "|".join(sorted(map(re.escape, names), key=len, reverse=True)) + r")(?![\w'′-])") if names else None
    tokens = set()
    for f in texts():
        tokens |= set(re.findall(r"[\w'′◌+-]+", open(f, encoding="utf-8").read()))
    seen = {}
    for old, new in sorted(names.items()):
        if new in seen:
            print(f"falls together: {old} and {seen[new]} are {new}")
        seen[new] = old
        if new in tokens:
            print(f"there already: {old} would be {new}")
    if "--list" in sys.argv:
        for old, new in sorted(names.items()):
            print(old, new)
        return
    for f in texts():
        t = open(f, encoding="utf-8").read()
        u = whole.sub(lambda m: names[m.group(1)], t)
        if u != t:
            open(f, "w", encoding="utf-8").write(u)
    with open("/tmp/respelled.tsv", "w", encoding="utf-8") as out:
        for old, new in sorted(names.items()):
            out.write(f"{old}\t{new}\n")


main()
