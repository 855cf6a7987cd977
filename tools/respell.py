#!/usr/bin/env python3
"""Brings this repository's own definitions and lemmas to the spelling of today's Rattle: words in snake case, types in camel case.

usage: respell.py [--check] [FOLDER]   (--check writes nothing and lists the names)

A name is the repository's own where a file of specs/ or proofs/ declares it, but for the goals that Rattle itself names
(declared at a type 'goal.X'). Names of src/ are left alone: they have no dash. The Rattle scripts are run first.
"""

import os
import re
import sys

WORD = re.compile(r"[A-Za-z][A-Za-z0-9_'-]*")
HEAD = re.compile(r"^\s*(?:(?:abbrev|unfoldable|pub|private|data|record)\s+)*([A-Za-z][A-Za-z0-9_'-]*)\s*(?:(?:[({][^:]*:.*)?)\s*:(?:\s|$)(.*)$")
GOAL = re.compile(r"^\s*(?:goal|need|rule|branch)\.")
USE = re.compile(r"^\s*(?:ghost |pub )*use\s+([A-Za-z_.'-]+)(?:\.\{([^}]*)\})?")


def files(root, suffixes):
    for folder, dirs, names in os.walk(os.path.join(root, "crates")):
        dirs[:] = sorted(d for d in dirs if d != "out")
        for n in sorted(names):
            if n.endswith(suffixes):
                yield os.path.join(folder, n)


# plain words of the library, which no name of this repository may take
TAKEN = {"bit-and": "bit_of_and", "bit-or": "bit_of_or", "bit-xor": "bit_of_xor"}


def respelled(name):
    if "-" not in name:
        return name
    if name in TAKEN:
        return TAKEN[name]
    if name[0].isupper():
        return "".join(p[:1].upper() + p[1:] for p in name.split("-"))
    return name.replace("-", "_")


def main():
    args = [a for a in sys.argv[1:] if a != "--check"]
    check = "--check" in sys.argv
    root = args[0] if args else "."
    texts = {}
    for p in files(root, (".antt", ".rt")):
        with open(p, encoding="utf-8") as f:
            texts[p] = f.read()
    own, goals, library = {}, set(), set()
    for p, t in texts.items():
        for line in t.split("\n"):
            m = USE.match(line)
            if m and m[1].startswith(("Rattle.std", "borrow", "Prim", "antt", "logic")) and m[2]:
                library |= {w for item in m[2].split(",") for w in WORD.findall(item)}
        if not p.endswith(".antt"):
            continue
        for line in t.split("\n"):
            m = HEAD.match(line)
            if m and "-" in m[1]:
                if GOAL.match(m[2]):
                    goals.add(m[1])
                else:
                    own.setdefault(m[1], p)
    used = {}
    for p, t in texts.items():
        used[p] = set(WORD.findall(t))
    both = sorted(set(own) & library)
    fallen = sorted(set(own) & goals)
    table = {n: respelled(n) for n in own if n not in library and n not in goals}
    news = {}
    for a, b in table.items():
        news.setdefault(b, []).append(a)
    for b, olds in sorted(news.items()):
        if len(olds) > 1:
            print("two names fall together:", b, olds)
        for p, words in used.items():
            if b in words and any(a in words for a in olds):
                print("also there:", b, p)
    print("also the library's, left:", both)
    print("also a goal's, left:", fallen)
    print(len(table), "names")
    if check:
        for a, b in sorted(table.items()):
            print(" ", a, b, own[a])
        return
    for p, t in texts.items():
        new = WORD.sub(lambda m: table.get(m[0], m[0]), t)
        if new != t:
            with open(p, "w", encoding="utf-8") as f:
                f.write(new)
    # documents: names in code spans, those too that the Rattle scripts respelled
    declared = set(table.values()) | {m[1] for t in texts.values() for m in map(HEAD.match, t.split("\n")) if m}
    pages = [os.path.join(root, "README.md")] + [os.path.join(root, "docs", n) for n in sorted(os.listdir(os.path.join(root, "docs")))]
    for p in pages:
        if not p.endswith(".md"):
            continue
        with open(p, encoding="utf-8") as f:
            t = f.read()
        turn = lambda m: respelled(m[0]) if respelled(m[0]) in declared else m[0]
        new = re.sub(r"`[^`\n]+`", lambda s: WORD.sub(turn, s[0]), t)
        if new != t:
            with open(p, "w", encoding="utf-8") as f:
                f.write(new)


main()
