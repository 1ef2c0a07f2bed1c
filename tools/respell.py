#!/usr/bin/env python3
"""Respells the definitions and lemmas of specs/ and proofs/ with underscores for dashes, and the facts in camel case.

usage: python3 tools/respell.py     at the top of the repository, once, right after the kit's own port script

A name is one that some specs/*.antt or proofs/**/*.antt declares (definitions, lemmas, records, fields, constructors and local
definitions), or that a source file imports another under. A name that begins with a capital is a fact: its parts are joined in camel case. Another name gets an underscore for each
dash; a dash stays only in the name of a lemma, before a last word that says what the function before it is applied to. The answers to
goals keep the names that the check gives them. What is said in pages stays, but for names between backquotes.
"""

import os
import re
import sys

DECLARED = re.compile(r"^(\s*)(?:(?:abbrev|unfoldable|pub|data|record)\s+)*([^\s:(){}=.,;]+)\s*(?:\([^)]*\)\s*|\{[^}]*\}\s*)*:\s+(\S+)")
APPLIED = ("append", "push", "cons")
OF_LENGTH = "length-"
IMPORTED = re.compile(r"\bas ([A-Za-z][\w']*(?:-[\w']+)+)")
ALONE = {"bit-or": "bit-bit_or"}  # `bit_or` is a word of the library
PAGES = ["README.md", "docs/ARCHITECTURE.md", "docs/DECISIONS.md", "docs/PROMISES.md", "docs/TABLE.md", "docs/TRACES.md"]


def files(kind):
    for folder, inner, names in os.walk("crates"):
        inner[:] = sorted(d for d in inner if d != "out")
        for name in sorted(names):
            if name.endswith(kind):
                yield os.path.join(folder, name)


def read(path):
    with open(path, encoding="utf-8") as f:
        return f.read()


def declared():
    """Each declared name with a dash, and whether some proofs/ declares it at the left margin."""
    names = {}
    for path in files(".rt"):
        for line in read(path).splitlines():
            if line.startswith("ghost use "):
                names.update((n, False) for n in IMPORTED.findall(line))
    for path in files(".antt"):
        for line in read(path).splitlines():
            m = DECLARED.match(line)
            if not m or "-" not in m[2] or m[2].startswith("--") or m[3].startswith("goal."):
                continue
            lemma = "/proofs/" in path and not m[1]
            names[m[2]] = names.get(m[2], False) or lemma
    return names


def respelled(name, lemma):
    if name in ALONE:
        return ALONE[name]
    parts = name.split("-")
    if name[0].isupper():
        return "".join(p[:1].upper() + p[1:] for p in parts)
    if lemma and parts[-1] in APPLIED:
        return "_".join(parts[:-1]) + "-" + parts[-1]
    if lemma and name.startswith(OF_LENGTH):
        return OF_LENGTH + "_".join(parts[1:])
    return "_".join(parts)


def main():
    names = {n: respelled(n, lemma) for n, lemma in declared().items()}
    names = {n: r for n, r in names.items() if n != r}
    met = {}
    for n, r in names.items():
        met.setdefault(r, []).append(n)
    for r, ns in sorted(met.items()):
        if len(ns) > 1:
            sys.exit(f"respell: {ns} would fall together as {r}")
    word = re.compile(r"(?<![\w'-])(" + "|".join(re.escape(n) for n in sorted(names, key=len, reverse=True)) + r")(?![\w'-])")
    turned = lambda m: names[m[1]]
    for path in list(files(".antt")) + list(files(".rt")):
        lines = read(path).splitlines(keepends=True)
        note = re.compile(r"\s*--(?!\w)") if path.endswith(".antt") else re.compile(r"\s*//")
        goal = re.compile(r"(?:abbrev\s+)?(?:pub\s+)?([^\s:]+)\s*:\s+goal\.")
        kept = {m[1] for m in map(goal.match, lines) if m}
        swap = lambda m: m[1] if m[1] in kept else turned(m)
        new = "".join(x if note.match(x) else word.sub(swap, x) for x in lines)
        with open(path, "w", encoding="utf-8") as f:
            f.write(new)
    for path in filter(os.path.exists, PAGES):
        text = read(path)
        new = re.sub(r"`[^`\n]*`", lambda m: word.sub(turned, m[0]), text)
        with open(path, "w", encoding="utf-8") as f:
            f.write(new)
    for n, r in sorted(names.items()):
        print(n, r)


if __name__ == "__main__":
    main()
