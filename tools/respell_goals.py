#!/usr/bin/env python3
"""Respells the names that the check makes, in the answers and invariants of proofs/.

usage: python3 tools/respell_goals.py     at the top of the repository, once, after tools/respell.py

A name from the source keeps its spelling inside such a name, so `c.push-decimal` is `c.push_decimal` and `returns-else-self-lt-TEXT-ROOM`
is `returns-else-self-lt-TEXT_ROOM`; a word of the check that has two parts has an underscore; and a count stands after a dash.
"""

import os
import re

from respell import files, read

WORDS = ["overflow-add", "overflow-sub", "overflow-mul", "overflow-cast", "overflow-step", "nonzero-div", "nonzero-rem", "invariant-of", "type-inv", "in-default", "in-ok", "in-err", "slice-bounds", "offset-bounds"]


def main():
    words = {w: w.replace("-", "_") for w in WORDS}
    for path in files(".rt"):
        for name in re.findall(r"(?<!cycle\()\b_?[A-Za-z][A-Za-z0-9]*(?:_[A-Za-z0-9]+)+\b", read(path)):
            words[name.replace("_", "-")] = name
    part = re.compile(r"(?<![\w])(" + "|".join(re.escape(w) for w in sorted(words, key=len, reverse=True)) + r")(?![A-Za-z0-9_'])")
    for path in files(".antt"):
        if os.path.basename(path) not in ("Answers.antt", "Invariants.antt"):
            continue
        text = read(path)
        goals = set(re.findall(r"goal\.([^\s)]+)", text))
        own = lambda t: t in goals or "." in t

        def turn(m):
            token = m[0]
            if token.startswith("Rattle.") or not own(token):
                return token
            token = token.replace("·", "-")
            token = re.sub(r"\.-([a-z])", r"._\1", token)
            return part.sub(lambda w: words[w[1]], token)

        lines = text.splitlines(keepends=True)
        new = "".join(x if x.startswith(("--", "use ")) else re.sub(r"[^\s(){}\[\],;]+", turn, x) for x in lines)
        if new != text:
            with open(path, "w", encoding="utf-8") as f:
                f.write(new)


main()
