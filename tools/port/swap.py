#!/usr/bin/env python3
"""Gives three definitions the plain names that rename.py had given to lemmas.

usage: python3 tools/port/swap.py [ROOT]

`all_hold_lem`, `count_at_lem` and `too_short_lem` were the definitions, since port.py had respelled a lemma of each
name first. Now the definition has the plain name, and the lemma has `_lem`.
"""

import glob
import re
import sys

ROOT = sys.argv[1] if len(sys.argv) > 1 else "."
NAMES = ("all_hold", "count_at", "too_short")
WORD = re.compile(r"(?<![\w.'\-])(" + "|".join(NAMES) + r")(_lem)?(?![\w'\-])")


def main():
    for p in sorted(glob.glob(f"{ROOT}/crates/*/**/*", recursive=True)):
        if "/out/" in p or not p.endswith((".antt", ".rt", ".edit")):
            continue
        text = open(p, encoding="utf-8").read()
        new = WORD.sub(lambda m: m.group(1) if m.group(2) else m.group(1) + "_lem", text)
        if p.endswith(".rt"):
            # a function of src/ keeps its name
            new = WORD.sub(lambda m: m.group(1) if m.group(2) else m.group(0), text)
        if new != text:
            open(p, "w", encoding="utf-8").write(new)


if __name__ == "__main__":
    main()
