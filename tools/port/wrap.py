#!/usr/bin/env python3
"""Breaks lines that the longer names made too long: imports, and what a proof unfolds.

usage: python3 tools/port/wrap.py [ROOT]

A line of proofs has at most 160 bytes, one of definitions and code 120 (tests/crates/readable.sh). What is left is
named, for a hand.
"""

import glob
import re
import sys

ROOT = sys.argv[1] if len(sys.argv) > 1 else "."


def size(s):
    return len(s.encode())


def broken(line, limit):
    m = re.match(r"(\s*(?:ghost )?use [^\s{]+\.)\{(.*)\}(;?)$", line)
    if not m:
        return [line]
    head, names, end = m.groups()
    out, row = [], []
    for n in names.split(", "):
        if row and size(f"{head}{{{', '.join(row + [n])}}}{end}") > limit:
            out.append(row)
            row = []
        row.append(n)
    out.append(row)
    return [f"{head}{{{', '.join(r)}}}{end}" for r in out]


def parted(line, limit):
    """A line of a definition, a clause or a proof, broken where the fewest parentheses are open."""
    out = []
    indent = re.match(r"\s*", line).group(0)
    more = indent + "    "
    while size(line) > limit and not line.lstrip().startswith("--") and not line.lstrip().startswith("//"):
        depth, best = 0, None
        for i, ch in enumerate(line):
            depth += ch in "([{"
            depth -= ch in ")]}"
            if size(line[: i + 1]) > limit:
                break
            if ch == " " and line[:i].strip() and size(line[:i]) > limit // 2 and not line[:i].endswith((" λ", " let", ":", " →", "λ")):
                after = line[i + 1 :]
                here = (depth, 0 if after.startswith(("→ ", "∙ ", "≡ ", "× ")) else 1, -i)
                if best is None or here <= best[0]:
                    best = (here, i)
        if best is None:
            break
        out.append(line[: best[1]])
        line = more + line[best[1] + 1 :]
    return out + [line]


def unfolded(lines, i, limit):
    """The lines of an `unfolding`, laid out anew, and where they end."""
    j = i + 1
    indent = re.match(r"\s*", lines[i]).group(0)
    while j < len(lines) and lines[j].startswith(indent + "    ") and "=" not in lines[j] and ":" not in lines[j]:
        j += 1
    words = " ".join(lines[i:j]).split()
    out, row = [], indent
    for w in words:
        if size(row) > size(indent) + 4 and size(row + " " + w) > limit:
            out.append(row)
            row = indent + "    " + w
        else:
            row = row + w if row == indent else row + " " + w
    out.append(row)
    return out, j


def main():
    for p in sorted(glob.glob(f"{ROOT}/crates/*/**/*.antt", recursive=True) + glob.glob(f"{ROOT}/crates/*/src/**/*.rt", recursive=True)):
        if "/out/" in p:
            continue
        limit = 160 if "/proofs/" in p else 120
        lines = open(p, encoding="utf-8").read().split("\n")
        out, i = [], 0
        while i < len(lines):
            if re.match(r"\s*unfolding ", lines[i]):
                new, j = unfolded(lines, i, limit)
                out += new if any(size(l) > limit for l in lines[i:j]) else lines[i:j]
                i = j
            else:
                out += [b for l in broken(lines[i], limit) for b in parted(l, limit)] if size(lines[i]) > limit else [lines[i]]
                i += 1
        if out != lines:
            open(p, "w", encoding="utf-8").write("\n".join(out))
        for k, l in enumerate(out):
            if size(l) > limit:
                print(f"{p}:{k + 1}: {size(l)}: {l.strip()[:100]}")


if __name__ == "__main__":
    main()
