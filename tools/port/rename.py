#!/usr/bin/env python3
"""Brings the repository's own definitions and lemmas to the spelling of today's Rattle.

usage: python3 tools/port/rename.py [ROOT]

Run once, after the kit's port.py, which respells only some of them. A function and a lemma are in snake case; a dash
stays between two names (`rows-length`) and is an underscore elsewhere (`none_below`); types, modules, facts and what
src/ declares keep their names. A lemma that would take the name of something else gets `_lem`. Everything that cites a
name is respelled with it: definitions, lemmas, clauses, comments. The map is written to standard output.
"""

import collections
import glob
import os
import re
import sys

ROOT = sys.argv[1] if len(sys.argv) > 1 else "."
TOKEN = re.compile(r"[^\s(){},.;:\[\]⌜⌝\"`]+")
DECLARED = re.compile(r"^\s*(?:(?:abbrev|unfoldable|pub)\s+)*(?:(?:record|data)\s+)?([^\s(){},.;:\[\]]+)\s+(?::|\(|\{)")
HUMP = re.compile(r"(?<=[a-z0-9])(?=[A-Z])")

# Names of the library that a dash may join: words on lists, numbers and tests.
LIBRARY = set(
    "length take drop append set map get_or replicate min max add sub mul suc zero cond subst refl".split()
)


def antt_files():
    for part in ("specs", "proofs"):
        for p in glob.glob(f"{ROOT}/crates/*/{part}/**/*.antt", recursive=True):
            if "/out/" not in p:
                yield p


def code_of(line):
    return "" if line.lstrip().startswith("--") else line


def snake(word):
    """A word in snake case: `lineOfSet` is `line_of_set`, `getD` is the library's `get_or`."""
    word = word.replace("getD", "get_or").replace("get_d", "get_or")
    if not re.match(r"[a-z+]", word):
        return word
    return "_".join(w.lower() if len(w) > 1 or w.isupper() else w for w in HUMP.split(word))


def main():
    files = sorted(antt_files())
    crates = set(os.listdir(f"{ROOT}/crates"))

    def own(path):
        parts = path.split(".")
        return parts[0] == "Rattle" and len(parts) > 1 and parts[1] in crates

    declared = collections.OrderedDict()
    used = set()
    foreign = set()
    for p in files:
        for line in open(p, encoding="utf-8"):
            code = code_of(line)
            if code.lstrip().startswith("use "):
                m = re.match(r"\s*use ([^\s{]+)(?:\{(.*)\})?", code)
                if m and not own(m.group(1)):
                    foreign.update(TOKEN.findall(m.group(2) or ""))
                continue
            if not code.strip():
                continue
            used.update(m.group(0) for m in TOKEN.finditer(code) if m.start() == 0 or code[m.start() - 1] != ".")
            m = DECLARED.match(code)
            if m:
                declared.setdefault(m.group(1), p)
    functions = set()
    for p in glob.glob(f"{ROOT}/crates/*/src/**/*.rt", recursive=True):
        functions.update(re.findall(r"\bfn ([a-z0-9_]+)", open(p, encoding="utf-8").read()))

    words = {d: snake(d) for d in declared if "-" not in d and HUMP.search(d) and re.match(r"[a-z]", d)}
    # what a dash may join: definitions, under their old and new names
    names = set(LIBRARY)
    for d, p in declared.items():
        if "/specs/" in p and "-" not in d:
            names.update((d, snake(d)))

    renamed = dict(words)
    for d in declared:
        if "-" not in d.strip("-") or not re.match(r"[a-z+]", d):
            if "get_d" in d:
                renamed[d] = dashes(snake(d), names)
            continue
        if d.endswith("-spec"):
            # the proof of a function: its name, and `_spec`
            renamed[d] = d[:-5].replace("-", "_") + "_spec"
            continue
        renamed[d] = joined([snake(part) for part in d.split("-")], names)
    # what Rattle names, and what the library does
    kept = re.compile(r"(invariant|decreases)-|returns(-|$)|.*-(requires|init|preserved|smaller)$")
    renamed = {a: b for a, b in renamed.items() if a != b and not kept.match(a) and a not in foreign}

    # names that fall together
    taken = collections.defaultdict(list)
    for d in declared:
        taken[renamed.get(d, d)].append(d)
    for new, old in sorted(taken.items()):
        if len(old) > 1:
            moved = [d for d in old if renamed.get(d, d) != d]
            # a definition keeps the plain name, and a lemma gives way
            moved.sort(key=lambda d: ("/specs/" in declared[d], "-" not in d))
            stays = [d for d in old if d not in moved] or [moved.pop()]
            for k, d in enumerate(moved):
                renamed[d] = new + "_lem" * (k + 1)
                print(f"together: {d} and {', '.join(stays)}: {renamed[d]}", file=sys.stderr)
    for a, b in sorted(renamed.items()):
        if b in used and b not in declared and b not in renamed:
            print(f"used already: {a} becomes {b}", file=sys.stderr)

    for p in files:
        if p.endswith(".antt"):
            rewrite(p, lambda t: renamed.get(t, t))
    for p in glob.glob(f"{ROOT}/crates/*/src/**/*.rt", recursive=True):
        rewrite(p, lambda t: renamed.get(t, t) if HUMP.search(t) else t)
    for a, b in sorted(renamed.items()):
        print(a, b, "function" if b in functions else "")


def joined(parts, names):
    out = parts[0]
    for a, b in zip(parts, parts[1:]):
        out += ("-" if a in names and b in names else "_") + b
    return out


def dashes(word, names):
    return word


def rewrite(path, respell):
    text = open(path, encoding="utf-8").read()
    new = TOKEN.sub(lambda m: respell(m.group(0)), text)
    if new != text:
        with open(path, "w", encoding="utf-8") as f:
            f.write(new)


if __name__ == "__main__":
    main()
