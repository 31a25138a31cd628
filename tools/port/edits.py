#!/usr/bin/env python3
"""Brings the must-fail edits to the spelling of today's Rattle, which the kit's port.py does not turn.

usage: python3 tools/port/edits.py OLD NEW

OLD is a checkout before the port, and NEW one after port.py, rename.py and `rt fmt`; tools/port/names.txt has what
rename.py renamed. Every NEW/crates/*/must-fail/*.edit is written anew: its pairs are respelled word by word, and a pair
that brings in a name brings it into the line of the Prelude or of the module that has it now, or goes where the name
is there already. It stops at an edit that does not apply to NEW. Run once, OLD at bc69965 and NEW at e767bc6.

To see that nothing was garbled, the old edits were applied to OLD, as many at once as touch different text, the result
was turned by port.py and rename.py, and it has the same words as NEW with the new edits applied.
"""

import glob
import os
import re
import sys

HERE = os.path.dirname(os.path.abspath(__file__))
WORD = re.compile(r"[^\s(){},.;:\[\]⌜⌝\"`]+")
IMPORTS = re.compile(r"([\w·.]+)\.\{([^}]*)\}")
CALL = r"(?:decode|message_of|after_receipt)(?: [\w']+)+"
PRELUDE = "Rattle.std.specs.Prelude"

# Contracts that port.py words otherwise: a `&mut` parameter, and the result.
BY_HAND = [("put_at answer.now 0 (sheet", "put_at answer.old 0 (sheet"), ("put_at answer.now 1 (sheet", "put_at answer.old 1 (sheet"), (" r ⌝ }", " result }")]


def read(path):
    with open(path, encoding="utf-8") as f:
        return f.read()


def listed(line):
    return [x.strip() for x in line[line.index("{") + 1 : line.index("}")].split(",")]


class Spelling:
    def __init__(self, new):
        self.map = dict(line.split()[:2] for line in read(f"{HERE}/names.txt").splitlines() if line.strip())
        self.map["getD"] = "get_or"
        self.words = set()
        for p in glob.glob(f"{new}/crates/*/*/**/*", recursive=True):
            if p.endswith((".antt", ".rt")):
                self.words.update(re.findall(r"[\w']+", read(p)))

    def word(self, w):
        if w in self.map:
            return self.map[w]
        if w in self.words or not re.match(r"[a-z]", w):
            return w
        s = re.sub(r"(?<=[a-z0-9])(?=[A-Z])", "_", w).lower()
        return next((x for x in (s.replace("-", "_"), s) if x in self.words), w)

    def text(self, t):
        t = WORD.sub(lambda m: self.word(m.group(0)), t.replace("′", "'"))
        t = re.sub(r"\(now \((\w+) \.entry\)\)", r"\1.now", t)
        # a projection is written tight
        t = re.sub(rf"\(({CALL}) \.(\w+)\)", r"(\1).\2", t)
        t = re.sub(rf"({CALL}) \.(\w+)", r"(\1).\2", t)
        t = re.sub(r"\(([A-Za-z_]\w*'?) \.(\w+)\)", r"\1.\2", t)
        t = re.sub(r"(?<=[\w']) \.(\w+)", r".\1", t)
        for a, b in BY_HAND:
            t = t.replace(a, b)
        return t

    def name(self, x):
        return re.sub(r"^_(\W+)_$", r"◌\1◌", x) if x.startswith("_") else self.text(x)


def needed(pairs, spelling):
    """The names that the pairs bring in: module, name, the name before it."""
    for old, new in pairs:
        had = dict(IMPORTS.findall(old))
        for path, names in IMPORTS.findall(new):
            of = [x.strip() for x in names.split(",")]
            module = PRELUDE if path.startswith(("mathlib.", "Prim.", "lib.")) else re.sub(r"^Rattle·(\w+?)(·specs)?\.", r"Rattle.\1.", path)
            for k, x in enumerate(of):
                if x not in [y.strip() for y in had.get(path, "").split(",")]:
                    yield module, spelling.name(x), spelling.name(of[k - 1]) if k else ""


def import_pairs(text, need):
    lines = [line for line in text.split("\n") if re.match(r"(ghost )?use .*\{.*\}", line)]
    there = {x for line in lines for x in listed(line)}
    wanted = {}
    other = {}
    for module, x, before in need:
        if x in there:
            continue
        of = [line for line in lines if re.search(rf"\b{re.escape(module)}\.\{{", line)]
        if not of:
            other.setdefault(module, []).append(x)
            continue
        line = next((line for line in of if before in listed(line)), of[-1])
        names = wanted.setdefault(line, listed(line))
        names.insert(names.index(before) + 1 if before in names else len(names), x)
    pairs = []
    for line, names in wanted.items():
        now = listed(line)
        if len(line) <= 70:
            pairs.append((line, line.replace(", ".join(now), ", ".join(names))))
            continue
        k = 0
        while k < len(names):
            run = []
            while k + len(run) < len(names) and names[k + len(run)] not in now:
                run.append(names[k + len(run)])
            if run:
                left, right, end = (now[k - 1 : k], now[k : k + 1], "") if k < len(now) else (now[k - 2 : k], [], "}")
                pairs.append((", ".join(left + right) + end, ", ".join(left + run + right) + end))
                now[k:k] = run
            k += max(len(run), 1)
    if other:
        # a module that the file does not name: behind the Prelude's line
        prelude = next(line for line in lines if PRELUDE in line)
        more = "".join(f" ghost use {module}.{{{', '.join(names)}}};" for module, names in other.items())
        if not any(a == prelude for a, _ in pairs):
            pairs.append((prelude, prelude))
        pairs = [(a, b + more if a == prelude else b) for a, b in pairs]
    return pairs


def main():
    old, new = sys.argv[1:3]
    spelling = Spelling(new)
    for path in sorted(glob.glob(f"{old}/crates/*/must-fail/*.edit")):
        lines = read(path).split("\n")
        file = next(line[6:] for line in lines if line.startswith("file: "))
        said = [line for line in lines if line.strip() and not re.match(r"(file|old|new):", line)]
        texts = [line[5:] for line in lines if re.match(r"(old|new):", line)]
        pairs = list(zip(texts[::2], texts[1::2]))
        of_imports = [p for p in pairs if ".{" in p[0]]
        turned = []
        paths = []
        for a, b in (p for p in pairs if ".{" not in p[0]):
            # a name with its whole path is brought in
            paths += [("", f"lib.Dec.{{{x}}}") for x in re.findall(r"\blib\.Dec\.(\w+)", b)]
            turned.append((spelling.text(a), spelling.text(re.sub(r"\blib\.Dec\.", "", b))))
        to = path.replace(old, new, 1)
        text = read(f"{os.path.dirname(os.path.dirname(to))}/{file}")
        turned += import_pairs(text, list(needed(of_imports + paths, spelling)))
        for a, b in turned:
            if text.count(a) != 1:
                sys.exit(f"{to}: stands {text.count(a)} times: {a}")
            text = text.replace(a, b)
        with open(to, "w", encoding="utf-8") as f:
            f.write("\n".join([*(spelling.text(s) for s in said), f"file: {file}"]) + "\n")
            f.writelines(f"old: {a}\nnew: {b}\n" for a, b in turned)


if __name__ == "__main__":
    main()
