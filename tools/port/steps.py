#!/usr/bin/env python3
"""Gives the proofs by hand of a crate the names that today's Rattle gives places, steps and loops.

usage: python3 tools/port/steps.py CRATE [FUNCTION ..]      in a crate whose lower crates are proved

`rt check --generated --old-names` lists, for each function, the old and the new name of each. Every proofs/F/Proof.antt
is rewritten in place; what it says stays. Run once for each crate.
"""

import json
import os
import re
import subprocess
import sys
import tempfile

ROOT = os.path.dirname(os.path.dirname(os.path.dirname(os.path.abspath(__file__))))


def names(crate):
    with tempfile.TemporaryDirectory() as d:
        subprocess.run(
            ["rt", "check", "--generated", d, "--old-names"],
            cwd=os.path.join(ROOT, "crates", crate),
            stdout=subprocess.DEVNULL,
            stderr=subprocess.DEVNULL,
        )
        with open(os.path.join(d, "names.json"), encoding="utf-8") as f:
            return json.load(f)


def turned(text, it):
    """The text of a proof with the new names of one function."""
    places = {}
    steps = {}
    for (old, _, step, _, _), new in zip(it["places"], it["places_by_name"]):
        places[old] = new
        if step and step[0]:
            steps.setdefault(step[0], step[1])
    loops = {}
    for (old, new), _ in it["loops"]:
        loops[old] = new
    bare = lambda s: re.sub(r"_lem$", "", s).replace("_", "").replace("-", "")
    by_bare = {}
    for o, n in places.items():
        by_bare.setdefault(bare(o), n)
    step_bare = {}
    for o, n in steps.items():
        step_bare.setdefault(bare(o), n)

    def place(m):
        return m.group(1) + by_bare.get(bare(m.group(2)), m.group(2))

    text = re.sub(r"(\btie\.)((?:After|In|At|Then|Else|Start|Join|Arm)[^\s(){},;]*)", place, text)

    def step(m):
        name = m.group(1)
        if bare(name) not in step_bare:
            return m.group(0)
        return "." + step_bare.get(bare(name), name)

    # a step is always followed by what is known of it; `_lem` is from rename.py, which took a step for a lemma
    text = re.sub(r"(?<!args)\.([a-z][A-Za-z0-9_\-]*)(?=\.)", lambda m: step(m) if bare(m.group(1)) in step_bare else m.group(0), text)
    for old, new in loops.items():
        for kind in ("invariant", "decreases"):
            text = re.sub(rf"(?<![\w\-]){kind}-{re.escape(old)}(?![\w\-])", f"{kind}-{new}", text)
    text = re.sub(r"\.inv(?![\w\-])", ".invariant", text)
    text = re.sub(r"\.pre(?![\w\-])", ".requires", text)
    text = re.sub(r"\.(taken)(?![\w\-])", ".true", text)
    text = re.sub(r"\.(left)(?![\w\-])", ".false", text)
    return text


def main():
    crate = sys.argv[1]
    only = sys.argv[2:]
    for module, it in sorted(names(crate).items()):
        prefix = f"Rattle-{crate}-proofs."
        if not module.startswith(prefix) or not module.endswith(".Lts"):
            continue
        folder = module[len(prefix) : -4].replace(".", "/")
        path = os.path.join(ROOT, "crates", crate, "proofs", folder, "Proof.antt")
        if not os.path.exists(path) or (only and folder.split("/")[-1] not in only):
            continue
        text = open(path, encoding="utf-8").read()
        new = "\n".join(l if l.startswith("use ") else turned(l, it) for l in text.split("\n"))
        if new != text:
            open(path, "w", encoding="utf-8").write(new)
            print("turned", folder)


if __name__ == "__main__":
    main()
