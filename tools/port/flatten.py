#!/usr/bin/env python3
"""Turns a proof by hand into today's two files: the invariants, and answers to the goals that a proof had words for.

usage: python3 tools/port/flatten.py CRATE FUNCTION ..     FUNCTION is a folder below proofs/, as `parts/count_array`

Proof.antt is taken away, and Invariants.antt and Answers.antt stand for it. An answer that said only `search rules` or
`omega arith` is left out, since the check finds those alone. What is written is a draft: `rt check` decides.
"""

import glob
import json
import os
import re
import subprocess
import sys
import tempfile

ROOT = os.path.dirname(os.path.dirname(os.path.dirname(os.path.abspath(__file__))))
sys.path.insert(0, os.path.dirname(os.path.abspath(__file__)))
from steps import names  # noqa: E402

WORD = r"[^\s(){},;\[\]]+"


def labels():
    """The labels of each function's clauses, by crate and name."""
    out = {}
    for p in glob.glob(f"{ROOT}/crates/*/src/**/*.rt", recursive=True):
        crate = p[len(ROOT) + 8 :].split("/")[0]
        for m in re.finditer(r"\bfn ([a-z0-9_]+)(.*?)\n\{", open(p, encoding="utf-8").read(), re.S):
            head = m.group(2)
            out[(crate, m.group(1))] = (
                re.findall(r"\n\s*requires ?([a-z0-9_]*) ?\{", head),
                re.findall(r"\n\s*ensures ?([a-z0-9_]*) ?\{", head),
            )
    return out


def place_path(n, k):
    """By place, the path of part k of n: .0, .1.0, .1.1.0, and the last without its end."""
    return ".1" * k + (".0" if k < n - 1 else "") if n > 1 else ""


def matching(text, i):
    depth = 0
    while i < len(text):
        if text[i] in "([{":
            depth += 1
        elif text[i] in ")]}":
            depth -= 1
            if depth == 0:
                return i
        i += 1
    raise SystemExit("no matching parenthesis")


def parts_of(text):
    """The arguments of `tie.spec`, comments taken out."""
    text = re.sub(r"(?m)^\s*--.*$", "", text)
    i = text.index("tie.spec") + len("tie.spec")
    out = []
    while i < len(text):
        if text[i] == "(":
            j = matching(text, i)
            out.append(text[i + 1 : j])
            i = j + 1
        elif text[i] == ")":
            break
        elif text[i].isspace():
            i += 1
        else:
            m = re.match(WORD, text[i:])
            out.append(m.group(0))
            i += len(m.group(0))
    return out


def tuple_of(text, n):
    """The parts of a tuple nested to the right, as `(a, (b, c))`."""
    text = text.strip()
    if n == 1 or not text.startswith("(") or matching(text, 0) != len(text) - 1:
        return [text]
    inner = text[1:-1]
    depth = 0
    for i, ch in enumerate(inner):
        depth += ch in "([{"
        depth -= ch in ")]}"
        if ch == "," and depth == 0:
            return [inner[:i].strip()] + tuple_of(inner[i + 1 :].strip().rstrip(","), n - 1)
    return [text]


def end_of_let(text):
    """Where the `in` of a first `let` ends."""
    depth = lets = 0
    for m in re.finditer(r"[(\[{]|[)\]}]|(?<![\w.\-])(?:let|in)(?![\w.\-])", text):
        w = m.group(0)
        if w in "([{":
            depth += 1
        elif w in ")]}":
            depth -= 1
        elif depth == 0:
            lets += 1 if w == "let" else -1
            if lets == 0:
                return m.end()
    return len(text)


class Proof:
    def __init__(self, crate, folder, it, known):
        self.crate, self.folder, self.it, self.known = crate, folder, it, known
        self.path = f"{ROOT}/crates/{crate}/proofs/{folder}/Proof.antt"
        self.text = open(self.path, encoding="utf-8").read()
        self.fn = folder.split("/")[-1].lstrip("+")
        self.own = known.get((crate, self.fn), ([], []))
        self.places = set(re.findall(rf"(?m)^abbrev ({WORD}) : tie\.{WORD}[^→\n]*→ tie\.", self.text))
        self.callee = {}
        for place, _, step, fn, _ in it["places"]:
            if fn:
                bits = fn.split("::")
                self.callee[step[1]] = known.get((bits[0], bits[-1]), ([], []))
        self.helpers = {}
        for m in re.finditer(rf"(?ms)^({WORD}) : \(c : tie\.{WORD}[^)]*\)\s*→ (.*?)\n(?:unfolding [^\n]*\n)?\1 c =(.*?)(?=\n\n|\n--|\Z)", self.text):
            self.helpers[m.group(1)] = (m.group(2), m.group(3).strip())

    def clauses(self, text):
        """Clauses that are named by place, by their labels."""
        for kind, which, path in [(s, 1, rf"\.{re.escape(s)}\.ensures") for s in self.callee] + [("", 0, r"\bc\.requires")]:
            names = self.callee[kind][1] if kind else self.own[0]
            if len(names) < 2 or not all(names):
                continue
            for k in reversed(range(len(names))):
                by_place = place_path(len(names), k).replace(".", r"\.")
                text = re.sub(path + by_place + r"(?![\w.]*[\w])" if False else path + by_place + r"(?!\w)", lambda m, n=names[k]: m.group(0)[: len(m.group(0)) - len(place_path(len(names), k))] + "." + n, text)
        return text

    def flat(self, text, alias=("c",)):
        """The text with every place read from the goal's own."""
        alias = set(alias) | {"c"}
        text = re.sub(r"(\.before)+(?!\w)", "", text)
        changed = True
        while changed:
            changed = False
            for a in sorted(alias, key=len, reverse=True):
                for p in self.places:
                    new = re.sub(rf"\((?:{re.escape(p)}) {re.escape(a)}\)", "c", text)
                    new = re.sub(rf"(?<![\w.\-]){re.escape(p)} {re.escape(a)}(?![\w.\-])", "c", new)
                    new = new.replace("(c)", "c")
                    if new != text:
                        text, changed = new, True
            m = re.search(rf"let ({WORD}) = ({WORD}) in\s*", text)
            while m:
                if m.group(2) in alias:
                    alias.add(m.group(1))
                    text = text[: m.start()] + text[m.end() :]
                    changed = True
                    break
                m = re.search(rf"let ({WORD}) = ({WORD}) in\s*", text[m.end() :]) and None
        # a name for a path is the path
        m = re.search(rf"let ({WORD}) = (c(?:\.[\w\-]+)+) in\s*", text)
        while m:
            text = text[: m.start()] + re.sub(rf"(?<![\w.\-]){re.escape(m.group(1))}(?![\w\-])", m.group(2), text[m.end() :])
            m = re.search(rf"let ({WORD}) = (c(?:\.[\w\-]+)+) in\s*", text)
        for a in alias - {"c"}:
            text = re.sub(rf"(?<![\w.\-]){re.escape(a)}(?=[.\s),;])(?!\w)", "c", text)
        return text

    def answer(self, body):
        body = self.flat(body)
        lets = []
        seen = set()
        changed = True
        while changed:
            changed = False
            for h, (type_, value) in self.helpers.items():
                if h in seen:
                    continue
                used = rf"(?<![\w.\-]){re.escape(h)} c(?![\w.\-])"
                if re.search(used, body) or any(re.search(used, l) for l in lets):
                    seen.add(h)
                    lets.insert(0, f"let {h} : {self.flat(type_)} = {self.flat(value)} in")
                    changed = True
        for h in seen:
            used = rf"\({re.escape(h)} c\)|(?<![\w.\-]){re.escape(h)} c(?![\w.\-])"
            body = re.sub(used, h, body)
            lets = [re.sub(used, h, l) for l in lets]
        # a `let` comes behind those that it cites
        ordered = []
        pending = lets[:]
        while pending:
            for l in pending:
                me = l.split()[1]
                if not any(re.search(rf"(?<![\w.\-]){re.escape(o.split()[1])}(?![\w\-])", l.split(":", 1)[1]) for o in pending if o is not l):
                    ordered.append(l)
                    pending.remove(l)
                    break
            else:
                ordered += pending
                break
        return self.clauses("\n    ".join(ordered)), self.clauses(body)

    def imports(self):
        lines = [l for l in self.text.split("\n") if l.startswith("use ") and not re.search(r"\.(Statement|Tie)\b", l) and "Rules.{rules}" not in l]
        return lines

    def invariants(self):
        out = []
        for k, ((old, new), variables) in enumerate(self.it["loops"]):
            changed = self.it["changed"][k]
            for kind in ("invariant", "decreases"):
                m = re.search(rf"(?ms)^{kind}-{re.escape(new)} (.*?) =(.*?)(?=\n\n|\n--|\Z)", self.text)
                if not m:
                    continue
                params = [p for p in m.group(1).split() if not re.fullmatch(r"t\d+", p)]
                names = [("l.initial." if c else "l.") + v for v, c in zip(variables, changed)]
                names += ["l." + v for v, c in zip(variables, changed) if c]
                if len(params) != len(names):
                    print("look:", self.folder, kind, params, names)
                body = m.group(2).strip()
                to = dict(zip(params, names))
                # what a reference points to was written out, and is the variable itself today
                body = re.sub(WORD, lambda w: self.word(w.group(0), to), body)
                out.append(f"abbrev pub {kind}-{new} : goal.{kind}-{new}\n{kind}-{new} l = {body}\n")
        return out

    def word(self, w, to):
        head, dot, rest = w.partition(".")
        return to[head] + dot + rest if head in to else w

    def convert(self):
        inv = self.invariants()
        needs = self.it["needs"]
        args = parts_of(self.text)
        loops = len([a for a in args if re.match(r"(invariant|decreases)-", a)])
        args = args[loops:]
        base = os.path.dirname(self.path)
        note = "\n".join(l for l in self.text.split("\n")[:4] if l.startswith("--") and "Assumes nothing" not in l)
        # a literal that was passed had a goal of its own, of a call's `requires` none
        asks = lambda a: bool(re.match(r"λ c κs", a))
        if len(args) == len(needs) + 1:
            for d, a in enumerate(args):
                rest = args[:d] + args[d + 1 :]
                if re.match(r"λ c\. (search rules|omega arith)$", a) and all(asks(x) == ("-requires" in n[1]) for x, n in zip(rest, needs)):
                    args = rest
                    break
        if len(args) != len(needs):
            print("look:", self.folder, len(args), "answers for", len(needs), "goals")
        answers = []
        for a, (old, new) in zip(args, needs):
            m = re.match(r"λ c(?: κs)?((?: \w+)*)\.\s*(.*)", a, re.S)
            if not m:
                print("look:", self.folder, new, a[:60])
                answers.append(f"-- was: {a}\npub {new} : goal.{new}\n{new} c = ?\n")
                continue
            more, body = m.group(1).split(), m.group(2).strip()
            if body in ("search rules", "omega arith"):
                continue
            lets, body = self.answer(body)
            names = []
            if new.startswith("returns"):
                names = self.own[1]
            elif "-requires" in new:
                # the callee by the goal's name
                call = new.split("-requires")[0]
                for step, (requires, _) in self.callee.items():
                    if step == call or step.startswith(call + "-") or call == step.split("-")[0]:
                        names = requires
                        break
            first = ""
            while body.startswith("let "):
                at = end_of_let(body)
                first, body = first + body[:at] + "\n    ", body[at:].lstrip()
            lets = lets + ("\n    " if lets and first else "") + first.rstrip()
            parts = tuple_of(body, len(names)) if len(names) > 1 else [body]
            if len(names) > 1 and len(parts) == len(names):
                body = "record {\n" + "".join(f"      {n} = {p};\n" for n, p in zip(names, parts)) + "    }"
            if more:
                body = f"λ {' '.join(more)}. {body}"
            text = (lets + "\n    " if lets else "") + body
            answers.append(f"pub {new} : goal.{new}\n{new} c =\n    {text}\n")
        opened = re.search(rf"(?m)^pub {WORD}_spec : [^\n]*\nunfolding ([^\n]*(?:\n    [^\n]*)*)\n(?={WORD}_spec)", self.text)
        if opened:
            answers = [re.sub(r"\n(?=\S+ c =)", f"\nunfolding {' '.join(opened.group(1).split())}\n", a, count=1) for a in answers]
        module = f"Rattle.{self.crate}.proofs.{self.folder.replace('/', '.')}"
        use = self.imports()
        os.remove(self.path)
        own = self.locals()
        if inv:
            with open(f"{base}/Invariants.antt", "w", encoding="utf-8") as f:
                f.write("\n".join([note] + use + [f"use {module}.Given as goal", ""] + inv))
        if answers:
            with open(f"{base}/Answers.antt", "w", encoding="utf-8") as f:
                f.write("\n".join([note] + use + ["use Rattle.std.proofs.Common.{arith}" if not any("arith" in u for u in use) else "", f"use {module}.Goals as goal", ""] + own + answers))
        print(self.folder, len(inv), "invariants,", len(answers), "answers")

    def locals(self):
        """Lemmas of the file that speak of no place."""
        out = []
        for m in re.finditer(rf"(?ms)^({WORD}) : (.*?)(?=\n\n|\Z)", self.text):
            if "tie." not in m.group(0) and not m.group(1).endswith("_spec") and "statement" not in m.group(0):
                out.append(m.group(0) + "\n")
        return out


def main():
    crate, folders = sys.argv[1], sys.argv[2:]
    it = names(crate)
    known = labels()
    for folder in folders:
        key = f"Rattle-{crate}-proofs.{folder.replace('/', '.')}.Lts"
        Proof(crate, folder, it[key], known).convert()


if __name__ == "__main__":
    main()
