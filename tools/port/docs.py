#!/usr/bin/env python3
"""Brings the names of definitions and lemmas that the documents cite, in backticks, to those that the crates have.

usage: python3 tools/port/docs.py [write]      at the top of the repository; without `write` it only says what it finds

A name that no crate has is looked up in tools/port/names.txt, and else in snake case, and respelled where a crate has
what is found. Then the names that no crate has and that look like a definition's are listed, with the documents.
docs/changes, docs/PORT.md and CHANGELOG.md tell of what was, and stay.
"""

import glob
import re
import sys

TOKEN = re.compile(r"[A-Za-z_◌+][A-Za-z0-9_'◌+\-]*")
HUMP = re.compile(r"(?<=[a-z0-9])(?=[A-Z])")
# Words of the command and of make, and an enum's values in another language: no definitions.
OTHERS = {"fall-back"}


def words_of_crates():
    found = set()
    for part in ("specs", "proofs", "src"):
        for path in glob.glob(f"crates/*/{part}/**/*", recursive=True):
            if path.endswith((".rt", ".antt")):
                text = open(path, encoding="utf-8").read()
                found |= set(TOKEN.findall(text)) | set(re.findall(r"[A-Za-z0-9_]+", text))
                found |= {it.rsplit(".", 1)[0] for it in path.split("/")}
    return found


def main():
    with open("tools/port/names.txt", encoding="utf-8") as f:
        names = dict(line.split() for line in f if len(line.split()) == 2)
    words = words_of_crates()

    def snake(word):
        return "_".join(it.lower() if len(it) > 1 else it for it in HUMP.split(word))

    def new_of(word):
        if word in OTHERS:
            return None
        if names.get(word) in words and word not in words:
            return names[word]
        if word in words or not re.match("[a-z]", word):
            return None
        tried = (snake(word), snake(word).replace("-", "_"), word.replace("-", "_"))
        return next((it for it in tried if it != word and it in words), None)

    changed, unknown = {}, {}
    documents = ["README.md", "CONTRIBUTING.md", "examples/README.md", "fuzz/README.md", *glob.glob("tests/*/README.md")]
    documents += [it for it in glob.glob("docs/*.md") if not it.endswith(("PORT.md", "BENCHMARKS.md"))]
    for document in sorted(documents):
        text = open(document, encoding="utf-8").read()

        def span(found):
            def word(it):
                new = new_of(it[0])
                if new:
                    changed[it[0], new] = changed.get((it[0], new), 0) + 1
                elif it[0] not in words and re.search("[a-z][A-Z]|[a-z]-[a-z]", it[0]):
                    unknown.setdefault(it[0], set()).add(document)
                return new or it[0]

            said = found[1]
            if "/" in said and not re.search(r"/(specs|proofs|src)\b", said):
                return found[0]
            return "`" + TOKEN.sub(word, said) + "`"

        turned = re.sub(r"`([^`\n]+)`", span, text)
        if turned != text and "write" in sys.argv[1:]:
            open(document, "w", encoding="utf-8").write(turned)
    for (old, new), count in sorted(changed.items()):
        print(f"{old} is {new}, {count} times")
    for word, where in sorted(unknown.items()):
        print(f"no crate has {word}: {' '.join(sorted(where))}")


if __name__ == "__main__":
    main()
