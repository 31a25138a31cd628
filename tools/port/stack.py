#!/usr/bin/env python3
"""Writes the stack of the calls, as `sh bench/run.sh stack` measures it, to where it is told: docs/BENCHMARKS.md, headers, pages.

usage: sh bench/run.sh stack | python3 tools/port/stack.py      at the top of the repository, with the archives in place

`sh tests/c/headers.sh` compares the three with one another, and not with the archives.
"""

import re
import sys

ROW = r"\| `(\w+)` \| (\d+) \| (\d+) \|"


def main():
    measured = {m[1]: (m[2], m[3]) for m in re.finditer(ROW, sys.stdin.read())}
    if not measured:
        sys.exit("nothing was measured")

    def write(path, turn):
        text = open(path, encoding="utf-8").read()
        new = turn(text)
        if new != text:
            open(path, "w", encoding="utf-8").write(new)
            print("written", path)

    write(
        "docs/BENCHMARKS.md",
        lambda t: re.sub("(?m)^" + ROW + "$", lambda m: "| `%s` | %s | %s |" % (m[1], *measured.get(m[1], (m[2], m[3]))), t),
    )
    for page in ("man/keeper.3", "man/run_table_check.3"):
        write(
            page,
            lambda t: re.sub(r"(?m)^(\.It Fn (\w+) Ta) (\d+)$", lambda m: f"{m[1]} {measured.get(m[2], (0, m[3]))[1]}", t),
        )
    for header in ("keeper", "listing_text", "run_table"):

        def turn(text):
            # the last comment before a declaration tells of its stack
            for name in re.findall(r"(?m)^uint\d+_t (\w+)\(", text):
                at = re.search(rf"(?m)^uint\d+_t {name}\(", text).start()
                start = text.rindex("/*", 0, at)
                comment = text[start:at]
                text = text[:start] + re.sub(r"Stack: \d+", f"Stack: {measured[name][1]}", comment) + text[at:]
            return text

        write(f"include/{header}.h", turn)


if __name__ == "__main__":
    main()
