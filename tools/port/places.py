#!/usr/bin/env python3
"""Lists the places of src/ that are written in an older form, point by point of docs/DESIGN-PASS.md.

usage: python3 tools/port/places.py [--at COMMIT] [POINT ..]     at the top; all points, and what stands in the tree, by default

Each line is a place: where it stands, and what was seen there. The crates that export a library for C repeat its functions
and are left out. What is listed is what a script can see; whether it is a place, the page says.
"""

import difflib
import re
import subprocess
import sys

EXPORTS = ("keeper_c", "run_table_c", "listing_text_c")


def sources(commit):
    """The text of each file of src/, by its path."""
    if commit:
        names = subprocess.run(["git", "ls-tree", "-r", "--name-only", commit, "crates"], capture_output=True, text=True, check=True).stdout
    else:
        names = subprocess.run(["git", "ls-files", "crates"], capture_output=True, text=True, check=True).stdout
    out = {}
    for name in names.split():
        m = re.match(r"crates/([a-z_0-9]+)/src/.*\.rt$", name)
        if not m or m.group(1) in EXPORTS:
            continue
        if commit:
            out[name] = subprocess.run(["git", "show", f"{commit}:{name}"], capture_output=True, text=True, check=True).stdout
        else:
            out[name] = open(name, encoding="utf-8").read()
    return out


def line_of(text, at):
    return text.count("\n", 0, at) + 1


def bare(text):
    """The text with comments blanked, its length kept."""
    return re.sub(r"//[^\n]*", lambda m: " " * len(m.group()), text)


def block(text, at):
    """The end of the block that opens at or behind a place."""
    i = text.index("{", at)
    depth = 0
    for j in range(i, len(text)):
        depth += {"{": 1, "}": -1}.get(text[j], 0)
        if depth == 0:
            return i, j + 1
    raise SystemExit("a block does not end")


class Function:
    def __init__(self, path, text, m):
        self.path, self.line, self.name = path, line_of(text, m.start(1)), m.group(2)
        # the body is the first block that no clause opens
        end = text.find("\n{\n", m.end())
        own = re.compile(r"\n( *)\{\n").search(text, m.end())
        one = re.compile(r"[^\n]*\{\n").match(text, m.end())
        if one and not re.search(r"requires|ensures", one.group()):
            start = m.end() + one.group().rindex("{")
        elif own:
            start = own.start() + 1 + len(own.group(1))
        else:
            start = end
        i, j = block(text, start)
        self.head, self.body = text[m.start(2) : i], text[i:j]
        self.label = f"{path}:{self.line}: {self.name}"


def functions(path, text):
    out = []
    for m in re.finditer(r"(?m)^ *((?:pub(?:\(crate\))? )?(?:const )?(?:extern \"C\" )?fn )([a-z0-9_]+)", text):
        if text[m.end() :].lstrip().startswith(";"):
            continue
        try:
            out.append(Function(path, text, m))
        except (SystemExit, ValueError):
            continue
    return out


def loops(path, text):
    """Each `while` and `loop`: its line, its label, its condition and its body."""
    for m in re.finditer(r"(?:'([a-z]+): )?\b(while|loop)\b([^{]*)\{", text):
        i, j = block(text, m.end() - 1)
        yield line_of(text, m.start()), m.group(1), m.group(2), m.group(3).strip(), text[i:j]


def point_1(files):
    for path, text in files.items():
        code = bare(text)
        for f in functions(path, code):
            codes = re.findall(r"return ([1-9][0-9]*);", f.body) + re.findall(r"=> ([1-9][0-9]*),", f.body)
            if re.search(r"-> u(32|size)\b", f.head) and (codes or re.search(r"[a-z_]*refusal != 0|FAULT", f.body)):
                yield f"{f.label}: answers a number for a refusal or a kind"
            if re.search(r"&mut bool", f.head):
                yield f"{f.label}: a flag beside a value"
        for m in re.finditer(r"(?m)^ *const (NO_[A-Z]+)|^ *(Nothing|None|No),", code):
            yield f"{path}:{line_of(code, m.start())}: {m.group().strip()} says that there is none"
        for m in re.finditer(r"//[^\n]*(there is none|there are none|none does|none yet|, or m\.|or the length|which is 0 where)", text):
            yield f"{path}:{line_of(text, m.start())}: {m.group()[3:90].strip()}"


def shape(body):
    """A body with names and numbers taken out, but for the words of the language."""
    words = "let mut while loop for in if else return match as continue break usize u8 u16 u32 u64".split()
    body = re.sub(r'b?"[^"]*"', "S", body)
    return re.sub(r"\b[A-Za-z_][A-Za-z_0-9]*\b|\b[0-9]+\b", lambda m: m.group() if m.group() in words else "x", re.sub(r"\s+", " ", body))


def point_2(files):
    """Functions whose bodies, of five lines and more, have nearly the same shape, by groups; and functions of one name."""
    bodies, names = [], {}
    for path, text in files.items():
        for f in functions(path, bare(text)):
            if f.body.count("\n") >= 5:
                bodies.append((f.label, re.findall(r"\w+|[^\s\w]", shape(f.body))))
            names.setdefault(f.name, []).append(f.label)
    group = {label: {label} for label, _ in bodies}
    for i, (label, words) in enumerate(bodies):
        for other, theirs in bodies[i + 1 :]:
            if 5 * abs(len(words) - len(theirs)) < len(words) + len(theirs):
                if difflib.SequenceMatcher(None, words, theirs, autojunk=False).ratio() >= 0.9:
                    joined = group[label] | group[other]
                    for member in joined:
                        group[member] = joined
    for same in sorted({tuple(sorted(g)) for g in group.values() if len(g) > 1}):
        yield " = ".join(same)
    for name, same in names.items():
        if len(same) > 1 and name not in ("main", "from", "fmt", "next"):
            yield "of one name: " + " = ".join(same)


def point_3(files):
    for path, text in files.items():
        for line, label, word, condition, body in loops(path, bare(text)):
            steps = set(re.findall(r"\b([a-z_]+) [+-]= [^;]+;", body))
            counted = [w for w in re.findall(r"[a-z_]+", condition) if w in steps]
            said = f"counts {counted[0]}" if counted else "counts nothing"
            yield f"{path}:{line}: {label + ': ' if label else ''}{word} {condition} ({said})"


def point_4(files):
    for path, text in files.items():
        code = bare(text)
        for m in re.finditer(r"% 256\b|/ 256\b|256 \*|% 65536|/ 65536|% 4294967296", code):
            yield f"{path}:{line_of(code, m.start())}: a number cut or put together by hand"
        for m in re.finditer(r"impl(<[^>]*>)? (PartialEq|Eq|PartialOrd|Ord|Clone|Copy|Display|Debug|Hash)\b", code):
            yield f"{path}:{line_of(code, m.start())}: {m.group()}"
        for m in re.finditer(r"(#\[derive\(([^)]*)\)\]\n)?(pub )?(struct|enum) ([A-Za-z]+)", code):
            if "Copy" not in (m.group(2) or "") and "&'a mut" not in code[m.end() : m.end() + 200]:
                yield f"{path}:{line_of(code, m.start())}: {m.group(4)} {m.group(5)} has no copy"
        for f in functions(path, code):
            body = f.body.strip("{} \n")
            if re.fullmatch(r"if (\w+) (<|<=) (\w+) \{\s*return (\1|\3);\s*\}\s*(\1|\3)", body):
                yield f"{f.label}: the smaller or the larger of two"
            if re.fullmatch(r"(let mut (\w+) = 0;\s*)while (\w+) < [^{]*\{\s*[^;]*\[[^;]*\] = [^;]*;\s*\3 \+= 1;\s*\}(\s*\w+)?", body):
                yield f"{f.label}: a copy or a filling by hand"
            if len(re.findall(r"if says\(", f.body)) > 2:
                yield f"{f.label}: a word turned into a kind by hand"


def point_5(files):
    facts, groups = {}, {}
    for path, text in files.items():
        for f in functions(path, bare(text)):
            mine = set()
            for fact in re.findall(r"requires(?: [a-z0-9_]+)? \{ ([^}]*) \}", re.sub(r"\s+", " ", f.head)):
                mine.add(re.sub(r"\.(now|old|new)\b", "", fact))
            for fact in mine:
                facts.setdefault(fact, []).append(f"{path}:{f.line}: {f.name}")
            parameters = re.findall(r"(\w+): ([^,()]+(?:\([^)]*\))?)", f.head.split("->")[0].split("requires")[0].split("ensures")[0])
            parameters = [(n, re.sub(r"'\w+ |\s", "", t)) for n, t in parameters]
            for i in range(len(parameters)):
                for j in range(i + 1, len(parameters)):
                    groups.setdefault((parameters[i], parameters[j]), []).append(f"{path}:{f.line}: {f.name}")
    for fact, where in sorted(facts.items(), key=lambda x: -len(x[1])):
        if len(where) >= 3:
            yield f"{len(where)} contracts ask that {fact}"
    for pair, where in sorted(groups.items(), key=lambda x: -len(x[1])):
        if len(where) >= 8:
            yield f"{len(where)} functions take {pair[0][0]}: {pair[0][1]} and {pair[1][0]}: {pair[1][1]}"


def point_6(files):
    for path, text in files.items():
        code = bare(text)
        for f in functions(path, code):
            flat = re.sub(r"\s+", " ", f.head)
            m = re.search(r"(\w+): &(?:mut )?\[\w+\], (n|m|len|count|size|to|end): usize", flat)
            if m:
                yield f"{f.label}: {m.group(1)} with {m.group(2)} beside it"
            for m in re.finditer(r"let mut (\w+) = (?:\[[^\]]*\]|every_process\(\));", f.body):
                if re.search(r"let mut (count|height|len|size) = ", f.body):
                    yield f"{f.label}: {m.group(1)} with a length beside it"
        for m in re.finditer(r"struct (\w+)[^{]*\{([^}]*)\}", code):
            if re.search(r": (?:&'a mut )?\[", m.group(2)) and re.search(r"(count|len|at|size): usize", m.group(2)):
                yield f"{path}:{line_of(code, m.start())}: struct {m.group(1)} has an array and a length"


def point_7(files):
    for path, text in files.items():
        code = bare(text)
        for m in re.finditer(r"\bmatch ([a-z_().&]+) \{", code):
            _, j = block(code, m.end() - 1)
            arms = re.findall(r"=> (?:\{\s*)?([a-z_:]+)\(", code[m.end() : j])
            if len(arms) > 2:
                yield f"{path}:{line_of(code, m.start())}: match {m.group(1)} calls {', '.join(sorted(set(arms)))}"
        for m in re.finditer(r"\bfn\(", code):
            yield f"{path}:{line_of(code, m.start())}: a function pointer"


POINTS = {"1": point_1, "2": point_2, "3": point_3, "4": point_4, "5": point_5, "6": point_6, "7": point_7}


def main():
    arguments = sys.argv[1:]
    commit = None
    if arguments[:1] == ["--at"]:
        commit, arguments = arguments[1], arguments[2:]
    files = sources(commit)
    for point in arguments or sorted(POINTS):
        places = list(POINTS[point](files))
        print(f"point {point}: {len(places)}")
        for place in places:
            print(f"    {place}")


if __name__ == "__main__":
    main()
