#!/bin/sh
# sh tests/c/headers.sh ARCHIVES
#
# ARCHIVES is the folder of librun_table.a, libkeeper.a and liblisting_text.a. For each of the three:
#   - its header compiles alone and twice over, as C99, C11 and (where g++ is there) C++11;
#   - the functions that the header declares are those that the archive defines, both ways; static inline ones are
#     no such functions;
#   - each declaration is that of the source, of the archive's crate (crates/NAME_c) and of the library that it exports
#     (crates/NAME): result, types, names and order of the parameters;
#   - each function of the archive's crate has the comment, the signature and the clauses of the library's, word for
#     word, and does nothing but call it with its own parameters in their order;
#   - the manual (docs/MANUAL.md) and the page of section 3 give the same functions with the same parameters, the
#     static inline ones too;
#   - the Rust binding (bindings/rust/src/archive.rs) declares the same functions with the same parameters;
#   - the stack that the header and the page tell of a call is what docs/BENCHMARKS.md has as its most;
#   - the archive needs nothing of others but the C library's memory functions, and has no data of its own
#     that could change, which is what the headers say.
# Stops at the first header that is not so, with the difference.

if [ $# -ne 1 ] || [ ! -d "$1" ]; then
    echo "usage: sh tests/c/headers.sh ARCHIVES" >&2
    exit 2
fi
archives=$1
root=$(dirname "$0")/../..
work=$(mktemp -d) || exit 1
trap 'rm -rf "$work"' EXIT
trap 'exit 1' HUP INT TERM

fail() {
    echo "headers: $*"
    exit 1
}

# One way to write a declaration: single spaces, none beside a bracket, a star beside its name.
layout='
function laid(text) {
    gsub(/[ \t\r\n]+/, " ", text)
    gsub(/ ?\( ?/, "(", text)
    gsub(/ ?\) ?/, ")", text)
    gsub(/ ?, ?/, ", ", text)
    gsub(/ ?\* ?/, " *", text)
    sub(/^ /, "", text)
    sub(/ $/, "", text)
    return text
}'

# The declarations of a header. A static inline function is none: it ends with a brace at the margin.
declared() {
    awk "$layout"'
    /^[ \t]*#/ { next }
    /^static inline / { inlined = 1 }
    inlined { if (/^}/) inlined = 0; next }
    { text = text $0 "\n" }
    END {
        while ((at = index(text, "/*")) > 0) {
            rest = substr(text, at + 2)
            text = substr(text, 1, at - 1) " " substr(rest, index(rest, "*/") + 2)
        }
        gsub(/extern "C" \{/, "", text)
        n = split(text, part, ";")
        for (i = 1; i <= n; i++)
            if (part[i] ~ /\)[ \t\n]*$/)
                print laid(part[i])
    }' "$1" | sort
}

# The static inline functions of a header, as declarations; each head stands on one line.
inlined() {
    awk "$layout"' /^static inline / { sub(/^static inline /, ""); print laid($0) }' "$1" | sort
}

# What a header tells of the stack of its calls: "Stack: 48." in the last comment before each.
stack_in_header() {
    awk '
    /^ *\/\*/ { comment = "" }
    { comment = comment " " $0 }
    /^uint[0-9]+_t [a-z_]+\(/ {
        name = $2
        sub(/\(.*/, "", name)
        if (match(comment, /Stack: [0-9]+/)) print name, substr(comment, RSTART + 7, RLENGTH - 7)
        comment = ""
    }' "$1" | sort
}

# The declarations in C of the functions that follow some words in a source of Rattle or Rust. A slice is a
# pointer and a length, whose name follows from the slice's name.
in_c() {
    awk -v words="$1" "$layout"'
    function c_type(type) {
        if (type == "u8" || type == "u16" || type == "u32" || type == "u64") return "uint" substr(type, 2) "_t"
        if (type == "usize") return "size_t"
        print "no C type for " type; exit 1
    }
    function c_length(name) {
        if (name == "table") return "length"
        if (name == "answer" || name == "text") return "room"
        if (name == "scratch") return "numbers"
        if (name ~ /^(list|ceilings|marks|processes|states|sets)$/) return name "_length"
        print "no name for the length of " name; exit 1
    }
    function c_parameter(name, type) {
        if (type ~ /^&\[/) return "const " c_type(substr(type, 3, length(type) - 3)) " *" name ", size_t " c_length(name)
        if (type ~ /^&mut \[/) return c_type(substr(type, 7, length(type) - 7)) " *" name ", size_t " c_length(name)
        if (type ~ /^&mut /) return c_type(substr(type, 6)) " *" name
        if (type ~ /^\*const /) return "const " c_type(substr(type, 8)) " *" name
        if (type ~ /^\*mut /) return c_type(substr(type, 6)) " *" name
        return c_type(type) " " name
    }
    { sub(/\/\/.*/, ""); text = text $0 " " }
    END {
        n = split(text, part, words)
        for (i = 2; i <= n; i++) {
            close_at = index(part[i], ")")
            head = substr(part[i], 1, close_at - 1)
            open_at = index(head, "(")
            name = substr(head, 1, open_at - 1)
            m = split(substr(head, open_at + 1), parameter, ",")
            list = ""
            for (k = 1; k <= m; k++) {
                p = laid(parameter[k])
                if (p == "") continue
                colon = index(p, ":")
                list = list (list == "" ? "" : ", ") c_parameter(substr(p, 1, colon - 1), laid(substr(p, colon + 1)))
            }
            rest = substr(part[i], close_at + 1)
            result = "void"
            if (match(rest, /^ *-> *[a-z0-9]+/)) {
                result = substr(rest, 1, RLENGTH)
                sub(/^ *-> */, "", result)
                result = c_type(result)
            }
            print laid(result " " name "(" (list == "" ? "void" : list) ")")
        }
    }' | sort
}

# What a source states of its exported functions: comment, signature and clauses. What the prover is told to try is
# no part of it.
stated() {
    awk '
    /^#\[tactic/ { skipped = 1 }
    skipped { if (/\)\]$/) skipped = 0; next }
    /^\/\// { comment = comment $0 "\n"; next }
    /^#\[unsafe\(no_mangle\)\]$/ { inside = 1; text = comment }
    inside && /^\{$/ { printf "%s", text; inside = 0 }
    inside { text = text $0 "\n" }
    { comment = "" }' "$1"
}

# The bodies of the exported functions of a source, without blanks, and what they are where each calls the function of
# its name in a crate.
bodies() {
    awk '
    /^pub extern "C" fn / { head = ""; inside = 1 }
    inside == 1 && /^\{$/ {
        name = head
        sub(/\(.*/, "", name)
        sub(/.* /, "", name)
        inside = 2
        body = ""
        next
    }
    inside == 1 { head = head $0 " " }
    inside == 2 && /^\}$/ { gsub(/[ \t]/, "", body); sub(/,\)$/, ")", body); print name ": " body; inside = 0 }
    inside == 2 { body = body $0 }' "$1"
}
called() {
    awk -v crate="$2" '
    /^pub extern "C" fn / { head = ""; inside = 1 }
    inside && /^\{$/ {
        list = head
        sub(/^[^(]*\(/, "", list)
        sub(/\).*/, "", list)
        name = head
        sub(/\(.*/, "", name)
        sub(/.* /, "", name)
        n = split(list, parameter, ",")
        given = ""
        for (i = 1; i <= n; i++) {
            sub(/:.*/, "", parameter[i])
            gsub(/[ \t]/, "", parameter[i])
            if (parameter[i] != "") given = given (given == "" ? "" : ",") parameter[i]
        }
        print name ": " crate "::" name "(" given ")"
        inside = 0
    }
    inside { head = head $0 " " }' "$1"
}

# The declarations of the synopsis of a page in mdoc, those whose name begins so.
in_page() {
    awk -v prefix="$2" "$layout"'
    $1 == ".Ft" { result = substr($0, 5); gsub(/"/, "", result) }
    $1 == ".Fo" { name = $2; list = "" }
    $1 == ".Fa" { p = substr($0, 5); gsub(/"/, "", p); list = list (list == "" ? "" : ", ") p }
    $1 == ".Fc" { if (name ~ "^(" prefix ")$") print laid(result " " name "(" list ")") }
    ' "$1" | sort
}

# Declarations as the manual shortens them: slices and their lengths by name alone.
shortened() {
    sed -e 's/const uint[0-9]*_t \*//g' -e 's/uint[0-9]*_t \*//g' \
        -e 's/size_t \(length\|room\|numbers\|\(list\|ceilings\|marks\|processes\|states\|sets\)_length\)\([,)]\)/\1\3/g' "$1" | sort
}

names_of() {
    sed 's/(.*//; s/.* //; s/^\*//' "$1" | sort
}

sed -n 's/^| `\([a-z0-9_]*\)` | [0-9]* | \([0-9]*\) |$/\1 \2/p' "$root/docs/BENCHMARKS.md" | sort >"$work/stack"
[ -s "$work/stack" ] || fail "docs/BENCHMARKS.md has no stack of a call"

for crate in run_table keeper listing_text; do
    header=$root/include/$crate.h
    archive=$archives/lib$crate.a
    [ -f "$archive" ] || fail "$archive: there is no such file"

    printf '#include "%s.h"\n#include "%s.h"\nint main(void) { return 0; }\n' $crate $crate >"$work/alone.c"
    for standard in c99 c11; do
        gcc -std=$standard -Wall -Wextra -Werror -pedantic -I"$root/include" -c -o "$work/alone.o" "$work/alone.c" || fail "$crate.h is not $standard"
    done
    if command -v g++ >/dev/null 2>&1; then
        g++ -x c++ -std=c++11 -Wall -Wextra -Werror -pedantic -I"$root/include" -c -o "$work/alone.o" "$work/alone.c" || fail "$crate.h is not C++"
    fi

    declared "$header" >"$work/declared"
    [ -s "$work/declared" ] || fail "$crate.h declares nothing"
    names_of "$work/declared" >"$work/names"

    nm -g --defined-only --format=posix "$archive" | awk 'NF > 1 { print $1 }' | sort >"$work/defined"
    diff "$work/names" "$work/defined" >"$work/diff" || fail "$crate.h (<) and what lib$crate.a defines (>):
$(cat "$work/diff")"
    nm --format=posix "$archive" | awk 'NF > 1 && $2 ~ /^[BbCcDdGgSs]$/ { print $1 }' >"$work/data"
    [ ! -s "$work/data" ] || fail "lib$crate.a has data of its own: $(cat "$work/data")"
    # An archive needs what the manual names, and nothing else.
    awk '/^An archive needs nothing but/ {
        for (; match($0, /`mem[a-z]*`/); $0 = substr($0, RSTART + RLENGTH)) print substr($0, RSTART + 1, RLENGTH - 2)
    }' "$root/docs/MANUAL.md" >"$work/may_need"
    nm -u --format=posix "$archive" | awk 'NF > 1 { print $1 }' | grep -vxF -f "$work/may_need" >"$work/needed"
    [ ! -s "$work/needed" ] || fail "lib$crate.a needs what docs/MANUAL.md does not name: $(cat "$work/needed")"

    for source in "$crate" "${crate}_c"; do
        cat "$root/crates/$source"/src/*.rt | in_c 'pub extern "C" fn ' >"$work/exported"
        diff "$work/declared" "$work/exported" >"$work/diff" || fail "$crate.h (<) and the source of $source (>):
$(cat "$work/diff")"
    done
    stated "$root/crates/$crate/src/lib.rt" >"$work/library"
    stated "$root/crates/${crate}_c/src/lib.rt" | diff "$work/library" - >"$work/diff" ||
        fail "what crates/$crate (<) and crates/${crate}_c (>) state of a function:
$(cat "$work/diff")"
    called "$root/crates/${crate}_c/src/lib.rt" "$crate" >"$work/called"
    bodies "$root/crates/${crate}_c/src/lib.rt" | diff "$work/called" - >"$work/diff" ||
        fail "crates/${crate}_c, the calls of $crate (<) and its bodies (>):
$(cat "$work/diff")"
    [ "$(wc -l <"$work/called")" -eq "$(wc -l <"$work/names")" ] || fail "crates/${crate}_c does not export every call of $crate.h"

    # The manual and the page tell of the static inline functions too.
    { cat "$work/declared"; inlined "$header"; } | sort >"$work/public"
    shortened "$work/public" >"$work/short"
    pattern=$(names_of "$work/public" | tr '\n' '|' | sed 's/|$//')
    sed -n 's/^| `\([a-z0-9_ *]* \**[a-z0-9_]*(.*)\)` |.*/\1/p' "$root/docs/MANUAL.md" | grep -E "[ *]($pattern)\\(" | sort >"$work/manual"
    diff "$work/short" "$work/manual" >"$work/diff" || fail "$crate.h (<) and docs/MANUAL.md (>):
$(cat "$work/diff")"

    page=$root/man/keeper.3
    [ $crate != run_table ] || page=$root/man/run_table_check.3
    in_page "$page" "$pattern" >"$work/page"
    diff "$work/public" "$work/page" >"$work/diff" || fail "$crate.h (<) and man/$(basename "$page") (>):
$(cat "$work/diff")"

    # A header may leave out the stack of a call, a page may not.
    stack_in_header "$header" >"$work/told"
    [ -s "$work/told" ] || fail "$crate.h tells of no stack"
    diff "$work/stack" "$work/told" | grep '^>' >"$work/diff" && fail "$crate.h tells of another stack than docs/BENCHMARKS.md: $(cat "$work/diff")"
    names_of "$work/declared" | join - "$work/stack" >"$work/measured"
    sed -n 's/^\.It Fn \([a-z0-9_]*\) Ta \([0-9]*\)$/\1 \2/p' "$page" | sort | join - "$work/names" >"$work/told"
    diff "$work/measured" "$work/told" >"$work/diff" || fail "the stack in docs/BENCHMARKS.md (<) and man/$(basename "$page") (>):
$(cat "$work/diff")"
    [ "$(wc -l <"$work/measured")" -eq "$(wc -l <"$work/names")" ] || fail "docs/BENCHMARKS.md does not have the stack of every call of $crate.h"
done

# The binding declares what the headers declare, all three.
for crate in run_table keeper listing_text; do declared "$root/include/$crate.h"; done | sort >"$work/declared"
in_c 'pub fn ' <"$root/bindings/rust/src/archive.rs" >"$work/binding"
diff "$work/declared" "$work/binding" >"$work/diff" || fail "the headers (<) and bindings/rust/src/archive.rs (>):
$(cat "$work/diff")"

# Nothing stands in the manual or on a page that no header has.
for crate in run_table keeper listing_text; do inlined "$root/include/$crate.h"; done | sort >"$work/inlined"
{ names_of "$work/declared"; names_of "$work/inlined"; } | sort >"$work/names"
{
    sed -n 's/^| `[a-z0-9_ *]* \**\([a-z0-9_]*\)(.*/\1/p' "$root/docs/MANUAL.md"
    sed -n 's/^\.Fo \(.*\)/\1/p' "$root"/man/*.3
} | sort -u >"$work/told"
diff "$work/names" "$work/told" >"$work/diff" || fail "the headers (<), the manual and the pages (>):
$(cat "$work/diff")"

# Each page of section 3 names its functions at its head: links to the page are made of these names.
for page in "$root"/man/*.3; do
    sed -n 's/^\.Fo \(.*\)/\1/p' "$page" | sort >"$work/told"
    sed -n '/^\.Sh NAME/,/^\.Nd/s/^\.Nm \([a-z0-9_]*\).*/\1/p' "$page" | sort | diff "$work/told" - >"$work/diff" ||
        fail "man/$(basename "$page"), its synopsis (<) and its names (>):
$(cat "$work/diff")"
done

command -v g++ >/dev/null 2>&1 || echo "headers: g++ is missing, so that they were not compiled as C++"
echo "headers: $(wc -l <"$work/declared" | tr -d ' ') functions declared as the archives define them, as the sources, the manual, the man pages and the Rust binding have them, and $(wc -l <"$work/inlined" | tr -d ' ') static inline"
