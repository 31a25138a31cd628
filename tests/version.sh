#!/bin/sh
# sh tests/version.sh
#
# Compares every place that says our version with the file VERSION: the macros of the headers, every package of Cargo in
# its manifest and in the lock files (there is one version, whether a package is handed out or not), and the newest
# heading of CHANGELOG.md, `## 0.7.0, ..`. The pkg-config files take theirs when they are installed, so they have to say
# @VERSION@. Names each place that differs.
#
# The second number is that of the change requests that have landed: of the notes docs/changes/NN-*.md. The headings of
# CHANGELOG.md fall, and have 0.N.0 for each request N.
#
# sh tests/version.sh must-fail WORK
#
# That this can fail: it is run over copies of these files with one change each, and has to find every one.

root=$(cd "$(dirname "$0")/.." && pwd) || exit 1

# The files that say the version, as paths from the root.
files() {
    (cd "$root" && {
        printf '%s\n' VERSION include/keeper.h include/run_table.h pkgconfig/*.pc.in
        find . \( -name target -o -name .git -o -name crates \) -prune -o \( -name Cargo.toml -o -name Cargo.lock \) -print |
            sed 's,^\./,,' | LC_ALL=C sort
        echo CHANGELOG.md
    })
}

# What a file says, a line for each place: a name for the place, and the version there.
said() {
    case $1 in
    include/*.h)
        for part in '' _MAJOR _MINOR _PATCH; do
            macro=$(basename "$1" .h | tr a-z A-Z)_VERSION$part
            echo "$macro $(sed -n "s/^#define $macro //p" "$root/$1" | tr -d '"')"
        done ;;
    *.pc.in) echo "Version $(sed -n 's/^Version: //p' "$root/$1")" ;;
    *Cargo.toml) awk '/^\[/ { inside = $0 == "[package]" } inside && $1 == "version" { version = $3 } END { gsub(/"/, "", version); print "version", version }' "$root/$1" ;;
    # A package of our own has no source.
    *Cargo.lock)
        awk 'function told() { if (name != "" && !elsewhere) print name, version; name = version = ""; elsewhere = 0 }
        { gsub(/"/, "") }
        /^\[\[package\]\]/ { told(); next }
        $1 == "name" { name = $3 }
        $1 == "version" { version = $3 }
        $1 == "source" { elsewhere = 1 }
        END { told() }' "$root/$1" ;;
    CHANGELOG.md) echo "heading $(sed -n 's/^## //p' "$root/$1" | head -n 1 | sed 's/[ ,].*//')" ;;
    esac
}

# What it has to say there.
wanted() {
    case $1 in
    *_MAJOR) echo "$version" | cut -d. -f1 ;;
    *_MINOR) echo "$version" | cut -d. -f2 ;;
    *_PATCH) echo "$version" | cut -d. -f3 ;;
    Version) echo @VERSION@ ;;
    *) echo "$version" ;;
    esac
}

compare() {
    version=$(cat "$root/VERSION") || exit 1
    echo "$version" | grep -Eq '^(0|[1-9][0-9]*)\.(0|[1-9][0-9]*)\.(0|[1-9][0-9]*)$' && [ "$(wc -l <"$root/VERSION")" -eq 1 ] || {
        echo "version: VERSION is not one line of three numbers with dots between them"
        exit 1
    }
    differs=0
    places=0
    for file in $(files); do
        [ "$file" != VERSION ] || continue
        [ -f "$root/$file" ] || { echo "version: $file is missing"; differs=1; continue; }
        lines=$(said "$file")
        [ -n "$lines" ] || { echo "version: $file says no version"; differs=1; }
        while read -r place found; do
            [ -n "$place" ] || continue
            places=$((places + 1))
            [ "$found" = "$(wanted "$place")" ] || {
                echo "version: $file says ${found:-nothing} at $place, and by VERSION it is $(wanted "$place")"
                differs=1
            }
        done <<END
$lines
END
    done
    minor=$(wanted _MINOR)
    notes=$(find "$root/docs/changes" -name '[0-9][0-9]-*.md' | wc -l)
    [ "$notes" -eq "$minor" ] || { echo "version: VERSION says $minor requests, and docs/changes has the notes of $((notes))"; differs=1; }
    awk -v minor="$minor" '
    /^## / {
        split($2, part, /[.,]/)
        number = part[1] * 1000000 + part[2] * 1000 + part[3]
        if (last != "" && number >= last) { print "version: CHANGELOG.md has " $2 " below another that is no higher"; failed = 1 }
        last = number; there[part[1] "." part[2] "." part[3]] = 1
    }
    END {
        for (n = 0; n <= minor; n++) if (!(("0." n ".0") in there)) { print "version: CHANGELOG.md has no 0." n ".0"; failed = 1 }
        exit failed
    }' "$root/CHANGELOG.md" || differs=1
    [ $differs -eq 0 ] || exit 1
    echo "version: $version, the same in $places places; $minor requests have landed"
}

must_fail() {
    [ -d "$1" ] || { echo "usage: sh tests/version.sh must-fail WORK" >&2; exit 2; }
    work=$(cd "$1" && pwd)
    prefix=version
    . "$root/tests/changes.sh"
    finds_nothing
    # Another version: every other file is named but those that take it when they are installed.
    changed VERSION 's/[0-9]*$/9&/'
    for file in $(files | grep -v -e '^VERSION$' -e '\.pc\.in$'); do
        grep -q "^version: $file says" "$work/must_fail.out" || { cat "$work/must_fail.out"; fail "not named: $file"; }
    done
    changed VERSION 's/\.[0-9]*$//'
    changed VERSION 's/$/-more/'
    changed VERSION 's/\.\([0-9]*\)$/.0\1/'
    changed VERSION 's/$/\n/'
    for file in $(files); do
        case $file in
        include/*.h)
            changed $file '/^#define [A-Z_]*_VERSION "/s/"/"9/'
            for part in MAJOR MINOR PATCH; do changed $file "/^#define [A-Z_]*_VERSION_$part /s/[0-9]*\$/9&/"; done
            changed $file '/^#define [A-Z_]*_VERSION "/d'
            changed $file '/^#define [A-Z_]*_VERSION_PATCH /d' ;;
        *.pc.in)
            changed $file "s/@VERSION@/$(cat "$root/VERSION")/"
            changed $file '/^Version: /d' ;;
        *Cargo.toml)
            changed $file '/^version = /s/"/"9/'
            changed $file '/^version = /d' ;;
        *Cargo.lock)
            changed $file '$!N;/^name = .*\nversion = /s/version = "/&9/;P;D' ;;
        CHANGELOG.md)
            changed $file '/^## /s/## /## 9/' ;;
        esac
    done
    # The headings of the change log: one that is missing, two in the other order; none.
    changed CHANGELOG.md 's/^## 0\.3\.0,/### 0.3.0,/'
    changed CHANGELOG.md 's/^## 0\.1\.0,/## 0.2.0,/;t;s/^## 0\.2\.0,/## 0.1.0,/'
    changed CHANGELOG.md 's/^## /### /'
    # One request more, and one less, than VERSION says.
    fresh
    echo '# One more' >"$copy/docs/changes/99-more.md"
    finds "a request more than the version says"
    fresh
    rm "$copy"/docs/changes/01-*.md
    finds "a request less than the version says"
    fresh
    rm "$copy/include/run_table.h"
    finds "a header that is missing"
    echo "must_fail: $found changes found by version.sh"
}

fresh() {
    rm -rf "$copy"
    for each in $(files) $(cd "$root" && echo docs/changes/*.md) tests/version.sh; do
        mkdir -p "$copy/$(dirname "$each")" && cp "$root/$each" "$copy/$each" || exit 1
    done
}

tested() {
    sh "$copy/tests/version.sh"
}

case ${1-} in
'') compare ;;
must-fail) must_fail "${2-}" ;;
*) echo "usage: sh tests/version.sh, or sh tests/version.sh must-fail WORK" >&2; exit 2 ;;
esac
