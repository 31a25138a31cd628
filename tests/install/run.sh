#!/bin/sh
# sh tests/install/run.sh
#
# Installs into a temporary folder by `make install` (MAKE names another make), and there: compiles the
# examples of the man pages by the flags of the pkg-config files and runs them, runs the programs and
# the examples of their pages, asks everything for its version, completes words, has the pages formatted with all
# warnings on, follows the pages that lead to another, and uninstalls. Then the same with DESTDIR. Says which tools
# were missing.

root=$(cd "$(dirname "$0")/../.." && pwd) || exit 1
make=${MAKE:-make}
work=$(mktemp -d) || exit 1
trap 'rm -rf "$work"' EXIT
trap 'exit 1' HUP INT TERM

fail() {
    echo "install: $*"
    exit 1
}

has() {
    command -v "$1" >/dev/null 2>&1
}

# make, in the repository; what it prints is shown where it fails.
in_root() {
    (cd "$root" && $make --no-print-directory "$@") >"$work/make.log" 2>&1 || { cat "$work/make.log"; fail "make $* failed"; }
}

# The files under a folder, as paths from it.
files_of() {
    (cd "$1" && find . ! -type d | sed 's,^\./,,' | LC_ALL=C sort)
}

cat >"$work/expected" <<'END'
bin/keeper
bin/listing
include/keeper.h
include/listing_text.h
include/run_table.h
lib/libkeeper.a
lib/liblisting_text.a
lib/librun_table.a
lib/pkgconfig/keeper.pc
lib/pkgconfig/listing_text.pc
lib/pkgconfig/run_table.pc
share/bash-completion/completions/keeper
share/man/man1/keeper.1
share/man/man1/listing.1
share/man/man3/keeper.3
share/man/man3/run_table_check.3
share/man/man5/run_table.5
share/zsh/site-functions/_keeper
END

# Pages of one line, which lead to another: each call, and where it is told of.
cat >"$work/leads" <<'END'
keeper_check_table keeper
keeper_fall_back keeper
keeper_keep_sheet keeper
keeper_line_of_set keeper
keeper_line_under keeper
keeper_lines_of_sets keeper
keeper_listing keeper
keeper_marked_line keeper
keeper_put_u16 keeper
keeper_receive keeper
keeper_recovery_line keeper
keeper_refusal_words keeper
keeper_save keeper
keeper_send keeper
keeper_stand_together keeper
keeper_u16_at keeper
run_table_count run_table_check
run_table_messages run_table_check
run_table_processes run_table_check
run_table_received run_table_check
run_table_receiver run_table_check
run_table_refusal_words run_table_check
run_table_sender run_table_check
run_table_sent run_table_check
END
cp "$work/expected" "$work/pages"
{ cat "$work/pages"; sed 's,\(.*\) .*,share/man/man3/\1.3,' "$work/leads"; } | LC_ALL=C sort >"$work/expected"

# ---- into a prefix
prefix=$work/prefix
in_root install PREFIX="$prefix"
files_of "$prefix" >"$work/installed"
diff "$work/expected" "$work/installed" || fail "not the expected files (<: expected)"
for file in include/keeper.h include/listing_text.h include/run_table.h; do
    cmp "$root/$file" "$prefix/$file" || exit 1
done

# The flags of a pkg-config file, read without pkg-config.
flags_read() {
    awk '
    /^[a-z]+=/ { at = index($0, "="); value[substr($0, 1, at - 1)] = substr($0, at + 1) }
    /^Cflags: / { cflags = substr($0, 9) }
    /^Libs: / { libs = substr($0, 7) }
    END {
        text = cflags " " libs
        while (match(text, /\$\{[a-z]+\}/))
            text = substr(text, 1, RSTART - 1) value[substr(text, RSTART + 2, RLENGTH - 3)] substr(text, RSTART + RLENGTH)
        print text
    }' "$prefix/lib/pkgconfig/$1.pc"
}

flags() {
    if has pkg-config; then
        PKG_CONFIG_PATH=$prefix/lib/pkgconfig pkg-config --cflags --libs "$1" | sed 's/ *$//'
    else
        flags_read "$1"
    fi
}

# What a page has in its display of that number, from 1: a C program, or what it prints.
example_of() {
    awk -v number="$2" '/^\.Bd -literal/ { inside = ++n == number; next } /^\.Ed/ { inside = 0 } inside { gsub(/\\e/, "\\"); print }' "$prefix/share/man/man3/$1.3"
}

# Compiles a program by the flags of a package, and runs it on example A.
compile_and_run() {
    package=$1
    if has pkg-config; then
        [ "$(flags "$package")" = "$(flags_read "$package")" ] || fail "$package.pc: pkg-config says '$(flags "$package")', read it is '$(flags_read "$package")'"
        PKG_CONFIG_PATH=$prefix/lib/pkgconfig pkg-config --validate "$package" || fail "$package.pc is not valid"
    fi
    # Not quoted: the flags are several words.
    for standard in c99 c11; do
        (cd "$work" && gcc -std=$standard -Wall -Wextra -Werror -pedantic -o "$package" "$package.c" $(flags "$package")) || fail "$package does not compile by its flags: $(flags "$package")"
    done
    "$work/$package" <"$root/tests/corpus/example_a.table" >"$work/$package.out" || fail "$package: failed on example A"
    diff "$work/$package.expected" "$work/$package.out" || fail "$package: not the expected output (<: expected)"
}

example_of keeper 1 >"$work/keeper.c"
example_of keeper 2 >"$work/keeper.expected"
grep -q '^message blue is at position 0$' "$work/keeper.expected" || fail "keeper.3: its second display is not what its first example prints"
compile_and_run keeper
example_of keeper 3 >"$work/keeper.c"
cat >"$work/keeper.expected" <<'END'
keep checkpoint 1 of process 0
keep checkpoint 1 of process 1
keep checkpoint 2 of process 1
keep message 0
keep message 4
END
compile_and_run keeper
printf 'xy' | "$work/keeper" >"$work/keeper.out" && fail "keeper: took two bytes for a table"
[ "$(cat "$work/keeper.out")" = "refused 1: the table has fewer than 4 bytes" ] || fail "keeper: told of two bytes: $(cat "$work/keeper.out")"
example_of run_table_check 1 >"$work/run_table.c"
echo "message 4 waits for process 0" >"$work/run_table.expected"
compile_and_run run_table
printf 'xy' | "$work/run_table" >"$work/run_table.out" && fail "run_table: took two bytes for a table"
[ "$(cat "$work/run_table.out")" = "refused 1: the table has fewer than 4 bytes" ] || fail "run_table: told of two bytes: $(cat "$work/run_table.out")"
cat >"$work/listing_text.c" <<'END'
#include <listing_text.h>
#include <stdio.h>

static uint8_t table[KEEPER_LARGEST_TABLE + 1], text[KEEPER_LISTING_ROOM];

int main(void)
{
    size_t length = fread(table, 1, sizeof table, stdin), size;
    if (keeper_listing(table, length, text, sizeof text, &size) != KEEPER_OK)
        return 1;
    return fwrite(text, 1, size, stdout) != size;
}
END
cp "$root/tests/corpus/example_a.listing" "$work/listing_text.expected"
compile_and_run listing_text

# ---- the programs, and the examples of their pages: each shows a session
"$prefix/bin/listing" <"$root/tests/corpus/example_a.table" | diff "$root/tests/corpus/example_a.listing" - || fail "listing: not the listing of example A"
"$prefix/bin/keeper" list "$root/tests/corpus/example_a.table" | diff "$root/tests/corpus/example_a.listing" - || fail "keeper list: not the listing of example A"
for program in listing keeper; do
    awk '/^\.Bd -literal/ { inside = 1; next } /^\.Ed/ { inside = 0 } inside { gsub(/\\e/, "\\"); print }' "$prefix/share/man/man1/$program.1" |
        sed -n '/^\$ /,$p' >"$work/session"
    grep '^\$ ' "$work/session" | sed 's/^\$ //' >"$work/commands"
    [ -s "$work/commands" ] || fail "$program.1 has no examples"
    while read -r command; do
        printf '$ %s\n' "$command"
        PATH=$prefix/bin:$PATH sh -c "$command"
    done <"$work/commands" >"$work/session.run"
    diff "$work/session" "$work/session.run" || fail "$program.1: its examples are not what happens (>)"
done

# ---- the version
version=$(cat "$root/VERSION")
[ "$("$prefix/bin/keeper" --version)" = "keeper $version" ] || fail "keeper --version says $("$prefix/bin/keeper" --version), and VERSION $version"
for package in keeper listing_text run_table; do
    [ "$(sed -n 's/^Version: //p' "$prefix/lib/pkgconfig/$package.pc")" = "$version" ] || fail "$package.pc: not the version $version"
    ! has pkg-config || [ "$(PKG_CONFIG_PATH=$prefix/lib/pkgconfig pkg-config --modversion $package)" = "$version" ] || fail "$package.pc: pkg-config does not say $version"
done
grep -l '@[A-Z]*@' "$prefix"/lib/pkgconfig/*.pc && fail "something was not filled in"

# ---- a listing that was cut: its end tells, and `keeper list` tells by its status
if [ -c /dev/full ]; then
    "$prefix/bin/listing" <"$root/tests/corpus/example_a.table" >/dev/full || fail "listing: a status is told, other than listing.1 says"
    "$prefix/bin/keeper" list "$root/tests/corpus/example_a.table" >/dev/full 2>"$work/full" && fail "keeper list: a full device is not told"
    [ -s "$work/full" ] || fail "keeper list: nothing is said of a full device"
fi

# ---- the completions: of the installed program, taken by the shells where they are there
completion_of() {
    "$prefix/bin/keeper" completion "$1" | cmp - "$prefix/$2" || fail "$2 is not what keeper completion $1 writes"
    if has "$1"; then "$1" -n "$prefix/$2" || fail "$2: $1 does not read it"; fi
}
completion_of bash share/bash-completion/completions/keeper
completion_of zsh share/zsh/site-functions/_keeper
if has bash; then
    offered=$(bash --norc -c 'source "$1"; COMP_WORDS=(keeper fa) COMP_CWORD=1; _keeper; echo "${COMPREPLY[*]}"' bash "$prefix/share/bash-completion/completions/keeper")
    [ "$offered" = fall-back ] || fail "bash completes 'keeper fa' to '$offered'"
fi

# ---- the man pages
formatters=
for page in $(grep '^share/man/' "$work/pages"); do
    if has groff; then
        groff -mandoc -ww -Tascii -z "$prefix/$page" >"$work/lint" 2>&1 && [ ! -s "$work/lint" ] || { cat "$work/lint"; fail "$page: groff -ww warns"; }
        formatters="groff $formatters"
    fi
    if has mandoc; then
        mandoc -T lint -W warning "$prefix/$page" >"$work/lint" 2>&1 && [ ! -s "$work/lint" ] || { cat "$work/lint"; fail "$page: mandoc -T lint warns"; }
        formatters="mandoc $formatters"
    fi
    if has man && man --version 2>/dev/null | grep -q '^man 2'; then
        LC_ALL=C.UTF-8 man --warnings -l "$prefix/$page" 2>"$work/lint" >/dev/null && [ ! -s "$work/lint" ] || { cat "$work/lint"; fail "$page: man --warnings warns"; }
        section=$(basename "$page" | sed 's/.*\.//')
        [ "$(man -M "$prefix/share/man" -w "$section" "$(basename "$page" ".$section")" 2>/dev/null)" = "$prefix/$page" ] || fail "$page: man does not find it"
        formatters="man $formatters"
    fi
done

# Those that lead to another show it; `man run_table` shows the format, and `man keeper` the command.
while read -r name page; do
    [ "$(cat "$prefix/share/man/man3/$name.3")" = ".so man3/$page.3" ] || fail "$name.3 does not lead to $page.3"
    [ -f "$prefix/share/man/man3/$page.3" ] || fail "$name.3 leads nowhere"
    if has man && man --version 2>/dev/null | grep -q '^man 2'; then
        LC_ALL=C.UTF-8 man -M "$prefix/share/man" 3 "$name" 2>/dev/null </dev/null >"$work/shown" || fail "man 3 $name finds nothing"
        LC_ALL=C.UTF-8 man -M "$prefix/share/man" 3 "$page" 2>/dev/null </dev/null | cmp -s - "$work/shown" || fail "man 3 $name does not show $page(3)"
        grep -q "$name" "$work/shown" || fail "man 3 $name shows a page without that name"
    fi
done <"$work/leads"
if has man && man --version 2>/dev/null | grep -q '^man 2'; then
    for found in run_table.5 keeper.1 listing.1 keeper_send.3 run_table_sent.3; do
        LC_ALL=C.UTF-8 man -M "$prefix/share/man" "${found%.*}" 2>/dev/null </dev/null >"$work/shown" || fail "man ${found%.*} finds nothing"
        LC_ALL=C.UTF-8 man -M "$prefix/share/man" "${found##*.}" "${found%.*}" 2>/dev/null </dev/null | cmp -s - "$work/shown" ||
            fail "man ${found%.*} does not show $found"
    done
fi

# ---- uninstalling takes what was installed and nothing else
echo other >"$prefix/lib/pkgconfig/other.pc"
in_root uninstall PREFIX="$prefix"
[ "$(files_of "$prefix")" = lib/pkgconfig/other.pc ] || fail "after make uninstall: $(files_of "$prefix")"

# ---- under DESTDIR, with a folder of its own for libraries
stage=$work/stage
in_root install DESTDIR="$stage" PREFIX=/opt/run LIBDIR=/opt/run/lib64
sed 's,^lib/,lib64/,; s,^,opt/run/,' "$work/expected" | LC_ALL=C sort >"$work/staged"
files_of "$stage" | diff "$work/staged" - || fail "under DESTDIR: not the expected files (<: expected)"
prefix=$stage/opt/run
grep -l "$stage" "$prefix"/lib64/pkgconfig/*.pc && fail "DESTDIR stands in a pkg-config file"
[ "$(sed -n 's/^prefix=//p' "$prefix/lib64/pkgconfig/keeper.pc")" = /opt/run ] || fail "keeper.pc: not the prefix"
[ "$(sed -n 's/^libdir=//p' "$prefix/lib64/pkgconfig/keeper.pc")" = '${prefix}/lib64' ] || fail "keeper.pc: not the folder of the libraries"
in_root uninstall DESTDIR="$stage" PREFIX=/opt/run LIBDIR=/opt/run/lib64
[ -z "$(files_of "$stage")" ] || fail "after make uninstall under DESTDIR: $(files_of "$stage")"

# ---- a prefix that is no whole path would make pkg-config files that work from one folder alone
(cd "$root" && $make --no-print-directory install DESTDIR="$work/no" PREFIX=usr) >"$work/make.log" 2>&1 && fail "a relative PREFIX is taken"
[ ! -e "$work/no" ] || fail "a relative PREFIX: something was installed"

for tool in pkg-config groff mandoc man bash zsh; do
    has $tool || echo "install: $tool is missing, and what it would check was left out"
done
[ -n "$formatters" ] || echo "install: nothing here formats man pages"
echo "install: ok, $(wc -l <"$work/expected" | tr -d ' ') files"
