#!/bin/sh
# sh tests/refusals/compare.sh
#
# Compares each list of refusals in the repository with the one of docs/refusals.txt: numbers, order (every list
# stands in the checking order), names and words, as far as that list has them; and then, wherever it is told which
# checks a call makes, that with the rows of the calls there. Marks of a format, breaks of lines, a capital first
# letter and a full stop make no difference to the words, nor does N * N for N × N. Stops at the first difference,
# with the file, the refusal or call, and what stands on either side.

root=$(cd "$(dirname "$0")/../.." && pwd) || exit 1
cd "$root" || exit 1
work=$(mktemp -d) || exit 1
trap 'rm -rf "$work"' EXIT
trap 'exit 1' HUP INT TERM
lists=0

fail() {
    echo "refusals: $*"
    exit 1
}

# What the awk programs below share.
shared='
# Words in one form.
function plain(text) {
    gsub(/[ \t\r\n]+/, " ", text)
    gsub(/^ | $/, "", text)
    sub(/\.$/, "", text)
    gsub(/ \* /, " × ", text)
    if (text ~ /^(A |[A-Z][a-z])/) text = tolower(substr(text, 1, 1)) substr(text, 2)
    return text
}
# A refusal as it is compared and shown; what a list does not have is left out.
function row(number, name, of, words) {
    return number (name == "" ? "" : " " name) (of == "" ? "" : " (" of ")") (words == "" ? "" : ": " words)
}
# The checks of a call, from the sentence "Checks: the table'"'"'s, 12, 16." of a text; "" where it has none.
function checks_in(text) {
    gsub(/[ \t\r\n]+/, " ", text)
    if (!match(text, /Checks: [^.]*\./)) return ""
    return checks(substr(text, RSTART + 8, RLENGTH - 9))
}
function checks(text) {
    gsub(/the table'"'"'s/, "table", text)
    gsub(/,/, " ", text)
    gsub(/ +/, " ", text)
    gsub(/^ | $/, "", text)
    return text
}'

# ---- the one table: $work/refusals has its refusals, number|of|name|words, and $work/calls its calls, name: checks
[ -f docs/refusals.txt ] || fail "docs/refusals.txt is missing"
awk "$shared"'
function wrong(what) { print "refusals: docs/refusals.txt, line " FNR ": " what; failed = 1; exit 1 }
/^#/ || /^[ \t]*$/ { last = 0; next }
/^[ \t]/ { if (!last) wrong("no row to go on with"); words[n] = words[n] $0; next }
/^[0-9]/ {
    if ($1 !~ /^[1-9][0-9]*$/) wrong($1 " is no number of a refusal")
    if ($2 != "table" && $2 != "call") wrong("refusal " $1 " is of " $2 ", and not of table or call")
    if ($3 !~ /^[A-Z]+(_[A-Z]+)*$/) wrong("refusal " $1 " has the name " $3)
    if ($1 in place) wrong("a second refusal " $1)
    if ($3 in named) wrong("a second refusal " $3)
    place[$1] = ++n; named[$3] = 1; number[n] = $1; of[n] = $2; name[n] = $3; last = 1
    words[n] = $0; sub(/^[^ \t]+[ \t]+[^ \t]+[ \t]+[^ \t]+/, "", words[n])
    next
}
/^[a-z]/ {
    last = 0
    if ($1 !~ /^keeper_[a-z_]+$/) wrong($1 " is no name of a call")
    if ($1 in called) wrong("a second row of " $1)
    called[$1] = ++m; call[m] = $0; line[m] = FNR
    next
}
{ wrong("neither a refusal nor a call") }
END {
    if (failed) exit 1
    for (i = 1; i <= n; i++) {
        words[i] = plain(words[i])
        if (words[i] == "" || words[i] ~ /\|/) { FNR = "of refusal " number[i]; wrong("it needs words, and none with a bar") }
        print number[i] "|" of[i] "|" name[i] "|" words[i] >refusals
    }
    for (j = 1; j <= m; j++) {
        FNR = line[j]
        fields = split(call[j], field, /[ \t]+/)
        before = 0; told = ""
        for (k = 2; k <= fields; k++) {
            if (field[k] == "table") { for (first = 1; first <= n && of[first] != "table"; first++); at = first }
            else if (field[k] in place && of[place[field[k]]] == "call") at = place[field[k]]
            else wrong(field[1] ": " field[k] " is no check of a call, nor `table`")
            if (at <= before) wrong(field[1] ": " field[k] " does not come after the check before it")
            before = at; told = told " " field[k]
            if (field[k] == "table") while (before < n && of[before + 1] == "table") before++
        }
        if (told == "") wrong(field[1] " has no checks")
        print field[1] ":" told >calls
    }
    if (n == 0 || m == 0) { FNR = NR; wrong("the end, and no refusals or no calls") }
}' refusals="$work/refusals" calls="$work/calls" docs/refusals.txt || exit 1
LC_ALL=C sort "$work/calls" >"$work/sorted" && mv "$work/sorted" "$work/calls" || exit 1

# The refusals as a list is expected to have them: all, or those of the table or of a call; in which language the names are
# (c, run_table, rust, none); whether it is told what each is of, and in which words (yes, no).
expected() {
    awk -F'|' -v which="$1" -v language="$2" -v told_of="$3" -v told_words="$4" "$shared"'
    function named(name,   n, i, part, text) {
        if (language == "c") return "KEEPER_" name
        if (language == "run_table") { sub(/^TABLE_/, "", name); return "RUN_TABLE_" name }
        if (language != "rust") return ""
        n = split(name, part, "_")
        for (i = 1; i <= n; i++) text = text substr(part[i], 1, 1) tolower(substr(part[i], 2))
        return text
    }
    which != "all" && $2 != which { next }
    { print row($1, named($3), told_of == "yes" ? $2 : "", told_words == "yes" ? $4 : "") }' "$work/refusals" >"$work/expected"
}

# Compares $work/found, what a file has, with $work/expected, line by line.
same() {
    awk -v file="$1" '
    FNR == NR { expected[++n] = $0 ""; next }
    { found[++m] = $0 "" }
    END {
        for (i = 1; i <= n || i <= m; i++)
            if (expected[i] != found[i]) {
                print "refusals: " file ": row " i " of its list is \"" (i > m ? "missing" : found[i]) "\""
                print "refusals: by docs/refusals.txt it is \"" (i > n ? "one too many" : expected[i]) "\""
                exit 1
            }
    }' "$work/expected" "$work/found" || exit 1
    lists=$((lists + 1))
}

# A file has to be there before it is read.
reads() {
    for wanted in "$@"; do [ -f "$wanted" ] || fail "$wanted is missing"; done
}

# ---- the lists

# An enum in C: names with numbers, each with its words in a comment behind it. A comment that ends with a colon begins a
# part, of the table or not.
in_enum() {
    reads "$1"
    awk -v enum="$2" "$shared"'
    $0 ~ "^enum " enum " [{]" { inside = 1; next }
    /^};/ { inside = 0 }
    inside { body = body $0 "\n" }
    END {
        for (sub(/^[ \t\n]+/, "", body); body != ""; sub(/^[ \t\n]+/, "", body))
            if (match(body, /^[A-Z_]+ *= *[0-9]+,?/)) {
                n++
                entry = substr(body, 1, RLENGTH)
                body = substr(body, RLENGTH + 1)
                sub(/,$/, "", entry)
                split(entry, side, / *= */)
                name[n] = side[1]; number[n] = side[2]; of[n] = part
            } else if (substr(body, 1, 2) == "/*") {
                end = index(body, "*/")
                comment = plain(substr(body, 3, end - 3))
                body = substr(body, end + 2)
                if (comment ~ /:$/) part = comment ~ /^of the table/ ? "table" : "call"
                else words[n] = words[n] comment
            } else {
                split(body, line, "\n")
                number[++n] = line[1]
                body = ""
            }
        for (i = 1; i <= n; i++) print row(number[i], name[i], of[i], words[i])
    }' "$1" >"$work/found"
}

in_enum include/keeper.h keeper_refusal
expected all c yes yes
{ echo "0 KEEPER_OK"; cat "$work/expected"; } >"$work/with_ok" && mv "$work/with_ok" "$work/expected"
same include/keeper.h

in_enum include/run_table.h run_table_refusal
expected table run_table no yes
{ echo "0 RUN_TABLE_OK"; cat "$work/expected"; } >"$work/with_ok" && mv "$work/with_ok" "$work/expected"
same include/run_table.h

# A function in C that gives the words: rows case NAME: return "words"; and a default, which is not looked at.
in_words() {
    reads "$1"
    awk -v function_name="$2" "$shared"'
    index($0, "static inline const char *" function_name "(") == 1 { inside = 1; next }
    /^}/ { inside = 0 }
    inside { body = body $0 "\n" }
    END {
        sub(/^[^{]*\{[^{]*\{/, "", body)
        sub(/default:.*/, "", body)
        while (match(body, /^[ \t\n]*case [A-Z_]+:[ \t\n]*return[ \t\n]+("[^"]*"[ \t\n]*)+;/)) {
            entry = substr(body, 1, RLENGTH)
            body = substr(body, RLENGTH + 1)
            name = words = entry
            sub(/^[ \t\n]*case /, "", name)
            sub(/:.*/, "", name)
            sub(/^[^"]*"/, "", words)
            sub(/"[^"]*$/, "", words)
            gsub(/"[ \t\n]*"/, "", words)
            print name ": " plain(words)
        }
        gsub(/[ \t\n]+/, " ", body)
        if (body !~ /^ ?$/) print body
    }' "$1" >"$work/found"
}

# The words alone, with names and without numbers.
without_numbers() {
    sed 's/^[0-9]* //' "$work/expected" >"$work/named" && mv "$work/named" "$work/expected"
}

in_words include/run_table.h run_table_refusal_words
expected table run_table no yes
without_numbers
{ echo "RUN_TABLE_OK: no refusal"; cat "$work/expected"; } >"$work/with_ok" && mv "$work/with_ok" "$work/expected"
same "include/run_table.h, run_table_refusal_words"

# The keeper's has those of the table from there.
in_words include/keeper.h keeper_refusal_words
expected call c no yes
without_numbers
same "include/keeper.h, keeper_refusal_words"

# A section of a man page: items of a list that are numbers, each with its name beside it or below, and its words below.
in_page() {
    reads "$1"
    awk -v section="$2" "$shared"'
    function end_item() { if (number != "") print row(number, name, "", plain(words)); number = "" }
    /^\.S[hs] / { end_item(); inside = substr($0, 5) == section; next }
    !inside { next }
    /^\.It [0-9]+( Dv [A-Z_]+)?$/ { end_item(); number = $2; name = $4; words = ""; next }
    /^\.Dv / && number != "" && name == "" { name = $2; next }
    /^\./ { end_item(); next }
    { words = words " " $0 }
    END { end_item() }' "$1" >"$work/found"
}

in_page man/keeper.3 "RETURN VALUES"
expected all c no yes
same man/keeper.3

in_page man/run_table_check.3 "RETURN VALUES"
expected table run_table no no
same man/run_table_check.3

in_page man/run_table.5 "Checks"
expected table none no yes
same man/run_table.5

# The manual: rows | number | of | words | of its section.
reads docs/MANUAL.md
awk "$shared"'
/^## / { inside = $0 == "## Refusals" }
inside && /^\| *[0-9]+ *\|/ { split($0, cell, / *\| */); print row(cell[2], "", cell[3], plain(cell[4])) }' docs/MANUAL.md >"$work/found"
expected all none yes yes
same docs/MANUAL.md

# The Rust binding: rows Name = number, of, "words"; in its list.
reads bindings/rust/src/refusal.rs
awk "$shared"'
/^refusals! [{]/ { inside = 1; next }
/^}/ { inside = 0 }
inside { sub(/^ *\/\/.*/, ""); text = text $0 "\n" }
END {
    gsub(/\\\n[ \t]*/, "", text)
    while (match(text, /^[ \t\n]*[A-Za-z]+ = [0-9]+, [a-z]+, "[^"]*";/)) {
        entry = substr(text, 1, RLENGTH)
        text = substr(text, RLENGTH + 1)
        gsub(/^[ \t\n]*|";$/, "", entry)
        words = entry
        sub(/^[^"]*"/, "", words)
        split(entry, field, /[ ,=]+/)
        print row(field[2], field[1], field[3], plain(words))
    }
    gsub(/[ \t\n]+/, " ", text)
    sub(/;.*/, "", text)
    if (text !~ /^ ?$/) print text
}' bindings/rust/src/refusal.rs >"$work/found"
expected all rust yes yes
same bindings/rust/src/refusal.rs

# The second implementation: the list of the table's checks, their words where each is made, and where each is damaged.
reads tests/reference/src/table.rs
awk '/^pub const TABLE_CHECKS: / { inside = 1; sub(/.*= *\[/, "") }
inside { text = text $0; if (/\]/) exit }
END { sub(/\].*/, "", text); n = split(text, number, /[ ,\n]+/); for (i = 1; i <= n; i++) if (number[i] != "") print number[i] }' \
    tests/reference/src/table.rs >"$work/found"
expected table none no no
same tests/reference/src/table.rs
expected table none no yes
for file in table gen; do
    reads tests/reference/src/$file.rs
    # A comment goes on in the next line until its full stop.
    awk "$shared"'
    /^ *(\/\/|\/\/\/ Damage for ")[ ]*[0-9]+\. / { sub(/^ *\/\/(\/ Damage for ")? */, ""); number = $1; sub(/^[^ ]+ /, ""); words = $0; inside = 1 }
    inside && /^ *\/\// { sub(/^ *\/\/+ */, ""); words = words " " $0 }
    inside && words ~ /\."?$/ { sub(/"$/, "", words); print row(number + 0, "", "", plain(words)); inside = 0 }
    ' tests/reference/src/$file.rs >"$work/found"
    same tests/reference/src/$file.rs
done

# The definition that is proved: the numbers of table_checks, in its order.
reads crates/tables/specs/Checks.antt
awk '/^table_checks .*=/ { inside = 1 }
inside && /^ *$/ { inside = 0 }
inside && match($0, /number = [0-9]+/) { print substr($0, RSTART + 9, RLENGTH - 9) }' crates/tables/specs/Checks.antt >"$work/found"
expected table none no no
same crates/tables/specs/Checks.antt

# What the calls refuse by name: the names of the code, by whose order they compare, the number that it gives to each, and
# the number by definition.
reads crates/tables/src/refusal.rt crates/tables/specs/Refusals.antt
awk '/^pub enum Refusal / { inside = 1; next }
/^}/ { inside = 0 }
inside && match($0, /[A-Za-z]+/) { name[++n] = substr($0, RSTART, RLENGTH) }
match($0, /Refusal::[A-Za-z]+ => [0-9]+,/) { split(substr($0, RSTART + 9, RLENGTH - 10), part, " => "); number[part[1]] = part[2] }
END { for (i = 1; i <= n; i++) print number[name[i]] " " name[i] }' crates/tables/src/refusal.rt >"$work/found"
expected all rust no no
same crates/tables/src/refusal.rt
sed -n 's/^refusal_number \([A-Za-z]*\) = \([0-9]*\)$/\2 \1/p' crates/tables/specs/Refusals.antt >"$work/found"
expected all rust no no
same crates/tables/specs/Refusals.antt

# ---- the checks of each call

# Compares what a file tells of the calls, name: checks, with the rows of the calls that are asked for.
same_calls() {
    LC_ALL=C sort "$work/told" >"$work/found"
    grep -E "^($2):" "$work/calls" >"$work/expected"
    same "$1"
}
keeper=$(sed 's/:.*//' "$work/calls" | grep -v '^keeper_listing$' | tr '\n' '|' | sed 's/|$//')
all="$keeper|keeper_listing"

# A header: the last comment before each declaration.
in_comments() {
    reads "$1"
    awk "$shared"'
    /^ *\/\*/ { comment = "" }
    { comment = comment " " $0 }
    /^uint[0-9]+_t [a-z_]+\(/ { name = $2; sub(/\(.*/, "", name); told = checks_in(comment); if (told != "") print name ": " told; comment = "" }' "$1"
}
in_comments include/keeper.h >"$work/told"
same_calls include/keeper.h "$keeper"
in_comments include/listing_text.h >"$work/told"
same_calls include/listing_text.h keeper_listing

awk "$shared"'
$1 == ".It" && $2 == "Fn" { name = $3 }
/^Checks: / { print name ": " checks_in($0) }' man/keeper.3 >"$work/told"
same_calls man/keeper.3 "$all"

awk "$shared"'
/^\| `uint32_t keeper_/ { split($0, cell, / *\| */); name = cell[2]; gsub(/^`uint32_t |\(.*/, "", name); print name ": " checks(cell[3]) }' \
    docs/MANUAL.md >"$work/told"
same_calls docs/MANUAL.md "$all"

# Rust: the comment before each public function.
in_docs() {
    reads "$@"
    cat "$@" | awk "$shared"'
    /^\/\/\// { comment = comment " " substr($0, 4); next }
    /^pub fn / { name = $3; sub(/[(<].*/, "", name); told = checks_in(comment); if (told != "") print "keeper_" name ": " told }
    { comment = "" }'
}
in_docs bindings/rust/src/*.rs >"$work/told"
same_calls bindings/rust/src "$all"
in_docs tests/reference/src/*.rs >"$work/told"
same_calls tests/reference/src "$keeper"

echo "refusals: $(wc -l <"$work/refusals" | tr -d ' ') refusals and the checks of $(wc -l <"$work/calls" | tr -d ' ') calls, the same in $lists lists as in docs/refusals.txt"
