# awk -f tests/c/refusals.awk docs/refusals.txt >WORK/refusals.inc
#
# The refusals as rows for C, in the order of the list: KEEPER_REFUSAL(name, number, "words"), and of the table's checks
# RUN_TABLE_REFUSAL(name, number, "words") too. The sign of multiplication is written *.
function put() {
    if (number == "") return
    gsub(/[ \t]+/, " ", words)
    gsub(/ × /, " * ", words)
    sub(/^ /, "", words)
    printf "KEEPER_REFUSAL(KEEPER_%s, %s, \"%s\")\n", name, number, words
    if (of == "table") {
        sub(/^TABLE_/, "", name)
        printf "RUN_TABLE_REFUSAL(RUN_TABLE_%s, %s, \"%s\")\n", name, number, words
    }
    number = ""
}
/^[ \t]+[^ \t]/ && number != "" { words = words " " $0; next }
{ put() }
/^[0-9]/ { number = $1; of = $2; name = $3; words = $0; sub(/^[^ \t]+[ \t]+[^ \t]+[ \t]+[^ \t]+/, "", words) }
END { put() }
