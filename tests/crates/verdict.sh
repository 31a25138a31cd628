#!/bin/sh
# { rt ci; echo "status $?"; } | sh tests/crates/verdict.sh
#
# Passes on what `rt ci` prints, line by line, and ends with its status. `rt ci` passes where a must-fail edit can't be
# applied, so that nothing tries it; this fails then. It also fails where no verdict is among the lines.

status=2
verdict=no
bad=no
while IFS= read -r line; do
    case $line in
    "status "*)
        status=${line#status }
        break
        ;;
    "rt: ok"*)
        verdict=yes
        if printf '%s\n' "$line" | grep -Eq ', 0*[1-9][0-9]* bad([^a-z]|$)'; then
            bad=yes
            echo "make test: there are must-fail edits that can't be applied, and none may be: as rt ci tells above" >&2
        fi
        ;;
    esac
    printf '%s\n' "$line"
done
[ "$status" = 0 ] || exit "$status"
[ $verdict = yes ] && [ $bad = no ]
