#!/usr/bin/env bash
# Checks the list of mistakes that the gate refuses, a part of docs/GATE.md: each file that it names must be there. An
# edit must fit the sources: each `old:` is in its file exactly once. A test, named after its file, must be a test of
# it. A line of a program's input must be one. It proves nothing: the gate tries the edits and runs the rest.
set -eu
cd "$(dirname "$0")/.."
. bench/edits.sh

failed=0
wrong() {
    echo "$1"
    failed=1
}

# Checks what a row says of where its mistake is tried: a file, and what of it is meant.
check() {
    local file=${1%%: *} what=
    [ "$file" = "$1" ] || what=${1#*: }
    if ! [ -f "$file" ]; then
        wrong "there is no $file"
        return
    fi
    case $file in
        */must-fail/*.edit)
            edit "$file" "$(dirname "$file")/.." look >"$room/places" && [ -s "$room/places" ] ||
                wrong "$file doesn't fit the sources"
            ;;
        *.rt)
            awk -v name="$what" '
                was_test && index($0, "fn " name "(") { found = 1 }
                { was_test = /^ *#\[test\]$/ }
                END { exit !found }' "$file" || wrong "$file has no test $what"
            ;;
        */stdin)
            awk -v line="$what" 'index($0, line) == 1 { found = 1 } END { exit !(found && line != "") }' "$file" ||
                wrong "$file has no line $what"
            ;;
        *) wrong "the gate tries nothing by $file" ;;
    esac
}

room=$(mktemp -d)
trap 'rm -rf "$room"' EXIT
awk '
    /^## / { within = $0 == "## The mistakes that the gate refuses" }
    within && /^\| / && !/^\| mistake / {
        rows++
        cells = split($0, cell, " *[|] *")
        if (cells != 4 || cell[2] == "" || cell[3] !~ /^`[^`]+`(, `[^`]+`)*$/) print "?" $0
        else {
            count = split(cell[3], part, "`")
            for (k = 2; k <= count; k += 2) print part[k]
        }
    }
    END { if (!rows) print "?no row" }' "${1:-docs/GATE.md}" >"$room/list"
while IFS= read -r one; do
    case $one in
        \?*) wrong "not understood: ${one#?}" ;;
        *) check "$one" ;;
    esac
done <"$room/list"
[ "$failed" != 0 ] || echo "$(wc -l <"$room/list") places are there"
exit "$failed"
