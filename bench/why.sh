#!/usr/bin/env bash
# Compares the lab with the rest, on each design of examples/ for as many cycles as a journal reaches (fault 49). Each
# verdict of `why` with its cause is the line `committed` or `skipped` of a journal by one worker, and the events of a
# rule that fired are those of its attempt there. The registers of a line `cycle` are those of the report's line before.
# What `profile` writes is counted once more, of what `why` writes. It takes other programs than the built ones and other
# designs than the stored ones as its arguments, and is run by hand:
#
#     bench/why.sh [PROGRAM LAB_PROGRAM [DESIGN..]]
#
# The status is 1 if anything differs.
set -eu
cd "$(dirname "$0")/.."

. bench/programs.sh
take_program "${1-}"
take_lab "${2-}"
room=$(mktemp -d)
trap 'rm -rf "$room"' EXIT
wrong=0

# The verdicts of a journal: the cycle, the rule and its verdict, in order; of a rule that fired also its events.
verdicts_of_journal() {
    awk '
        $1 == "s" && $NF == "stored" {
            text = ""
            for (k = $5 == "own" ? 7 : 6; k < NF - 1; k++) text = text " " $k
            events[$3, $4] = text
        }
        $1 == "t" && $4 == "committed" { print $5, $6, "fired :" events[$5, $6] }
        $1 == "t" && $4 == "skipped" { sub(/^t [0-9]+ : skipped /, ""); print }' "$room/journal"
}

# Those of what `why` writes. A rule is in each cycle once, tried or not.
verdicts_of_why() {
    awk -v rules="$rules" '
        function close_cycle() { if (cycle != "" && lines != rules) print "cycle", cycle, "has", lines, "lines" }
        $2 ~ /^[0-9]/ { close_cycle(); cycle = $2; lines = 0; next }
        seen[cycle, $1]++ { print "cycle", cycle, "has", $1, "twice" }
        { lines++ }
        $2 == "fired" { print cycle, $0 }
        $2 != "fired" && $2 != "untried" { sub(/ :.*/, ""); print cycle, $0 }
        END { close_cycle() }' "$room/why"
}

# The registers that each cycle finds: by the report, and by `why`, where they come after the inputs.
registers_of_report() {
    awk -v most="$cycles" '/^@/ && NR <= most { sub(/^@[0-9]+ [^ ]+/, NR); print }' "$room/report"
}
registers_of_why() {
    awk -v registers="$registers" '$2 ~ /^[0-9]/ {
        text = $2
        for (k = NF - registers + 1; k <= NF; k++) text = text " " $k
        print text
    }' "$room/why"
}

# The profile, counted of what `why` writes: the rules and the assertions are in order of their declarations.
profile_of_why() {
    awk -v rules="$("$program" sim --cycles 0 --summary <"$design" | awk '$1 == "fired" { print $2 }' | tr '\n' ' ')" \
        -v marks="$("$program" print <"$design" | sed -n 's/^assert \(.*\) ;$/\1/p' | tr '\n' ' ')" '
        $2 ~ /^[0-9]/ { cycle = $2; next }
        {
            count[$1, $2]++
            if (($2 == "own" || $2 == "clash" || $2 == "untried") && !(($1) in unwatched)) unwatched[$1] = cycle
        }
        $2 == "own" || $2 == "clash" {
            rule = $1
            cause = $2
            text = $0
            sub(/ :.*/, "", text)
            sub(/^[^ ]+ [^ ]+/, "", text)
            text = cause " " rule text
            if (!times[text]++) { first[text] = cycle; known[rule, ++refusals[rule]] = text }
        }
        END {
            print "cycles", cycle + 0
            rule_count = split(rules, names, " ")
            for (k = 1; k <= rule_count; k++) {
                n = names[k]
                print "rule", n, "fired", count[n, "fired"] + 0, "abort", count[n, "abort"] + 0, "own", \
                    count[n, "own"] + 0, "clash", count[n, "clash"] + 0, "untried", count[n, "untried"] + 0
                for (j = 1; j <= refusals[n]; j++) print known[n, j], times[known[n, j]], "first", first[known[n, j]]
            }
            mark_count = split(marks, names, " ")
            for (k = 1; k <= mark_count; k++) {
                n = names[k]
                missed = count[n, "own"] + count[n, "clash"] + count[n, "untried"]
                print "assert", n, "held", count[n, "abort"] + 0, "violated", count[n, "fired"] + 0, "unwatched", \
                    missed (missed ? " first " unwatched[n] : "")
            }
        }' "$room/why"
}

# Compares two files, and says of which design the lines are that differ first.
same() {
    cmp -s "$room/wanted" "$room/found" || {
        wrong=$((wrong + 1))
        echo "$design: other $1:"
        diff "$room/wanted" "$room/found" | head -n 6 || true
    }
}

while read -r design; do
    IFS=' =' read -r _ _ registers _ rules _ _ _ weight <<<"$("$program" check <"$design")"
    cycles=$((16384 / (weight + 1)))
    if [ "$cycles" = 0 ]; then
        echo "$design has no journal"
        continue
    fi
    "$program" sim --workers 1 --journal --cycles "$cycles" <"$design" >"$room/journal"
    "$program" sim --cycles "$cycles" <"$design" >"$room/report"
    "$lab" why --cycle 1 --cycles "$cycles" <"$design" >"$room/why"
    "$lab" profile --cycles "$cycles" <"$design" >"$room/found"
    profile_of_why >"$room/wanted"
    same profile
    verdicts_of_journal >"$room/wanted"
    verdicts_of_why >"$room/found"
    same verdicts
    verdicts=$(wc -l <"$room/found")
    registers_of_report >"$room/wanted"
    registers_of_why >"$room/found"
    same registers
    echo "$design: $cycles cycles, $verdicts verdicts"
done < <(if [ $# -gt 2 ]; then printf '%s\n' "${@:3}"; else find examples -name '*.koika' | LC_ALL=C sort; fi)
[ "$wrong" = 0 ] || {
    echo "$wrong differ"
    exit 1
}
echo "all are the same"
