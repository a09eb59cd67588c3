#!/usr/bin/env bash
# Counts what speculation wastes: the attempts that workers make, and what becomes of each, by the journals of several
# designs for as many cycles as a journal reaches (docs/JOURNAL.md), up to one batch. It prints the table that
# docs/THREADS.md has. A row is the mean of several journals, ten unless another number is given: with more than one
# worker they differ from run to run. It takes another program than the built one as its argument, and is run by hand,
# on a machine with four processors that has nothing else to do:
#
#     bench/wasted.sh [--runs N] [PROGRAM]
set -eu
cd "$(dirname "$0")/.."
export LC_ALL=C
. bench/programs.sh
. bench/designs.sh

runs=10
if [ "${1-}" = --runs ]; then
    runs=${2-}
    shift 2
fi
take_program "${1-}"
room=$(mktemp -d)
trap 'rm -rf "$room"' EXIT

# How many cycles a journal of the design reaches, but no more than a batch.
cycles_of() {
    "$program" check <"$1" | sed 's/.*weight=//' |
        awk '{ cycles = int(16384 / ($1 + 1)); print cycles < 256 ? cycles : 256 }'
}

# The row of journals, which are one text. An attempt is stored, or comes late, twice or ahead. A settle looks at one
# that is stored, and finds it stale, or decides by it whether the rule fires. The rest is dropped when the cycle is
# closed.
row() {
    awk -v design="$1" -v cycles="$2" -v workers="$3" -v runs="$runs" '
        function mean(count) { return sprintf("%.1f", count / runs) }
        $1 == "s" { made++; became[$NF]++ }
        $1 == "t" { became[$4]++ }
        END {
            decided = became["committed"] + became["skipped"]
            unseen = became["stored"] - decided - became["stale"]
            print "| `" design "` | " cycles " | " workers " | " mean(made) " | " mean(became["stored"]) " | " \
                mean(decided) " | " mean(became["stale"]) " | " mean(unseen) " | " mean(became["late"]) " | " \
                mean(became["twice"]) " | " mean(became["ahead"]) " | " sprintf("%.2f", made / decided) " |"
        }'
}

echo "| design | cycles | workers | attempts | stored | decide a rule | stale | never looked at | late | twice" \
    "| ahead | attempts for each decision |"
echo "|---|---|---|---|---|---|---|---|---|---|---|---|"
for name in "gen 10" "gen 100" core queue "8 small rules" "8 rules"; do
    design "$name" >"$room/source"
    cycles=$(cycles_of "$room/source")
    if [ "$cycles" = 0 ]; then
        echo "| \`$name\` | none | | | | | | | | | | |"
        continue
    fi
    for workers in 1 2 4; do
        for ((run = 1; run <= runs; run++)); do
            "$program" sim --journal --workers "$workers" --cycles "$cycles" <"$room/source"
        done >"$room/journals"
        row "$name" "$cycles" "$workers" <"$room/journals"
    done
done
