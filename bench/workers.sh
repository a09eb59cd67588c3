#!/usr/bin/env bash
# Measures what a run by workers costs beside one of the plain engine: for each cycle of the small processor of the
# examples, of the RISC-V core with a program, of two pipelines and of eight large rules; in seconds; beside one worker
# and the plain engine, on four processors and on two; and in memory, on a design at the language's limits. It takes
# another program than the built one as its argument, and is run by hand, on a quiet machine: workers wait for each
# other, so with more than one the figures differ from run to run, and where other programs run, each wait is long.
#
#     bench/workers.sh [PROGRAM]
#     bench/workers.sh --again N [--tests FOLDER] [PROGRAM]
#
# With --again it measures nothing, and runs N times, on two processors, what may wait for a thread: the tests of boards
# and workers, with a gate that holds workers and with a board of another kind; the cases with workers of source_runs,
# by 8 workers where the case leaves that open; and stored designs by 8 workers beside the plain engine. A run differs
# where its output or its status isn't the stored one, or the plain engine's; it hangs where it hasn't ended after the
# seconds that the last line has. The status is 1 if any differs or hangs, and 2 if something isn't built.
#
# The gate leaves the tests in crates/NAME/out/NAME_tests, and the other program in crates/source_runs/out/source_runs.
# --tests names another folder that has these files.
set -eu
cd "$(dirname "$0")/.."
. bench/cost.sh
. bench/programs.sh
. bench/designs.sh

times=0 tests=
while [ "${1-}" = --again ] || [ "${1-}" = --tests ]; do
    case $1:${2-} in
        --again: | --again:*[!0-9]*) echo "workers: --again needs a number" >&2 && exit 2 ;;
        --again:*) times=$2 ;;
        --tests:*) tests=$(realpath -e "${2-}") || exit 2 ;;
    esac
    shift 2
done
take_program "${1-}"

# The first processors, as many as that, of those that this script may use; fewer where there are no more.
processors() {
    taskset -cp $$ | sed 's/.*: //' | tr , '\n' |
        awk -F- -v most="$1" '{ for (k = $1; k <= $NF && count < most; k++) printf "%s%d", count++ ? "," : "", k }'
}

if [ "$times" != 0 ]; then
    . bench/again.sh
    again "$times"
    exit
fi

awk '$1 > 0.5 { print "workers: other programs run here (load " $1 "), so seconds are too many" }' /proc/loadavg >&2

# The first cycles, in which a pipeline fills, are left out of the instructions. No run has more than one batch.
first=128 batch=256

engine() {
    if [ "$1" = 0 ]; then echo "the plain engine"; else echo "workers: $1"; fi
}

# The words that have that many workers run the design.
words_of() {
    words=()
    [ "$1" = 0 ] || words=(--workers "$1")
}

# The elapsed seconds of a run, and those of all processors.
seconds() {
    command time -o "$room/seconds" -f "%e %U %S" "$program" sim --summary --cycles "$batch" "$@" <"$room/source" >/dev/null
    awk 'END { printf "%.2f | %.2f", $1, $2 + $3 }' "$room/seconds"
}

echo "| design | run by | $of_part per cycle | times those of the plain engine |" \
    "seconds for $batch cycles | on processors |"
echo "|---|---|---|---|---|---|"
for name in core queue "gen 10" "gen 100" "8 rules"; do
    design "$name" >"$room/source"
    for workers in 0 1 2 4; do
        words_of "$workers"
        start=$(cost "$room/source" /dev/null "$program" sim --summary --cycles "$first" ${words[@]+"${words[@]}"})
        taken=$(cost "$room/source" /dev/null "$program" sim --summary --cycles "$batch" ${words[@]+"${words[@]}"})
        each=$(awk -v start="$start" -v taken="$taken" -v scale="$part_scale" -v cycles=$((batch - first)) \
            'BEGIN { printf "%.0f", (taken - start) * scale / cycles }')
        [ "$workers" != 0 ] || plain=$each
        echo "| \`$name\` | $(engine "$workers") | $each | $(awk -v a="$each" -v b="$plain" 'BEGIN { printf "%.1f", a / b }')" \
            "| $(seconds ${words[@]+"${words[@]}"}) |"
    done
done

# The median of the elapsed seconds of nine runs on these processors.
median() {
    local began ended
    for _ in {1..9}; do
        began=${EPOCHREALTIME/./}
        taskset -c "$1" "$program" sim --summary --cycles "$batch" "${@:2}" <"$room/source" >/dev/null
        ended=${EPOCHREALTIME/./}
        echo $((ended - began))
    done | sort -n | awk '{ taken[NR] = $1 } END { printf "%.4f", taken[int((NR + 1) / 2)] / 1000000 }'
}

# A row: a run of the source by workers on that many processors, beside one by other workers on as many.
beside() {
    local name=$1 count=$2 workers=$3 others=$4 on taken base
    on=$(processors "$count")
    [ "$(echo "$on" | tr , '\n' | wc -l)" = "$count" ] || {
        echo "workers: there are no $count processors for \`$name\`" >&2
        return 0
    }
    words_of "$others"
    base=$(median "$on" ${words[@]+"${words[@]}"})
    words_of "$workers"
    taken=$(median "$on" "${words[@]}")
    echo "| \`$name\` | $count | $(engine "$workers") | $taken | $(engine "$others") | $base" \
        "| $(awk -v a="$taken" -v b="$base" 'BEGIN { printf "%.2f", a / b }') |"
}

echo
echo "| design | processors | run by | seconds for $batch cycles | beside | its seconds | times |"
echo "|---|---|---|---|---|---|---|"
design "gen 100" >"$room/source"
beside "gen 100" 4 4 1
beside "gen 100" 2 8 1
design "8 rules" >"$room/source"
beside "8 rules" 4 4 0
echo
echo "\`8 rules\`: $("$program" check <"$room/source" | sed 's/^ok //'). These seconds are the median of nine runs."

largest_design >"$room/source"
echo
echo "| $("$program" check <"$room/source" | sed 's/^ok //'): $batch cycles by | kilobytes at most |"
echo "|---|---|"
for workers in 0 1 2 4; do
    words_of "$workers"
    command time -o "$room/memory" -f %M "$program" sim --summary --cycles "$batch" ${words[@]+"${words[@]}"} \
        <"$room/source" >/dev/null
    echo "| $(engine "$workers") | $(tail -n 1 "$room/memory") |"
done
