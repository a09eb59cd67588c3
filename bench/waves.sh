#!/usr/bin/env bash
# Whether a reader of VCD that isn't of this repository finds in the dumps of `waves` what the runs have. For each
# design of examples/, GTKWave's vcd2fst reads the dump, and its fstminer says each change of each signal. Values are
# compared at each time: registers and rules with the report of `sim`, inputs with the stimulus. That is the design's
# own, and random lines after it. It is run by hand:
#
#     bench/waves.sh [PROGRAM LAB_PROGRAM]
#
# Without programs it takes KOIKA and KOIKA_LAB, or else ./koika. The status is 1 if anything differs. Without the tools
# (Debian's package gtkwave, python3) nothing is compared, and it says so.
set -eu
cd "$(dirname "$0")/.."

program=${1:-${KOIKA:-./koika}}
lab=${2:-${KOIKA_LAB:-$program}}
for tool in vcd2fst fstminer python3; do
    command -v "$tool" >/dev/null || {
        echo "waves.sh: nothing is compared, since $tool isn't installed"
        exit 0
    }
done
status=0
"$lab" waves --cycles 0 <examples/counter.koika >/dev/null 2>&1 || status=$?
[ "$status" != 1 ] || {
    echo "waves.sh: nothing is compared, since $lab has no command \`waves\`"
    exit 0
}
room=$(mktemp -d)
trap 'rm -rf "$room"' EXIT
wrong=0

while read -r design; do
    "$program" compile <"$design" >"$room/circuit"
    python3 -B bench/waves.py stimulus "$design" "$room/circuit" >"$room/stimulus"
    (sed '/^%%/,$d' "$design" && echo %% && cat "$room/stimulus") >"$room/source"
    # No cycle, a run that ends before the stimulus, one that ends with it, and one that goes on.
    lines=$(wc -l <"$room/stimulus")
    for cycles in 0 $((lines / 2)) "$lines" $((lines + 3)); do
        "$program" sim --cycles "$cycles" <"$room/source" >"$room/report"
        "$lab" waves --cycles "$cycles" <"$room/source" >"$room/dump.vcd"
        vcd2fst "$room/dump.vcd" "$room/dump.fst"
        fstminer -c "$room/dump.fst" >"$room/changes"
        python3 -B bench/waves.py compare "$cycles" "$room/circuit" "$room/stimulus" "$room/report" "$room/changes" \
            >"$room/said" || {
            wrong=$((wrong + 1))
            echo "$design, $cycles cycles:"
            head -n 6 "$room/said"
        }
        [ "$(tail -n 1 "$room/dump.vcd")" = "#$((10 * cycles + 10))" ] || {
            wrong=$((wrong + 1))
            echo "$design, $cycles cycles: the dump doesn't end with its last time"
        }
    done
    echo "$design: $(head -n 1 "$room/said")"
done < <(find examples -name '*.koika' | LC_ALL=C sort)
[ "$wrong" = 0 ] || {
    echo "$wrong differ"
    exit 1
}
echo "all are the same"
