#!/usr/bin/env bash
# Measures the program: what a cycle of the counter costs, and what sources of up to a megabyte cost. It takes another
# program than the built one as an argument, and is run by hand.
set -eu
cd "$(dirname "$0")/.."
. bench/cost.sh
. bench/programs.sh

counter=examples/counter.koika
take_program "${1-}"

bytes() {
    wc -c <"$1" | awk '{ print $1 }'
}

# The counter with one byte, that many times, before a part of its first line.
longer() {
    awk -v byte="$1" -v count="$2" -v part="$3" '
        NR == 1 {
            at = index($0, part)
            printf "%s", substr($0, 1, at - 1)
            for (piece = byte; length(piece) < 4096; piece = piece piece) {}
            for (; count > 4096; count -= 4096) printf "%s", piece
            printf "%s", substr(piece, 1, count)
            $0 = substr($0, at)
        }
        { print }' "$counter"
}

echo "| cycles of the counter | bytes written | $of_run | $of_part per cycle, the start aside |"
echo "|---|---|---|---|"
start=$(cost "$counter" "$room/answer" "$program" sim --cycles 0)
for cycles in 0 1000 10000 65536; do
    taken=$(cost "$counter" "$room/answer" "$program" sim --cycles "$cycles")
    echo "| $cycles | $(bytes "$room/answer") | $(columns "$taken" "$start" "$cycles") |"
done

echo
echo "| source, run for one cycle | bytes | $of_run | $of_part per byte, the start aside | answer |"
echo "|---|---|---|---|---|"
while IFS=: read -r what byte part; do
    for size in 262144 524288 1048576; do
        longer "$byte" $((size - $(bytes "$counter"))) "$part" >"$room/source"
        taken=$(cost "$room/source" "$room/answer" "$program" sim --cycles 1)
        said=$(awk '{ print /^fault/ ? $0 : "the report"; exit }' "$room/answer")
        echo "| $what | $(bytes "$room/source") | $(columns "$taken" "$start" "$size") | $said |"
    done
done <<'SOURCES'
blanks before the counter: :reg
a long name:n:count
a number with leading zeros:0:8 =
a number that is too great:9:0;
SOURCES
