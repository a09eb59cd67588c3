#!/usr/bin/env bash
# Measures the plain engine: what a cycle costs of a counter, of pipelines, and of wide arithmetic with a table and a
# tree of tries, in all and for each node of an action that it evaluates. It proves and builds a program in a copy of the
# tree if need be (bench/costs/plain_bench), and is run by hand.
set -eu
cd "$(dirname "$0")/.."
. bench/cost.sh
. bench/costs.sh

program=$(measuring plain_bench pipeline 3 10)

# The first cycles, in which a pipeline fills, are left out.
first=200

echo "| design | rules | nodes evaluated in a cycle | cycles | $of_part per cycle | $of_part per node |"
echo "|---|---|---|---|---|---|"
while read -r what size rules nodes cycles; do
    start=$(cost /dev/null "$room/answer" "$program" "$what" "$size" "$first")
    taken=$(cost /dev/null "$room/answer" "$program" "$what" "$size" $((first + cycles)))
    awk -v start="$start" -v taken="$taken" -v scale="$part_scale" -v what="$what $size" -v rules="$rules" -v nodes="$nodes" -v cycles="$cycles" 'BEGIN {
        each = (taken - start) * scale / cycles
        printf "| %s | %d | %d | %d | %.0f | %.3g |\n", what, rules, nodes, cycles, each, each / nodes
    }'
done <<'DESIGNS'
counter 0 1 4 1000
counter 0 1 4 60000
pipeline 1 3 37 1000
pipeline 1 3 37 60000
pipeline 10 12 172 1000
pipeline 100 102 1522 1000
wide 0 5 43 1000
DESIGNS
