#!/usr/bin/env bash
# Measures what it costs to print a tree, for each byte of its text, by tests that print the same tree once and eleven
# times (bench/costs/syntax_tests). It proves and builds them in a copy of the tree if need be, and is run by hand.
set -eu
cd "$(dirname "$0")/.."
. bench/cost.sh
. bench/costs.sh

program=$(measuring syntax_tests)

echo "| what | bytes, ten texts | $of_run | $of_part for each byte, the making of the tree aside |"
echo "|---|---|---|---|"
while IFS=: read -r what bytes parts; do
    start=$(cost /dev/null /dev/null "$program" "costs::${parts}_are_printed_once")
    taken=$(cost /dev/null /dev/null "$program" "costs::${parts}_are_printed_eleven_times")
    echo "| $what | $bytes | $(columns "$taken" "$start" "$bytes") |"
done <<'PARTS'
a sum of 250,001 operands:10000260:operands
60,000 statements:10200240:statements
100,000 declarations:11000130:declarations
PARTS
