#!/usr/bin/env bash
# Measures what it costs to write reports and to read stimuli, for each byte, by tests that do the same once and more
# often (bench/costs/library_tests). It proves and builds them in a copy of the tree if need be, and is run by hand.
set -eu
cd "$(dirname "$0")/.."
. bench/cost.sh
. bench/costs.sh

program=$(measuring library_tests)

echo "| what | bytes | $of_run | $of_part for each byte, the start aside |"
echo "|---|---|---|---|"
while IFS=: read -r what bytes once often; do
    start=$(cost /dev/null /dev/null "$program" "report_costs::$once")
    taken=$(cost /dev/null /dev/null "$program" "report_costs::$often")
    echo "| $what | $bytes | $(columns "$taken" "$start" "$bytes") |"
done <<'TESTS'
reports of a pipeline of four stages:3189000:a_pipeline_is_written_once:a_pipeline_is_written_101_times
reports of registers of 64 and 128 bits:2779400:wide_registers_are_written_once:wide_registers_are_written_101_times
stimuli of short lines, made and read:110000:a_thousand_short_lines_are_read:eleven_thousand_short_lines_are_read
stimuli of long lines, made and read:450000:a_thousand_long_lines_are_read:eleven_thousand_long_lines_are_read
TESTS
