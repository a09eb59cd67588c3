#!/usr/bin/env bash
# Measures what it costs to read, to accept and to print a BTOR2 file of ten megabytes in lines of 20 to 40 bytes, by
# tests that make the text (bench/costs/library_tests). It proves and builds them in a copy of the tree if need be, and
# is run by hand.
set -eu
cd "$(dirname "$0")/.."
. bench/cost.sh
. bench/costs.sh

program=$(measuring library_tests)

# What the test's text has: its first lines, and then a line for each id.
bytes=$(awk 'BEGIN {
    for (id = 4; id < 410000; id++) {
        bytes += length(id)
        if (id % 4 == 0) bytes += length(" and 1  \n") + length(id - 1) + length(id - 2)
        if (id % 4 == 1) bytes += length(" not 1 \n") + length(id - 1)
        if (id % 4 == 2) bytes += length(" xor 1  2 sum_\n") + length(id - 2) + length(id)
        if (id % 4 == 3) bytes += length(" add 1  3\n") + length(id - 1)
    }
    print bytes + 49
}')

# The kilobytes that a test takes at most.
memory() {
    /usr/bin/time -f %M "$program" "text_costs::ten_megabytes_$1" 2>&1 >/dev/null | tail -1
}

echo "| a text of $bytes bytes is | $of_run | $of_part per byte, the making (and for printing the reading) aside | bytes of memory per byte, the text aside |"
echo "|---|---|---|---|"
for what in made read accepted printed; do
    taken=$(cost /dev/null /dev/null "$program" "text_costs::ten_megabytes_$what")
    kilobytes=$(memory "$what")
    if [ "$what" = made ]; then
        start=$taken least=$kilobytes
    elif [ "$what" = read ]; then
        read=$taken
    fi
    # Printing comes after reading, without acceptance.
    [ "$what" = printed ] && start=$read
    echo "| $what | $(columns "$taken" "$start" "$bytes") | $(awk -v k="$kilobytes" -v l="$least" -v b="$bytes" 'BEGIN { printf "%.3g", (k - l) * 1024 / b }') |"
done
