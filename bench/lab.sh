#!/usr/bin/env bash
# Measures what the lab costs: a cycle of `profile`, beside one of `sim --summary` by the plain engine; a cycle that
# `why` shows, and the cycles before it; and the memory of `profile` and `why` on long runs. It takes other programs
# than the built ones as its arguments, and is run by hand:
#
#     bench/lab.sh [PROGRAM LAB_PROGRAM]
set -eu
cd "$(dirname "$0")/.."
. bench/cost.sh

. bench/programs.sh
take_program "${1-}"
take_lab "${2-}"

# The first cycles, in which a pipeline fills, are left out. No run is longer than `most`.
first=100 cycles=800 most=1048576
last=$((first + cycles))

# What a cycle costs after the first ones, by this program with the words that follow.
per_cycle() {
    local start taken
    start=$(cost "$room/source" /dev/null "$@" "$first")
    taken=$(cost "$room/source" /dev/null "$@" "$last")
    awk -v start="$start" -v taken="$taken" -v scale="$part_scale" -v cycles="$cycles" \
        'BEGIN { printf "%.0f", (taken - start) * scale / cycles }'
}

# How many times the one is the other.
ratio() {
    awk -v one="$1" -v other="$2" 'BEGIN { printf "%.2f", one / other }'
}

# The designs, each as a source with a stimulus that keeps it busy. The slave's master writes and reads without a pause.
make_source() {
    case $1 in
        "gen 100") "$program" gen 100 ;;
        queue) cat examples/riscv/designs/queue.koika ;;
        axi_lite | "axi_lite, at port 0")
            sed '/^%%/,$d' examples/axi_lite.koika |
                if [ "$1" = axi_lite ]; then cat; else sed 's/~read2(b_taken)/~read0(b_taken)/'; fi
            echo %%
            awk 'BEGIN {
                for (k = 0; k < 1000; k++) {
                    printf "awvalid=1 awaddr=%d wvalid=1 wdata=%d wstrb=15 bready=1 ", k % 16, k
                    printf "arvalid=1 araddr=%d rready=1\n", k % 16
                }
            }' ;;
    esac >"$room/source"
}

echo "A cycle, in $of_part; and \`why --cycle $last\`, beside \`sim --summary --cycles $last\`:"
echo
echo "| design | \`sim --summary\` | \`profile\` | times | a cycle that \`why\` shows | \`why --cycle $last\`, times |"
echo "|---|---|---|---|---|---|"
for design in "gen 100" queue axi_lite "axi_lite, at port 0"; do
    make_source "$design"
    sim=$(per_cycle "$program" sim --summary --cycles)
    profile=$(per_cycle "$lab" profile --cycles)
    shown=$(per_cycle "$lab" why --cycle 1 --cycles)
    late=$(cost "$room/source" /dev/null "$lab" why --cycle "$last")
    summary=$(cost "$room/source" /dev/null "$program" sim --summary --cycles "$last")
    echo "| \`$design\` | $sim | $profile | $(ratio "$profile" "$sim") | $shown | $(ratio "$late" "$summary") |"
done

# The kilobytes that a run takes at most.
memory() {
    command time -o "$room/memory" -f %M "$@" <"$room/source" >/dev/null
    tail -n 1 "$room/memory"
}

echo
echo "Memory, in kilobytes at most:"
echo
echo "| design | cycles | \`profile\` | \`why\` of the last cycle | \`why\` of all cycles |"
echo "|---|---|---|---|---|"
for design in counter ports conflict; do
    cp "examples/$design.koika" "$room/source"
    for many in 1 256 65536 "$most"; do
        profile=$(memory "$lab" profile --cycles "$many")
        late=$(memory "$lab" why --cycle "$many")
        echo "| \`$design\` | $many | $profile | $late | $(memory "$lab" why --cycle 1 --cycles "$many") |"
    done
done
