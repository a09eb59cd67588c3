#!/usr/bin/env bash
# Counts what circuits of designs have: the lines that `compile` writes for the examples and for pipelines, and how many
# of them are operators. It takes another program than the built one as its argument, and is run by hand.
set -eu
cd "$(dirname "$0")/.."
. bench/cost.sh
. bench/programs.sh

take_program "${1-}"

# The row of a design with this name.
row() {
    local name=$1 source=$2
    "$program" compile <"$source" >"$room/circuit"
    awk -v name="$name" -v weight="$("$program" check <"$source" | sed 's/.*weight=//')" '
        $2 !~ /^(sort|input|state|init|next|output|bad|constd)$/ { operators++ }
        END { printf "| `%s` | %d | %d | %d |\n", name, weight, NR, operators }' "$room/circuit"
}

echo "| design | weight | lines | of them operators |"
echo "|---|---|---|---|"
for example in examples/*.koika examples/systolic/*.koika examples/riscv/designs/*.koika; do
    name=${example#examples/}
    row "${name%.koika}" "$example"
done
for stages in 1 2 10 100; do
    "$program" gen "$stages" >"$room/source"
    row "gen $stages" "$room/source"
done
