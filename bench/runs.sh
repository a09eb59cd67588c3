#!/usr/bin/env bash
# Measures what the program costs on the pipelines that it makes itself and on their circuits, for each cycle; what
# `bad` lines cost; what a long run and a long circuit take in memory; and what it costs to write functions in. It takes
# another program than the built one as its argument, and is run by hand.
set -eu
cd "$(dirname "$0")/.."
. bench/cost.sh
. bench/programs.sh

take_program "${1-}"

# The first cycles, in which a pipeline fills, are left out.
first=200 cycles=1000

# What a cycle costs after the first ones, of a source and with the words that follow.
per_cycle() {
    local source=$1 start taken
    shift
    start=$(cost "$source" /dev/null "$program" "$@" --cycles "$first")
    taken=$(cost "$source" /dev/null "$program" "$@" --cycles $((first + cycles)))
    awk -v start="$start" -v taken="$taken" -v scale="$part_scale" -v cycles="$cycles" \
        'BEGIN { printf "%.0f", (taken - start) * scale / cycles }'
}

echo "Cycles by engine:"
echo
echo "| design | the report, $of_part per cycle | the summary | by its circuit, the report | by its circuit, the summary |"
echo "|---|---|---|---|---|"
for stages in 1 10 100; do
    "$program" gen "$stages" >"$room/source"
    row="\`gen $stages\`"
    for engine in plain circuit; do
        for shown in "" --summary; do
            row="$row | $(per_cycle "$room/source" sim --engine "$engine" $shown)"
        done
    done
    echo "| $row |"
done

# The circuit of a pipeline, and its run after the same first cycles.
echo
echo "\`gen\` and \`compile\` of a pipeline, and \`btorsim\` of its circuit:"
echo
echo "| stages | $of_run of \`gen\` | $of_run of \`compile\` | lines | \`btorsim\`, the report, $of_part per cycle | the summary |"
echo "|---|---|---|---|---|---|"
for stages in 1 10 100; do
    row="$stages | $(columns "$(cost /dev/null "$room/source" "$program" gen "$stages")" 0 0 | sed 's/ | *$//')"
    row="$row | $(columns "$(cost "$room/source" "$room/circuit" "$program" compile)" 0 0 | sed 's/ | *$//')"
    row="$row | $(wc -l <"$room/circuit")"
    for shown in "" --summary; do
        row="$row | $(per_cycle "$room/circuit" btorsim $shown)"
    done
    echo "| $row |"
done

# Circuits without their `bad` lines, which are run apart from the outputs.
echo
echo "\`btorsim\` of circuits with \`bad\` lines, with a summary:"
echo
echo "| design | lines | $of_part per cycle | without its \`bad\` lines |"
echo "|---|---|---|---|"
for design in traffic riscv/designs/queue; do
    "$program" compile <"examples/$design.koika" >"$room/circuit"
    grep -v '^[0-9]* bad ' "$room/circuit" >"$room/rest"
    echo "| \`$design\` | $(wc -l <"$room/circuit") | $(per_cycle "$room/circuit" btorsim --summary)" \
        "| $(per_cycle "$room/rest" btorsim --summary) |"
done

# The kilobytes that a run takes at most.
memory() {
    local source=$1
    shift
    command time -o "$room/memory" -f %M "$program" "$@" <"$source" >/dev/null
    tail -n 1 "$room/memory"
}

echo
echo "Memory of long runs, and of a long circuit:"
echo
echo "| what | kilobytes at most |"
echo "|---|---|"
for many in 0 256 65536 16777216; do
    echo "| $many cycles of the counter, with a summary | $(memory examples/counter.koika sim --cycles "$many" --summary) |"
done
awk 'BEGIN {
    print "1 sort bitvec 8\n2 state 1 a"
    for (id = 3; id < 2000003; id++) print id, (id % 2 ? "not" : "inc"), 1, id - 1
    print "2000003 next 1 2 2000002"
}' >"$room/circuit"
echo "| a circuit of 2,000,000 operators, $(wc -c <"$room/circuit") bytes, for a cycle | $(memory "$room/circuit" btorsim --cycles 1) |"

# A source of functions that call one another: each of the first calls the one before twice, each further one calls it
# once.
functions() {
    awk -v twice="$1" -v once="$2" 'BEGIN {
        print "reg r : bits 8 = 8'\''d0;\nfun f0(x : bits 8) : bits 8 { x + 8'\''d1 }"
        for (k = 1; k < twice; k++) print "fun f" k "(x : bits 8) : bits 8 { f" k - 1 "(f" k - 1 "(x)) }"
        for (k = twice; k < twice + once; k++) print "fun f" k "(x : bits 8) : bits 8 { f" k - 1 "(x) + 8'\''d1 }"
        print "rule a { write0(r, f" twice + once - 1 "(read0(r))) }\nschedule { a; }"
    }'
}

echo
echo "What \`sim\` costs before its first cycle, \`check\` aside, by functions that call one another:"
echo
echo "| functions that call the one before twice | then functions that call it once | weight | $of_run of \`check\` | $of_run of \`sim\` for no cycle besides | for each of the weight | kilobytes at most |"
echo "|---|---|---|---|---|---|---|"
while read -r twice once; do
    functions "$twice" "$once" >"$room/source"
    checked=$(cost "$room/source" "$room/answer" "$program" check)
    run=$(cost "$room/source" /dev/null "$program" sim --cycles 0)
    command time -o "$room/memory" -f %M "$program" sim --cycles 0 <"$room/source" >/dev/null
    weight=$(sed -n 's/.*weight=//p' "$room/answer")
    awk -v checked="$checked" -v run="$run" -v weight="$weight" -v scale="$run_scale" -v memory="$(tail -n 1 "$room/memory")" -v what="$((twice - 1)) | $once" \
        'BEGIN { printf "| %s | %d | %.10g | %.10g | %.4g | %d |\n", what, weight, checked * scale, (run - checked) * scale, (run - checked) * scale / weight, memory }'
done <<'FUNCTIONS'
1 10
1 50
1 100
1 126
8 0
10 0
12 0
11 25
11 50
11 100
FUNCTIONS
