#!/usr/bin/env bash
# Shows that other tools read what `aiger` writes, and measures it.
#
# For three examples and a pipeline of ten stages yosys reads the file and writes Verilog, iverilog runs that on the
# design's stimulus, and each cycle has the rules and registers that `sim` writes. ABC, which reads the binary form that
# yosys makes, proves by `pdr` that the assertion of `traffic` is never violated, and finds by `bmc3` how soon other
# rules can fire: on the inputs that it found `sim` shows the same. Then come the numbers of gates, beside those that
# yosys makes of the module that `verilog` writes of the same design, what `aiger` takes on a pipeline of 100 stages, and
# what `aigsim` costs. The status is 1 unless all tools agree.
#
#     bench/aiger.sh [PROGRAM LAB_PROGRAM]
#
# Other programs than the built ones may be named. It is run by hand. It needs yosys, berkeley-abc and iverilog of
# Debian.
set -eu
cd "$(dirname "$0")/.."
. bench/cost.sh
. bench/programs.sh

take_program "${1-}"
take_lab "${2-}"
cycles=20
failed=0

# A test bench for the Verilog of a file whose latches are outputs: a line for each cycle, with the flags of the rules
# as bits and the registers as in a report. The arguments are the file and the stimulus.
test_bench() {
    awk -v cycles="$cycles" '
        function symbol(name) { return "\\" name " " }
        # A word of the bits of a name, the highest first.
        function word(name, bits,    text, k) {
            for (k = bits - 1; k >= 0; k--) text = text symbol(name "[" k "]") (k ? "," : "")
            return "{" text "}"
        }
        FNR == 1 && !files++ { rules = $5 - $4; next }
        files == 1 && /^i[0-9]+ / { name = $2; inputs[++in_ports] = name; sub(/\[[0-9]+\]$/, "", name); wide[name]++ }
        files == 1 && /^o[0-9]+ / && substr($1, 2) + 0 < rules { fired = fired (fired ? "," : "") symbol($2); shown[++outs] = $2 }
        files == 1 && /^l[0-9]+ / {
            shown[++outs] = name = $2
            sub(/\[[0-9]+\]$/, "", name)
            if (!(name in width)) registers[++count] = name
            width[name]++
        }
        FNR == 1 && FILENAME != ARGV[1] { files = 2 }
        files == 2 { lines[FNR] = $0; given = FNR }
        END {
            for (k = 1; k <= count; k++) {
                format = format " " registers[k] "=%h"
                values = values ", " word(registers[k], width[registers[k]])
            }
            print "module test;\n  reg clk = 0;"
            for (k = 1; k <= in_ports; k++) print "  reg " symbol(inputs[k]) "= 0;"
            for (k = 1; k <= outs; k++) print "  wire " symbol(shown[k]) ";"
            print "  reg [" rules - 1 ":0] flags;\n  made made(.clk(clk)"
            for (k = 1; k <= in_ports; k++) print "    , ." symbol(inputs[k]) "(" symbol(inputs[k]) ")"
            for (k = 1; k <= outs; k++) print "    , ." symbol(shown[k]) "(" symbol(shown[k]) ")"
            print "  );\n  initial begin\n    #1 $display(\"@0 -" format "\"" values ");"
            for (cycle = 1; cycle <= cycles; cycle++) {
                for (name in wide) print "    " word(name, wide[name]) " = 0;"
                parts = split(cycle <= given ? lines[cycle] : "", assignments, /[ \t]+/)
                for (k = 1; k <= parts; k++) {
                    if ((at = index(assignments[k], "=")) == 0) continue
                    name = substr(assignments[k], 1, at - 1)
                    value = substr(assignments[k], at + 1)
                    value = wide[name] (sub(/^0x/, "", value) ? "'\''h" : "'\''d") value
                    print "    " word(name, wide[name]) " = " value ";"
                }
                print "    #1 flags = {" fired "}; clk = 1; #1 clk = 0;"
                print "    #1 $display(\"@" cycle " %b" format "\", flags" values ");"
            }
            print "  end\nendmodule"
        }' "$1" "$2"
}

# A report of `sim` with the rules' flags as bits, in order of the outputs of a file, and without violated assertions.
with_flags() {
    awk '
        NR == FNR { if (/^o[0-9]+ /) rules[substr($1, 2) + 0] = $2; if (FNR == 1) count = $5; next }
        $1 == "violated" { next }
        $1 != "@0" {
            bits = ""
            for (k = 0; k < count; k++) bits = bits (index("," $2 ",", "," rules[k] ",") ? 1 : 0)
            $2 = bits
        }
        { print }' "$1" -
}

# Whether the Verilog of a design runs as `sim` does.
compare() {
    local name=$1 source=$2
    "$program" aiger <"$source" >"$room/design.aag"
    bin/latches <"$room/design.aag" >"$room/shown.aag"
    sed '1,/^%%/d' "$source" >"$room/stimulus"
    yosys -q -p "read_aiger -module_name made -clk_name clk $room/shown.aag; write_verilog -noattr $room/made.v" >/dev/null
    test_bench "$room/shown.aag" "$room/stimulus" >"$room/test.v"
    iverilog -o "$room/run" "$room/made.v" "$room/test.v"
    vvp -n "$room/run" >"$room/by_verilog"
    "$program" sim --cycles "$cycles" <"$source" | with_flags "$room/design.aag" >"$room/by_sim"
    if cmp -s "$room/by_verilog" "$room/by_sim"; then
        echo "| \`$name\` | the same rules and registers in each of $cycles cycles |"
    else
        echo "| \`$name\` | **another run** |"
        failed=1
    fi
}

# What ABC says of the output of a rule of an example, by a command. yosys may give inputs and outputs another order, so
# they go by their names.
ask_abc() {
    local example=$1 rule=$2 command=$3 number
    "$program" aiger <"examples/$example.koika" >"$room/design.aag"
    yosys -q -p "read_aiger $room/design.aag; write_aiger -zinit -symbols $room/design.aig" >/dev/null
    number=$(grep -a "^o[0-9]* $rule\$" "$room/design.aig" | sed 's/^o\([0-9]*\) .*/\1/')
    rm -f "$room/example"
    berkeley-abc -c "read_aiger $room/design.aig; cone -s -O $number; $command; write_cex -n $room/example" |
        grep -o 'Property proved\|was asserted in frame [0-9]*\|No output.*' | head -n 1
}

# In which cycle a rule fires first, where the inputs are those of ABC's counterexample.
replayed() {
    local example=$1 rule=$2
    [ -s "$room/example" ] || return 0
    { sed '/^%%/,$d' "examples/$example.koika"; bin/cex "$room/design.aag" <"$room/example"; } |
        "$program" sim --cycles 50 | awk -v rule="$rule" 'index("," $2 ",", "," rule ",") { print substr($1, 2); exit }'
}

# The answer that is known: proved, or the frame, which is the cycle in which the rule fires but one.
expect() {
    local said by_sim wanted=$4 cycle=${5-}
    said=$(ask_abc "$1" "$2" "$3")
    by_sim=$(replayed "$1" "$2")
    [ "$said" = "$wanted" ] && [ "$by_sim" = "$cycle" ] || failed=1
    echo "| \`$1\` | \`$2\` | \`$3\` | $said | $by_sim |"
}

echo "| design | its Verilog, which yosys makes of its AIGER file, run by iverilog |"
echo "|---|---|"
for example in counter traffic uart; do
    compare "$example" "examples/$example.koika"
done
"$program" gen 10 >"$room/gen"
compare "gen 10" "$room/gen"

echo
echo "| design | output | ABC's command | what it says | cycle in which it fires by \`sim\` on the inputs found |"
echo "|---|---|---|---|---|"
expect traffic both_go pdr "Property proved"
expect traffic go_main "bmc3 -F 50" "was asserted in frame 7" 8
expect limit ten "bmc3 -F 50" "was asserted in frame 9" 10
expect uart advance "bmc3 -F 50" "was asserted in frame 2" 3

# The numbers of a file's header.
header() {
    awk -v column="$1" 'NR == 1 { print $column }' "$room/design.aag"
}

# The gates that yosys counts after commands.
gates_after() {
    yosys -q -p "$1; tee -o $room/stat stat" >/dev/null
    awk '$1 == "$_AND_" { gates = $2 } END { print gates + 0 }' "$room/stat"
}

echo
echo "| design | inputs | latches | gates | yosys's gates for the module | enables as gates | gates after ABC | yosys's after ABC |"
echo "|---|---|---|---|---|---|---|---|"
row() {
    "$program" aiger <"$2" >"$room/design.aag"
    bin/latches <"$room/design.aag" >"$room/shown.aag"
    "$lab" verilog --registers <"$2" >"$room/words.v"
    local of_aag="read_aiger $room/shown.aag"
    local synth="read_verilog $room/words.v; synth -flatten -noabc -top koika"
    local of_words="$synth; aigmap; opt -full"
    echo "| \`$1\` | $(header 3) | $(header 4) | $(header 6) | $(gates_after "$of_words") |" \
        "$(gates_after "$synth; dffunmap; aigmap; opt -full") |" \
        "$(gates_after "$of_aag; abc -g AND; opt_clean") | $(gates_after "$of_words; abc -g AND; opt_clean") |"
}
for example in counter limit traffic gcd uart core filter; do
    row "$example" "examples/$example.koika"
done
row "gen 10" "$room/gen"

"$program" gen 100 >"$room/gen100"
command time -o "$room/memory" -f '%U seconds and %M KB' "$program" aiger <"$room/gen100" >"$room/design.aag"
echo
echo "\`aiger\` of what \`gen 100\` writes takes $(tail -n 1 "$room/memory"): $(header 6) gates, $(wc -c <"$room/design.aag") bytes."

# Gates for each cycle: the difference of two runs.
gates=$(header 6)
few=$(cost "$room/design.aag" "$room/out" "$program" aigsim --cycles 20 --summary)
many=$(cost "$room/design.aag" "$room/out" "$program" aigsim --cycles 120 --summary)
echo
echo "| what | how many | $of_run | $of_part for each |"
echo "|---|---|---|---|"
echo "| gates of \`gen 100\`, in each of 100 cycles more | $((gates * 100)) | $(columns "$many" "$few" "$((gates * 100))") |"

# A text of ten megabytes: gates one after another.
awk 'BEGIN {
    gates = 480000
    print "aag", gates + 2, 2, 0, 1, gates
    print 2; print 4; print 2 * (gates + 2)
    for (k = 3; k <= gates + 2; k++) print 2 * k, 2 * k - 2 + k % 2, 2 * k - 4
}' >"$room/long.aag"
bytes=$(wc -c <"$room/long.aag")
start=$(cost /dev/null "$room/out" "$program" aigsim --cycles 0)
taken=$(cost "$room/long.aag" "$room/out" "$program" aigsim --cycles 0)
command time -o "$room/memory" -f %M "$program" aigsim --cycles 0 <"$room/long.aag" >/dev/null
echo "| bytes of a text, read | $bytes | $(columns "$taken" "$start" "$bytes") |"
echo
echo "Reading it takes $(awk -v b="$bytes" '{ printf "%.1f", $1 * 1024 / b }' "$room/memory") bytes of memory a byte, the text included."
exit "$failed"
