#!/usr/bin/env bash
# Measures Verilator and Icarus Verilog beside the program's engines. `verilog` writes each design's module, and both
# build a simulator of it, with a module around it that writes rows. Their reports of a run are compared with the
# program's: the rules and the registers of each cycle. Then it measures what a cycle costs by each, with a report and
# without, and how long each takes to build. Other programs than the built ones may be named. It is run by hand. It
# needs verilator, iverilog, g++ and python3 of Debian.
#
#     bench/peers.sh [PROGRAM LAB_PROGRAM]
set -eu
cd "$(dirname "$0")/.."
. bench/cost.sh

stop() {
    echo "peers.sh: $*" >&2
    exit 1
}

while read -r command package; do
    command -v "$command" >/dev/null || stop "there is no $command; Debian has it in the package $package"
done <<'COMMANDS'
verilator verilator
iverilog iverilog
vvp iverilog
g++ g++
make make
python3 python3
COMMANDS

. bench/programs.sh
take_program "${1-}"
take_lab "${2-}"

# Both are told the number of cycles, and whether each is shown or only the last one.
cat >"$room/test.v" <<'VERILOG'
module test;
  reg clk = 0, show, all;
  integer cycles, k;
  initial begin
    if (!$value$plusargs("cycles=%d", cycles)) cycles = 0;
    all = !$test$plusargs("end");
    for (k = 1; k <= cycles; k = k + 1) begin
      show = all || k == cycles;
      #1 clk = 1;
      #1 clk = 0;
    end
  end
  made made(.clk(clk), .show(show));
endmodule
VERILOG
cat >"$room/main.cpp" <<'CPP'
#include "Vmade.h"
#include "verilated.h"
#include <cstdlib>
#include <string>

int main(int, char **words) {
    const long cycles = std::atol(words[1]);
    const bool all = words[2] == std::string("all");
    VerilatedContext context;
    Vmade made{&context};
    made.clk = 0;
    made.eval();
    for (long k = 1; k <= cycles; k++) {
        made.show = all || k == cycles;
        made.clk = 1;
        made.eval();
        made.clk = 0;
        made.eval();
    }
    made.final();
}
CPP

# The processor time of a command in seconds, its children's included.
seconds() {
    local TIMEFORMAT='%3U %3S'
    { time "$@" >"$room/said" 2>&1; } 2>"$room/time" || {
        cat "$room/said" >&2
        stop "failed: $*"
    }
    awk '{ printf "%.2f", $1 + $2 }' "$room/time"
}

build_by_verilator() {
    rm -rf "$room/built"
    verilator --cc --exe --build -O3 -MAKEFLAGS "OPT_FAST=-O2 OPT_SLOW=-O2 OPT_GLOBAL=-O2" -Wno-lint --Mdir "$room/built" \
        --top-module made -o made "$room/made.v" "$room/koika.v" "$room/main.cpp"
}

# The command that runs the design in a way for that many cycles, with all rows shown or only what there is at the end.
command_of() {
    local way=$1 cycles=$2 shown=$3
    case $way in
        verilator) words=("$room/built/made" "$cycles" "$shown") ;;
        icarus) words=(vvp -n "$room/run" "+cycles=$cycles" "+$shown") ;;
        *)
            words=("$program" sim --engine "$way" --cycles "$cycles")
            [ "$shown" = all ] || words+=(--summary)
            ;;
    esac
}
ways="plain circuit verilator icarus"

# By each peer the rows are those of the program, and so is the last one by itself.
compare() {
    local way
    "$program" sim --cycles "$last" <"$room/design" | python3 bench/verilog.py rows "$room/koika.v" | sed 1d >"$room/all"
    tail -n 1 "$room/all" >"$room/end"
    [ "$(wc -l <"$room/all")" = "$last" ] || stop "$name: there aren't $last rows"
    for way in verilator icarus; do
        for shown in all end; do
            command_of "$way" "$last" "$shown"
            "${words[@]}" </dev/null | cmp - "$room/$shown" || stop "$name: $way shows another run"
        done
    done
}

# What a cycle costs after the first ones, in which a pipeline fills.
first=200
per_cycle() {
    local start taken
    command_of "$1" "$first" "$2"
    start=$(cost "$room/design" /dev/null "${words[@]}")
    command_of "$1" "$last" "$2"
    taken=$(cost "$room/design" /dev/null "${words[@]}")
    awk -v start="$start" -v taken="$taken" -v scale="$part_scale" -v cycles=$((last - first)) \
        'BEGIN { printf "%.0f", (taken - start) * scale / cycles }'
}

# Makes the design ready for each way, and adds a row of what that takes.
build() {
    local row way
    "$lab" verilog --registers <"$room/design" >"$room/koika.v"
    python3 bench/verilog.py made "$room/koika.v" >"$room/made.v"
    row="| \`$name\` | $(wc -l <"$room/koika.v")"
    for way in plain circuit; do
        command_of "$way" 0 end
        row="$row | $(seconds "${words[@]}" <"$room/design")"
    done
    row="$row | $(seconds build_by_verilator </dev/null)"
    row="$row | $(seconds iverilog -g2005 -o "$room/run" "$room/made.v" "$room/koika.v" "$room/test.v" </dev/null) |"
    echo "$row" >>"$room/builds"
}

its_version() {
    "$@" 2>/dev/null | grep -o -m 1 '[0-9]\+\.[0-9.]*' | head -n 1
}

heading="the plain engine | the circuit engine | Verilator | Icarus |"
echo "Each cycle by Verilator $(its_version verilator --version) and Icarus Verilog $(its_version iverilog -V)," \
    "and by the engines, $of_part:"
echo
echo "| design | shown | $heading"
echo "|---|---|---|---|---|---|"
while read -r last kind source; do
    if [ "$kind" = gen ]; then "$program" gen "$source" >"$room/design"; else cp "examples/$source.koika" "$room/design"; fi
    name=${source##*/}
    [ "$kind" = example ] || name="gen $source"
    build
    compare
    for shown in all end; do
        row="| \`$name\` | $(if [ "$shown" = all ]; then echo "each cycle"; else echo "the end"; fi)"
        for way in $ways; do row="$row | $(per_cycle "$way" "$shown")"; done
        echo "$row |"
    done
done <<'DESIGNS'
1200 example counter
1071 example riscv/designs/queue
1200 gen 100
DESIGNS

echo
echo "Seconds of processor time before the first cycle:"
echo
echo "| design | lines of Verilog | $heading"
echo "|---|---|---|---|---|---|"
cat "$room/builds"

# The last design once more, for longer.
many=100000
echo
echo "Seconds of processor time of $many cycles of \`$name\`, with the end shown:"
echo
echo "| $heading"
echo "|---|---|---|---|"
row=
for way in $ways; do
    command_of "$way" "$many" end
    row="$row| $(seconds "${words[@]}" <"$room/design") "
done
echo "$row|"
echo
tail -n 1 "$room/builds" | awk -F'|' -v row="$row" -v many="$many" '{
    split(row, taken, "|")
    printf "While Verilator builds it, the plain engine runs %.1f million cycles, and the circuit engine %.1f.\n",
        $6 / taken[2] * many / 1000000, $6 / taken[3] * many / 1000000
}'
