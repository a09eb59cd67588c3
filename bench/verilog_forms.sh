#!/usr/bin/env bash
# Tries the expressions of Verilog modules: a program writes, for several widths, the module of a circuit that has every
# operator, and the rows of that circuit. Icarus Verilog runs each module on the same inputs, and its rows must be
# equal. Verilator reads each module, and may warn only of comparisons that constants decide and of the file's name. With
# the argument `--verilator` it runs the modules too, which takes minutes. It is run by hand, and needs iverilog,
# verilator and python3.
set -eu
cd "$(dirname "$0")/.."
. bench/copy.sh

stop() {
    echo "verilog_forms.sh: $*" >&2
    exit 1
}

for command in iverilog vvp verilator python3; do
    command -v "$command" >/dev/null || stop "there is no $command"
done
room=$(mktemp -d)
trap 'rm -rf "$room"' EXIT
copy_tree "$room/copy"
mkdir -p "$room/copy/crates/verilog_forms/src"
cp bench/verilog/main.rt.in "$room/copy/crates/verilog_forms/src/main.rt"
echo "verilog_forms: verilog_text kw_bits net_graph circuit_eval anyhow" >>"$room/copy/crates.txt"
# The program isn't proved.
(cd "$room/copy/crates/verilog_forms" && rt try) >"$room/forms" 2>"$room/said" || {
    cat "$room/said" >&2
    stop "the program stopped"
}
python3 bench/verilog/rows.py "$room/forms" "$room" "$@"
