#!/usr/bin/env bash
# Shows that other tools read what `verilog` writes as it is defined, and measures it. bench/verilog_forms.sh tries each
# expression at several widths.
#
#     bench/verilog.sh [--part PART].. [--design NAME].. [PROGRAM LAB_PROGRAM]
#
# | part   | what it does                                                                  | needs      |
# | rows   | rows by Icarus Verilog are those of `sim`, with a reset too                    | iverilog   |
# | built  | rows by Verilator are, on some designs                                        | verilator  |
# | lint   | `verilator --lint-only -Wall` has no errors, and warnings of known kinds alone | verilator  |
# | equal  | yosys proves it equal to the AIGER file that `aiger` writes, on small designs  | yosys      |
# | cells  | cells of an iCE40 and an ECP5 beside twins written by hand (bench/twins/)      | yosys      |
# | plain  | the stored rows of the plain program (crates/verilog_runs) are those by Icarus | iverilog   |
#
# Without --part it does all of them, on all designs without --design, and names each tool that isn't there. Other
# programs than the built ones may be named. It is run by hand. The status is 1 if anything differs, or a design that
# has no reason in the table below takes more than 1.1 times its twin's cells.
set -eu
shopt -s nullglob
cd "$(dirname "$0")/.."

parts='' asked=''
while :; do
    case ${1-} in
        --part) parts="$parts $2" ;;
        --design) asked="$asked $2 " ;;
        *) break ;;
    esac
    shift 2
done
parts=${parts:- rows built lint equal cells plain}
. bench/programs.sh
take_program "${1-}"
take_lab "${2-}"
cycles=100
room=$(mktemp -d)
trap 'rm -rf "$room"' EXIT
wrong=0 skipped=

complain() {
    wrong=$((wrong + 1))
    echo "**wrong:** $*"
}

has() {
    command -v "$1" >/dev/null && return
    case $skipped in *" $1 "*) ;; *) skipped="$skipped $1 " && echo "skipped: $1 isn't installed" ;; esac
    return 1
}

is_asked() {
    case "$parts " in *" $1 "*) return 0 ;; *) return 1 ;; esac
}

# Makes of a design $room/koika.v, $room/stimulus, a longer one, $room/source, both, and $room/wanted, the rows of
# `sim`.
prepare() {
    "$lab" verilog --registers <"$1" >"$room/koika.v"
    python3 bench/verilog.py stimulus "$1" "$room/koika.v" "$cycles" >"$room/stimulus"
    { sed '/^%%/,$d' "$1"; echo '%%'; cat "$room/stimulus"; } >"$room/source"
    "$program" sim --cycles "$cycles" <"$room/source" >"$room/report"
    python3 bench/verilog.py rows "$room/koika.v" <"$room/report" >"$room/wanted"
}

# All designs, each with a name: stored ones, written ones, and every operator at some widths.
designs() {
    local file width
    for file in examples/*.koika examples/{certified,riscv/designs}/*.koika bench/twins/*.koika; do
        echo "$(echo "$file" | sed 's|^[a-z]*/||; s|\.koika$||') $file"
    done
    for width in 1 2 63 64 65 127 128; do
        python3 bench/verilog.py forms "$width" >"$room/forms_$width"
        echo "forms_$width $room/forms_$width"
    done
    for count in 10 100; do
        "$program" gen "$count" >"$room/gen_$count"
        echo "gen_$count $room/gen_$count"
    done
}
designs | while read -r name file; do
    case $asked in "" | *" $name "*) echo "$name $file" ;; esac
done >"$room/designs"

# The rows of a module by Icarus Verilog: the modules' files, to a file. Nothing else is written.
by_icarus() {
    local to=$1
    shift
    (cd "$room" && iverilog -g2005 -o run "$@" bench.v && vvp -n run) >"$to" 2>&1 || true
}

# Whether rows are those of `sim`.
are_rows() {
    cmp -s "$room/wanted" "$room/found" && return
    complain "$1: other rows"
    diff "$room/wanted" "$room/found" | head -n 4 | cut -c 1-200
    return 1
}

rows() {
    local name=$1 file=$2 first
    prepare "$file"
    python3 bench/verilog.py bench "$room/koika.v" "$room/stimulus" "$room"
    by_icarus "$room/found" koika.v
    are_rows "$name" || return 0
    # A cycle with `rst` leaves the first values; the run begins again. Rules fire in it as they do else, so of its row
    # the registers alone are compared.
    cp "$room/wanted" "$room/rows"
    "$lab" verilog --registers --reset <"$room/source" >"$room/koika.v"
    python3 bench/verilog.py reset "$room/koika.v" "$room/stimulus" "$room"
    by_icarus "$room/all" koika.v
    first=$(head -n 1 "$room/rows" | cut -d ' ' -f 3-)
    awk -v cycles="$cycles" -v first="$first" '
        { print }
        END { print "@" cycles + 1, "?", first }' "$room/rows" >"$room/wanted"
    awk -v cycles="$cycles" 'NR > 1 { $1 = "@" substr($1, 2) + cycles + 1; print }' "$room/rows" >>"$room/wanted"
    awk -v cycles="$cycles" '/^@/ { if (NR == cycles + 2) $2 = "?"; print }' "$room/all" >"$room/found"
    are_rows "$name with --reset" || return 0
    echo "| \`$name\` | the same in each of $cycles cycles, and after a reset again |"
}

if is_asked rows && has iverilog; then
    echo "| design | rules and registers by Icarus Verilog, beside \`sim\` |"
    echo "|---|---|"
    while read -r name file; do rows "$name" "$file"; done <"$room/designs"
    echo
fi

# By Verilator the same bench is built and run, on designs that differ most.
built() {
    local name=$1 file=$2
    prepare "$file"
    python3 bench/verilog.py bench "$room/koika.v" "$room/stimulus" "$room"
    rm -rf "$room/built"
    (cd "$room" && verilator --binary -Wno-lint -Wno-fatal -CFLAGS -O0 --Mdir built --top-module bench -o run \
        koika.v bench.v) >"$room/said" 2>&1 || {
        complain "$name: Verilator builds nothing: $(grep -m 1 '%Error' "$room/said")"
        return 0
    }
    (cd "$room" && built/run) | grep '^@' >"$room/found"
    are_rows "$name" || return 0
    echo "| \`$name\` | the same in each of $cycles cycles |"
}

if is_asked built && has verilator && has g++; then
    echo "| design | rules and registers by Verilator, beside \`sim\` |"
    echo "|---|---|"
    while read -r name file; do
        case $name in
            uart | forms | forms_1 | forms_2 | forms_65 | forms_128 | gen_100 | riscv/*) built "$name" "$file" ;;
        esac
    done <"$room/designs"
    echo
fi

# The kinds of warnings that are known: docs/VERILOG.md says why each is there.
known=" SYMRSVDWORD UNUSEDSIGNAL "

if is_asked lint && has verilator; then
    echo "| design | options | warnings by \`verilator --lint-only -Wall\` |"
    echo "|---|---|---|"
    while read -r name file; do
        for options in "" "--reset --registers"; do
            # shellcheck disable=SC2086 # words
            "$lab" verilog $options <"$file" >"$room/koika.v"
            (cd "$room" && verilator --lint-only -Wall -Wno-fatal koika.v) >"$room/said" 2>&1 ||
                complain "$name: $(grep -m 1 '%Error' "$room/said")"
            sed -n 's/^%Warning-\([A-Z0-9]*\):.*/\1/p' "$room/said" | sort | uniq -c >"$room/kinds"
            kinds=$(awk '{ text = text (NR > 1 ? ", " : "") $1 " " $2 } END { print text }' "$room/kinds")
            for kind in $(awk '{ print $2 }' "$room/kinds"); do
                case $known in *" $kind "*) ;; *) complain "$name: $(grep -m 1 "$kind" "$room/said")" ;; esac
            done
            echo "| \`$name\` | ${options:-none} | ${kinds:-none} |"
        done
    done <"$room/designs"
    echo
fi

# Yosys proves that the module and the AIGER file have equal rules and registers in every step: all registers are
# outputs, so that one step of induction is enough.
equal() {
    local name=$1 file=$2
    "$lab" verilog --registers <"$file" >"$room/koika.v"
    "$program" aiger <"$file" >"$room/plain.aag" || {
        echo "| \`$name\` | no AIGER file: $(head -n 1 "$room/plain.aag") |"
        return 0
    }
    bin/latches <"$room/plain.aag" >"$room/bits.aag"
    python3 bench/verilog.py bits "$room/koika.v" >"$room/gate.v"
    cat >"$room/script" <<'YOSYS'
read_verilog koika.v
rename koika gold
prep -top gold
check -assert
design -stash gold
read_aiger -module_name bits -clk_name clk bits.aag
read_verilog gate.v
hierarchy -top gate
proc
flatten
opt_clean
design -stash gate
design -copy-from gold -as gold gold
design -copy-from gate -as gate gate
miter -equiv -make_outputs -flatten gold gate miter
hierarchy -top miter
opt -full
sat -verify -tempinduct -prove trigger 0 -timeout 100 miter
YOSYS
    if (cd "$room" && yosys -q -s script) >"$room/said" 2>&1; then
        echo "| \`$name\` | equal |"
    elif grep -q 'did time out' "$room/said"; then
        echo "| \`$name\` | not decided in 100 seconds |"
    else
        complain "$name: $(grep -m 1 -i 'error' "$room/said")"
    fi
}

if is_asked equal && has yosys; then
    echo "| design | by yosys, beside its AIGER file |"
    echo "|---|---|"
    for width in 63 64 65 127 128; do
        python3 bench/verilog.py forms "$width" --no-product >"$room/forms_$width"
    done
    while read -r name file; do
        case $name in
            filter | gen_100 | riscv/* | forms_1 | forms_2) continue ;;
        esac
        equal "$name" "$file"
    done <"$room/designs"
    for width in 1 2 3 5; do
        case $asked in "" | *" forms_$width "*) ;; *) continue ;; esac
        python3 bench/verilog.py forms "$width" >"$room/forms_$width"
        equal "forms_$width" "$room/forms_$width"
    done
    echo
fi

# ---- cells ------------------------------------------------------------------------------------------------------

# Why a design takes more than 1.1 times its twin's cells.
reason_of() {
    case $1 in
        gcd | uart) echo "a register that several rules write keeps its old value by the guard and by the choice" ;;
        four_stages) echo "what isn't forwarded is chosen all the same, and no tool sees that nothing looks at it" ;;
        token_ring) echo "the twin uses that there is one token; each rule here looks at those that fired before it" ;;
        try_arbiter) echo "each grant is at four places of the schedule" ;;
        load_arbiter) echo "each grant is at four places, with four choices of the total and an adder of its own" ;;
        credit_arbiter) echo "each grant is at four places, with a subtraction of its own" ;;
        *) echo ;;
    esac
}

# Cells of an iCE40 or an ECP5 after commands: tables of four inputs, carries, flip-flops, multipliers.
cells_of() {
    (cd "$room" && yosys -q -p "$1; tee -o stat stat") >"$room/said" 2>&1 || {
        echo "x x x x"
        return
    }
    awk '
        $1 == "SB_LUT4" || $1 == "LUT4" { tables = $2 }
        $1 == "SB_CARRY" || $1 == "CCU2C" { carries = $2 }
        $1 ~ /^SB_DFF/ || $1 == "TRELLIS_FF" { flops += $2 }
        $1 == "SB_MAC16" || $1 == "MULT18X18D" { products = $2 }
        END { print tables + 0, carries + 0, flops + 0, products + 0 }' "$room/stat"
}

# How many times the tables of the second the first has, the fewer of two each.
ratio_of() {
    awk -v ours="$1 $2" -v theirs="$3 $4" 'BEGIN {
        split(ours, a, " ")
        split(theirs, b, " ")
        least = a[1] < a[5] ? a[1] : a[5]
        twin = b[1] < b[5] ? b[1] : b[5]
        printf "%.2f", twin ? least / twin : least ? 99 : 1
    }'
}

cells() {
    local name=$1 file twin=bench/twins/$1.v ours better bits theirs theirs_better ours5 theirs5 ratio
    file=$(awk -v name="$name" '$1 == name || $1 == "twins/" name { print $2 }' "$room/designs")
    # The twin has the run of the design.
    prepare "$file"
    if has iverilog; then
        cp "$twin" "$room/twin.v"
        python3 bench/verilog.py rows --twin "$room/koika.v" <"$room/report" >"$room/wanted"
        python3 bench/verilog.py bench --twin "$name" "$room/koika.v" "$room/stimulus" "$room"
        by_icarus "$room/found" twin.v
        are_rows "the twin of $name" || return 0
    fi
    cp "$twin" "$room/twin.v"
    python3 bench/verilog.py registers "$room/koika.v" >"$room/top.v"
    "$program" aiger <"$file" | bin/latches >"$room/bits.aag"
    ours=$(cells_of "read_verilog koika.v top.v; synth_ice40 -dsp -top top")
    better=$(cells_of "read_verilog koika.v top.v; prep -flatten -top top; opt -full; synth_ice40 -dsp -top top")
    bits=$(cells_of "read_aiger -module_name bits -clk_name clk bits.aag; synth_ice40 -dsp -top bits")
    theirs=$(cells_of "read_verilog twin.v; synth_ice40 -dsp -top $name")
    theirs_better=$(cells_of "read_verilog twin.v; prep -top $name; opt -full; synth_ice40 -dsp -top $name")
    ours5=$(cells_of "read_verilog koika.v top.v; prep -flatten -top top; opt -full; synth_ecp5 -top top")
    theirs5=$(cells_of "read_verilog twin.v; synth_ecp5 -top $name")
    ratio=$(ratio_of "$ours" "$better" "$theirs" "$theirs_better")
    awk -v ratio="$ratio" 'BEGIN { exit !(ratio > 1.1) }' && [ -z "$(reason_of "$name")" ] &&
        complain "$name takes $ratio times its twin's tables, and no reason is known"
    echo "| \`$name\` | $ours | $better | ${bits%% *} | $theirs | $theirs_better | $ratio | $ours5 | $theirs5 |" \
        "$(reason_of "$name") |"
}

if is_asked cells && has yosys; then
    echo "Tables of four inputs, carries, flip-flops and multipliers by \`synth_ice40 -dsp\` and by \`synth_ecp5\`; of"
    echo "the AIGER file the tables alone. The ratio is that of the fewer tables of an iCE40 each."
    echo
    echo "| design | iCE40, as written | after \`prep; opt -full\` | of its AIGER file | its twin |" \
        "the twin after \`prep; opt -full\` | ratio | ECP5, after \`prep; opt -full\` | its twin |" \
        "why the ratio is above 1.1 |"
    echo "|---|---|---|---|---|---|---|---|---|---|"
    for twin in bench/twins/*.v; do
        name=$(basename "$twin" .v)
        if grep -q -e "^$name " -e "^twins/$name " "$room/designs"; then cells "$name"; fi
    done
    echo
fi

# ---- the plain program --------------------------------------------------------------------------------------------

# The stored rows of a case are those by Icarus Verilog. A title that begins with `verilog` is how the module was
# written: it still is, and where the stimulus has no reset, the rows are those of `sim`.
plain() {
    local title words file
    title=$(cat "$1/title")
    cp "$1/koika.v" "$1/stimulus" "$1/wanted" "$room/"
    python3 bench/verilog.py bench "$room/koika.v" "$room/stimulus" "$room"
    by_icarus "$room/found" koika.v
    are_rows "$title" || return 0
    if [ "${title%% *}" = verilog ]; then
        file=${title##* }
        words=${title% *}
        # shellcheck disable=SC2086 # words
        "$lab" $words <"$file" | cmp -s - "$1/koika.v" || complain "$title: another module"
        if ! grep -q rst= "$1/stimulus"; then
            { sed '/^%%/,$d' "$file"; echo '%%'; cat "$1/stimulus"; } >"$room/source"
            "$program" sim --cycles "$(wc -l <"$1/stimulus")" <"$room/source" |
                python3 bench/verilog.py rows "$room/koika.v" >"$room/found"
            are_rows "$title beside sim" || return 0
        fi
    fi
    echo "| $title | $(wc -l <"$room/wanted") |"
}

if is_asked plain && has iverilog; then
    echo "| case of the plain program | rows that are those by Icarus Verilog |"
    echo "|---|---|"
    python3 bench/verilog.py cases crates/verilog_runs "$room/cases"
    for case in "$room/cases"/*; do plain "$case"; done
    echo
fi

echo "wrong: $wrong"
[ "$wrong" = 0 ]
