#!/usr/bin/env bash
# Compiles the programs of examples/riscv, makes a design of each by koika-gen, and runs each design by both engines and
# by the BTOR2 file that it is compiled to. It compares these runs with each other, and with qemu-riscv32: the registers
# after each instruction, the memory at the end, the output and the exit code. Then it measures what a cycle costs. It
# takes another program than the built one as its argument, and is run by hand. It needs gcc-riscv64-unknown-elf,
# qemu-user and gdb-multiarch of Debian.
set -eu
cd "$(dirname "$0")/.."
. bench/cost.sh
. bench/programs.sh

take_program "${1-}"
core=examples/riscv

# How many instructions the random program is made of, but for its start and its end.
random_instructions=1500

stop() {
    echo "riscv.sh: $*" >&2
    exit 1
}

# Runs the program by qemu: its output, its exit code, and a line for each instruction with its address and x1 to x31
# after it. qemu logs the registers before each instruction; before the first one only the stack pointer isn't 0.
run_by_qemu() {
    qemu-riscv32 -singlestep -d cpu,nochain -D "$room/log" "$room/made.elf" </dev/null >"$room/qemu_output" &&
        qemu_code=0 || qemu_code=$?
    awk '
        function show(line, k) {
            line = address
            for (k = 1; k < 32; k++) line = line " " x[k]
            print line
        }
        $1 == "pc" { if (address) show(); address = next_address; next_address = $2 }
        $1 ~ /^x[0-9]/ { for (k = 1; k < NF; k += 2) { split($k, name, "/"); x[substr(name[1], 2) + 0] = $(k + 1) } }
        END { show(); address = next_address; show() }' "$room/log" >"$room/qemu_trace"
}

# Runs it once more up to its end under gdb, for the bytes of its memory, 16 in a line.
read_qemu_memory() {
    local bytes=$1 at child
    at=$(riscv64-unknown-elf-nm "$room/made.elf" | awk '$3 == "stop" { print "0x" $1 }')
    rm -f "$room/socket"
    qemu-riscv32 -g "$room/socket" "$room/made.elf" </dev/null >/dev/null 2>&1 &
    child=$!
    until [ -S "$room/socket" ]; do sleep 0.1; done
    gdb-multiarch -nx -batch -ex "file $room/made.elf" -ex "target remote $room/socket" -ex "break *$at" -ex continue \
        -ex "dump binary memory $room/dump 0x20000 $((0x20000 + bytes))" -ex kill </dev/null >/dev/null 2>&1
    wait "$child" || true
    od -An -v -t x1 -w16 "$room/dump" | tr -d ' ' >"$room/qemu_memory"
}

# The same of a report: the trace, the memory and the output as files, and as one line the cycle in which the program
# ended, how many instructions it took, and the exit code.
read_report() {
    awk -v trace="$room/trace" -v memory="$room/memory" -v output="$room/output" '
        function value(name) { return substr($at[name], length(name) + 2) }
        function show(line, k) {
            line = value("finished")
            for (k = 1; k < 32; k++) line = line " " value("x" k)
            print line >trace
        }
        $1 == "@0" {
            for (k = 3; k <= NF; k++) {
                split($k, part, "=")
                at[part[1]] = k
                if (part[1] ~ /^data/) rows++
            }
        }
        $1 == "violated" { print; exit }
        $2 ~ /(^|,)(result|load|store|put|exit)(,|$)/ { show(); instructions++ }
        $2 ~ /(^|,)put(,|$)/ { print substr(value("written"), 31) >output }
        $2 ~ /(^|,)exit(,|$)/ {
            for (k = 0; k < rows; k++) {
                line = ""
                for (digit = 31; digit > 0; digit -= 2) line = line substr(value("data" k), digit, 2)
                print line >memory
            }
            print substr($1, 2), instructions, value("x10")
            exit
        }'
}

# Runs the design of a program by each way, and compares all runs.
compare() {
    local name=$1 most ended
    most=$((2 * $(wc -l <"$room/qemu_trace") + 20))
    : >"$room/output"
    ended=$("$program" sim --cycles "$most" <"$room/made.koika" | read_report)
    case $ended in
        violated*) stop "$name: $ended" ;;
        "") stop "$name: it doesn't end in $most cycles" ;;
    esac
    read -r cycles instructions code <<<"$ended"
    cmp "$room/trace" "$room/qemu_trace" || stop "$name: other registers than by qemu"
    cmp "$room/memory" "$room/qemu_memory" || stop "$name: another memory than by qemu"
    od -An -v -t x1 -w1 "$room/qemu_output" | tr -d ' ' | cmp "$room/output" - ||
        stop "$name: another output than by qemu"
    [ $((0x$code & 255)) = "$qemu_code" ] || stop "$name: another exit code than by qemu"
    cmp <("$program" sim --cycles "$cycles" <"$room/made.koika") \
        <("$program" sim --cycles "$cycles" --engine circuit <"$room/made.koika") || stop "$name: the engines differ"
    "$program" compile <"$room/made.koika" >"$room/circuit"
    cmp <("$program" sim --cycles "$cycles" <"$room/made.koika") \
        <("$program" btorsim --cycles "$cycles" <"$room/circuit") || stop "$name: the BTOR2 file differs"
}

# Two of the designs are kept, each with a command and its summary.
compare_kept() {
    local kept=$core/designs/$1
    cmp "$room/made.koika" "$kept.koika" || stop "$1: another design than the kept one: is it another compiler?"
    "$program" sim --cycles "$cycles" --summary <"$room/made.koika" | cmp - <(tail -n +2 "$kept.txt") ||
        stop "$1: another summary"
}

ratio() {
    awk -v a="$1" -v b="$2" 'BEGIN { printf "%.2f", a / b }'
}

awk -v many="$random_instructions" -f "$core/programs/random.awk" >"$room/random.S"

# A program, with a memory of that many bytes, and a table of that many words where the program has fewer.
echo "Programs, each the same by qemu and by both engines and the BTOR2 file:"
echo
echo "| program | its words | bytes of memory | instructions | cycles | cycles per instruction |"
echo "|---|---|---|---|---|---|"
while read -r name bytes words; do
    source=$core/programs/$name.c
    [ -f "$source" ] || source=$core/programs/$name.S
    [ "$name" != random ] || source=$room/random.S
    "$core/build" "$source" "$bytes" "$room/made" ${words:+"$words"}
    run_by_qemu
    read_qemu_memory "$bytes"
    compare "$name"
    [ ! -f "$core/designs/$name.koika" ] || compare_kept "$name"
    echo "| \`$name\` | $(($(wc -c <"$room/made.text") / 4)) | $bytes | $instructions | $cycles" \
        "| $(ratio "$cycles" "$instructions") |"
    cp "$room/made.koika" "$room/$name.koika"
    cp "$room/circuit" "$room/$name.circuit"
    echo "$name $cycles" >>"$room/programs"
done <<'PROGRAMS'
stages 256
instructions 512
fibonacci 512
queue 256
sort 1024
search 512
crc32 256
sha256 1024
random 3472 4096
PROGRAMS

# Programs that break a rule, and which assertion is violated.
while IFS=: read -r rule code; do
    printf '.globl main\nmain: %s\n' "$code" >"$room/wrong.S"
    "$core/build" "$room/wrong.S" 256 "$room/made"
    answer=$("$program" sim --cycles 40 --summary <"$room/made.koika" | grep -o '^violated [a-z_]*') || true
    [ "$answer" = "violated $rule" ] || stop "$code: expected a violation of $rule, found ${answer:-none}"
done <<'WRONG'
illegal:.word 0
illegal:.word 0xffffffff
illegal:ebreak
illegal:.word 0x02a50533 # mul a0, a0, a0
illegal:.word 0x40a51533 # sll a0, a0, a0 with the bit of sub
illegal:.word 0x40051513 # slli a0, a0, 0 with the bit of srai
illegal:.word 0x0000100f # fence.i
illegal:.word 0x00013503 # ld a0, 0(sp)
illegal:.word 0x00016503 # lwu a0, 0(sp)
illegal:.word 0x00a13023 # sd a0, 0(sp)
illegal:.word 0x00052463 # a branch with the unused condition 2
illegal:.word 0x00009067 # jalr with the unused code 1
illegal:.word 0x30200073 # mret
bad_address:lw a0, 0(zero)
bad_address:lbu a0, 0(sp)
bad_address:lw a0, -2(sp)
bad_address:lh a0, -1(sp)
bad_address:sw a0, -3(sp)
bad_address:sh a0, -1(sp)
bad_address:sb a0, 0(ra)
bad_call:li a7, 1; ecall
bad_call:li a7, 64; li a0, 2; addi a1, sp, -4; li a2, 1; ecall
bad_call:li a7, 64; li a0, 1; addi a1, sp, -4; li a2, 2; ecall
bad_call:li a7, 64; li a0, 1; li a1, 0; li a2, 1; ecall
astray:jr zero
astray:addi ra, ra, 2; ret
astray:lui ra, 0x14; ret
WRONG

# What a cycle costs with a summary: of the cycles after the 200th, at most 1,000. A program of fewer than 400 isn't
# measured.
per_cycle() {
    local source=$1 last=$2 start taken
    shift 2
    start=$(cost "$source" /dev/null "$program" "$@" --cycles 200 --summary)
    taken=$(cost "$source" /dev/null "$program" "$@" --cycles "$last" --summary)
    awk -v start="$start" -v taken="$taken" -v scale="$part_scale" -v cycles=$((last - 200)) \
        'BEGIN { printf "%.0f", (taken - start) * scale / cycles }'
}

echo
echo "What they cost:"
echo
echo "| program | weight | lines of BTOR2 | $of_run of \`compile\` | $of_part per cycle of \`sim\`" \
    "| with \`--engine circuit\` | of \`btorsim\` |"
echo "|---|---|---|---|---|---|---|"
while read -r name cycles; do
    [ "$cycles" -ge 400 ] || continue
    last=$((cycles < 1200 ? cycles : 1200))
    design=$room/$name.koika
    compiled=$(cost "$design" /dev/null "$program" compile)
    echo "| \`$name\` | $("$program" check <"$design" | sed 's/.*weight=//') | $(wc -l <"$room/$name.circuit")" \
        "| $(awk -v taken="$compiled" -v scale="$run_scale" 'BEGIN { printf "%.10g", taken * scale }')" \
        "| $(per_cycle "$design" "$last" sim) | $(per_cycle "$design" "$last" sim --engine circuit)" \
        "| $(per_cycle "$room/$name.circuit" "$last" btorsim) |"
done <"$room/programs"
