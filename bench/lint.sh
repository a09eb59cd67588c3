#!/usr/bin/env bash
# Tries the lab's command `lint` beside `profile`, on the designs of examples/ and on random ones with random stimuli:
# each refusal that `profile` shows is in the lists of `lint`, each assertion that was unwatched in some cycle has a note,
# and no rule that `lint` notes as `never` or `unscheduled` fired. At last it measures `lint` on designs that are as large
# as designs may be. It is run by hand. Another program than the built one and further sources may be named:
#
#     bench/lint.sh [RUNS [LAB_PROGRAM [SOURCE..]]]
#
# RUNS is the number of random designs, 2000 if it isn't given; a source is a design, with its stimulus if it has one.
# $FIRST is the first seed, 1 if it isn't set, and $PARTS some of the words `stored random large`, all if it isn't set.
# The status is 1 if a note is missing or wrong, or where a large design takes more than a second of a processor or 64 MB.
set -eu
cd "$(dirname "$0")/.."
export LC_ALL=C

. bench/programs.sh
runs=${1:-2000}
first=${FIRST:-1}
parts=${PARTS:-stored random large}
[ $# -lt 3 ] || mapfile -t others < <(realpath -e "${@:3}")
take_lab "${2-}"
room=$(mktemp -d)
trap 'rm -rf "$room"' EXIT
wrong=0 refusals=0 tried=0

# A random design by a seed, with a stimulus. Rules read and write at all ports, in branches and by functions; the schedule
# has branches too, and may leave rules out.
make_source() {
    awk -v seed="$1" '
        function pick(n) { return int(rand() * n) }
        function value(depth,    kind) {
            kind = pick(depth > 2 ? 3 : 7)
            if (kind == 0) return "4'"'"'d" pick(16)
            if (kind == 1) return "k"
            if (kind <= 3) return "read" pick(4) "(r" pick(registers) ")"
            if (kind == 4) return "(" value(depth + 1) " + " value(depth + 1) ")"
            if (kind == 5 && functions && !inside) return "f" pick(functions) "(" value(depth + 1) ")"
            return "(" value(depth + 1) " ^ " value(depth + 1) ")"
        }
        function step(depth,    kind) {
            kind = pick(depth > 2 ? 3 : 6)
            if (kind == 5) return "if " value(2) " == " value(2) " { " steps(depth + 1) " }"
            if (kind == 4) return "if " value(2) " < " value(2) " { " steps(depth + 1) " } else { " steps(depth + 1) " }"
            if (kind == 3 && pick(3) == 0) return "if " value(2) " == 4'"'"'d" pick(16) " { abort }"
            return "write" pick(4) "(r" pick(registers) ", " value(1) ")"
        }
        function steps(depth,    count, text) {
            count = 1 + pick(3)
            text = step(depth)
            while (--count > 0) text = text "; " step(depth)
            return text
        }
        function scheduler(from,    text, to) {
            text = ""
            while (from <= last) {
                if (pick(8) == 0) { from++; continue }
                if (pick(4) == 0) {
                    to = from + 1
                    return text "try a" from " then { " scheduler(to) " } else { " scheduler(to) " }"
                }
                text = text "a" from "; "
                from++
            }
            return text
        }
        BEGIN {
            srand(seed)
            registers = 1 + pick(4)
            last = 1 + pick(6)
            functions = pick(3)
            print "input k : bits 4;"
            for (n = 0; n < registers; n++) print "reg r" n " : bits 4 = 4'"'"'d" pick(16) ";"
            inside = 1
            for (n = 0; n < functions; n++) print "fun f" n "(v : bits 4) : bits 4 { " steps(2) "; v + " value(1) " }"
            inside = 0
            for (n = 0; n <= last; n++) print "rule a" n " { " steps(0) " }"
            for (n = 0; n <= last; n++) if (pick(3) == 0) print "assert a" n ";"
            print "schedule { " scheduler(0) " }"
            print "%%"
            for (n = 0; n < 40; n++) print "k=" pick(16)
        }'
}

# Compares what `profile` counts with what `lint` notes: prints what is missing or wrong, and then the number of refusals.
compare() {
    awk -v cycles="$1" '
        FNR == NR && $1 == "own" { own[$2, $3] = "," $4 "," }
        FNR == NR && $1 == "may" { by_rule[$2, $3, $4] = "," $5 ","; by_other[$2, $3, $4] = "," $6 "," }
        FNR == NR && $1 == "assert" { noted[$2] = 1 }
        FNR == NR && $1 == "never" { never[$2] = 1 }
        FNR == NR && $1 == "unscheduled" { unscheduled[$2] = 1 }
        FNR == NR { next }
        $1 == "rule" && $2 in never && $4 > 0 { print "never, but fired:", $0 }
        $1 == "rule" && $2 in unscheduled && $12 != cycles { print "unscheduled, but tried:", $0 }
        $1 == "own" {
            count++
            split($3, a, ":")
            if (!index(own[$2, a[2]], "," a[1] ",")) print "not noted:", $0
        }
        $1 == "clash" {
            count++
            split($3, a, ":")
            split($5, e, ":")
            if (!index(by_rule[$2, $4, a[2]], "," a[1] ",") || !index(by_other[$2, $4, e[2]], "," e[1] ","))
                print "not noted:", $0
        }
        $1 == "assert" && $8 > 0 && !($2 in noted) { print "not noted:", $0 }
        END { print count + 0 }' "$room/notes" "$room/profile"
}

# Tries the source in $room/source for some cycles. A source that is no design tries nothing.
try_source() {
    if ! "$lab" profile --cycles "$2" <"$room/source" >"$room/profile"; then
        refused=$((refused + 1))
        return
    fi
    "$lab" lint <"$room/source" >"$room/notes"
    compare "$2" >"$room/found"
    refusals=$((refusals + $(tail -n 1 "$room/found")))
    tried=$((tried + 1))
    [ "$(wc -l <"$room/found")" = 1 ] || {
        wrong=$((wrong + 1))
        echo "$1:"
        head -n 5 "$room/found"
    }
}

# Tries sources that are read line by line from standard input.
try_sources() {
    tried=0 refusals=0 refused=0
    while read -r source; do
        cp "$source" "$room/source"
        try_source "$source" 300
    done
    echo "$tried $1, $refusals different refusals in 300 cycles; $refused of the sources are no designs"
}

# Tries random designs.
try_random() {
    tried=0 refusals=0 refused=0
    for ((seed = first; seed < first + runs; seed++)); do
        make_source "$seed" >"$room/source"
        try_source "seed $seed" 60
    done
    echo "$tried random designs, $refusals different refusals in 60 cycles; $refused of the sources are no designs"
}

# The largest designs: 256 registers, 256 rules, 1,024 nodes and a weight of 32,760. Each rule has eight or nine writes of
# values that it reads: all registers in turn, with an assertion of each rule, or two registers alone, so that there is a
# line for half the pairs of rules.
make_large() {
    awk -v kind="$1" '
        function body(n,    text, k) {
            for (k = 0; k < (n < 137 ? 9 : 8); k++)
                text = text (k ? "; " : "") "write" k % 4 "(r" (kind == "wide" ? (n * 7 + k * 23) % 256 : n % 2) \
                    ", read" (k + 1) % 4 "(r" (kind == "wide" ? (n + k * 5) % 256 : n % 2) "))"
            return text
        }
        function chain(from, to,    text, n) {
            for (n = from; n <= to; n++) text = text "a" n "; "
            return text
        }
        function branch(n, yes, no) { return "try a" n " then { " yes " } else { " no " }" }
        BEGIN {
            for (n = 0; n < 256; n++) print "reg r" n " : bits 8 = 8'"'"'d0;"
            for (n = 0; n < 256; n++) print "rule a" n " { " body(n) " }"
            if (kind == "wide") for (n = 0; n < 256; n++) print "assert a" n ";"
            rest = chain(2, 255)
            last = chain(2, 249) branch(250, chain(251, 255), chain(251, 255))
            print "schedule { " branch(0, branch(1, rest, rest), branch(1, rest, last)) " }"
        }'
}

# One rule with all writes that there are, each of them some times, and a weight of 16,251.
make_long() {
    awk 'BEGIN {
        print "input k : bits 8;"
        for (n = 0; n < 256; n++) print "reg r" n " : bits 8 = 8'"'"'d0;"
        print "rule a {"
        for (n = 0; n < 25 * 215; n++) {
            if (n % 215 == 0) print (n ? " };" : "") "if k == 8'"'"'d" n / 215 " {"
            print (n % 215 ? "; " : "") "write" int(n / 256) % 4 "(r" n % 256 ", read" n % 3 "(r" n % 255 "))"
        }
        print "} }"
        print "schedule { a; }"
    }'
}

# Tries the source in $room/source, and measures `lint` on it: milliseconds of processor time, and memory.
measure() {
    refused=0
    try_source "$1" 20
    [ "$refused" = 0 ] || { echo "$1: no design"; exit 1; }
    TIMEFORMAT='%U %S'
    taken=$({ time "$lab" lint <"$room/source" >"$room/notes"; } 2>&1 | awk '{ printf "%d", ($1 + $2) * 1000 }')
    memory=$(command -v /usr/bin/time >/dev/null && /usr/bin/time -f %M "$lab" lint <"$room/source" 2>&1 >/dev/null || echo 0)
    echo "| $1 | $(wc -l <"$room/notes") | $taken | $((memory / 1024)) |"
    if [ "$taken" -gt 1000 ] || [ "$memory" -gt 65536 ]; then
        wrong=$((wrong + 1))
        echo "that is too much"
    fi
}

measure_all() {
    echo "| a design of | lines | milliseconds of processor time | MB |"
    echo "|---|---|---|---|"
    make_large wide >"$room/source"
    measure "256 rules over all registers"
    make_large narrow >"$room/source"
    measure "256 rules over two registers"
    make_long >"$room/source"
    measure "a rule with 5,375 writes"
}

[[ " $parts " != *" stored "* ]] || try_sources "stored designs" < <(find examples -name '*.koika' | sort)
[ $# -lt 3 ] || try_sources "sources that were named" < <(printf '%s\n' "${others[@]}")
[[ " $parts " != *" random "* ]] || try_random
[[ " $parts " != *" large "* ]] || measure_all
[ "$wrong" = 0 ]
