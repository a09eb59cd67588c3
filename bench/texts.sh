#!/usr/bin/env bash
# Measures what the program costs on texts of a megabyte, for each byte, all phases together: `check`, and `print`, of
# which it tells whether what is printed is printed the same again. It takes another program than the built one as an
# argument, and is run by hand.
set -eu
cd "$(dirname "$0")/.."
. bench/cost.sh
. bench/programs.sh

take_program "${1-}"

# The text of a shape.
text() {
    awk -v shape="$1" '
        # A name of three bytes for each number below 103,194, none of them a keyword.
        function name(number) {
            return substr(letters, int(number / 3969) + 1, 1) substr(letters, int(number / 63) % 63 + 1, 1) substr(letters, number % 63 + 1, 1)
        }

        # That many copies.
        function times(part, count) {
            return count == 0 ? "" : times(part part, int(count / 2)) (count % 2 ? part : "")
        }
        function in_rule(body) { print "input a : bits 8;\nreg r : bits 8 = 8'\''d0;\nrule x {\n" body "\n}\nschedule { x; }" }

        # That many levels of a tree of tries, from the rules of these numbers on.
        function tries(levels, first) {
            if (levels == 0) return ""
            return "try r" first " then {\n" tries(levels - 1, first + 1) "} else {\n" tries(levels - 1, first + 1) "}\n"
        }

        BEGIN {
            letters = "ABCDEFGHIJKLMNOPQRSTUVWXYZabcdefghijklmnopqrstuvwxyz0123456789_"
            if (shape == "rules") {
                for (k = 0; k < 100000; k++) printf "rule %s{}", name(k)
                print "schedule { }"
            } else if (shape == "assertions") {
                print "rule r { }"
                for (k = 0; k < 100000; k++) print "assert r;"
                print "schedule { }"
            } else if (shape == "declarations") {
                print "rule r {\n}"
                for (k = 0; k < 95000; k++) print "assert r ;"
                print "schedule {\n}"
            } else if (shape == "registers") {
                for (k = 0; k < 49000; k++) print "reg " name(k) ":bits 1=1'\''d0;"
                print "schedule { }"
            } else if (shape == "types") {
                for (k = 0; k < 46000; k++) print "struct " name(k) "{a:bits 1}"
                print "schedule { }"
            } else if (shape == "lets") {
                in_rule(times("let n = a;\n", 90000))
            } else if (shape == "statements") {
                in_rule(times("let n = 8'\''d200 ;\n", 60000))
            } else if (shape == "calls") {
                print "fun f() : unit { }"
                in_rule(times("f();\n", 200000))
            } else if (shape == "writes") {
                in_rule(times("write0(r, read0(r));\n", 49000))
            } else if (shape == "functions") {
                print "fun f0(x : bits 8) : bits 8 { x }"
                for (k = 1; k < 10000; k++)
                    print "fun f" k "(x : bits 8) : bits 8 { (f" k - 1 "(x) + 8'\''d1) ^ x } // " times("-", 39)
                print "schedule { }"
            } else if (shape == "called") {
                print "fun f0(x : bits 8) : bits 8 { x }"
                for (k = 1; k < 10000; k++)
                    print "fun f" k "(x : bits 8) : bits 8 { (f" k - 1 "(x) + 8'\''d1) ^ x } // " times("-", 39)
                in_rule("write0(r, f9999(a))")
            } else if (shape == "operands") {
                in_rule("write0(r, a" times(" + a", 250000) ")")
            } else if (shape == "levels") {
                in_rule("write0(r, a" times(" + a & a | a ^ a", 62000) ")")
            } else if (shape == "arms") {
                in_rule("if a == a { }" times(" else if a == a { }", 54000) " else { }")
            } else if (shape == "tries" || shape == "many tries") {
                for (k = 0; k < 256; k++) print "rule r" k " { }"
                print "schedule {\n" tries(shape == "tries" ? 10 : 15, 0) "}"
            }
        }'
}

# Counts the bytes of the text of a shape, and what a command costs on it. What it writes is the answer.
measure() {
    text "$1" >"$room/source"
    bytes=$(wc -c <"$room/source" | awk '{ print $1 }')
    taken=$(cost "$room/source" "$room/answer" "$program" "$2")
}

start=$(cost examples/counter.koika /dev/null "$program" check)

echo "| text | bytes | $of_run of \`check\` | $of_part for each byte, the start aside | answer |"
echo "|---|---|---|---|---|"
while IFS=: read -r what shape; do
    measure "$shape" check
    echo "| $what | $bytes | $(columns "$taken" "$start" "$bytes") | $(head -n 1 "$room/answer") |"
done <<'SHAPES'
100,000 declarations of rules:rules
100,000 declarations of assertions:assertions
49,000 declarations of registers:registers
46,000 declarations of types:types
200,000 statements that call a function:calls
90,000 statements that bind a name:lets
49,000 statements that write a register:writes
10,000 functions, each calling the one before:functions
the same, the last one called by a rule:called
a chain of 250,000 operands:operands
a chain of 248,000 operands at four levels:levels
54,000 arms of an `if`:arms
a tree of 1,023 tries:tries
a tree of 32,767 tries:many tries
SHAPES

echo
echo "| text | bytes | $of_run of \`print\` | $of_part for each byte, the start aside | printed again |"
echo "|---|---|---|---|---|"
while IFS=: read -r what shape; do
    measure "$shape" print
    answer "$room/answer" "$room/again" "$program" print
    again="another text"
    if cmp -s "$room/answer" "$room/again"; then again="the same text"; fi
    echo "| $what | $bytes | $(columns "$taken" "$start" "$bytes") | $again |"
done <<'SHAPES'
a chain of 250,000 operands:operands
60,000 statements:statements
95,000 declarations:declarations
SHAPES
