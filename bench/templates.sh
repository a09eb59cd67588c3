#!/usr/bin/env bash
# Tries bin/koika-gen: what it makes of each kind of line, what it says of wrong templates, which line of a template a
# fault is from, and the systolic array of examples/, whose sums have to be the product of its matrices at each size. It
# takes another program than the built one as its argument, and is run by hand. The status is 1 if anything is wrong.
# shellcheck disable=SC2016 # templates and messages have ${..} and `..` of their own
set -eu
cd "$(dirname "$0")/.."

. bench/programs.sh
take_program "${1-}"
room=$(mktemp -d)
trap 'rm -rf "$room"' EXIT
failed=0 tried=0

wrong() {
    echo "templates.sh: $*" >&2
    failed=1
}

# Whether two texts are the same: what was found, what was wanted, and what of.
same() {
    tried=$((tried + 1))
    [ "$1" = "$2" ] || wrong "$3: found"$'\n'"$1"$'\n'"and not"$'\n'"$2"
}

# ---- the systolic array: each sum is the product's ----

array=examples/systolic/array
for n in 1 2 3 4 5 6 7 8; do
    bin/koika-gen $array.koika.in n:$n >"$room/array.koika"
    product=$(sed '1,/^%%/d' "$room/array.koika" | tr '=' ' ' | awk -v n=$n '
        { left[$4, $6] = $8; top[$4, $6] = $10 }
        END {
            for (i = 0; i < n; i++) for (j = 0; j < n; j++) {
                sum = 0
                for (k = 0; k < n; k++) sum += left[i, k] * top[k, j]
                printf "sum%d_%d=%08x\n", i, j, sum
            }
        }')
    for engine in plain circuit; do
        same "$("$program" sim --cycles 100 --summary --engine $engine <"$room/array.koika" | grep '^sum')" "$product" \
            "the array of $n by $engine"
    done
done
same "$(bin/koika-gen $array.koika.in)" "$(cat $array.koika)" "$array.koika"
same "$(sed 1d $array.txt)" "$("$program" sim --cycles 18 --summary <$array.koika)" "$array.txt"
same "$(bin/koika-rom $array.koika.in)" "$(cat $array.koika)" "the old name"

# ---- items that a value picks: all numbers, of arrays and of bits ----

for count in 1 2 3 4 5 7 8 9; do
    cat >"$room/items.in" <<'TEMPLATE'
//@ parameter count
//@ items item [bits 8; ${count}]
input at : bits ${bits(count)};
reg all : [bits 8; ${count}] = [8'd1
//@ repeat k 2 ${count}
    , 8'd${k}
//@ end
];
reg seen : bits 8 = 8'd0;
rule look { write0(seen, item_at(read0(all), at)) }
rule change { write0(all, item_with(read0(all), at, 8'd255)) }
schedule { look; change; }
%%
//@ repeat k 0 ${count - 1}
at=${k}
//@ end
TEMPLATE
    bin/koika-gen "$room/items.in" count:$count >"$room/items"
    same "$("$program" sim --cycles $count <"$room/items" | sed 's/ look,change / /')" "$(awk -v count=$count 'BEGIN {
        for (cycle = 0; cycle <= count; cycle++) {
            text = ""
            for (k = 0; k < count; k++) text = (k < cycle ? "ff" : sprintf("%02x", k + 1)) text
            printf "@%d %sall=%s seen=%02x\n", cycle, cycle ? "" : "- ", text, cycle
        }
    }')" "items of an array of $count"
done
for width in 2 3 4 5 7 8 9; do
    bits=$(awk -v width=$width 'BEGIN { for (bits = 1; 2 ^ bits < width; bits++); print bits }')
    cat >"$room/bits.in" <<'TEMPLATE'
//@ parameter width
//@ parameter numbers
//@ items flag bits ${width}
input at : bits ${bits(width)};
input to : bits 1;
reg all : bits ${width} = ${width}'b10;
reg seen : bits 1 = 1'd0;
rule look { write0(seen, flag_at(read0(all), at)) }
rule change { write0(all, flag_with(read0(all), at, to)) }
schedule { look; change; }
%%
//@ repeat k 0 ${2 * numbers - 1}
at=${k % numbers} to=${k / numbers}
//@ end
TEMPLATE
    bin/koika-gen "$room/bits.in" width:$width numbers:$((1 << bits)) >"$room/bits"
    run=$("$program" sim --cycles $((2 << bits)) <"$room/bits" | sed 's/ look,change / /')
    same "$run" "$(awk -v width=$width -v bits="$bits" '
        function shown(    k, number) {
            for (k = width - 1; k >= 0; k--) number = 2 * number + bit[k]
            return sprintf("%0" int((width + 3) / 4) "x", number)
        }
        BEGIN {
            bit[1] = 1
            printf "@0 - all=%s seen=0\n", shown()
            for (k = 0; k < 2 * 2 ^ bits; k++) {
                at = k % 2 ^ bits
                seen = at < width ? bit[at] + 0 : 0
                if (at < width) bit[at] = int(k / 2 ^ bits) % 2
                printf "@%d all=%s seen=%d\n", k + 1, shown(), seen
            }
        }')" "bits of $width"
done

# ---- formulas, repeated text, tables and banks ----

made() {
    printf '%s\n' "$1" >"$room/template"
    shift
    bin/koika-gen "$room/template" "$@"
}
same "$(made '${7 / 2} ${7 % 3} ${(1 + 2) * 3} ${bits(5)} ${2 - 3 + 4}')" '3 1 9 3 3' formulas
same "$(made '${-1 + 2} ${ 12 } ${bits(1)} ${bits(2 * 2)} ${(2-9)/2+4}')" '1 12 1 2 1' 'further formulas'
same "$(made '//@ repeat i 1 2
//@ repeat j ${i} 2
a${i}b${j}
//@ end
//@ end
//@ repeat i 1 0
never
//@ end
//@ repeat i -1 0
x${i + 1}
//@ end')" 'a1b1
a1b2
a2b2
x0
x1' 'repeated text'
same "$(made '//@ parameter a 3
//@ parameter b ${a + 1}
${a} ${b}' a:5)" '5 6' parameters
same "$(made '${late}
//@ parameter late 1')" 1 'a parameter that is declared late'
printf 'abc' >"$room/abc"
same "$(made '//@ table t bits 16' t="$room/abc")" "table t : bits 1 -> bits 16 {
    16'h6261,
    16'h63
}

fun t_word(at : bits 12) : bits 16 {
    if at[11:1] == 11'd0 { t(at[0:0]) }
    else { 16'd0 }
}" 'a table'
same "$(made '//@ repeat i 0 1
//@ bank r${i} bits 8 of 2 read1
//@ end' r1="$room/abc" r1:3 | grep '^reg')" "reg r00 : bits 8 = 8'h0;
reg r01 : bits 8 = 8'h0;
reg r10 : bits 8 = 8'h61;
reg r11 : bits 8 = 8'h62;
reg r12 : bits 8 = 8'h63;" 'banks'
same "$(printf '//@ repeat i 1 1\r\nx\r\n//@ end\r\n' >"$room/dos"; bin/koika-gen "$room/dos" | od -An -c)" \
    "$(printf 'x\r\n' | od -An -c)" 'carriage returns'

# ---- what is wrong: the template, its line, the message, and the arguments ----

refused() {
    local text=$1 wanted=$2 answer status
    shift 2
    printf '%b' "$text" >"$room/template"
    answer=$(bin/koika-gen "$room/template" "$@" 2>&1 >"$room/design") && status=0 || status=$?
    answer=${answer//"$room/"/}
    same "$status: $answer" "1: $wanted" "$text"
    [ ! -s "$room/design" ] || wrong "$text: a design is written"
}
refused '\n//@table t bits 8\n' 'template:2: a blank is missing after //@'
refused '  //@repeat i 0 1' 'template:1: a blank is missing after //@'
refused '//@ tabel t bits 8' 'template:1: not understood: //@ tabel t bits 8'
refused '//@' 'template:1: not understood: //@'
refused '//@ table t 8' 'template:1: not understood: //@ table t 8'
refused '//@ table 8t bits 8' 'template:1: not understood: //@ table 8t bits 8'
refused '//@ table t bits 12' 'template:1: the width is no multiple of 8'
refused '//@ table t bits 200' 'template:1: the width is a number from 8 to 128, not "200"'
refused '//@ table t bits 8' 'template:1: the count of t is a number from 1 to 4096, not "5000"' t:5000
refused '//@ bank t bits 8 of x' 'template:1: the count of t is a number from 1 to 256, not "x"'
refused '//@ bank t bits 8 of 2' 'template:1: t has 2 words, and its file has 3' t="$room/abc"
refused '//@ bank t bits 8 read4' 'template:1: no port read4'
refused '//@ items i bits 1' 'template:1: the width is a number from 2 to 128, not "1"'
refused '//@ items i bits x' 'template:1: not understood: //@ items i bits x'
refused '//@ items i [bits 8; 129]' 'template:1: the length is a number from 1 to 128, not "129"'
refused '//@ items i' 'template:1: not understood: //@ items i'
refused 'x\n//@ repeat i 0' 'template:2: not understood: //@ repeat i 0'
refused '//@ repeat i 0 1\nx' 'template:1: a line `//@ end` is missing'
refused 'x\n//@ end' 'template:2: there is no `//@ repeat` before this `//@ end`'
refused '//@ repeat i a 1\n//@ end' 'template:1: "a" is no number'
refused '//@ repeat 1 0 1\n//@ end' 'template:1: not understood: //@ repeat 1 0 1'
refused '//@ repeat i 0 1\n//@ repeat i 0 1\n//@ end\n//@ end' 'template:2: there is a i already'
refused '//@ repeat i 1 1048577\n//@ end' 'template:1: more than 1048576 times'
refused '//@ repeat i 1 1048576\nx\ny\n//@ end' 'template:2: the design has more than 1048576 lines'
refused '//@ parameter n' "template:1: n isn't given: add n:NUMBER to the arguments"
refused '//@ parameter n' 'template:1: n is a number: give it as n:NUMBER' n="$room/abc"
refused '//@ parameter n' 'template:1: n is a number from 0 to 4294967295, not "x"' n:x
refused '//@ parameter n 1\n//@ parameter n 2' 'template:2: there is a n already'
refused '//@ parameter bits 1' 'template:1: not understood: //@ parameter bits 1'
refused '//@ parameter n 1 2' 'template:1: not understood: //@ parameter n 1 2'
refused '//@ repeat i 0 1\n//@ parameter n 1\n//@ end' 'template:2: a parameter is declared outside of what is repeated'
refused 'a\nb${i}' 'template:2: ${i}: no parameter and no repeat is named i here'
refused '${1' 'template:1: a } is missing after ${'
refused '${}' 'template:1: ${} is no formula: numbers, names, + - * / %, parentheses and bits(..)'
refused '${1 2}' 'template:1: ${1 2} is no formula: numbers, names, + - * / %, parentheses and bits(..)'
refused '${(1}' 'template:1: ${(1} is no formula: numbers, names, + - * / %, parentheses and bits(..)'
refused '${bits 2}' 'template:1: ${bits 2} is no formula: numbers, names, + - * / %, parentheses and bits(..)'
refused '${bits(2}' 'template:1: ${bits(2} is no formula: numbers, names, + - * / %, parentheses and bits(..)'
refused '${1 / 0}' 'template:1: ${1 / 0} divides by 0'
refused '${1 % 0}' 'template:1: ${1 % 0} divides by 0'
refused '${1 - 2}' 'template:1: ${1 - 2} is -1, below 0'
refused '${bits(0)}' 'template:1: ${bits(0)}: bits(..) is of 1 or more'
refused '${65536 * 65536}' 'template:1: ${65536 * 65536} is above 4294967295'
refused 'x' 'koika-gen: the template has no table, bank or parameter n' n:1
refused 'x' "koika-gen: can't read none" t=none
refused 'x' 'usage: koika-gen [--check] TEMPLATE [NAME=FILE | NAME:NUMBER]...' t
same "$(bin/koika-gen none 2>&1) $?" "koika-gen: can't read none 1" 'no template'
same "$(bin/koika-gen 2>&1) $?" 'usage: koika-gen [--check] TEMPLATE [NAME=FILE | NAME:NUMBER]... 1' 'no argument'

# ---- which line of the template a fault is from ----

# The status, what is written, and what is said.
checked() {
    local status
    printf '%b' "$1" >"$room/template"
    KOIKA=$program KOIKA_EXPLAIN=0 bin/koika-gen --check "$room/template" >"$room/answer" 2>"$room/said" &&
        status=0 || status=$?
    echo "$status: $(cat "$room/answer")"
    sed "s,$room/,," "$room/said"
}
same "$(checked "reg x : bits 8 = 8'd0;\nschedule { }")" '0: ok registers=1 rules=0 nodes=0 weight=0' 'a good template'
same "$(checked "//@ repeat i 0 2
reg x\${i} : bits 8 = 8'd0;
reg y\${i} : bits \${i + 7} = 8'd0;
//@ end
schedule { }")" \
    "2: fault 23 at 2:19
template:3: fault 23 at 2:19 of the design, which is: reg y0 : bits 7 = 8'd0;" 'a fault in repeated text'
same "$(checked '//@ bank r bits 8 of 3\nschedule { a; }')" "2: fault 20 at 6:12
template:2: fault 20 at 6:12 of the design, which is: schedule { a; }" 'a fault after a bank'
same "$(checked 'schedule {\n')" "2: fault 11 at 2:1
template:1: fault 11 at 2:1 of the design" 'a text that ends too early'
same "$(checked 'schedule { }\n%%\n//@ repeat i 1 2\na=${i}\n//@ end\n')" "2: fault 31 at 3:1
template:4: fault 31 at 3:1 of the design, which is: a=1" 'a fault of the stimulus'

echo "$tried cases, $([ "$failed" = 0 ] && echo all right || echo some wrong)"
exit "$failed"
