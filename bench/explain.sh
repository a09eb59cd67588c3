#!/usr/bin/env bash
# Tries what bin/explain says: for each row of docs/FAULTS.md, docs/AIGER.md, docs/JOURNAL.md, docs/LAB.md and
# docs/CERTIFICATES.md and each example of docs/BTOR2.md, through a file and a pipe, standard output and the status are those of the program, and
# standard error has the fault, its meaning, its line with a caret, and advice. What hands write from habit has a hint. The
# examples of `./koika --help` are run, and the stored designs with their stimulus in a file of its own. It takes other
# programs than the built ones as its arguments, and is run by hand:
#
#     bench/explain.sh [PROGRAM LAB_PROGRAM]
set -eu
cd "$(dirname "$0")/.."
. bench/programs.sh
take_program "${1-}"
take_lab "${2-}"

export FINDINGS_SECONDS=600 # an unproved program is slow
room=$(mktemp -d)
trap 'rm -rf "$room"' EXIT
tried=0 wrong=0

complain() {
    wrong=$((wrong + 1))
    echo "wrong: $*"
}

# Runs words on $room/source by the program, from a file and from a pipe, and compares all of it.
try() {
    local expected=$1 status code how
    shift
    tried=$((tried + 1))
    code=0
    "$program" "$@" <"$room/source" >"$room/out" 2>/dev/null || code=$?
    [ "$(cat "$room/out")" = "$expected" ] || complain "$* answers $(head -c 80 "$room/out"), and not $expected"
    for how in file pipe; do
        status=0
        if [ "$how" = file ]; then
            bin/explain "$program" "$@" <"$room/source" >"$room/explained" 2>"$room/said" || status=$?
        else
            cat "$room/source" | bin/explain "$program" "$@" >"$room/explained" 2>"$room/said" || status=$?
        fi
        [ "$status" = "$code" ] || complain "$expected by $how: status $status, and not $code"
        cmp -s "$room/out" "$room/explained" || complain "$expected by $how: another standard output"
        check_said "$expected" || complain "$expected by $how: $(cat "$room/said")"
    done
}

# Whether standard error has all of it.
check_said() {
    local number=${1#fault } place=${1##* at }
    number=${number%% *}
    grep -q "^koika: fault $number at line ${place%:*}, column ${place#*:}: .\{5,\}" "$room/said" &&
        grep -q '^  advice: .\{5,\}(docs/' "$room/said" &&
        ! grep -q '^awk:' "$room/said" && {
        [ "${place%:*}" = 0 ] || grep -q '^ *| *[[:space:]]*\^' "$room/said"
    }
}

# The source that a cell of FAULTS.md or AIGER.md stands for: `/` ends a line, and `"20 r#; "` is 20 copies, with the
# copy's number for `#`.
spelled() {
    awk -v text="$1" '
        function plain(part) { gsub("/", "\n", part); printf "%s", part }
        function times(part, count) {
            return count == 0 ? "" : times(part part, int(count / 2)) (count % 2 ? part : "")
        }
        BEGIN {
            count = split(text, parts, "\"")
            for (k = 1; k <= count; k++) {
                if (k % 2) { plain(parts[k]); continue }
                copies = parts[k] + 0
                sub(/^[0-9]+ /, "", parts[k])
                if (!index(parts[k], "#")) { plain(times(parts[k], copies)); continue }
                for (n = 0; n < copies; n++) { copy = parts[k]; sub("#", n, copy); plain(copy) }
            }
        }'
}

# The rows of faults of these pages, each with a small source, by a program.
try_rows() {
    local program=$1 command number place source
    shift
    while IFS=$'\t' read -r command number place source; do
        spelled "$source" >"$room/source"
        # shellcheck disable=SC2086 # the words of a command
        try "fault $number at $place" $command
    done < <(awk '
        /^\| fault \|/ { split($0, cells, / \| /); command = cells[4]; sub(/^[^`]*`/, "", command); sub(/`.*/, "", command); next }
        /^\| [0-9]+ \|/ {
            split(substr($0, 3), cells, / \| /)
            source = cells[4]
            sub(/^[^`]*`/, "", source)
            sub(/`[^`]*$/, "", source)
            if (cells[5] ~ /:/) print command "\t" cells[1] "\t" cells[5] "\t" source
        }' "$@")
}
try_rows "$program" docs/FAULTS.md docs/AIGER.md docs/JOURNAL.md
try_rows "$lab" docs/LAB.md

# The rows of faults of certificates: D stands for the design that is above the table, and ` / ` ends a line.
try_certificates() {
    local program=$lab design number place source
    design=$(awk '/^sources `\/` ends a line, and D is$/ { on = 1; next } on && /^    / { print substr($0, 5) } on && /^\|/ { exit }' docs/CERTIFICATES.md)
    while IFS=$'\t' read -r number place source; do
        printf '%s\n%s\n' "$design" "${source#D / }" | sed 's| / |\n|g' >"$room/source"
        try "fault $number at $place" certify
    done < <(awk '
        /^\| 9[1-5] \|/ {
            split(substr($0, 3), cells, / \| /)
            gsub(/`/, "", cells[4])
            print cells[1] "\t" cells[5] "\t" cells[4]
        }' docs/CERTIFICATES.md)
}
try_certificates

# The examples of BTOR2.md, after the lines that the page has before its table.
lines=$(awk '/^Each example follows|Each example follows the lines/ { on = 1; next } on && /^    / { print substr($0, 5) } on && /^and is refused/ { exit }' docs/BTOR2.md)
while IFS=$'\t' read -r number example; do
    if [ "$number" = 59 ]; then
        printf '%s\n12 state 4\n13 next 4 12 14\n%s\n' "$lines" "${example##*: }" >"$room/source"
        try "fault 59 at 12:1" btorsim --cycles 1
    else
        printf '%s\n%s\n' "$lines" "$example" >"$room/source"
        try "fault $number at 10:1" btorsim --cycles 1
    fi
done < <(awk '
    /^\| 5[0-9] \|/ {
        split($0, cells, / \| /)
        number = substr(cells[1], 3)
        count = split(cells[4], parts, "`")
        if (number == 59) { print number "\t" parts[count - 1]; next }
        for (k = 2; k <= count; k += 2) print number "\t" parts[k]
    }' docs/BTOR2.md)

# What hands write from habit: a hint for each. `\0174` is a vertical bar.
while IFS='|' read -r number source wanted; do
    printf '%b' "$source" >"$room/source"
    tried=$((tried + 1))
    bin/explain "$program" check <"$room/source" >"$room/out" 2>"$room/said" || true
    grep -q "^fault $number at" "$room/out" && grep -q "^  hint: .*$wanted" "$room/said" ||
        complain "$source: $(cat "$room/out" "$room/said")"
done <<'HABITS'
10|\0357\0273\0277schedule { }|byte order mark
10|input a : bits 1; rule r { let x = !a; } schedule { }|~a
10|input a : bits 1; rule r { let x = a ? a : a; } schedule { }|if c
10|/* x */ schedule { }|comment
10|input a : bits 4; rule r { let x = a / 4'd2; } schedule { }|no division
10|input a : bits 4; rule r { let x = a % 4'd2; } schedule { }|no remainder
10|rule r { print("x") } schedule { }|nothing is printed
10|rule r { println!("x") } schedule { }|nothing is printed
10|rule r { $display("x"); } schedule { }|system tasks
10|reg r : bits 8 = 8'hGG; schedule { }|0 to 9 and a to f
10|reg r : bits 8 = 8'b2; schedule { }|0 and 1
10|reg r : bits 8 = 8'd 1; schedule { }|no blanks
10|reg r : bits 8 = 8'D1; schedule { }|small letter
10|reg r : bits 8 = 8'bx; schedule { }|digits alone
10|reg r : bits 8 = 'd1; schedule { }|width first
10|always @(posedge clk) begin end|one clock
11|reg c : bits 8 = 8'd0; rule r { write0(c, 1) } schedule { }|8'd1
11|input a : bits 1; rule r { let x = a && a; } schedule { }|one `&`
11|input a : bits 1; rule r { let x = {a, a}; } schedule { }|++
11|input a : bits 1; rule r { if a = a { } } schedule { }|==
11|input a : bits 1; rule r { a = a; } schedule { }|write0
11|input a : bits 1; rule r { let x = [a, a,]; } schedule { }|comma
11|rule r { }; schedule { }|declaration
11|input a : bits 1; rule r { if a { abort } a; } schedule { }|ends with
11|input a : bits 1; rule r { if a { } else abort } schedule { }|braces
11|reg m : [bits 8; 2] = [8'd0, 8'd0]; input p : bits 2; rule a { let x = read0(m)[p]; } schedule { }|index
11|reg m : bits 8; schedule { }|first value
11|reg r : bits 8 = 8'd0; assert read0(r) != 8'd3; schedule { }|takes a rule
11|input a : bits 8; assert a != 8'd3; schedule { }|takes a rule
11|rule a { assert 1'd1; } schedule { }|rule of its own
11|reg m : [bits 8; 2] = [8'd0, 8'd0]; input p : bits 2; rule a { if read0(m)[p] == 8'd1 { abort } } schedule { }|computed index
11|input p : bits 2; input a : bits 4; rule q { if a[p] { abort } } schedule { }|computed index
11|input p : bits 2; input a : bits 4; rule q { let x = a[3:p]; } schedule { }|computed index
11|input a : bits 1; rule q { if not a { abort } } schedule { }|operators are
11|input a : bits 1; rule q { let x = not a; } schedule { }|operators are
11|input a : bits 1; rule q { if a and a { abort } } schedule { }|operators are
11|input a : bits 1; rule q { if a or a { abort } } schedule { }|operators are
11|input a : bits 1; rule q { let x = {8{a}}; } schedule { }|repeated
11|rule q { let v = 8'd0; v += 8'd1; } schedule { }|let v = v + value
11|rule q { let v = 8'd0; v = v + 8'd1; } schedule { }|let v = value
11|reg r : bits 8 = 8'd0; rule q { r += 8'd1; } schedule { }|read0(r) + 8'd1
11|input a : bits 1; rule q { let x = 8'd1 + if a { 8'd1 } else { 8'd0 }; } schedule { }|no operand
11|fun f(r : reg) : bits 8 { read0(r) } schedule { }|no parameter
11|input a : bits 8; rule q { if &a { abort } } schedule { }|own bits
11|input a : bits 8; rule q { if \0174a { abort } } schedule { }|own bits
11|input a : bits 8; rule q { let x = ~\0174a; } schedule { }|own bits
11|input a : bits 8; rule q { let x = zext(a); } schedule { }|width is missing
11|input a : bits 8; rule q { let x = sext(a + a); } schedule { }|width is missing
11|input a : bits 8; rule q { let x = zext(16, a); } schedule { }|first the value
11|input a : bits 8; rule q { let x = a.zext(16); } schedule { }|before its value
11|input a : bits 8; rule q { let x = a as bits 16; } schedule { }|zext
11|input a : bits 8; rule q { let x = a[2..0]; } schedule { }|high bit first
11|reg r : bits 8 = 8'd0; rule q { write0(r) } schedule { }|a register and a value
11|reg r : bits 8 = 8'd0; rule q { write0(8'd1, r) } schedule { }|name comes first
11|reg r : bits 8 = 8'd0; rule q { let x = read0 r; } schedule { }|parentheses
11|reg r : bits 8 = 8'd0; rule q { write0(r, 8'd1 } schedule { }|a `)` is missing
11|reg r : bits 8 = 8'd0; rule q { write0(r, (8'd1 + 8'd2); } schedule { }|a `)` is missing
11|reg r : bits 8 = 8'd0; rule q { if (read0(r) == 8'd1 { abort } } schedule { }|a `)` is missing
11|reg r : bits 8 = 8'd0; rule q { r[0] = 1'd1; } schedule { }|written whole
11|reg r : bits 8 := 8'd0; schedule { }|follows `=`
11|input a : bits 8 = 8'd0; schedule { }|no first value
11|let x = 8'd1; schedule { }|constant is a function
11|rule q { var x = 8'd1; } schedule { }|let a = b
11|reg r : [bits 8; 2] = [8'd0; 2]; schedule { }|items are listed
11|input a : bits 8; rule q { let x = a === 8'd2; } schedule { }|equal is
11|input a : bits 8; rule q { if a > 0 { abort } } schedule { }|8'd0
11|rule a { } rule b { } schedule a; b;|has braces
11|rule a { } rule b { } schedule { a \0174\0174 b; }|each rule here
11|rule a { } rule b { } schedule { try a then { b; } }|then { .. } else
11|rule a { } rule b { } schedule { try a then b; else { } }|a branch has braces
11|table t : bits 1 -> bits 2 { 2'd0; 2'd1 } schedule { }|commas between entries
11|host popcount(bits 8) : bits 4; schedule { }|a host function is
11|schedule {\n%%\nk=1|a `}` is missing
11|reg r : bits 8 = 8'd0; rule q { if read0(r == 8'd1 { abort } } schedule { }|a `)` is missing
11|reg r : bits 8 = 8'd0; rule q { write0r, 8'd1) } schedule { }|a `(` is missing after `write0`
11|reg r : bits 8 = 8'd0; rule q { (r, 8'd1) } schedule { }|a call has its name
11|input a : bits 1; rule q { a { abort } } schedule { }|an `if` is missing
11|input a : bits 1; rule q { if a { abort } { a; } } schedule { }|an `else` or a `;`
11|input a : bits 1; rule q { if a { abort }; else { a; } } schedule { }|no `;` before `else`
11|enum E : bits 1 { A = 1'd0 B = 1'd1 } schedule { }|a `,` is missing
11|struct S { a bits 4 } schedule { }|a `:` is missing
11|reg r : bits 8 = ; schedule { }|a first value is missing
11|rule { } schedule { }|a name is missing
11|rule q { let x = [1, 2]; } schedule { }|8'd1
13|reg r : bits 8 = 8'd256; schedule { }|8 bits is 255
20|reg count : bits 8 = 8'd0; rule a { count <= count; } schedule { }|<=
20|reg count : bits 8 = 8'd0;\nrule a { let x = count; } schedule { }|read0
20|rule a { f(); }\nfun f() : unit { }\nschedule { }|line 2
20|fun f(a : bits 8) : bits 8 { if a == 8'd0 { a } else { f(a - 8'd1) } } schedule { }|can't call itself
20|reg r : bits 8 = 8'd0; rule q { write4(r, 8'd1) } schedule { }|read3(r)
20|reg r : bits 8 = 8'd0; rule q { let x = r[8]; } schedule { }|read0(r)
20|fun f(r : bits 8) : bits 8 { read0(r) } schedule { }|no parameter
20|input a : bits 8; rule q { write0(a, 8'd1) } schedule { }|isn't written
20|enum E : bits 1 { A = 1'd0, B = 1'd1 } rule q { let x = A; } schedule { }|E::A
20|struct S { a : bits 4 } reg r : S = S::{ a: 4'd0 }; rule q { let x = r.a; } schedule { }|read0(r)
20|reg r : u8 = 8'd0; schedule { }|bits 8
20|rule go { } schedule { Go; }|small and large letters
21|reg r : bits 1 = 1'd0;\nrule r { } schedule { }|register of line 1
22|input c : bits 1; rule a { let v = if c { c }; } schedule { }|else
22|input c : bits 1; rule a { let v = if c { abort } else { c }; } schedule { }|arm before it
23|input a : bits 8; rule q { let x = a << 3'd1; } schedule { }|amount of a shift
23|input a : bits 8; input s : bits 3; rule q { let x = a << s; } schedule { }|`s` has 3 bits, and 8 bits are wanted
23|input a : bits 8; rule q { if 8'd1 < a < 8'd5 { abort } } schedule { }|a < b & b < c
23|input a : bits 8; rule q { if a == 8'd1 \0174 8'd2 { abort } } schedule { }|a test of its own
23|input a : bits 8; rule q { if a & 8'd1 == 8'd0 { abort } } schedule { }|bind tighter
23|input a : bits 8; rule q { let x = a[0:2]; } schedule { }|a\[2:0\]
23|input a : bits 8; rule q { let x = a[8]; } schedule { }|greatest number here is 7
23|input a : bits 8; rule q { let x = a[8:1]; } schedule { }|greatest number here is 7
23|input a : bits 8; rule q { let x = zext(a, 4); } schedule { }|the value has 8 bits
23|reg r : bits 8 = 4'd0; schedule { }|`4'd0` has 4 bits, and 8 bits are wanted
23|reg r : bits 8 = 8'd0; rule q { write0(r, read0(r) + 1'b1) } schedule { }|`1'b1` has 1 bit, and 8 bits are wanted
23|input a : bits 8; input b : bits 4; rule q { let x = a + b * b; } schedule { }|`b \* b` has 4 bits, and 8 bits are wanted
23|input a : bits 8; input b : bits 4; rule q { let x = if a == a { a } else { b }; } schedule { }|`{ b }` has 4 bits, and 8 bits are wanted
23|input b : bits 4; fun f(x : bits 8) : bits 8 { x } rule q { let x = f(b); } schedule { }|`b` has 4 bits, and 8 bits are wanted
23|input a : bits 8; rule q { if a { abort } } schedule { }|`a` has 8 bits, and 1 bit is wanted
23|input a : bits 100; rule q { let x = a ++ a; } schedule { }|at most 128 bits
23|table t : bits 13 -> bits 2 { 2'd0 } schedule { }|1 to 12
24|enum E : bits 1 { A = 1'd0, B = 1'd1 } reg r : E = E::C; schedule { }|members of `E` are A, B
24|struct S { a : bits 4, b : bits 4 } rule q { let x = S::{ b: 4'd0, a: 4'd1 }; } schedule { }|in order are a, b
28|table t : bits 2 -> bits 2 { 2'd0, 2'd1 } schedule { }|2 entries, and 2 input bits are 4
29|host popcount : bits 8 -> bits 3; schedule { }|bits 8 -> bits 4
30|input a : bits 8; schedule { }\n%%\na=ff|a=0xff
30|enum E : bits 1 { A = 1'd0, B = 1'd1 } input e : E; schedule { }\n%%\ne=B|given as its bits
30|input a : bits 8; schedule { }\n%%\na = 5|no blanks
30|input a : bits 8; schedule { }\n%%\na=8'd5|no width
30|input a : bits 8; schedule { }\n%%\na=1 // x|no comments
30|input a : bits 8; schedule { }\n%%\na=1 a=2|already
30|input a : bits 8; schedule { }\n%%\n%%\na=2|one line `%%`
30|schedule { }\n%%\njournal workers=1|second line `%%`
31|input a : bits 8; schedule { }\n%%\na=1,b=2|by blanks
31|reg r : bits 1 = 1'd0; schedule { }\n%%\nr=1|is a register
32|input a : bits 8; schedule { }\n%%\na=256|at most 255
HABITS

# Hints of other commands.
hint() {
    local wanted=$1
    shift
    tried=$((tried + 1))
    bin/explain "$program" "$@" <"$room/source" >"$room/out" 2>"$room/said" || true
    grep -q "^  hint: .*$wanted" "$room/said" || complain "$*: $(cat "$room/out" "$room/said")"
}
for form in "udiv 1 2 2" "constraint 2" "sort array 1 1" "not 1 -2"; do
    printf '1 sort bitvec 4\n2 input 1\n3 %s\n' "$form" >"$room/source"
    case $form in sort*) word=array ;; not*) word=-2 ;; *) word=${form%% *} ;; esac
    hint "\`$word\`" btorsim --cycles 1
done
cp examples/counter.koika "$room/source"
hint "at most 1489 cycles" sim --cycles 1490 --workers 1 --journal
{ cat examples/counter.koika; printf '%%%%\n%%%%\n'; } >"$room/source"
hint "at most 1489 cycles" recheck --cycles 1490
# Each line of a journal with another answer: the board's own one is found.
"$program" sim --cycles 2 --workers 1 --journal <examples/ports.koika >"$room/journal"
{ cat examples/ports.koika; echo "%%"; } >"$room/front"
lines=$(wc -l <"$room/front")
for number in $(awk '/ : /{ print NR }' "$room/journal"); do
    line=$(sed -n "${number}p" "$room/journal")
    case $line in *": late") other=stored ;; s*) other=late ;; *": finished") other="closed 2" ;; *) other=finished ;; esac
    { cat "$room/front"; sed "${number}s/ : .*/ : $other/" "$room/journal"; } >"$room/source"
    hint "the board answers \`${line#* : }\`" recheck --cycles 2
    grep -q "^fault 82 at $((lines + number)):1" "$room/out" || complain "$line with another answer: $(cat "$room/out")"
done

# The other statuses: what a program's invalid words get, and that nothing else changes. They are read from standard
# input, each with what is to be said.
try_uses() {
    local program=$1 words wanted code status
    while IFS='|' read -r words wanted; do
        tried=$((tried + 1))
        code=0 status=0
        # shellcheck disable=SC2086
        "$program" $words </dev/null >"$room/out" 2>/dev/null || code=$?
        # shellcheck disable=SC2086
        bin/explain "$program" $words </dev/null >"$room/explained" 2>"$room/said" || status=$?
        [ "$code" = 1 ] && [ "$status" = 1 ] && cmp -s "$room/out" "$room/explained" && grep -q -e "$wanted" "$room/said" &&
            grep -q 'koika: usage:' "$room/said" || complain "$words: $(cat "$room/said")"
    done
}
try_uses "$program" <<'USES'
|which command
sim|--cycles N
sim examples/counter.koika|file name
check examples/counter.koika|file name
sim --cycles|needs a value
sim --cycles x|decimal digits
sim --cycles 4294967296|too many
sim --cycles 1 --cycles 2|twice
sim --cycles 1 --engine quick|no engine
sim --cycles 1 --workers 0|1 to 64
sim --cycles 1 --workers=65|1 to 64
sim --cycles 1 --workers 2 --engine circuit|plain engine
sim --cycles 1 --journal|1 to 8
sim --cycles 1 --workers 9 --journal|1 to 8
sim --cycles 1 --journal --workers 2 --summary|without `--summary`
sim --cycles 1 --journal --workers 2 --engine plain|without `--engine`
sim --journal --workers 2 --journal|twice
sim --journal --workers 2|--cycles N
sim --cycles 1 --verbose|no option
btorsim --cycles 1 --engine plain|no option
aiger --cycles 1|no option
aigsim|--cycles N
aigsim --cycles x|decimal digits
aigsim --cycles 1 --summary --summary|twice
aigsim --cycles 1 --workers 2|no option
aigsim design.aag|file name
btorsim --cycles 1 --journal|no option
recheck|--cycles N
recheck --cycles x|decimal digits
recheck --cycles 1 --cycles=1|twice
recheck --cycles 1 --workers 2|no option
recheck --cycles 1 journal.txt|no word
gen|missing
gen 0|1 to 100
gen 101|1 to 100
gen x|decimal digits
simulate|no command
--help|command comes first
USES
try_uses "$lab" <<'USES'
why|--cycle C
why --cycle 0|counted from 1
why --cycle 1 --cycles 0|counted from 1
why --cycle x|decimal digits
why --cycle 4294967296|too many
why --cycle 1 --cycle 1|twice
why --cycle 1 --rule|needs a value
why --cycle 1 --rule 2b|no name of a rule
why --cycle 1 --strict|no option
why --cycle 1 design.koika|file name
profile|--cycles N
profile --cycles 1 --strict --strict|twice
profile --cycles 1 --rule a|no option
waves|--cycles N
waves --cycles 1 --cycles=1|twice
waves --cycles 1 --strict|no option
step --cycles 1|no option
step design.koika|file name
USES
for ends in 3 4; do
    tried=$((tried + 1))
    status=0
    if [ "$ends" = 3 ]; then
        bin/explain "$program" check <. >/dev/null 2>"$room/said" || status=$?
    else
        bin/explain "$program" check <examples/counter.koika >/dev/full 2>"$room/said" || status=$?
    fi
    [ "$status" = "$ends" ] && grep -q '^koika: standard' "$room/said" || complain "status $ends: $status, $(cat "$room/said")"
done

# A copy of the launcher that takes these programs for the built ones.
tree=$room/tree
mkdir -p "$tree/crates/koika_cli/out" "$tree/crates/lab_cli/out"
cp -r koika bin docs examples crates.txt CHANGELOG.md "$tree"
cp "$program" "$tree/crates/koika_cli/out/koika_cli"
cp "$lab" "$tree/crates/lab_cli/out/lab_cli"
(
    top=$tree
    # shellcheck source=bin/files.sh
    . bin/files.sh
    for name in koika_cli lab_cli; do
        set_program "$name"
        look >"$seen" || true # the copy has no sources
    done
)
# The examples of the commands.
while read -r example; do
    tried=$((tried + 1))
    (cd "$tree" && bash -o pipefail -c "$example") </dev/null >"$room/out" 2>"$room/said" ||
        complain "$example: $(cat "$room/said")"
    case $example in *">"*) ;; *) [ -s "$room/out" ] || complain "$example writes nothing" ;; esac
done < <(grep -h -E '^(\./koika|printf .*\| \./koika)' bin/commands.txt bin/commands_lab.txt)
# Designs and stimuli in files of their own give the same, and a journal with them.
for design in examples/*.koika; do
    grep -q '^%%$' "$design" || continue
    tried=$((tried + 2))
    sed '/^%%$/,$d' "$design" >"$room/design"
    sed '1,/^%%$/d' "$design" >"$room/stimulus"
    "$program" sim --cycles 6 <"$design" >"$room/wanted"
    "$tree/koika" sim --cycles 6 "$room/design" "$room/stimulus" >"$room/out" 2>"$room/said" || complain "$design: $(cat "$room/said")"
    cmp -s "$room/wanted" "$room/out" || complain "$design and its stimulus: $(head -c 300 "$room/out")"
    "$program" sim --cycles 6 --workers 1 --journal <"$design" >"$room/journal"
    "$tree/koika" recheck --cycles 6 "$room/design" "$room/stimulus" "$room/journal" >"$room/out" 2>"$room/said" ||
        complain "$design and its journal: $(cat "$room/said")"
    cmp -s "$room/wanted" "$room/out" || complain "$design and its journal: $(head -c 300 "$room/out")"
done

echo "$tried tried, $wrong wrong"
[ "$wrong" = 0 ]
