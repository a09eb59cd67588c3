#!/usr/bin/env bash
# Tries bin/prove and the certificates of examples/certified/:
#
#     bench/prove.sh [--anew] [PROGRAM LAB_PROGRAM]
#
# The stored certificates are taken, and others that are wrong in one place are refused. bin/prove proves the designs,
# finds the counterexample of each broken one, takes an invariant by hand, and says what is missing, wrong or refused.
# With --anew the stored refutations are made again of the stored invariants first: they hold numbers of variables and
# clauses, so another text by `obligation` asks for others. It needs ABC and cadical, and says where one is missing;
# without them only the stored certificates are tried. Other programs than the built ones may be named. It is run by
# hand.
set -eu
cd "$(dirname "$0")/.."

anew=no
if [ "${1-}" = --anew ]; then
    anew=yes
    shift
fi
. bench/programs.sh
take_program "${1-}"
take_lab "${2-}"
room=$(mktemp -d)
trap 'rm -rf "$room"' EXIT
tried=0 wrong=0

complain() {
    wrong=$((wrong + 1))
    echo "wrong: $*"
}

# One program for the commands of both.
cat >"$room/koika" <<END
#!/bin/sh
case \${1-} in
    why | profile | lint | waves | step | verilog | obligation | certify) exec "$lab" "\$@" ;;
    *) exec "$program" "\$@" ;;
esac
END
chmod +x "$room/koika"
export KOIKA="$room/koika" KOIKA_EXPLAIN=0

# The designs, and the assertion of each.
designs="examples/traffic.koika $(echo examples/certified/*.koika)"
stored() {
    echo "examples/certified/$(basename "$1" .koika)"
}

has_tools() {
    { command -v berkeley-abc || command -v yosys-abc; } >/dev/null && command -v cadical >/dev/null
}

# What `certify` writes of a design with an invariant and a refutation.
certified() {
    { cat "$1"; echo '%%'; cat "$2"; echo '%%'; cat "$3"; } | "$KOIKA" certify
}

# What it has to write: the invariant's clauses, and the assertions.
wanted() {
    echo "clauses $(grep -c . "$2")"
    "$KOIKA" print <"$1" | sed -n 's/^assert \(.*\) ;$/never \1/p'
}

is() {
    tried=$((tried + 1))
    [ "$2" = "$3" ] || complain "$1: $2, and not: $3"
}

if [ "$anew" = yes ]; then
    for design in $designs; do
        name=$(stored "$design")
        cp "$design" "$room/anew.koika"
        bin/prove --invariant "$name.invariant" "$room/anew.koika" >/dev/null ||
            complain "no refutation of $name.invariant"
        cp "$room/anew.refutation" "$name.refutation"
    done
fi

for design in $designs; do
    name=$(stored "$design")
    is "$name" "$(certified "$design" "$name.invariant" "$name.refutation")" "$(wanted "$design" "$name.invariant")"

    # Without the clause without literals nothing is refuted; without its last hint a clause doesn't follow.
    sed '/^[0-9]* 0 /d' "$name.refutation" >"$room/refutation"
    is "$name without its end" "$(certified "$design" "$name.invariant" "$room/refutation" | cut -d ' ' -f 2)" 95
    sed '/ d /d; s/ [0-9]* 0$/ 0/' "$name.refutation" >"$room/refutation"
    is "$name without last hints" "$(certified "$design" "$name.invariant" "$room/refutation" | cut -d ' ' -f 2)" 94

    # Another invariant has another obligation.
    sed '1d' "$name.invariant" >"$room/invariant"
    certified "$design" "$room/invariant" "$name.refutation" >"$room/said" &&
        complain "$name without its first clause is taken"
    tried=$((tried + 1))
done

if ! has_tools; then
    echo "skipped: ABC or cadical is missing"
    echo "tried: $tried, wrong: $wrong"
    [ "$wrong" = 0 ]
    exit
fi

# Runs bin/prove: its status, and what it writes on both channels.
prove() {
    status=0
    bin/prove "$@" >"$room/out" 2>"$room/err" || status=$?
}
# The same, and compares the status, the last line written (`*` is for any), and a part of what is said of it.
expect() {
    local what=$1 code=$2 last=$3 said=$4
    shift 4
    prove "$@"
    is "$what, status" "$status" "$code"
    [ "$last" = "*" ] || is "$what" "$(tail -n 1 "$room/out")" "$last"
    case $(cat "$room/err") in *"$said"*) ;; *) complain "$what: it says $(cat "$room/err"), and not: $said" ;; esac
}

# All assertions are proved, and what is kept is a certificate.
for design in $designs; do
    cp "$design" "$room/copy.koika"
    rm -f "$room"/copy.invariant "$room"/copy.refutation
    prove "$room/copy.koika"
    is "$design, status" "$status" 0
    is "$design" "$(cat "$room/out")" "$(wanted "$design" "$room/copy.invariant")"
    is "$design again" "$(certified "$design" "$room/copy.invariant" "$room/copy.refutation")" "$(cat "$room/out")"
done

# Broken designs: each has the mistake that its first lines name. The run that is found violates the assertion.
broken() {
    local design=$1 rule=$2 edit=$3 cycle
    sed "$edit" "$design" >"$room/broken.koika"
    rm -f "$room/broken.counterexample"
    cmp -s "$design" "$room/broken.koika" && complain "$design isn't broken by $edit"
    prove "$room/broken.koika"
    is "broken $design, status" "$status" 2
    cycle=$(sed -n "s/^violated $rule at //p" "$room/out")
    is "broken $design" "$("$KOIKA" sim --cycles "${cycle:-0}" --summary <"$room/broken.counterexample" | tail -n 1)" \
        "violated $rule at $cycle"
    is "stimulus of broken $design" "$(sed -n '/^%%/,$p' "$room/broken.counterexample")" "$(sed '$d' "$room/out")"
}
broken examples/traffic.koika both_go 's/^reg side : Light = .*/reg side : Light = Light::Green;/'
broken examples/traffic.koika both_go '/^rule go_main/,/^}/s/write0(side, Light::Red);//'
broken examples/certified/fifo.koika overflow "s/credits : bits 3 = 3'd4/credits : bits 3 = 3'd5/"
broken examples/certified/arbiter.koika twice "/^rule release/,/^}/{s/if pack(done).*/{/;s/} else {/};/;/abort/,/}/d}"
broken examples/certified/uart.koika wrong 's/{ s\[0\] }/{ s[1] }/'

# A rule that is named.
cp examples/traffic.koika "$room/lights.koika"
expect "a rule that can fire" 2 "go_main fires at 8" "" --rule go_main "$room/lights.koika"
expect "a rule that can't" 0 "never both_go" "" "$room/lights.koika" --rule=both_go
[ -s "$room/lights.both_go.refutation" ] || complain "no certificate of a rule that is named"
expect "no such rule" 1 "" "has no rule go_away" --rule go_away "$room/lights.koika"
expect "nothing is asserted" 1 "" "nothing is asserted" examples/uart.koika

# Small designs: without inputs, without registers, with an assertion that is constant.
small() {
    printf '%s\n' "$2" >"$room/small.koika"
    expect "$1" "$3" "$4" "$5" "$room/small.koika"
}
small "no inputs" "reg x : bits 2 = 2'd1; rule go { write0(x, read0(x) + 2'd2) } \
rule even { if read0(x)[0] { abort } } assert even; schedule { even; go; }" 0 "never even" ""
small "no registers" "input k : bits 1; rule never { if k | ~k { abort } } \
assert never; schedule { never; }" 0 "never never" ""
small "an input that is too wide" "input k : bits 130; \
rule never { } assert never; schedule { never; }" 1 "fault 23 at 1:11" "aiger"
small "one input violates it" "input k : bits 65; rule yes { if k != 65'd7 { abort } } \
assert yes; schedule { yes; }" 2 "violated yes at 1" ""
small "always" "rule always { } assert always; schedule { always; }" 2 "violated always at 1" ""
small "unscheduled" "rule always { } assert always; schedule { }" 0 "never always" ""
small "two assertions" "reg x : bits 1 = 1'd0; rule one { if ~read0(x) { abort } } \
rule two { if ~read0(x) { abort } } assert two; assert one; schedule { one; two; }" 0 "never one" ""
small "the second of two" "reg x : bits 1 = 1'd0; rule one { if ~read0(x) { abort } } \
rule two { if read0(x) { abort } } assert one; assert two; schedule { one; two; }" 2 "violated two at 1" ""
small "no design" "rule" 1 "fault 11 at 2:1" "aiger"

# A product that is a sum, which no tool sees in a second.
printf '%s\n' "input a : bits 14; input b : bits 14; rule differ { if a * (b + 14'd1) == a * b + a { abort } }" \
    "assert differ; schedule { differ; }" >"$room/product.koika"
expect "ABC has a second" 3 "" "ABC found neither" --seconds 1 "$room/product.koika"
: >"$room/empty.invariant"
expect "cadical has a second" 3 "" "refuted nothing" --seconds=1 --invariant "$room/empty.invariant" \
    "$room/product.koika"

# An invariant by hand: one that isn't kept, one that lets the rule fire, and those that are refused.
by_hand() {
    printf '%s\n' "$2" >"$room/hand.invariant"
    expect "$1" "$3" "$4" "$5" --invariant "$room/hand.invariant" "$room/lights.koika"
}
by_hand "an invariant by hand" "$(cat examples/certified/traffic.invariant)" 0 "never both_go" ""
by_hand "one that isn't kept" "~main[1] ~side[1]" 3 "*" "isn't kept"
grep -q '^main=0x[0-3]$' "$room/out" || complain "no registers that show that an invariant isn't kept"
by_hand "one that is false at first" "side[0]" 1 "fault 92 at $(($(wc -l <examples/traffic.koika) + 2)):1" "obligation"
by_hand "one of no form" "main[0] side" 1 "fault 91 at $(($(wc -l <examples/traffic.koika) + 2)):9" "obligation"
expect "no such invariant" 1 "" "can't be read" --invariant "$room/none" "$room/lights.koika"

# Without KOIKA the launcher gets the files: the design, an empty stimulus where it has none, then the parts.
mkdir -p "$room/tree/bin"
cp bin/prove bin/hints "$room/tree/bin"
cat >"$room/tree/koika" <<'END'
#!/usr/bin/env bash
command=$1
shift
words=() files=()
while [ $# -gt 0 ]; do
    case $1 in
        --rule | --cycles)
            words+=("$1" "$2")
            shift ;;
        -*) words+=("$1") ;;
        *) files+=("$1") ;;
    esac
    shift
done
[ "${#files[@]}" -gt 0 ] || exec "$PROGRAM" "$command" "${words[@]}"
{
    cat "${files[0]}"
    for file in "${files[@]:1}"; do echo '%%' && cat "$file"; done
} | "$PROGRAM" "$command" "${words[@]}"
END
chmod +x "$room/tree/koika"
sed '/^%%/,$d' "$room/lights.koika" >"$room/bare.koika"
for design in lights bare; do
    is "$design by the launcher" \
        "$(env -u KOIKA PROGRAM="$KOIKA" "$room/tree/bin/prove" "$room/$design.koika" | tail -n 1)" "never both_go"
    is "$design by the launcher, a rule" \
        "$(env -u KOIKA PROGRAM="$KOIKA" "$room/tree/bin/prove" --rule go_main "$room/$design.koika" | tail -n 1)" \
        "go_main fires at 8"
done

# Words and files.
expect "no words" 1 "" "usage: prove"
expect "two files" 1 "" "usage: prove" "$room/lights.koika" "$room/lights.koika"
expect "no name" 1 "" "usage: prove" --rule 9 "$room/lights.koika"
expect "no seconds" 1 "" "usage: prove" --seconds 0 "$room/lights.koika"
expect "no such file" 1 "" "can't be read" "$room/none.koika"
expect "help" 0 "result was refused; or INVARIANT isn't kept. A line on standard error says which." "" --help

# Tools that aren't there, and tools that lie: a solver that refutes nothing, one whose refutation is wrong, one that
# ends with another status, and one that writes hints itself.
mkdir "$room/tools"
python=$(python3 -c 'import sys; print(sys.executable)')
for tool in sh env cat sed; do ln -s "$(command -v "$tool")" "$room/tools"; done
ln -s "$python" "$room/tools/python3"
real=$(command -v cadical)
with_tools() {
    local what=$1 code=$2 said=$3 status=0
    PATH="$room/tools" "$python" bin/prove "$room/lights.koika" >"$room/out" 2>"$room/err" || status=$?
    is "$what, status" "$status" "$code"
    case $(cat "$room/err") in *"$said"*) ;; *) complain "$what: it says $(cat "$room/err"), and not: $said" ;; esac
}
with_tools "no tools" 3 "ABC is missing"
grep -q 'cadical is missing' "$room/err" || complain "not all tools that are missing are named"
ln -s "$(command -v berkeley-abc || command -v yosys-abc)" "$room/tools/yosys-abc"
with_tools "no solver" 3 "cadical is missing"
liar() {
    {
        echo '#!/bin/sh'
        echo "[ \"\$1\" != --help ] || { echo \"$1\"; exit 0; }"
        echo 'for word; do formula=$last last=$word; done'
        echo "$2"
    } >"$room/tools/cadical"
    chmod +x "$room/tools/cadical"
}
liar --lrat 'echo "999999 0 1 0" >"$last"; exit 20'
with_tools "a refutation that is wrong" 3 "\`certify\` ended with status 2"
liar "" 'echo "0" >"$last"; exit 20'
with_tools "clauses that don't follow" 3 "bin/hints found no hints"
liar "" 'exit 1'
with_tools "a solver that fails" 3 "cadical ended with status 1"
liar --lrat "'$real' -q --no-binary --plain \"\$formula\" \"\$last.all\"
'$python' bin/hints \"\$formula\" \"\$last.all\" >\"\$last\"
exit 20"
with_tools "a solver that writes hints" 0 ""
is "a solver that writes hints" "$(tail -n 1 "$room/out")" "never both_go"
printf '#!/bin/sh\necho "Property proved."\nprintf ".i 1\\n.ilb l0\\n1 1\\n" >cubes\n' >"$room/tools/berkeley-abc"
chmod +x "$room/tools/berkeley-abc"
with_tools "an invariant that is wrong" 3 ""
printf '#!/bin/sh\necho "was asserted in frame 0"\necho "# COUNTEREXAMPLE LENGTH: 1" >inputs\n' \
    >"$room/tools/berkeley-abc"
with_tools "a counterexample that is wrong" 3 "violates nothing"

echo "tried: $tried, wrong: $wrong"
[ "$wrong" = 0 ]
