#!/usr/bin/env bash
# Measures certificates: how long each step of bin/prove takes, and how large its result is, on the examples with
# assertions and on products whose refutations have up to 100 MB and more; and what `certify` takes for a literal or a
# hint, and of memory:
#
#     bench/certify.sh [PROGRAM LAB_PROGRAM]
#
# It needs ABC and cadical. A cadical that writes no LRAT needs a compiler for C++ too: then bench/hints.cpp finds the
# hints, since bin/hints is slow, and without a compiler large refutations are left out. SECONDS_OF_STEP is how long ABC
# and cadical may take for a design, 600 if it isn't set. Other programs than the built ones may be named. It is run by
# hand. The status is 1 where a design isn't certified, a literal or a hint takes more than 300 instructions, or
# `certify` takes longer than the solver on a refutation of 10 MB or more.
set -eu
cd "$(dirname "$0")/.."
. bench/cost.sh

. bench/programs.sh
take_program "${1-}"
take_lab "${2-}"
limit=${SECONDS_OF_STEP-600}
wrong=0

complain() {
    wrong=$((wrong + 1))
    echo "**wrong:** $*"
}

{ command -v berkeley-abc || command -v yosys-abc; } >/dev/null && command -v cadical >/dev/null || {
    echo "skipped: ABC or cadical is missing"
    exit 0
}
by="$(cadical --version | head -n 1) of cadical"
writes_lrat=no
cadical --help | grep -q -e '--lrat' && writes_lrat=yes

# In the place of a cadical that writes no LRAT, one that does: it has bench/hints.cpp find the hints, and notes how
# many seconds the solver took itself.
if [ $writes_lrat = no ] && command -v c++ >/dev/null; then
    mkdir "$room/tools"
    c++ -O2 -o "$room/tools/hints" bench/hints.cpp
    cat >"$room/tools/cadical" <<END
#!/usr/bin/env bash
[ "\$*" != --help ] || { echo "  --lrat"; exit; }
words=()
for word; do [ "\$word" = --lrat ] || words+=("\$word"); done
proof=\${words[-1]}
unset "words[-1]"
begun=\$(date +%s%N)
'$(command -v cadical)' "\${words[@]}" "\$proof.learned"
status=\$?
awk -v all="\$((\$(date +%s%N) - begun))" 'BEGIN { printf "%.2f\n", all / 1e9 }' >"$room/solver"
[ "\$status" = 20 ] || exit "\$status"
"$room/tools/hints" "\${words[-1]}" "\$proof.learned" >"\$proof" && rm "\$proof.learned" && exit 20
END
    chmod +x "$room/tools/cadical"
    PATH="$room/tools:$PATH"
    writes_lrat=yes
    by="$by, which writes no LRAT; the hints are by \`bench/hints.cpp\`"
elif [ $writes_lrat = no ]; then
    by="$by, which writes no LRAT"
fi

cat >"$room/koika" <<END
#!/bin/sh
case \${1-} in
    why | profile | lint | waves | step | verilog | obligation | certify) exec "$lab" "\$@" ;;
    *) exec "$program" "\$@" ;;
esac
END
chmod +x "$room/koika"
export KOIKA="$room/koika"

# A design whose assertion holds since products are sums, without registers: product WIDTH. A solver takes long for it.
product() {
    cat <<END
input a : bits $1;
input b : bits $1;
rule differ { if a * (b + $1'd1) == a * b + a { abort } }
assert differ;
schedule { differ; }
END
}

# The seconds of a step, or its size: of the lines that bin/prove --steps writes.
seconds() {
    sed -n "s/^prove: $1: \([0-9.]*\) s,.*/\1/p" "$room/steps"
}
# The same of the solver without the hints that are found for it, and of these.
solver_seconds() {
    if [ -e "$room/solver" ]; then cat "$room/solver"; else seconds cadical; fi
}
hints_seconds() {
    if [ -e "$room/solver" ]; then
        awk -v all="$(seconds cadical)" -v solver="$(cat "$room/solver")" 'BEGIN { printf "%.2f\n", all - solver }'
    else
        seconds hints
    fi
}
size() {
    sed -n "s/^prove: $1: [0-9.]* s, \(.*\)/\1/p" "$room/steps" | sed 's/ bytes read$/ bytes/'
}

# Certifies a design: its name, and further words for bin/prove.
row() {
    local name=$1 status=0
    shift
    bin/prove --steps --seconds "$limit" "$@" "$room/made.koika" >"$room/said" 2>"$room/steps" || status=$?
    if [ "$status" != 0 ]; then
        complain "$name isn't certified: $(tail -n 1 "$room/steps")"
        return 0
    fi
    echo "| $name | $(size aiger) | $(seconds pdr) | $(size pdr) | $(size obligation) | $(solver_seconds) |" \
        "$(hints_seconds) | $(stat -c %s "$room/made.refutation") | $(seconds certify) |"
    if [ "$(stat -c %s "$room/made.refutation")" -ge 10000000 ] &&
        awk -v solver="$(solver_seconds)" -v check="$(seconds certify)" 'BEGIN { exit !(check > solver) }'; then
        complain "$name: \`certify\` takes longer than the solver"
    fi
}

echo "By $by:"
echo
echo "| design | circuit | \`pdr\`, s | invariant | obligation | solver, s | hints, s | refutation, bytes |" \
    "\`certify\`, s |"
echo "|---|---|---|---|---|---|---|---|---|"
for design in examples/traffic.koika examples/certified/*.koika examples/axi_lite.koika; do
    cp "$design" "$room/made.koika"
    row "\`$(echo "$design" | sed 's|^examples/||; s|\.koika$||')\`"
done
widths="4 5 6"
[ $writes_lrat = no ] || widths="6 8 9 10"
: >"$room/none"
for width in $widths; do
    product "$width" >"$room/made.koika"
    row "a product of $width bits" --invariant "$room/none"
done

# A literal or a hint: what `certify` takes for the refutation, beside one of the same design without it; and its
# memory.
widths=6
[ $writes_lrat = no ] || widths="8 9"
echo
echo "| what | how many | $of_run | $of_part for each | source, bytes | memory, KB |"
echo "|---|---|---|---|---|---|"
for width in $widths; do
    product "$width" >"$room/made.koika"
    bin/prove --invariant "$room/none" "$room/made.koika" >/dev/null
    { cat "$room/made.koika"; printf '%%%%\n%%%%\n%%%%\n'; } >"$room/short"
    cat "$room/short" "$room/made.refutation" >"$room/long"
    few=$(cost "$room/short" "$room/out" "$lab" certify)
    many=$(cost "$room/long" "$room/out" "$lab" certify)
    tokens=$(awk '
        $2 != "d" { for (k = 2; k <= NF; k++) if ($k != "0") tokens++ }
        END { print tokens }' "$room/made.refutation")
    command time -o "$room/memory" -f %M "$lab" certify <"$room/long" >"$room/out"
    echo "| literals and hints of a product of $width bits | $tokens | $(columns "$many" "$few" "$tokens") |" \
        "$(wc -c <"$room/long") | $(cat "$room/memory") |"
    awk -v few="$few" -v many="$many" 'BEGIN { exit !(many > few) }' || complain "nothing was counted of \`certify\`"
    if [ "$counted" != seconds ] && [ $((many - few)) -gt $((300 * tokens)) ]; then
        complain "a literal or a hint of a product of $width bits takes more than 300 instructions"
    fi
done
[ "$wrong" = 0 ]
