#!/usr/bin/env bash
# Tries `step` over pipes, the client in clients/python, and the test benches of examples/testbench: as scripts, by
# pytest, and on designs with one changed digit, in which they have to find the mistake. It is run by hand:
#
#     bench/clients.sh [PROGRAM LAB_PROGRAM]
#
# Without programs it takes KOIKA and KOIKA_LAB, or else ./koika. The status is 1 if anything is wrong. It needs
# python3. What needs mypy or pytest is left out where that isn't installed, and it says so.
set -eu
cd "$(dirname "$0")/.."

export KOIKA=${1:-${KOIKA:-$PWD/koika}}
export KOIKA_LAB=${2:-${KOIKA_LAB:-$KOIKA}}
export PYTHONDONTWRITEBYTECODE=1
status=0
"$KOIKA_LAB" step <examples/counter.koika >/dev/null 2>&1 || status=$?
[ "$status" != 1 ] || {
    echo "clients.sh: nothing is tried, since $KOIKA_LAB has no command \`step\`"
    exit 0
}
room=$(mktemp -d)
trap 'rm -rf "$room"' EXIT
wrong=0

# Runs a command, and shows what it says where it fails.
must() {
    local what=$1
    shift
    if "$@" >"$room/said" 2>&1; then
        echo "$what: $(tail -n 1 "$room/said")"
    else
        wrong=$((wrong + 1))
        echo "wrong: $what"
        tail -n 20 "$room/said"
    fi
}

# Tries a test bench on a design with one changed digit: it has to fail, and say so in these words.
must_find() {
    local bench=$1 change=$2 words=$3 status=0
    local design=examples/${bench#test_}.koika
    sed "$change" "$design" >"$room/changed.koika"
    [ "$(cmp -l "$design" "$room/changed.koika" | wc -l)" = 1 ] || {
        wrong=$((wrong + 1))
        echo "wrong: $change doesn't change one digit of $design"
        return
    }
    "$KOIKA" check <"$room/changed.koika" >/dev/null || status=$?
    [ "$status" = 0 ] || {
        wrong=$((wrong + 1))
        echo "wrong: $design with $change isn't a design"
        return
    }
    python3 -W error "examples/testbench/$bench.py" "$room/changed.koika" >"$room/said" 2>&1 || status=$?
    if [ "$status" = 1 ] && grep -q "$words" "$room/said"; then
        echo "$bench with $change: found, $(head -n 1 "$room/said")"
    else
        wrong=$((wrong + 1))
        echo "wrong: $bench doesn't find $change, with status $status"
        tail -n 5 "$room/said"
    fi
}

must "step over pipes" python3 -W error bench/clients.py "$KOIKA" "$KOIKA_LAB"
must "the client's tests" python3 -W error clients/python/test_koika.py
for bench in test_axi_lite test_uart; do
    for seed in 1 2 3; do
        must "$bench" python3 -W error "examples/testbench/$bench.py" --seed "$seed"
    done
done

# A wrong strobe, register, bound; an answer that doesn't come; and one that the assertion misses the data of.
must_find test_axi_lite 's/if strobe\[1\]/if strobe[2]/' 'the read at 0x.* gives'
must_find test_axi_lite 's/read0(reg3) }/read0(reg2) }/' 'the read at 0x.* gives'
must_find test_axi_lite "s/8'd16/8'd96/" 'is answered with the response 0'
must_find test_axi_lite "s/write1(bvalid, 1'd1)/write1(bvalid, 1'd0)/" 'answers are missing'
must_find test_axi_lite "s/write1(w_taken, 1'd1)/write1(w_taken, 1'd0)/" 'violated unowed at'
# A bit too few, no start bit, a bit that is left out.
must_find test_uart "s/== 3'd7/== 3'd6/" 'the wire has to be'
must_find test_uart "s/write0(line, 1'd0)/write0(line, 1'd1)/" 'the wire has to be 0'
must_find test_uart "0,/s >> 8'd1/s//s >> 8'd2/" 'the wire has to be'

if command -v mypy >/dev/null; then
    must "mypy" mypy --strict --cache-dir "$room/mypy" clients/python/koika.py
else
    echo "mypy isn't installed: the client's types aren't checked"
fi
pytest=''
for name in pytest pytest-3; do
    if [ -z "$pytest" ] && command -v "$name" >/dev/null; then pytest=$name; fi
done
if [ -n "$pytest" ]; then
    must "pytest" "$pytest" -q -p no:cacheprovider examples/testbench clients/python
else
    echo "pytest isn't installed: the test benches are tried as scripts alone"
fi

[ "$wrong" = 0 ] || {
    echo "$wrong wrong"
    exit 1
}
echo "all is right"
