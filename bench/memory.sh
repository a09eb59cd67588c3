#!/usr/bin/env bash
# Refuses each allocation of the program in turn, on small sources, until a run ends without a refusal; then gives the
# whole process less room (`ulimit -v`), from what the loader needs up to a right answer. Each run must end with status
# 5 and the first bytes of the right answer, or with the right status and all of it. The script takes another program
# than the built one as its argument, and is run by hand. It compiles the allocator that refuses with `cc`.
set -eu
cd "$(dirname "$0")/.."
export LC_ALL=C

. bench/programs.sh
take_program "${1-}"
command -v cc >/dev/null || { echo "there is no C compiler" >&2; exit 1; }
room=$(mktemp -d)
trap 'rm -rf "$room"' EXIT

# Refuses the allocation of number REFUSE, and makes the file REFUSED then.
cat >"$room/refuse.c" <<'END'
#include <errno.h>
#include <fcntl.h>
#include <stdatomic.h>
#include <stdlib.h>
#include <unistd.h>
extern void *__libc_malloc(size_t), *__libc_realloc(void *, size_t);
static atomic_ulong calls, last;
static int refused(void) {
    if (!last) last = strtoul(getenv("REFUSE"), 0, 10);
    if (atomic_fetch_add(&calls, 1) + 1 != last) return 0;
    close(open(getenv("REFUSED"), O_CREAT | O_WRONLY, 0600));
    errno = ENOMEM;
    return 1;
}
void *malloc(size_t size) { return refused() ? 0 : __libc_malloc(size); }
void *realloc(void *old, size_t size) { return refused() ? 0 : __libc_realloc(old, size); }
END
cc -O1 -shared -fPIC -o "$room/refuse.so" "$room/refuse.c"

# What a command writes on the source, and its status.
answer() { "$@" <"$room/source" 2>"$room/complaint" && echo " 0" || echo " $?"; }
# The same, where an allocation is refused, and where the process has that many kilobytes.
refusing() {
    rm -f "$room/refused"
    LD_PRELOAD="$room/refuse.so" REFUSE=$1 REFUSED="$room/refused" answer "${@:2}"
}
within() { (ulimit -v "$1" && exec "${@:2}") <"$room/source" 2>"$room/complaint" && echo " 0" || echo " $?"; }

# Counts an answer.
judge() {
    local written=${1% *}
    if [ "$1" = "$whole" ]; then
        right=$((right + 1))
    elif [ "${1##* }" = 5 ] && [ "${whole:0:${#written}}" = "$written" ]; then
        [ -z "$written" ] && none=$((none + 1)) || some=$((some + 1))
    else
        wrong=$((wrong + 1))
        echo "$name, $2: $1" >&2
    fi
}

# The least room that suffices for the loader: the program, without arguments, ends by itself.
: >"$room/source"
begins=1000
until [[ "$(within "$begins" "$program")" = *\ [15] ]]; do begins=$((begins + 4)); done

wrong=0
row() {
    local name=$1 number=1 kilobytes=$begins right=0 none=0 some=0 whole one counts
    shift
    whole=$(answer "$program" "$@")
    one=$(refusing 1 "$program" "$@")
    while [ -e "$room/refused" ]; do
        judge "$one" "allocation $number"
        number=$((number + 1))
        one=$(refusing "$number" "$program" "$@")
    done
    judge "$one" "no allocation"
    counts="$((number - 1)) | $none | $some | $((right - 1))"
    right=0 none=0 some=0
    while [ "$right" -lt 5 ]; do
        judge "$(within "$kilobytes" "$program" "$@")" "$kilobytes kilobytes"
        kilobytes=$((kilobytes + 4))
    done
    echo "| $name | $counts | $((none + some)) | $((kilobytes - 20)) |"
}

echo "| | allocations refused | status 5, nothing written | status 5, some bytes | the right answer | status 5 within less room | kilobytes that suffice |"
echo "|---|---|---|---|---|---|---|"

counter="reg count : bits 8 = 8'd0; rule incr { write0(count, read0(count) + 8'd1) } schedule { incr; }"
forward="reg x : bits 8 = 8'd0; rule a { write0(x, 8'd1) } rule b { write1(x, read1(x) + 8'd1) } schedule { a; b; }"
toggle="reg t : bits 1 = 1'd0; reg n : bits 8 = 8'd0; rule a { if read0(t) == 1'd1 { abort } else { write0(t, 1'd1) } }
rule b { write0(n, read0(n) + 8'd1) } rule c { write1(t, 1'd0) } schedule { try a then { b; } else { c; } }"
table="table t : bits 2 -> bits 4 { 4'd9, 4'd3, 4'd0, 4'd15 } reg i : bits 2 = 2'd0; reg o : bits 4 = 4'd0;
rule a { write0(o, t(read0(i))); write0(i, read0(i) + 2'd1) } schedule { a; }"
host="host popcount : bits 8 -> bits 4; input k : bits 8; reg x : bits 4 = 4'd0; rule a { write0(x, popcount(k)) } schedule { a; }
%%
k=0xff"
collatz="reg r : bits 16 = 16'd18; fun times3(v : bits 16) : bits 16 { (v << 16'd1) + v }
rule divide { let v = read0(r); if v[0] == 1'd0 { write0(r, v >> 16'd1) } }
rule multiply { let v = read1(r); if v[0] == 1'd1 { write1(r, times3(v) + 16'd1) } } schedule { divide; multiply; }"

journal="%%
%%
journal workers=1
batch 0 1
s 0 1 incr done r0:count=00 w0:count=01 : stored
t 0 : committed 1 incr
t 0 : closed 1"
bits="aag 1 0 1 2 0
2 3
2
3"

echo "$counter" >"$room/source"
row "\`sim\` of the counter" sim --cycles 2
row "the counter, 300 cycles" sim --cycles 300
for many in 1 2 3 8 64; do row "the counter, \`--workers $many\`" sim --cycles 2 --workers "$many"; done
echo "$forward" >"$room/source"
for many in 1 2 8 64; do row "two rules, \`--workers $many\`" sim --cycles 1 --workers "$many"; done
"$program" gen 10 >"$room/source"
for many in 1 2 8; do row "\`gen\` 10, \`--workers $many\`" sim --cycles 20 --workers "$many"; done
printf '%s\n%s\n' "$counter" "$journal" >"$room/source"
row "\`recheck\` of a journal" recheck --cycles 1
echo "$bits" >"$room/source"
row "\`aigsim\` of two outputs" aigsim --cycles 2
echo "$host" >"$room/source"
row "a host function" sim --cycles 2
row "the same, \`--workers 2\`" sim --cycles 2 --workers 2
row "the same as a circuit" sim --cycles 2 --engine circuit
while read -r name cycles; do
    echo "${!name}" >"$room/source"
    row "\`compile\` of $name" compile
    "$program" compile <"$room/source" >"$room/circuit"
    mv "$room/circuit" "$room/source"
    row "\`btorsim\` of it" btorsim --cycles "$cycles"
    echo "${!name}" >"$room/source"
    row "\`aiger\` of $name" aiger
    "$program" aiger <"$room/source" >"$room/circuit"
    mv "$room/circuit" "$room/source"
    row "\`aigsim\` of it" aigsim --cycles "$cycles"
done <<<"forward 1
toggle 3
table 4
collatz 3"
[ "$wrong" = 0 ] || { echo "$wrong wrong answers" >&2; exit 1; }
