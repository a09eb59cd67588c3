#!/usr/bin/env bash
# Measures one run of the gate as it is, in seconds of the prover's processor time for each crate, and the most memory
# that one of its checks had. It runs `rt ci` as .ci/run does, with the arguments that are given, so `--anew` for a run
# from nothing, and looks once a second at what runs below it. What a process takes after the last look isn't counted,
# and neither is what isn't the prover: the kit's own work, compiling and the runs of tests and programs. What the gate
# says goes to standard error, and the table, in Markdown as docs/measured/gate.md has it, to standard output, with a
# line on the whole after it. It is run by hand.
set -eu
cd "$(dirname "$0")/.."
export RT_JOBS="${RT_JOBS:-$(bin/lanes)}"

# A kit that keeps nothing from run to run doesn't know --anew: each of its runs is from nothing.
arguments=("$@")
if ! rt help 2>&1 | grep -q -e --anew; then
    arguments=()
    for argument in "$@"; do
        [ "$argument" = --anew ] || arguments+=("$argument")
    done
fi

room=$(mktemp -d)
trap 'rm -rf "$room"' EXIT
: >"$room/seen"

# The prover's processes below a process: number, crate, and whether it proves the crate alone, with its tests, or once
# more for its edits.
provers_below() {
    ps -ww -eo pid=,ppid=,args= | awk -v top="$1" '
        { parent[$1] = $2; line[$1] = $0 }
        END {
            for (pid in line) {
                if (line[pid] !~ /rattle (build|check) .*--crate-name /) continue
                for (at = parent[pid]; at > 1 && at != top; at = parent[at]) {}
                if (at != top) continue
                name = line[pid]
                sub(/.*--crate-name /, "", name)
                sub(/ .*/, "", name)
                kind = line[pid] ~ / --test( |$)/ ? "tests" : "own"
                print pid, name, (line[pid] ~ /\/rt-edits-[^ ]*\/seed( |$)/ ? "second" : kind)
            }
        }'
}

# Notes what each has taken so far. An edit is tried in a folder of its own.
look() {
    local pid crate kind folder taken most
    while read -r pid crate kind; do
        folder=$(readlink "/proc/$pid/cwd") || continue
        case $kind:$folder in own:*/rt-edit-*) kind=edits ;; esac
        taken=$(awk '{ sub(/^.*\) /, ""); print $20, $12 + $13 }' "/proc/$pid/stat" 2>/dev/null) || continue
        most=$(awk '$1 == "VmHWM:" { print $2 }' "/proc/$pid/status" 2>/dev/null) || continue
        echo "$pid $crate $kind $taken ${most:-0}"
    done < <(provers_below "$gate") >>"$room/seen"
}

began=$SECONDS
rt ci "${arguments[@]}" </dev/null >&2 &
gate=$!
while kill -0 "$gate" 2>/dev/null; do
    look
    sleep 1
done
status=0
wait "$gate" || status=$?
minutes=$(((SECONDS - began + 30) / 60))

# The lines of code and definitions. What is under a test is no code of a library: a crate of tests alone counts none.
sed -n 's/^\([a-z_0-9]*\)[ :].*/\1/p' crates.txt | while read -r crate; do
    folder=crates/$crate
    case $crate in
        *_tests) lines=0 ;;
        *)
            lines=$(cd "$folder" && find src specs \( -name '*.rt' -o -name '*.antt' \) -not -path '*tests*' \
                -exec cat {} + 2>/dev/null | wc -l)
            ;;
    esac
    edits=$(find "$folder/must-fail" -name '*.edit' 2>/dev/null | wc -l)
    echo "$crate $lines $edits"
done >"$room/lines"

printf '| %s ' crate lines 'own proof' tests 'second proof' edits 'how many' together 'minutes for 1,000 lines'
echo "| most memory, MB |"
echo "|---|---|---|---|---|---|---|---|---|---|"
awk -v ticks="$(getconf CLK_TCK)" '
    function written(number,    digits, more) {
        digits = sprintf("%.0f", number)
        more = length(digits) - 3
        return more > 0 ? substr(digits, 1, more) "," substr(digits, more + 1) : digits
    }
    function cell(number) { return number < 0.5 ? "" : written(number) }
    function row(name, size, own, tests, second, edits, many, memory,    sum) {
        sum = own + tests + second + edits
        printf "| %s | %s | %s | %s ", name, written(size), cell(own), cell(tests)
        printf "| %s | %s | %s | %s ", cell(second), cell(edits), cell(many), cell(sum)
        printf "| %s | %s |\n", size ? sprintf("%.1f", sum / 60 / size * 1000) : "", cell(memory / 1000)
    }
    FNR == NR {
        most[$1 " " $4] = $5
        of[$1 " " $4] = $2 " " $3
        if ($6 * 1.024 > kilobytes[$2]) kilobytes[$2] = $6 * 1.024
        next
    }
    FNR == 1 { for (process in most) seconds[of[process]] += most[process] / ticks }
    {
        own = seconds[$1 " own"]
        tests = seconds[$1 " tests"]
        second = seconds[$1 " second"]
        edits = seconds[$1 " edits"]
        row("`" $1 "`", $2, own, tests, second, edits, $3, kilobytes[$1])
        if (kilobytes[$1] > greatest) greatest = kilobytes[$1]
        lines += $2
        all_own += own
        all_tests += tests
        all_second += second
        all_edits += edits
        many += $3
    }
    END { row("all", lines, all_own, all_tests, all_second, all_edits, many, greatest) }' "$room/seen" "$room/lines"
echo
echo "The whole took $minutes minutes with $RT_JOBS proofs side by side, and ended with status $status."
exit "$status"
