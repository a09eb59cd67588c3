# shellcheck shell=bash disable=SC2154 # workers.sh sets `room`, `program` and `tests`
# What `bench/workers.sh --again` runs, for that script, which reads it in.

# The seconds after which a run is said to hang, and is killed.
limit=300

# Where the gate leaves a program or the tests of a crate.
place_of() {
    if [ -n "$tests" ]; then
        echo "$tests/$1"
    else
        echo "$PWD/crates/${1%_tests}/out/$1"
    fi
}

# Runs a command on two processors and an input, and counts how it ended. A file has what it is to write, and then its
# status.
try() {
    local name=$1 input=$2 wanted=$3 status=0
    shift 3
    timeout -k 5 "$limit" taskset -c "$on" "$@" <"$input" >"$room/written" 2>"$room/complaint" || status=$?
    if [ "$status" = 124 ] || [ "$status" = 137 ]; then
        hung=$((hung + 1))
        echo "workers: $name: no end after $limit seconds" >&2
        return
    fi
    echo "status $status" >>"$room/written"
    if ! cmp -s "$wanted" "$room/written"; then
        differed=$((differed + 1))
        echo "workers: $name: another output, of which the first lines are" >&2
        { diff "$wanted" "$room/written" || true; cat "$room/complaint"; } | head -n 8 >&2
    fi
}

# The cases of source_runs that run workers, and what it writes for these: the lines of its standard output before the
# first case, and those of each such case, which begin with the case itself. Where the case asks for 2 to 7 workers and
# shows no journal, 8 run it. The first file is its standard input, the second its standard output.
cases() {
    awk -v cases="$room/cases" -v answers="$room/answers" '
        function has_workers(text) {
            return text ~ /--workers|^workers |^journal |^printed |^threaded |^seeing |^counting /
        }
        function by_eight(text) {
            if (text !~ /--journal|^journal |^printed |^seeing |^counting / &&
                match(text, /^(workers|threaded) [2-7] |--workers [2-7][: ]/))
                text = substr(text, 1, RSTART + RLENGTH - 3) "8" substr(text, RSTART + RLENGTH - 1)
            return text
        }
        NR == FNR { all[++count] = $0; next }
        FNR == 1 { is_shown = 1 }
        at < count && $0 == all[at + 1] {
            at++
            is_shown = has_workers($0)
            if (is_shown) {
                print by_eight($0) >cases
                print by_eight($0) >answers
            }
            next
        }
        is_shown { print >answers }
        END {
            print "status 0" >answers
            if (at != count) { print "the output has no case", all[at + 1]; exit 1 }
        }' crates/source_runs/stdin crates/source_runs/stdout
}

# Runs all that many times, and says how often something differed or hung.
again() {
    local times=$1 on runner name file round began=$SECONDS differed=0 hung=0
    local -a names=() designs=()
    on=$(processors 2)
    runner=$(place_of source_runs)
    for name in board_lock_tests board_shared_tests cycle_driver_tests spec_worker_tests source_runs; do
        file=$(place_of "$name")
        [ -x "$file" ] || {
            echo "workers: $file isn't built: run \`rt ci\`, or name a folder that has it by --tests" >&2
            return 2
        }
        [ "$file" != "$runner" ] || continue
        mapfile -t -O ${#names[@]} names < <("$file" --list | sed -n "s|^\(.*\): test\$|$file \1|p")
    done
    printf '\ntest result: ok\nstatus 0\n' >"$room/passed"
    cases
    # each design, and how many cycles of it, by the plain engine
    for name in "gen 10" "gen 100" "8 rules" examples/*.koika examples/riscv/designs/*.koika \
        crates/source_runs/data/rows/*.koika; do
        file=$room/design.${#designs[@]}
        if [ -e "$name" ]; then cat "$name"; else design "$name"; fi >"$file"
        local status=0
        "$program" sim --cycles "$(cycles_of "$name")" <"$file" >"$file.wanted" || status=$?
        echo "status $status" >>"$file.wanted"
        designs+=("$name")
    done
    for ((round = 1; round <= times; round++)); do
        for name in "${names[@]}"; do
            try "${name##*/}" /dev/null "$room/passed" "${name% *}" "${name##* }"
        done
        try "cases of source_runs" "$room/cases" "$room/answers" env -C crates/source_runs/data "$runner"
        for name in "${!designs[@]}"; do
            file=$room/design.$name
            try "sim --workers 8 of ${designs[name]}" "$file" "$file.wanted" \
                "$program" sim --workers 8 --cycles "$(cycles_of "${designs[name]}")"
        done
    done
    echo "$times times on the processors $on: ${#names[@]} tests, $(wc -l <"$room/cases") cases of source_runs," \
        "${#designs[@]} designs by 8 workers; $differed differed, $hung had no end after $limit seconds;" \
        "$((SECONDS - began)) seconds in all"
    [ "$differed" = 0 ] && [ "$hung" = 0 ]
}

# How many cycles of a design are run: more than one batch, and fewer where a cycle is long.
cycles_of() {
    case $1 in
        "gen 100" | "8 rules") echo 40 ;;
        *) echo 300 ;;
    esac
}
