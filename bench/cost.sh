# What a command costs, for the scripts beside this one, which read it in: in instructions where perf counts them on
# this machine, or else valgrind, and otherwise in seconds of processor time.
export LC_ALL=C
shopt -s inherit_errexit # a run that fails ends the script

room=$(mktemp -d)
trap 'rm -rf "$room"' EXIT

# How costs are counted, what a run's and a part's are told in, and how many of these make one of what `cost` prints.
counted=seconds
of_run=milliseconds run_scale=1000
of_part=nanoseconds part_scale=1000000000
if perf stat -x, -e instructions:u -o "$room/count" true 2>/dev/null &&
    awk -F, '/instructions/ && $1 + 0 > 0 { found = 1 } END { exit !found }' "$room/count"; then
    counted=perf
elif valgrind --tool=callgrind --callgrind-out-file=/dev/null true >/dev/null 2>&1; then
    counted=callgrind
fi
if [ "$counted" != seconds ]; then
    of_run=instructions run_scale=1
    of_part=instructions part_scale=1
fi

# Runs a command on an input, for an output. A refusal is an answer, too.
answer() {
    local input=$1 output=$2
    shift 2
    "$@" <"$input" >"$output" || [ $? = 2 ]
}

# What such a run costs. The seconds are the least mean in five turns of fifty runs.
cost() {
    local input=$1 output=$2
    shift 2
    case $counted in
        perf)
            answer "$input" "$output" perf stat -x, -e instructions:u -o "$room/count" "$@"
            awk -F, '/instructions/ { print $1 }' "$room/count"
            ;;
        callgrind)
            answer "$input" "$output" valgrind --tool=callgrind --callgrind-out-file=/dev/null --log-file="$room/count" "$@"
            awk '/Collected/ { print $NF }' "$room/count"
            ;;
        seconds)
            answer "$input" "$output" "$@"
            local TIMEFORMAT='%3U %3S'
            for _ in {1..5}; do
                { time for _ in {1..50}; do answer "$input" "$output" "$@"; done; } 2>&1
            done | awk '{ mean = ($1 + $2) / 50 } NR == 1 || mean < least { least = mean } END { printf "%.6f\n", least }'
            ;;
    esac
}

# The costs of a run and of its parts, what every run costs aside, as two columns.
columns() {
    awk -v taken="$1" -v start="$2" -v parts="$3" -v run="$run_scale" -v part="$part_scale" 'BEGIN {
        printf "%.10g | %s", taken * run, (parts ? sprintf("%.4g", (taken - start) * part / parts) : "")
    }'
}
