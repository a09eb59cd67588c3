#!/usr/bin/env bash
# Tests bin/lanes, on one processor and on two (taskset), with files of our own in place of the system's: memory, and
# control groups of both versions. It also tests that .ci/run passes the number to the gate, keeps one that is set, and
# ends with the gate's status. It proves nothing.
set -eu
cd "$(dirname "$0")/.."

room=$(mktemp -d)
trap 'rm -rf "$room"' EXIT
failed=0

expect() {
    local want=$1 what=$2
    shift 2
    local got
    got=$("$@") || got="$got, status $?"
    if [ "$got" = "$want" ]; then
        echo "ok: $what"
    else
        echo "$what: $got in place of $want"
        failed=1
    fi
}

# Writes a line to a file of the faked system.
put() {
    mkdir -p "$room/$(dirname "$1")"
    printf '%s\n' "$2" >"$room/$1"
}

begin() {
    rm -rf "${room:?}/proc" "${room:?}/sys"
    put proc/meminfo "MemTotal: 99000000 kB"
    printf 'MemAvailable: %s kB\n' "$1" >>"$room/proc/meminfo"
}

lanes() { LANES_FILES=$room taskset -c "$1" bin/lanes; }

mapfile -t processors < <(taskset -cp $$ | sed 's/.*: //' | tr , '\n' |
    awk -F- '{ for (k = $1; k <= (NF > 1 ? $2 : $1); k++) print k }')
one=${processors[0]}
two=${processors[0]},${processors[1]-${processors[0]}}
both=2
[ ${#processors[@]} -gt 1 ] || both=1

begin 90000000
expect 1 "one processor" lanes "$one"
expect "$both" "two processors" lanes "$two"
expect "$both" "OpenMP's limit is no affinity" env OMP_NUM_THREADS=1 LANES_FILES="$room" taskset -c "$two" bin/lanes

begin 9765623
expect 1 "a kilobyte less than 10 GB are free" lanes "$two"
begin 9765624
expect "$both" "10 GB are free" lanes "$two"
begin 100
expect 1 "nearly nothing is free" lanes "$two"
rm "$room/proc/meminfo"
expect "$both" "nothing is known of memory" lanes "$two"

begin 90000000
put proc/self/cgroup "0::/jobs/one"
put sys/fs/cgroup/jobs/one/cpu.max "max 100000"
put sys/fs/cgroup/jobs/one/memory.max "max"
put sys/fs/cgroup/jobs/one/memory.stat "anon 0"
expect "$both" "a group without limits" lanes "$two"
put sys/fs/cgroup/jobs/cpu.max "150000 100000"
expect 1 "a quota of one and a half processors, in a group above" lanes "$two"
put sys/fs/cgroup/jobs/cpu.max "50000 100000"
expect 1 "a quota of half a processor" lanes "$two"
put sys/fs/cgroup/jobs/cpu.max "400000 100000"
expect "$both" "a quota of four processors" lanes "$two"
put sys/fs/cgroup/jobs/one/memory.max 12000000000
put sys/fs/cgroup/jobs/one/memory.stat "anon 1900000000"
expect "$both" "a group has 10.1 GB left" lanes "$two"
put sys/fs/cgroup/jobs/one/memory.stat "anon 2100000000"
expect 1 "a group has 9.9 GB left" lanes "$two"

begin 90000000
put proc/self/cgroup "4:memory:/jobs"
echo "1:cpu,cpuacct:/" >>"$room/proc/self/cgroup"
put sys/fs/cgroup/cpu/cpu.cfs_quota_us -1
put sys/fs/cgroup/cpu/cpu.cfs_period_us 100000
put sys/fs/cgroup/memory/memory.limit_in_bytes 9223372036854771712
put sys/fs/cgroup/memory/memory.stat "total_rss 4096"
expect "$both" "groups of the first version without limits" lanes "$two"
put sys/fs/cgroup/cpu/cpu.cfs_quota_us 100000
expect 1 "a quota of one processor" lanes "$two"
put sys/fs/cgroup/cpu/cpu.cfs_quota_us 200000
expect "$both" "a quota of two processors" lanes "$two"
put sys/fs/cgroup/memory/jobs/memory.limit_in_bytes 8000000000
put sys/fs/cgroup/memory/jobs/memory.stat "total_rss 4096"
expect 1 "a group of the first version has 8 GB" lanes "$two"

# A gate that says what it was given, and ends with status 3.
mkdir "$room/bin"
cat >"$room/bin/rt" <<'RT'
#!/bin/sh
echo "$* with $RT_JOBS"
exit 3
RT
chmod +x "$room/bin/rt"
begin 100
run() { env "$@" LANES_FILES="$room" PATH="$room/bin:$PATH" .ci/run 2>/dev/null; }
expect "ci with 1, status 3" ".ci/run without RT_JOBS" run -u RT_JOBS
expect "ci with 1, status 3" ".ci/run with an empty RT_JOBS" run RT_JOBS=
expect "ci with 7, status 3" ".ci/run keeps the number that is set" run RT_JOBS=7
if [ "$(grep -cx 'rt ci' .ci/run)" != 1 ]; then
    echo ".ci/run has no line that is plain rt ci"
    failed=1
fi
exit "$failed"
