#!/usr/bin/env bash
# Measures what the gate costs from nothing, in seconds of processor time, for each crate that is named, or for all: its
# own proof, its proof together with that of its tests, and its must-fail edits, the second proof included. It works on
# a copy, where what is below a crate is proved first and not counted. It is run by hand, on one crate or a few: on all
# it takes about as long as the gate on one processor.
set -eu
cd "$(dirname "$0")/.."
. bench/copy.sh

room=$(mktemp -d)
trap 'rm -rf "$room"' EXIT
copy_tree "$room"

# The crates of the repository that a crate uses, directly or not.
below() {
    local crate
    for crate in $(sed -n "s/^$1\( [^:]*\)\{0,1\}:\(.*\)/\2/p" crates.txt); do
        if [ -d "crates/$crate" ]; then
            below "$crate"
            echo "$crate"
        fi
    done
}

# The seconds of processor time that a command takes, and all that it starts. What it says is shown where it fails.
seconds() {
    if ! command time -o "$room/seconds" -f '%U %S' "$@" >"$room/said" 2>&1 </dev/null; then
        cat "$room/said" >&2
        return 1
    fi
    tail -n 1 "$room/seconds" | awk '{ printf "%.0f", $1 + $2 }'
}

crates=("$@")
if [ ${#crates[@]} = 0 ]; then
    mapfile -t crates < <(sed -n 's/^\([a-z_0-9]*\)[ :].*/\1/p' crates.txt)
fi

echo "| crate | lines | own proof | with tests | edits | how many | together | minutes for 1,000 lines |"
echo "|---|---|---|---|---|---|---|---|"
for crate in "${crates[@]}"; do
    folder=$room/crates/$crate
    # What an earlier check kept of the crates below serves where it fits their texts.
    for lower in $(below "$crate" | awk '!seen[$0]++'); do
        if [ -d "crates/$lower/out/rlib" ] && [ ! -d "$room/crates/$lower/out" ]; then
            cp -a "crates/$lower/out" "$room/crates/$lower/out"
        fi
        (cd "$room/crates/$lower" && rt lib --jobs 1 >/dev/null 2>&1)
    done
    # What is under a test is no code of a library: a crate of tests alone counts no line.
    case $crate in
        *_tests) size=0 ;;
        *)
            size=$(cd "$folder" && find src specs \( -name '*.rt' -o -name '*.antt' \) -not -path '*tests*' \
                -exec cat {} + 2>/dev/null | wc -l)
            ;;
    esac
    rm -rf "$folder/out"
    own=$(cd "$folder" && seconds rt check --jobs 1)
    both=0
    if grep -rqs '#\[test\]' "$folder/src"; then
        rm -rf "$folder/out"
        both=$(cd "$folder" && seconds rt check --test --jobs 1)
    fi
    edits=$(find "$folder/must-fail" -name '*.edit' 2>/dev/null | wc -l) bodies=0
    if [ "$edits" != 0 ]; then
        bodies=$(cd "$room" && seconds rt must-fail "$crate")
    fi
    awk -v crate="$crate" -v size="$size" -v own="$own" -v both="$both" -v bodies="$bodies" -v edits="$edits" 'BEGIN {
        sum = own + both + bodies
        printf "| `%s` | %d | %d | %d | %d | %d ", crate, size, own, both, bodies, edits
        printf "| %d | %.1f |\n", sum, size ? sum / 60 / size * 1000 : 0
    }'
done
