#!/usr/bin/env bash
# Makes the tables of docs/measured/ again, each by the script of its name beside this one. It takes names of tables;
# none means all but `journal`, which was counted by hand, `riscv`, `aiger` and `peers`, which need packages of Debian,
# and `gate`, which proves all from nothing. It takes an hour or more on a quiet machine.
set -eu
cd "$(dirname "$0")/.."

[ $# = 0 ] && set -- texts counter runs circuits workers plain tokens print libraries btor2 stim memory
for name in "$@"; do
    page=docs/measured/$name.md
    [ "$name" != journal ] || {
        echo "tables: $page was counted by hand, and stays as it was" >&2
        continue
    }
    made=$(mktemp)
    {
        # the page's head, up to its first table or its first line about one
        awk 'NR > 2 && (/^\|/ || /:$/) { exit } { print }' "$page"
        if [ "$name" = gate ]; then bench/gate_run.sh --anew; else "bench/$name.sh"; fi
    } >"$made" || {
        rm -f "$made"
        echo "tables: bench/$name.sh failed; $page is as it was" >&2
        exit 1
    }
    cat "$made" >"$page"
    rm "$made"
done
