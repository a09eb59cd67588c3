#!/usr/bin/env bash
# Says whether the files that a reader sees are those that the merge gate runs: the page of faults and the examples,
# which source_runs reads, and the design with host functions, which is what koika_cli's own run reads. And whether the
# journals that lab_runs compares with `why` are those that source_runs rechecks. A change of one is made in both.
set -eu
cd "$(dirname "$0")/.."

cmp docs/FAULTS.md crates/source_runs/data/FAULTS.md
diff -r --exclude=blink --exclude=riscv --exclude=systolic --exclude=testbench --exclude=certified \
    examples crates/source_runs/data/examples
diff -r examples/riscv/designs crates/source_runs/data/examples/riscv/designs
cmp examples/hosts.koika crates/koika_cli/stdin
tail -n +2 examples/hosts.txt | cmp - crates/koika_cli/stdout
diff -r --exclude=pipeline.koika crates/source_runs/data/journals crates/lab_runs/data/journals
echo "the same files"
