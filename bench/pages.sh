#!/usr/bin/env bash
# Runs the commands of the pages, and compares what they write with what the pages show; tries the tables of limits, of
# refused lines of circuits' files, of words of latches and of how far journals reach; looks for the files that pages
# name; and says whether the README fits on 80 lines of 120 columns. Without PAGE it takes all pages that users read.
#
#     bench/pages.sh [--program PROGRAM] [--lab PROGRAM] [PAGE..]
#
# The commands run in a copy of the tree with the built programs, or with those that are named. Those that need a tool
# that isn't installed are left out, and counted. It is run by hand: it needs python3. The status is 1 if anything is
# wrong.
set -eu
cd "$(dirname "$0")/.."

koika_cli='' lab_cli=''
while :; do
    case ${1-} in
        --program) koika_cli=$2 ;;
        --lab) lab_cli=$2 ;;
        *) break ;;
    esac
    shift 2
done
. bench/programs.sh
take_program "$koika_cli"
take_lab "$lab_cli"
koika_cli=$program lab_cli=$lab
if [ $# = 0 ]; then
    set -- README.md docs/LANGUAGE.md docs/FROM-BLUESPEC.md docs/FAULTS.md docs/LIMITS.md docs/FORMATS.md \
        docs/GENERATING.md docs/SWEEPS.md docs/LAB.md docs/TESTBENCH.md docs/CIRCUITS.md docs/VERILOG.md docs/BTOR2.md \
        docs/AIGER.md docs/JOURNAL.md docs/THREADS.md docs/GLOSSARY.md docs/PERFORMANCE.md docs/ARCHITECTURE.md \
        docs/CONTRIBUTING.md docs/GATE.md docs/PROOFS.md docs/DEFINITIONS.md docs/DECISIONS.md editors/README.md \
        CHANGELOG.md
    if command -v cadical >/dev/null; then set -- "$@" docs/CERTIFICATES.md; fi
fi
room=$(mktemp -d)
trap 'rm -rf "$room"' EXIT

# The launcher takes a program for current: no source is there, and nothing was touched since `seen` was written.
copy=$room/koika
mkdir -p "$copy/crates"
cp -a koika bin clients examples docs editors crates.txt README.md CHANGELOG.md "$copy"
for name in koika_cli lab_cli; do
    mkdir -p "$copy/crates/$name/out"
    cp "${!name}" "$copy/crates/$name/out/$name"
done
(
    top=$copy
    # shellcheck source=bin/files.sh
    . bin/files.sh
    for name in koika_cli lab_cli; do
        set_program "$name"
        look >"$seen" || : # there are no folders of sources
    done
)
python3 bench/pages.py "$copy" "$@"
