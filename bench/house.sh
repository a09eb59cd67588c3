#!/usr/bin/env bash
# Prints what the house measures of itself: a count, and then each place with its file and line. It takes names of
# measures, all without any, and prints the counts alone with --counts. It proves nothing, and is run by hand.
#
#   code, specs, proofs    pairs of files in different crates that share six lines or more to the letter
#   lemmas         lemmas that two files or more have to the letter
#   parameters     functions with seven parameters or more
#   defaults       defaults for cases that can't be, after the list bench/house.txt; what it doesn't list is called new
#   constants      numbers from 1,000 on that are in two places or more, one of them a constant or a definition, and
#                  constants of one name and one value
#   wide           lines over 200 columns
#   uncommented    definitions without a comment line
set -eu
cd "$(dirname "$0")/.."
exec python3 -B bench/house.py "$@"
