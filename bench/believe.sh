#!/usr/bin/env bash
# Prints what one must believe: the definitions that the contract of a top call rests on, or those of one command's
# answer, each with its file and lines, after those that it uses itself, with the program's types first. It proves
# nothing.
#
#     bench/believe.sh             all that `run` says, the call of `koika`
#     bench/believe.sh lab         all that `lab` says, the call of the lab
#     bench/believe.sh sim         the answer of one command of either program
#     bench/believe.sh --counts    how much that is for each command
#     bench/believe.sh --check     fails where one of them is in specs/inner/, where no public contract rests on a file
#                                  of specs/ that isn't in inner/, or where docs/DEFINITIONS.md isn't what --page makes
#     bench/believe.sh --page      makes the order in docs/DEFINITIONS.md anew
#     bench/believe.sh --move      moves what no public contract rests on to specs/inner/, and follows the imports
set -eu
cd "$(dirname "$0")/.."
exec python3 -B bench/believe.py "$@"
