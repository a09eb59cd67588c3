#!/usr/bin/env bash
# Gives types of src/ and definitions of specs/ other names, in all files that mean them: in src/, specs/, proofs/ and the
# deliberate mistakes. It follows imports file by file, so another thing of the same name keeps it. It proves nothing.
#
#     bench/rename.sh btor2_model type rule.Rule FormRule    a struct or an enum, after its module in src/
#     bench/rename.sh koika_check definition Types.Part TypedPart    a definition, after its module in specs/
#     bench/rename.sh bench/renames.txt                      all that a file lists, a line each
#     bench/rename.sh --look ..                              only the files that would change
#
# It changes nothing, and has status 1, where a new name is one that a file has already, or an old one isn't there. Its
# status is 1, too, where an import names nothing after it. It prints the lines of pages that write an old name as code:
# look at each. Then run `rt fmt` in the crates that changed, `bench/believe.sh --page`, and prove them again.
set -eu
cd "$(dirname "$0")/.."
exec python3 -B bench/rename.py "$@"
