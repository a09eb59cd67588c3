#!/usr/bin/env bash
# Says which imports of the sources name nothing: `use` of Rust, `use` and `ghost use` of definitions, of proofs, and of
# what the kit makes of types, and the names in attributes of functions. It says, too, which operators and which definitions of its own crate
# a file uses without an import. It takes seconds and proves nothing; run it after files or definitions moved. The status
# is 1 where it finds something.
set -eu
exec python3 -B "$(dirname "$0")/imports.py"
