# shellcheck shell=bash
# A copy of the tree, for the scripts beside this one, which read it in.

# Copies all that a proof reads into a folder: what git knows or would add, as it is here.
copy_tree() {
    mkdir -p "$1"
    git ls-files -z --cached --others --exclude-standard -- crates crates.txt HANDLES |
        while IFS= read -r -d '' file; do [ ! -e "$file" ] || printf '%s\0' "$file"; done |
        tar -c --null -T - | tar -x -C "$1"
}
