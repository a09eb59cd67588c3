# shellcheck shell=bash disable=SC2154 # cost.sh sets `room`
# What measures libraries, for the scripts beside this one, which read it in after cost.sh. Each folder bench/costs/NAME
# has files of a crate NAME whose names end with `.in`: a program, or tests whose only result is what they cost. They
# are put into a copy of the tree, where they take the place of files of that name. Other files stay if the root file
# names them; proofs don't. The copy is proved and built.
. bench/copy.sh

# Puts a copy of the tree into a folder, with the files of bench/costs/NAME, and its line of crates.txt.
copy_with() {
    local crate=$1 copy=$2 file
    copy_tree "$copy"
    rm -rf "$copy/crates/$crate/proofs"
    while IFS= read -r file; do
        mkdir -p "$copy/crates/$crate/$(dirname "$file")"
        cp "bench/costs/$crate/$file" "$copy/crates/$crate/${file%.in}"
    done < <(cd "bench/costs/$crate" && find . -name '*.in')
    # A file that no module is made of would stop the check.
    for file in "$copy/crates/$crate"/src/*.rt; do
        grep -qsx "mod $(basename "$file" .rt);" "$copy/crates/$crate"/src/{lib,main}.rt ||
            case $file in */lib.rt | */main.rt) ;; *) rm "$file" ;; esac
    done
    if [ -e "$copy/crates/$crate/crates.txt" ]; then
        sed -i "/^${crate}[ :]/d" "$copy/crates.txt"
        cat "$copy/crates/$crate/crates.txt" >>"$copy/crates.txt"
        rm "$copy/crates/$crate/crates.txt"
    fi
}

# The checksum of a crate of a copy and of those below it.
sum_of() {
    (
        cd "$2" || exit
        top=$PWD # bin/files.sh looks there
        # shellcheck source=bin/files.sh
        . "$here/bin/files.sh"
        for name in $(with_those_below "$1" | cut -d " " -f 1); do
            grep "^${name}[ :]" crates.txt
            find "crates/$name" -type f -not -path '*/out/*' | sort | xargs sha256sum
        done | sha256sum | cut -c -64
    )
}

# Prints the path of the program of bench/costs/NAME, or of its tests, from the files that are here. What was built is
# kept in bench/costs/NAME/out. The kit builds by running, so the program gets the arguments that are given after it.
measuring() {
    local crate=$1 here=$PWD copy=$room/copy sum built=$1 command
    shift
    command=(rt run -- "$@")
    if grep -rqs '#\[test\]' "bench/costs/$crate/src"; then command=(rt test) built=${crate}_tests; fi
    copy_with "$crate" "$copy"
    sum=$(sum_of "$crate" "$copy")
    local kept=bench/costs/$crate/out
    if [ ! -x "$kept/$built" ] || [ "$(cat "$kept/sum")" != "$sum" ]; then
        echo "bench/costs/$crate is proved and built" >&2
        (cd "$copy/crates/$crate" && RT_SECONDS=600 "${command[@]}") </dev/null >"$room/said" 2>&1 || {
            cat "$room/said" >&2
            return 1
        }
        mkdir -p "$kept"
        cp "$copy/crates/$crate/out/$built" "$kept/$built"
        echo "$sum" >"$kept/sum"
    fi
    rm -rf "$copy"
    echo "$kept/$built"
}
