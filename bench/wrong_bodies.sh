#!/usr/bin/env bash
# Tries the wrong implementations that no check reads, crates/NAME/wrong-bodies/*.edit, of the crates that are named, or
# of all: the prover must refuse each. It works on a copy of the tree, where each crate is proved once and then each
# edit's functions alone are checked again, over what that check kept. Where an edit changes something that is in no
# function, the whole crate is checked. It prints a table, with the seconds that each check took, and ends with status 1
# unless all are refused. A maintainer runs it after a change of a contract.
#
#   REFUSED      a function with the mistake isn't proved
#   REFUSED, by names alone    it isn't, but only because a proof file names what the edit took away
#   NOT REFUSED  all that was checked is proved all the same
#   BAD EDIT     it doesn't fit the sources, or doesn't compile
#   no verdict   the prover met a limit of its own, or the check took over $LIMIT seconds (900 if it isn't set)
#
# With --apply it proves nothing: it says, of all edits of both folders, which of them don't fit the sources any more.
set -eu
cd "$(dirname "$0")/.."
. bench/copy.sh
. bench/edits.sh

if [ "${1-}" = --apply ]; then
    failed=0
    for one in crates/*/must-fail/*.edit crates/*/wrong-bodies/*.edit; do
        edit "$one" "$(dirname "$one")/.." look >/dev/null || { echo "$one doesn't fit the sources"; failed=1; }
    done
    exit "$failed"
fi

room=$(mktemp -d)
trap 'rm -rf "$room"' EXIT
copy_tree "$room"

crates=("$@")
if [ ${#crates[@]} = 0 ]; then
    mapfile -t crates < <(sed -n 's/^\([a-z_0-9]*\)[ :].*/\1/p' crates.txt)
fi

# Whether all that a check found wrong is that proof files name what isn't there: that says little of a contract.
is_by_names() {
    grep -E '^(note: )?[^ ]+:[0-9]+:[0-9]+:' "$room/said" | grep -E ': error|^note: ' >"$room/wrong" &&
        ! grep -qvE '^(note: )?(\./)?proofs/.*(has no field|is not in scope|has no `|was not admitted)' "$room/wrong"
}

# Checks functions of the crate that we are in, or all of it where none is given, and sets what came of it and how long
# it took. A path of a function that the check doesn't know, as of an impl for a type of several parameters, is left to
# a check of the whole crate.
check() {
    local only=() path status=0 begin=$SECONDS
    for path; do only+=(--only "$path"); done
    timeout "${LIMIT:-900}" rt check --jobs 1 "${only[@]}" >"$room/said" 2>&1 </dev/null || status=$?
    if [ "$status" = 2 ] && [ $# != 0 ]; then
        check
        return
    fi
    took=$((SECONDS - begin))
    if [ "$status" = 0 ]; then
        came="NOT REFUSED"
    elif grep -q ' error\[\|^error\[' "$room/said"; then
        came="BAD EDIT"
    elif grep -q '^fn .*: \(not proved\|no proof\)' "$room/said" && [ "$status" = 1 ]; then
        came="REFUSED"
        ! is_by_names || came="REFUSED, by names alone"
    elif [ "$status" = 1 ]; then
        came="BAD EDIT"
    else
        came="no verdict"
    fi
}

echo "| crate | wrong implementation | checked | seconds | what came of it |"
echo "|---|---|---|---|---|"
failed=0
for crate in "${crates[@]}"; do
    [ -d "crates/$crate" ] || { echo "there is no crate $crate" >&2; exit 1; }
    [ -d "crates/$crate/wrong-bodies" ] || continue
    # What an earlier check kept of this crate and of those below serves where it fits their texts; rt takes it by
    # itself.
    (cd "$room/crates/$crate" && rt check) >"$room/said" 2>&1 </dev/null || {
        cat "$room/said" >&2
        echo "$crate isn't proved as it is" >&2
        exit 1
    }
    for one in "crates/$crate/wrong-bodies"/*.edit; do
        folder=$room/crates/$crate
        rm -rf "$room/kept"
        mkdir "$room/kept"
        for part in src specs proofs; do [ ! -d "$folder/$part" ] || cp -a "$folder/$part" "$room/kept/"; done
        took=0 came="BAD EDIT" what=nothing
        if edit "$one" "$folder" >"$room/places"; then
            # All functions that it changes; none where a change is in none.
            mapfile -t paths < <(awk '$2 != "-" { print $2 }' "$room/places" | sort -u)
            case " ${paths[*]-} " in *"  "*) paths=() ;; esac
            what=${paths[*]-}
            cd "$folder"
            check "${paths[@]}"
            cd - >/dev/null
        fi
        for part in src specs proofs; do [ ! -d "$folder/$part" ] || { rm -rf "${folder:?}/$part" && mv "$room/kept/$part" "$folder/"; }; done
        [[ $came = REFUSED* ]] || failed=1
        echo "| \`$crate\` | \`$(basename "$one" .edit)\` | ${what:-the crate} | $took | $came |"
    done
done
exit "$failed"
