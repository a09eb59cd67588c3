#!/usr/bin/env bash
# Lists every definition of `specs/` with its comment and the sources that import it by name, crate by crate, in the
# order of crates.txt: a page of Markdown on standard output. It takes names of crates; none means all.
set -eu
cd "$(dirname "$0")/.."
export LC_ALL=C.UTF-8

# A line for each name that a source cites: crate, file of definitions, name, the source.
citations() {
    grep -HoE '^ghost use Rattle\.[a-z_0-9]+\.specs\.[A-Za-z]+\.\{[^}]*\}' crates/*/src/*.rt crates/*/src/*/*.rt 2>/dev/null |
        sed -E 's|^crates/([a-z_0-9]+)/src/([^:]*):ghost use Rattle\.([a-z_0-9]+)\.specs\.([A-Za-z]+)\.\{(.*)\}|\3 \4 \1/\2 \5|' |
        awk '{
            crate = $1; file = $2; source = $3
            $1 = $2 = $3 = ""
            count = split($0, names, ",")
            for (k = 1; k <= count; k++) { gsub(/^ +| +$/, "", names[k]); print crate "\t" file "\t" names[k] "\t" source }
        }'
}

echo "# Definitions, one by one"
echo
echo "Made by \`bench/definitions.sh\` from the sources. \`docs/DEFINITIONS.md\` says which to read, and in what order."
for crate in $([ $# = 0 ] && sed 's/#.*//; s/:.*//' crates.txt | awk '{ print $1 }' || echo "$@"); do
    [ -d "crates/$crate/specs" ] || continue
    printf '\n## `%s`\n\n| definition | file | what it says | cited by |\n|---|---|---|---|\n' "$crate"
    citations | awk -F '\t' -v crate="$crate" '
        FILENAME == "-" {
            if ($1 == crate) {
                key = $2 "." $3
                if (key in by) by[key] = by[key] ", " $4
                else by[key] = $4
            }
            next
        }
        FNR == 1 { file = FILENAME; sub(/.*\//, "", file); sub(/\.antt$/, "", file); said = ""; head = 1 }
        head && !/^--/ { head = 0; said = "" }
        /^--/ { if (!head) { sub(/^-- ?/, ""); said = said (said == "" ? "" : " ") $0 }; next }
        /^$/ { said = ""; next }
        /^(unfoldable )?(abbrev )?pub (abbrev|record|data|unfoldable)? ?/ || /^(abbrev|unfoldable|record|data) / {
            name = $0
            gsub(/^((unfoldable|abbrev|record|data|pub|opaque) )+/, "", name)
            sub(/[ :(].*/, "", name)
            if ($0 ~ /^ / || name == "" || name == "mod" || name == "use" || name in seen) next
            seen[name]
            gsub(/\|/, "\\|", said)
            sources = by[file "." name]
            printf "| `%s` | `%s` | %s | %s |\n", name, file, said, sources
            said = ""
        }' - $(ls "crates/$crate"/specs/*.antt | grep -v '/Lib\.antt$')
done
