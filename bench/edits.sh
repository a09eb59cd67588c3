# shellcheck shell=bash
# Deliberate mistakes, crates/NAME/must-fail/*.edit and wrong-bodies/*.edit, for the scripts beside this one, which read
# it in.

# Applies an edit to the files of a folder: to what `old:` gives, once in its file, `new:`. It prints a line for each
# change: the file, and the path of the function that it is in, `-` for an import, or nothing where it is in none. With
# `look` for the last argument it changes no file. The status is 1 where the edit doesn't fit.
edit() {
    awk -v folder="$2" -v how="${3-}" '
        function count(text, part,    found, at) {
            while (at = index(text, part)) { found++; text = substr(text, at + length(part)) }
            return found + 0
        }
        # Reads a file, and finds the path of its module.
        function open_file(name,    line) {
            file = name
            if (!(name in texts)) {
                while ((getline line <(folder "/" name)) > 0) texts[name] = texts[name] line "\n"
                names[++files] = name
            }
            module = name
            sub(/^src\//, "", module); sub(/\.rt$/, "", module); sub(/\/mod$/, "", module); sub(/^(lib|main)$/, "", module)
            gsub(/\//, "::", module)
        }
        # What comes after the type parameters that a text begins with.
        function without_parameters(text,    k, depth) {
            if (text !~ /^</) return text
            for (k = 1; k <= length(text); k++) {
                if (substr(text, k, 1) == "<") depth++
                if (substr(text, k, 1) == ">" && substr(text, k - 1, 1) != "-" && --depth == 0) break
            }
            return substr(text, k + 1)
        }
        # The path of the function that goes on over the line of this number: the last one that begins at or above it,
        # where its last brace is not above it, and the type of its impl before it.
        function function_at(text, number,    lines, k, named, indent, type, path) {
            split(text, lines, "\n")
            for (k = 1; k <= number; k++) {
                if (lines[k] ~ /^impl[ <]/) {
                    type = without_parameters(substr(lines[k], 5))
                    sub(/^.* for /, "", type)
                    sub(/^[^A-Za-z_]*/, "", type)
                    sub(/[^A-Za-z_0-9].*/, "", type)
                } else if (lines[k] ~ /^}/) {
                    if (k < number) named = ""
                    type = ""
                }
                if (lines[k] ~ /^ *(pub(\([a-z ]+\))? )?(const )?(unsafe )?fn [a-z_A-Z0-9]+/) {
                    indent = lines[k]; sub(/[^ ].*/, "", indent)
                    named = lines[k]; sub(/^.*fn /, "", named); sub(/[^a-z_A-Z0-9].*/, "", named)
                    path = module (type == "" ? "" : "::" type) "::" named
                    sub(/^::/, "", path)
                } else if (named != "" && k < number && lines[k] == indent "}") named = ""
            }
            return named == "" ? "" : path
        }
        /^file: / { open_file(substr($0, 7)) }
        /^old: / { old = substr($0, 6); if (count(texts[file], old) != 1) exit status = 1 }
        /^new:/ {
            text = texts[file]
            at = index(text, old)
            before = substr(text, 1, at - 1)
            print file, old ~ /^use / ? "-" : file ~ /^src\// ? function_at(text, gsub(/\n/, "&", before) + 1) : ""
            texts[file] = substr(text, 1, at - 1) substr($0, 6) substr(text, at + length(old))
        }
        END {
            if (!status && how != "look")
                for (k = 1; k <= files; k++) { printf "%s", texts[names[k]] >(folder "/" names[k]); close(folder "/" names[k]) }
            exit status
        }' "$1"
}
