# shellcheck shell=sh disable=SC2034,SC2154 # the scripts that read this in set `top`, and use what is set here
# What ./koika and the scripts of bin/ share: which programs there are, where each is, and of which sources it was made.
# Whoever reads this in has set `top`, the folder of the repository.

# Sets which program is meant, by the name of its crate, and where it is.
set_program() {
    program_name=$1
    crate=$top/crates/$1
    program=$crate/out/$1
    made=$crate/out/made # the checksums of the sources that the program was made from, and its own
    seen=$crate/out/seen # what `look` printed when these checksums were last found to be right
}

# Whether the second program, koika_lab, is in this tree.
has_lab() {
    grep -q '^lab_cli[ :]' "$top/crates.txt"
}

# All programs of this tree.
all_programs() {
    echo koika_cli
    if has_lab; then echo lab_cli; fi
}

# The program that a command belongs to. One that is no command of any program is given to the first.
program_of() {
    case $1 in
        why | profile | lint | waves | step | verilog | obligation | certify)
            if has_lab; then
                echo lab_cli
                return
            fi ;;
    esac
    echo koika_cli
}

# The exit status where there is no program; the program itself never ends with it.
not_built=7

say() {
    echo "koika: $*" >&2
}

# The names, sizes and times of all files that the program may have been made from, and its own. A time is that of the
# last change of any kind: no clone, archive or branch sets it back.
look() (
    cd "$top" || exit
    find crates.txt crates/*/src crates/*/specs crates/*/proofs "$program" -printf '%p %s %C@ %i\n' 2>/dev/null
)

# Whether no file was touched since the checksums were found to be right. It takes some milliseconds.
is_untouched() {
    look | cmp -s - "$seen"
}

# A crate and those that it uses, the lowest first: a line for each, with its name and the crates that it names.
with_those_below() {
    awk -v crate="$1" -F: '
        !/^#/ && NF { split($1, words, " "); below[words[1]] = $2 }
        function height(name, parts, count, k, most) {
            if (!(name in below)) return 0
            if (name in of) return of[name]
            count = split(below[name], parts, " ")
            for (k = 1; k <= count; k++) if (height(parts[k]) > most + 0) most = of[parts[k]]
            for (k = 1; k <= count; k++) if (parts[k] in below) named[name] = named[name] " " parts[k]
            of[name] = most + 1
            print of[name], name named[name]
            return of[name]
        }
        END { height(crate) }' "$top/crates.txt" | sort -s -k 1,1n | cut -d " " -f 2-
}

# The checksum of all that the program is made from: the lines of crates.txt, and the files of src/, specs/ and proofs/.
sum_of_sources() (
    cd "$top" || exit
    names=$(with_those_below "$program_name" | cut -d " " -f 1)
    {
        for name in $names; do
            grep "^${name}[ :]" crates.txt
        done
        for name in $names; do
            find "crates/$name/src" "crates/$name/specs" "crates/$name/proofs" -type f 2>/dev/null
        done | LC_ALL=C sort | xargs sha256sum
    } | sha256sum | cut -c -64
)

# The checksum of the program.
sum_of_program() {
    sha256sum <"$program" | cut -c -64
}

# The commands, a paragraph for each: its words, what it writes, an example.
commands() {
    cat "$top/bin/commands.txt"
    if has_lab; then
        echo
        cat "$top/bin/commands_lab.txt"
    fi
}

# The words of a command, or nothing where there is no such command.
usage_of() {
    commands | awk -v RS= -F '\n' -v wanted="$1" '{ split($1, words, " ") } words[1] == wanted { print $1 }'
}
