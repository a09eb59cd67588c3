# shellcheck shell=bash
# The programs, for the scripts beside this one, which read it in at the top of the repository. Each call sets the path
# of a program that was named, or of the built one, which is built first if need be.

# Sets `program`, that of koika.
take_program() {
    [ -n "${1-}" ] || ./koika check <examples/counter.koika >/dev/null
    program=$(realpath -e "${1:-crates/koika_cli/out/koika_cli}")
}

# Sets `lab`, that of the lab.
take_lab() {
    [ -n "${1-}" ] || ./koika profile --cycles 0 <examples/counter.koika >/dev/null
    lab=$(realpath -e "${1:-crates/lab_cli/out/lab_cli}")
}
