#!/usr/bin/env bash
# Tries the completion for bash, in a folder with files of its own.
here=$(cd "$(dirname "${BASH_SOURCE[0]}")" && pwd)
shopt -u extglob
# shellcheck source=koika.bash
. "$here/koika.bash"
room=$(mktemp -d)
trap 'rm -rf "$room"' EXIT
cd "$room" || exit
touch a.koika b.koika c.btor2 d.aag lines
mkdir parts
wrong=0
try() {
    local wanted=$1
    shift
    COMP_WORDS=("$@") COMP_CWORD=$(($# - 1))
    _koika
    [ "${COMPREPLY[*]}" = "$wanted" ] || {
        wrong=1
        echo "wrong: $* is completed by ${COMPREPLY[*]}, and not by $wanted"
    }
}
try "check print sim compile btorsim gen aiger aigsim recheck why profile waves step verilog lint obligation certify help --help --version --unproved" koika ""
try "check compile certify" koika c
try "aiger aigsim" koika a
try "recheck" koika r
try "--help --version --unproved" koika "--"
try "check print sim compile btorsim gen aiger aigsim recheck why profile waves step verilog lint obligation certify" koika help ""
try "--cycles --summary --engine --workers --journal" koika sim "--"
try "--summary --engine --workers --journal" koika sim --cycles 4 "--"
try "--summary --engine --workers" koika sim --cycles 4 a.koika --journal "--"
try "plain circuit" koika sim --engine ""
try "" koika sim --cycles ""
try "--cycles --summary" koika btorsim "--"
try "--cycles --summary" koika aigsim "--"
try "--cycles" koika recheck "--"
try "--cycle --cycles --rule" koika why "--"
try "--cycles --rule" koika why --cycle 3 "--"
try "" koika why --rule ""
try "--cycles --strict" koika profile "--"
try "profile" koika pro
try "--cycles" koika waves "--"
try "a.koika b.koika parts" koika waves --cycles 4 ""
try "waves" koika wa
try "--reset --registers" koika verilog "--"
try "--registers" koika verilog --reset "--"
try "obligation" koika o
try "--rule" koika obligation "--"
try "--rule" koika certify a.koika "--"
try "" koika certify --rule ""
try "step" koika st
try "" koika step "--"
try "a.koika b.koika parts" koika step ""
try "" koika check "--"
try "a.koika b.koika parts" koika check ""
try "a.koika b.koika parts --cycles" koika recheck ""
try "a.koika" koika sim --cycles 4 a
try "c.btor2 parts --summary" koika btorsim --cycles 4 ""
try "d.aag parts --summary" koika aigsim --cycles 4 ""
try "lines" koika sim --cycles 4 a.koika l
try "a.koika b.koika parts" koika check "<" ""
try "parts" koika check p
try "1 10 100" koika gen ""
[ "$wrong" = 0 ] && echo "bash completes"
exit "$wrong"
