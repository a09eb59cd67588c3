# shellcheck shell=bash disable=SC2154 # take_program sets `program`
# Designs by name, for the scripts beside this one, which read it in after programs.sh at the top of the repository.

# Writes a design: `core`, the small processor of the examples; `queue`, the RISC-V core with that program; `gen K`, the
# pipeline of K stages; or eight rules with nothing in common, of about 2,000 nodes each in `8 rules`, which is nearly
# all that a design may weigh, and of about 100 in `8 small rules`.
design() {
    case $1 in
        core) cat examples/core.koika ;;
        queue) cat examples/riscv/designs/queue.koika ;;
        gen\ *) "$program" gen "${1#gen }" ;;
        "8 rules") rules_of_sums 4 250 ;;
        "8 small rules") rules_of_sums 1 50 ;;
        *) echo "there is no design $1" >&2 && return 1 ;;
    esac
}

# Eight rules, each with a register of its own, that many sums and that many terms in each: about twice as many nodes.
rules_of_sums() {
    awk -v sums="$1" -v terms="$2" 'BEGIN {
        for (rule = 0; rule < 8; rule++) print "reg r" rule " : bits 32 = 32'\''d" rule ";"
        for (rule = 0; rule < 8; rule++) {
            print "rule a" rule " {\n    let v0 = read0(r" rule ");"
            for (sum = 1; sum <= sums; sum++) {
                printf "    let v%d = v%d", sum, sum - 1
                for (term = 1; term < terms; term++) printf " + %s", term % 2 ? "32'\''d" term : "v" sum - 1
                print ";"
            }
            print "    write0(r" rule ", v" sums ")\n}"
        }
        print "schedule {"
        for (rule = 0; rule < 8; rule++) print "    a" rule ";"
        print "}"
    }'
}

# The design with the most registers, inputs and rules that there may be, each of the most bits. Each rule reads half of
# its weight.
largest_design() {
    awk 'BEGIN {
        for (k = 0; k < 256; k++) print "reg r" k " : bits 128 = 128'\''d" k ";\ninput i" k " : bits 128;"
        for (k = 0; k < 256; k++) {
            printf "rule a%d { write0(r%d, i%d", k, k, k
            for (j = 0; j < 30; j++) printf " + read0(r%d)", (k + j) % 256
            print ") }"
        }
        print "schedule {"
        for (k = 0; k < 256; k++) print "a" k ";"
        print "}"
    }'
}
