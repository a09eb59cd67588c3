#!/usr/bin/env bash
# Tries bin/hints on small formulas: CaDiCaL refutes them, and each refutation that bin/hints writes is read line by line, as
# the definition says it, by the program below. It also tries what that program and bin/hints refuse. It needs python3 and
# cadical, and says where one is missing. It is run by hand.
set -eu
cd "$(dirname "$0")/.."

for tool in python3 cadical; do
    if ! command -v "$tool" >/dev/null; then
        echo "skipped: $tool is missing"
        exit 0
    fi
done

room=$(mktemp -d)
trap 'rm -rf "$room"' EXIT
tried=0 wrong=0

complain() {
    wrong=$((wrong + 1))
    echo "wrong: $*"
}

# Reads a refutation of a formula, and ends with status 1 where it isn't one.
cat >"$room/read.py" <<'PYTHON'
import sys

numbers = [int(token) for line in open(sys.argv[1]) if line[0] not in "cp" for token in line.split()]
clauses, clause = {}, []
for number in numbers:
    if number:
        clause.append(number)
    else:
        clauses[len(clauses) + 1] = clause
        clause = []
last, refuted = len(clauses), [] in clauses.values()


def follows(clause, hints):
    true = set()
    for literal in clause:
        if literal in true:
            return True
        true.add(-literal)
    for hint in hints:
        left = {literal for literal in clauses[hint] if -literal not in true}
        if not left:
            return True
        if len(left) > 1:
            return False
        true |= left
    return False


for line in open(sys.argv[2]):
    tokens = line.split()
    if tokens[1] == "d":
        for number in tokens[2:-1]:
            del clauses[int(number)]
        continue
    end = tokens.index("0", 1)
    number, clause = int(tokens[0]), [int(token) for token in tokens[1:end]]
    if number <= last or tokens[-1] != "0" or not follows(clause, [int(token) for token in tokens[end + 1 : -1]]):
        sys.exit(f"refused: {line}")
    clauses[number], last = clause, number
    refuted = refuted or not clause
sys.exit(not refuted)
PYTHON

# A formula of clauses with three literals, the same one for each seed: random SEED VARIABLES CLAUSES.
random() {
    awk -v seed="$1" -v variables="$2" -v clauses="$3" 'BEGIN {
        srand(seed)
        print "p cnf", variables, clauses
        for (k = 0; k < clauses; k++) {
            for (i = 0; i < 3; i++) printf "%d ", (rand() < 0.5 ? -1 : 1) * (1 + int(variables * rand()))
            print 0
        }
    }'
}

# More pigeons than holes: pigeons HOLES.
pigeons() {
    awk -v holes="$1" 'BEGIN {
        print "p cnf", holes * (holes + 1), holes + 1 + holes * holes * (holes + 1) / 2
        for (p = 0; p <= holes; p++) {
            for (h = 1; h <= holes; h++) printf "%d ", p * holes + h
            print 0
        }
        for (h = 1; h <= holes; h++)
            for (p = 0; p <= holes; p++)
                for (q = 0; q < p; q++) print -(p * holes + h), -(q * holes + h), 0
    }'
}

# Refutes $room/formula, if it can be, and reads what bin/hints writes.
try() {
    local status=0
    cadical -q --no-binary --plain "$room/formula" "$room/proof" >/dev/null || status=$?
    [ "$status" = 20 ] || return 0
    tried=$((tried + 1))
    bin/hints "$room/formula" "$room/proof" >"$room/refutation" || complain "$1: bin/hints ends with status $?"
    python3 "$room/read.py" "$room/formula" "$room/refutation" || complain "$1: no refutation"
}

for seed in 1 2 3 4 5 6 7 8 9 10 11 12; do
    random "$seed" 30 170 >"$room/formula"
    try "random $seed"
done
for holes in 1 2 3 4 5; do
    pigeons "$holes" >"$room/formula"
    try "pigeons $holes"
done
printf 'p cnf 2 3\n1 1 2 0\n-1 2 -1 0\n-2 0\n' >"$room/formula"
try "literals twice"
printf 'p cnf 2 4\n1 -1 0\n1 2 0 -2\n0 -1 2 0\n' >"$room/formula"
try "clauses over lines"
printf 'p cnf 1 1\n0\n' >"$room/formula"
try "a clause without literals"
[ "$tried" -ge 16 ] || complain "only $tried formulas were refuted"

# The last hint of a refutation is needed, so it can't be left out.
pigeons 3 >"$room/formula"
try "pigeons 3 again"
sed -i '/ d /!s/ [0-9]* 0$/ 0/' "$room/refutation"
if python3 "$room/read.py" "$room/formula" "$room/refutation" 2>/dev/null; then
    complain "a refutation without its last hints is taken"
fi

# What bin/hints refuses: a clause that doesn't follow, a proof that ends too early, and a file that isn't there.
refuses() {
    local status=0
    bin/hints "$room/formula" "$1" >/dev/null 2>"$room/said" || status=$?
    [ "$status" = 1 ] || complain "status $status, and not 1: $2"
    grep -q "$2" "$room/said" || complain "$(cat "$room/said"), and not: $2"
}
printf '1 0\n' >"$room/proof"
refuses "$room/proof" "doesn't follow"
: >"$room/proof"
refuses "$room/proof" "ends before"
printf '1 2' >"$room/proof"
refuses "$room/proof" "isn't closed"
refuses "$room/none" "No such file"

echo "refutations: $tried, wrong: $wrong"
[ "$wrong" = 0 ]
