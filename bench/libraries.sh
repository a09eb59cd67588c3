#!/usr/bin/env bash
# Measures what libraries cost, by tests of several sizes: the tokens of a text, its tree, the numbers of names, the
# nodes of a net and their evaluation (bench/costs/syntax_tests and library_tests). It proves and builds the tests in
# a copy of the tree if need be, and is run by hand.
set -eu
cd "$(dirname "$0")/.."
. bench/cost.sh
. bench/costs.sh

declare -A programs
programs[syntax_tests]=$(measuring syntax_tests)
programs[library_tests]=$(measuring library_tests)

echo "| what | how many | $of_run | $of_part for each, the making of them included |"
echo "|---|---|---|---|"
while IFS=: read -r crate what many module test; do
    taken=$(cost /dev/null /dev/null "${programs[$crate]}" "$module::$test")
    echo "| $what | $many | $(columns "$taken" 0 "$many") |"
done <<'TESTS'
syntax_tests:bytes of a text, cut into tokens:262144:costs:a_quarter_of_a_megabyte
syntax_tests:bytes of a text, cut into tokens:524288:costs:half_a_megabyte
syntax_tests:bytes of a text, cut into tokens:1048576:costs:a_megabyte
syntax_tests:bytes of a chain of 250,000 operands, cut and parsed:1000025:costs:operands_are_read
syntax_tests:bytes of 60,000 statements, cut and parsed:900024:costs:statements_are_read
syntax_tests:bytes of 100,000 declarations, cut and parsed:900012:costs:declarations_are_read
library_tests:names, each added and found:25000:name_costs:twenty_five_thousand_names
library_tests:names, each added and found:50000:name_costs:fifty_thousand_names
library_tests:names, each added and found:100000:name_costs:a_hundred_thousand_names
library_tests:nodes, each tested and added:100000:circuit_costs:a_hundred_thousand_nodes
library_tests:nodes, each tested and added:200000:circuit_costs:two_hundred_thousand_nodes
library_tests:nodes, each tested, added and simplified:100000:circuit_costs:a_hundred_thousand_nodes_made_simpler
library_tests:nodes, each tested, added and simplified:200000:circuit_costs:two_hundred_thousand_nodes_made_simpler
library_tests:nodes of 64 bits, evaluated:1000000:circuit_costs:a_thousand_steps_at_64_bits
library_tests:nodes of 128 bits, evaluated:1000000:circuit_costs:a_thousand_steps_at_128_bits
TESTS

# The kilobytes that a test takes at most.
memory() {
    command time -o "$room/memory" -f %M "${programs[library_tests]}" "circuit_costs::$1" >/dev/null
    tail -n 1 "$room/memory"
}

echo
echo "A net of 200,000 nodes takes at most $(memory two_hundred_thousand_nodes) KB, the program and the list that it is made of included, and" \
    "$(memory two_hundred_thousand_nodes_made_simpler) KB while it is simplified."
