#!/usr/bin/env bash
# Tries bin/conflicts: its table and its picture of notes that are given, what it refuses, and that each line `may` of
# `lint` on the stored designs is in both. It is run by hand. Other programs than the built one may be named:
#
#     bench/conflicts.sh [LAB_PROGRAM]
#
# Graphviz's `dot` is needed for the picture itself; without it this part is left out, and it says so.
set -eu
cd "$(dirname "$0")/.."

. bench/programs.sh
take_lab "${1-}"
room=$(mktemp -d)
trap 'rm -rf "$room"' EXIT
wrong=0 tried=0

is() {
    tried=$((tried + 1))
    [ "$2" = "$3" ] && return
    wrong=$((wrong + 1))
    echo "wrong: $1:"
    diff <(echo "$3") <(echo "$2") | head -n 6 || true
}

# A program that writes the notes in $room/given and ends with the status in $room/status.
cat >"$room/noter" <<END
#!/bin/sh
[ "\$*" = lint ] || exit 9
cat >"$room/read"
cat "$room/given"
exit \$(cat "$room/status")
END
chmod +x "$room/noter"
echo 0 >"$room/status"
printf 'rule a { } schedule { a; }\n' >"$room/design"
printf 'k=1\n' >"$room/stimulus"

cat >"$room/given" <<'NOTES'
size rule a weight 3 depth 3
size rule b weight 30 depth 3
size rule watch weight 7 depth 4
size rule idle weight 7 depth 4
size rule spare weight 7 depth 4
size rule alone weight 7 depth 4
unscheduled spare at 3:6
never idle at 2:6
own b x w0
may b a x r0,w0 w0,w1
may b a count w0 r2
may watch b x r0 w0
assert watch may be refused
assert watch may be untried
unread x at 1:5
NOTES
conflicts() {
    status=0
    KOIKA="$room/noter" bin/conflicts "$@" >"$room/out" 2>"$room/err" || status=$?
}
conflicts --text "$room/design"
is "the table" "$(cat "$room/out")" "\
rule   may be refused after  for    which does  by its own
b      a                     x      w0,w1       r0,w0
b      a                     count  r2          w0
watch  b                     x      w0          r0
rule spare is not scheduled
rule idle never fires
assert watch may be refused
assert watch may be untried"
conflicts --dot "$room/design" "$room/stimulus"
is "the picture" "$(cat "$room/out")" 'digraph conflicts {
  node [shape=box];
  "a";
  "b";
  "watch" [peripheries=2, color=red];
  "idle" [style=dashed];
  "spare" [style=dotted];
  "a" -> "b" [label="x w0,w1 > r0,w0\ncount r2 > w0"];
  "b" -> "watch" [label="x w0 > r0"];
}'
is "the source" "$(cat "$room/read")" "$(cat "$room/design"; echo %%; cat "$room/stimulus")"
if command -v dot >/dev/null; then
    conflicts --svg "$room/design"
    is "arrows of the picture" "$(grep -c 'class="edge"' "$room/out")" 2
    is "rules of the picture" "$(grep -c 'class="node"' "$room/out")" 5
    conflicts "$room/design"
    is "without a choice" "$(grep -c '<svg' "$room/out")" 1
else
    echo "skipped: dot isn't installed"
fi

# Without `dot` it is a table, and --svg is refused.
mkdir "$room/tools"
for tool in sh awk cat dirname mktemp rm sed; do ln -s "$(command -v $tool)" "$room/tools/$tool"; done
PATH="$room/tools" KOIKA="$room/noter" bin/conflicts "$room/design" >"$room/out" 2>"$room/err" || true
is "without dot" "$(head -n 1 "$room/out")" "rule   may be refused after  for    which does  by its own"
is "without dot, it says so" "$(cat "$room/err")" "conflicts: Graphviz's dot isn't installed, so this is a table"
status=0
PATH="$room/tools" KOIKA="$room/noter" bin/conflicts --svg "$room/design" >"$room/out" 2>"$room/err" || status=$?
is "--svg without dot" "$status" 1

# Notes without a conflict, and a design that is refused.
echo 'size rule a weight 1 depth 1' >"$room/given"
conflicts --text "$room/design"
is "no conflict" "$(cat "$room/out")" "no rule may be refused by another one"
echo 'fault 11 at 2:1' >"$room/given"
echo 2 >"$room/status"
conflicts --dot "$room/design"
is "a design that is refused" "$status $(cat "$room/out")" "2 fault 11 at 2:1"

for words in "" "--text" "--text --dot $room/design" "--png $room/design" "a b c" "$room/none"; do
    # shellcheck disable=SC2086 # words
    conflicts $words
    is "the words $words" "$status" 1
done

# Of each stored design the table and the picture have what `lint` writes.
for design in examples/*.koika; do
    "$lab" lint <"$design" | sed -n 's/^may //p' | sort >"$room/may"
    KOIKA="$lab" bin/conflicts --text "$design" |
        awk '$1 != "rule" && $1 != "assert" && NF == 5 { print $1, $2, $3, $5, $4 }' | sort >"$room/table"
    is "the table of $design" "$(cat "$room/table")" "$(cat "$room/may")"
    KOIKA="$lab" bin/conflicts --dot "$design" | awk '
        / -> / {
            gsub(/[";]/, "")
            earlier = $1
            later = $3
            sub(/.*label=/, "")
            sub(/\]$/, "")
            count = split($0, lines, /\\n/)
            for (k = 1; k <= count; k++) { split(lines[k], part, " "); print later, earlier, part[1], part[4], part[2] }
        }' | sort >"$room/arrows"
    is "the picture of $design" "$(cat "$room/arrows")" "$(cat "$room/may")"
done

echo "tried: $tried, wrong: $wrong"
[ "$wrong" = 0 ]
