# The part of a design that a fault of widths is about: reads a source, and prints the number of bytes before the part
# at `line` and `column`, the part's length in bytes, its kind (literal, number, block or part), whether it is an
# extension's number, and the low bit of a slice or 0. It prints nothing where this isn't plain. bin/findings calls it.
/^%%\r?$/ { exit }
FNR < line {
    bytes += length($0) + 1
    sub(/\/\/.*/, "")
    if (FNR > line - 20) front = front " " $0
}
FNR == line {
    text = substr($0, column)
    front = front " " substr($0, 1, column - 1)
    sub(/\/\/.*/, "", text)
}
END {
    sub(/[ \t\r]+$/, "", front)
    if (front ~ /(:|->|\.\.)$/ && front !~ /[A-Za-z_0-9]\[ *[0-9]+ *:$/ && front !~ /[{,] *[A-Za-z_0-9]+ *:$/) exit
    long = length_of(text, level_of(front))
    if (!long) exit
    part = substr(text, 1, long)
    kind = part ~ /^[0-9]+'[dhb][0-9a-fA-F]+$/ ? "literal" : part ~ /^[0-9]+$/ ? "number" : "part"
    if (part ~ /^\{/) kind = "block"
    low = substr(text, long + 1)
    low = match(low, /^[ \t]*:[ \t]*[0-9]+/) ? substr(low, 1, RLENGTH) : ""
    gsub(/[^0-9]/, "", low)
    print bytes + column - 1, long, kind, front ~ /(zext|sext) *\([^;]*,$/ ? "extended" : "-", low + 0
}
# The level of the operator at the end of a text, from 1 to 9, or 0.
function level_of(text) {
    if (text ~ /\+\+$/) return 6
    if (text ~ /(<<|>>|>>>)$/) return 7
    if (text ~ /[-+]$/) return 8
    if (text ~ /\*$/) return 9
    if (text ~ /[=!]=$/) return 4
    if (text ~ /(<|>|<=|>=)$/) return 5
    if (text ~ /&$/) return 3
    if (text ~ /\^$/) return 2
    return text ~ /\|$/ ? 1 : 0
}
# How long the operand at the beginning of a text is, after an operator of a level; 0 where its line ends first.
function length_of(text, level,    at, depth, operand, token) {
    while (at < length(text)) {
        match(substr(text, at + 1), /^([ \t]+|[0-9]+'[dhb][0-9a-fA-F]+|[A-Za-z_0-9]+|>>>|<<|>>|[<>=!]=|->|::|\+\+|.)/)
        token = substr(text, at + 1, RLENGTH)
        if (token ~ /^[ \t]/) { at += RLENGTH; continue }
        if (depth == 0 && token ~ /^[])},;:]$/) break
        if (depth == 0 && operand && level_of(token) && level_of(token) <= level) break
        if (depth == 0 && operand && (token == "{" && last != "::" || token ~ /^(then|else)$/)) break
        if (depth == 0 && operand && token ~ /^[A-Za-z_0-9]/ && last !~ /^(\.|::)$/) break
        if (depth == 0 && token == "if") return 0
        if (token ~ /^[[({]$/) depth++
        if (token ~ /^[])}]$/) depth--
        operand = token ~ /^[])}]$/ || token ~ /^[A-Za-z_0-9]/
        last = token
        at += RLENGTH
        end = at
    }
    return depth == 0 && end < length(text) ? end : 0
}
