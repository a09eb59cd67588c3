#!/usr/bin/env bash
# Measures what it costs to cut a text into tokens, for each byte: what `print` costs on a text of a megabyte, one line
# over and over, after a `;`, with which no design begins, so that all is cut and nothing parsed; less what it costs
# after a byte that begins no token, so that nothing is cut. The reading of the text and its cut at a line `%%` are not
# counted. It is run by hand.
set -eu
cd "$(dirname "$0")/.."
. bench/cost.sh
. bench/programs.sh

take_program

size=1048576

# That many bytes: a line over and over, up to the last whole one, and then blanks.
text() {
    awk -v line="$1" -v size="$2" 'BEGIN {
        for (piece = line; length(piece) < 65536; piece = piece line) {}
        for (left = size; left >= length(piece); left -= length(piece)) printf "%s", piece
        for (; left >= length(line); left -= length(line)) printf "%s", line
        for (; left > 0; left--) printf " "
    }'
}

echo "| text | answer | $of_run | $of_part per byte, the reading aside |"
echo "|---|---|---|---|"
while IFS='|' read -r what line; do
    text "$line" $((size - 1)) >"$room/text"
    { printf '#'; cat "$room/text"; } >"$room/uncut"
    { printf ';'; cat "$room/text"; } >"$room/cut"
    start=$(cost "$room/uncut" /dev/null "$program" print)
    taken=$(cost "$room/cut" "$room/answer" "$program" print)
    echo "| $what | $(head -n 1 "$room/answer") | $(columns "$taken" "$start" "$size") |"
done <<'TEXTS'
usual: a name, a symbol, a literal, a shift, a number, a comment|  count8 <= 8'hff >>> 12; // up\n
the counter|reg count : bits 8 = 8'd0;\n\nrule incr {\n    write0(count, read0(count) + 8'd1)\n}\n\nschedule {\n    incr;\n}\n
blanks|\040
comments|// a comment of sixty bytes, which says nothing of any design.\n
names of 64 bytes|a_name_that_is_as_long_as_names_may_be_and_has_sixty_four_bytes_\n
names of one byte, each before a blank|a\040
keywords|schedule\040
`;`|;
`-`|-
`::`|::
`<` and a blank|<\040
numbers of one digit, each before a blank|1\040
`a;`|a;
`a<`|a<
`1;`|1;
`if;`|if;
`1'b1;`|1'b1;
hexadecimal literals of 32 digits|128'h0123456789abcdef0123456789abcdef\040
decimal literals of 38 digits|128'd12345678901234567890123456789012345678\040
TEXTS
