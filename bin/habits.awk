# What people used to other languages mean by the text at a fault, if that is plain: reads a source, and prints a hint
# for the fault `number` at `line` and `column`. bin/explain calls it.

# The design's declarations, and the text before and at the fault.
!ended && /^%%\r?$/ { ended = FNR; if (FNR == line && column == 1 && number < 20) at_end = 1 }
{
    plain = $0
    sub(/\/\/.*/, "", plain)
    if (FNR == line) text = at_end ? "" : $0
    if (ended) next
    if (FNR < line) {
        earlier = earlier " " plain
        if (length(earlier) > 4000) earlier = substr(earlier, length(earlier) - 2000)
        if (plain ~ /^[ \t]*schedule/) scheduled = 1
    }
    declare(plain)
    if (FNR < line) open += gsub(/\{/, "{", plain) - gsub(/\}/, "}", plain)
}
END {
    at = substr(text, column)
    sub(/\r$/, "", at)
    byte = substr(at, 1, 1)
    front = substr(text, 1, column - 1)
    joined = front ~ /[ \t]$/ ? "" : front          # the text that the fault follows without a blank
    open += gsub(/\{/, "{", front) - gsub(/\}/, "}", front)
    front = earlier " " front
    gsub(/[ \t\r]+/, " ", front)
    sub(/ $/, "", front)
    if (front ~ /(^|[ ;}])schedule ?\{/) scheduled = 1
    last = substr(front, length(front))
    match(at, /^[A-Za-z_][A-Za-z_0-9]*/)
    word = RLENGTH > 0 ? substr(at, 1, RLENGTH) : ""
    after = substr(at, length(word) + 1)
    before = last_word(front)
    inner = innermost(front)
    bracket = inner ? substr(front, inner, 1) : ""
    caller = inner ? last_word(trimmed(substr(front, 1, inner - 1))) : ""
    if (number == 10) said = byte_hint()
    else if (number == 11) said = scheduled ? schedule_hint() : token_hint()
    else if (number == 13) said = range_hint()
    else if (number == 20) said = name_hint()
    else if (number == 21) said = again_hint()
    else if (number == 22) said = type_hint()
    else if (number == 23) said = width_hint()
    else if (number == 24) said = member_hint()
    else if (number == 27) said = "a path of the schedule tries a rule once; after a `try` it may be in both branches"
    else if (number == 28) said = entries_hint()
    else if (number == 29) said = host_hint()
    else if (number >= 30 && number <= 32) said = stimulus_hint()
    else if (number == 54) said = circuit_hint()
    else if (number == 80 && text ~ /^%%\r?$/)
        said = "the parts are a design, a stimulus and a journal, with two lines `%%` between them"
    else if (number == 90) said = rules_hint()
    if (said != "") print said
}

# Notes the declarations of a line: what each name is, where it is declared, and for types, registers and tables the
# text up to their end.
function declare(plain,    seen, words, k, name) {
    while (plain != "") {
        if (rest_of != "") {
            if (!match(plain, rest_ends)) { add_rest(plain); return }
            add_rest(substr(plain, 1, RSTART - 1))
            rest_of = ""
        } else {
            if (!match(plain, /(^|[ \t;{}])(reg|fun|rule|table|host|enum|struct|input)[ \t]+[A-Za-z_0-9]+/)) return
            k = split(substr(plain, RSTART, RLENGTH), words, /[ \t;{}]+/)
            name = words[k]
            if (!(name in kind)) {
                kind[name] = words[k - 1]
                declared[name] = FNR
                is_above[name] = FNR < line || FNR == line && seen + RSTART < column
                if (words[k - 1] == "rule") rules = rules (rules == "" ? "" : ", ") name
                if (words[k - 1] ~ /enum|struct|table/) { rest_of = name; rest_ends = "}" }
                if (words[k - 1] ~ /reg|input/) { rest_of = name; rest_ends = "[=;{}]" }
            }
        }
        seen += RSTART + RLENGTH - 1
        plain = substr(plain, RSTART + RLENGTH)
    }
}
# Adds to the text of a declaration, of a table its entries' count alone.
function add_rest(plain) {
    if (kind_of(rest_of) == "table") {
        if (match(plain, /->[ \t]*bits[ \t]*[0-9]+/)) {
            said_of[rest_of] = said_of[rest_of] substr(plain, 1, RSTART)
            plain = substr(plain, RSTART + RLENGTH)
        } else if (!(rest_of in entries)) { said_of[rest_of] = said_of[rest_of] plain; return }
        entries[rest_of] += gsub(/[0-9]+'/, "&", plain)
    } else if (length(said_of[rest_of]) < 2000) said_of[rest_of] = said_of[rest_of] " " plain
}
# The names before `=` or `:` in an enum's or a struct's text.
function names_of(type,    parts, count, k, list, name) {
    count = split(substr(said_of[type], index(said_of[type], "{") + 1), parts, ",")
    for (k = 1; k <= count; k++) {
        name = parts[k]
        sub(/[:=].*/, "", name)
        list = list (k > 1 ? ", " : "") trimmed(name)
    }
    return list
}

# 2 to that power; some awks have no operator for it.
function power(bits,    value) {
    for (value = 1; bits > 0; bits--) value *= 2
    return value
}
# What a name is, or nothing.
function kind_of(name) { return name in kind ? kind[name] : "" }
function trimmed(text) { sub(/^[ \t]+/, "", text); sub(/[ \t]+$/, "", text); return text }
function last_word(text) { match(text, /[A-Za-z_][A-Za-z_0-9]*$/); return RLENGTH > 0 ? substr(text, RSTART) : "" }
function at_number(text) { match(text, /^[0-9]+/); return substr(text, 1, RLENGTH) }
# Where the last bracket is that is open at the end of a text, or 0.
function innermost(text,    k, byte, closed) {
    for (k = length(text); k > 0; k--) {
        byte = substr(text, k, 1)
        if (byte ~ /[])}]/) closed++
        else if (byte ~ /[[({]/ && closed-- == 0) return k
    }
    return 0
}
function is_keyword(word) {
    return word ~ /^(reg|input|enum|struct|table|host|fun|rule|schedule|try|then|else|if|let|bits|unit|assert)$/ ||
        word ~ /^(abort|pack|unpack|update|zext|sext|slt|sle|sgt|sge|read[0-3]|write[0-3])$/
}
# Whether a local name is bound before the fault.
function is_local(name) {
    return front ~ ("(^|[ ;{])let " name " ?=") || front ~ ("(^|[ ;}])fun [A-Za-z_0-9]+ ?\\(([^)]*[ ,])?" name " ?:")
}
# Whether a value may end there.
function ends_value(text) { return text ~ /[])}A-Za-z_0-9]$/ && !is_keyword(last_word(text)) }

function byte_hint() {
    if (text ~ /^\357\273\277/ && column == 1)
        return "the file begins with a byte order mark: save it without one"
    if (joined ~ /[0-9]'[bdh]$/ && byte ~ /[_xXzZ?]/) return "a literal has digits alone: no `_`, `x` or `z`"
    if (joined ~ /[0-9]'b$/ && byte ~ /[2-9]/) return "a binary literal has the digits 0 and 1"
    if (joined ~ /[0-9]'d$/ && byte ~ /[a-fA-F]/) return "a literal of hexadecimal digits has the base `h`"
    if (joined ~ /[0-9]'h$/ && byte ~ /[g-zG-Z]/) return "hexadecimal digits are 0 to 9 and a to f"
    if (joined ~ /[0-9]'[bdh]?$/ && byte ~ /[ \t]/) return "a literal has no blanks: `8'd5`"
    if (joined ~ /[0-9]'$/ && byte ~ /[sS]/)
        return "no value is signed: `slt`, `sgt`, `sext` and `>>>` take bits as signed"
    if (joined ~ /[0-9]'$/ && byte ~ /[DHB]/) return "the base is a small letter: `d`, `h` or `b`"
    if (joined ~ /[0-9]'$/) return "the base is `d`, `h` or `b`"
    if (byte == "\"" || byte == "!" && before ~ /^(print|println|assert|panic|format|dbg|assert_eq)$/)
        return "nothing is printed by a rule: the report has a line for each cycle, with each register"
    if (byte == "!" && after_byte() == "=") return "unequal is `a != b`"
    if (byte == "!") return "`not` is `~a`, unequal is `a != b`"
    if (byte == "?") return "a choice is `if c { a } else { b }`"
    if (byte == "/" && after_byte() == "*") return "a comment is `// ..`"
    if (byte == "/") return "a comment is `// ..`, and there is no division"
    if (byte == "'") return "a literal has its width first: `8'd5`"
    if (byte == "%" && text ~ /^[ \t]*%%/) return "a line `%%` has nothing else on it"
    if (byte == "%") return "there is no remainder: cut bits for a power of 2, as in `a[2:0]`"
    if (byte == "`") return "there are no macros: a constant is `fun limit() : bits 8 { 8'd200 }`"
    if (byte == "@") return "there is one clock, and what a cycle does is a rule: `rule a { .. }`"
    if (byte == "#" && front ~ /^[ \t]*$/) return "a comment is `// ..`"
    if (byte == "#") return "there are no delays and no parameters"
    if (byte == "$") return "there are no system tasks: the report has a line for each cycle"
    if (byte == "\\") return "there are no lambdas and no escaped names"
}
function after_byte() { return substr(at, 2, 1) }

function range_hint(    width) {
    if (at ~ /^[0-9]+'/) {
        width = at_number(at) + 0
        if (width < 1 || width > 128) return "a width is 1 to 128; a wider value is several registers, or a table"
        if (width <= 31) return "the greatest value of " width " bits is " power(width) - 1
        return "the value needs more than " width " bits"
    }
}

function schedule_hint() {
    if (open == 0 && byte == ";") return "there is no `;` after the schedule"
    if (open == 0 && before == "schedule") return "the schedule has braces: `schedule { a; b; }`"
    if (word == "else" && front !~ / then ?\{[^{}]*\}$/ && open > 0) return "a `}` is missing before it"
    if (open == 0) return "the schedule is last: declarations come before it, a stimulus after a line `%%`"
    if (at == "") return "a `}` is missing"
    if (front ~ /(^|[ {;])try [A-Za-z_0-9]+( then ?\{ ?\})?$/ || front ~ / then ?\{[^{}]*\}$/ && word != "else")
        return "a choice is `try a then { .. } else { .. }`"
    if (before ~ /^(then|else)$/) return "a branch has braces: `try a then { b; } else { }`"
    if (last == "}" && byte == ";") return "there is no `;` after a `try`"
    if (last == "}") return "a `try` is the last item of its braces: what follows goes into both branches"
    if (word == "if") return "a schedule has no `if`: a rule aborts where it has nothing to do"
    if (before != "" && byte ~ /[,}()|>&+]/ || byte == "[" || word != "" && last != "{" && last != ";")
        return "each rule here ends with `;`: `schedule { a; b; }`"
    if (is_keyword(word)) return "`" word "` is a keyword, and here is a rule's name"
}

function token_hint(    said) {
    if (at == "" && open > 0) return "a `}` is missing"
    if (at == "") return "a design ends with its schedule: `schedule { a; b; }`"
    if (joined ~ /[0-9]'[bdh][0-9a-fA-F]+$/ && word ~ /^[_xXzZ]/)
        return "a literal has digits alone: no `_`, `x` or `z`"
    if (before == "schedule") return "the schedule has braces: `schedule { a; b; }`"
    if (before == "assert" || front ~ /(^|[ ;}])assert [A-Za-z_0-9]+$/ && byte != ";")
        return "`assert` takes a rule that must not fire: `rule bad { if ok { abort } }`, `assert bad;`"
    if (before ~ /^(reg|input|rule|fun|enum|struct|let|table|host)$/ && is_keyword(word))
        return "`" word "` is a keyword, and no name"
    if (before ~ /^(reg|input|rule|fun|enum|struct|let|table|host)$/ && byte ~ /[:=({]/)
        return "a name is missing before it"
    if (word == "begin" || word ~ /^end/) return "blocks are in braces: `{ .. }`"
    if (open == 0 && (front == "" || last == ";" || last == "}") && word != "") return declaration_hint()
    if (word == "assert" && open > 0)
        return "an assertion is a rule of its own: `rule bad { if ok { abort } }`, `assert bad;`"
    if (word ~ /^(reg|input|enum|struct|table|host|fun|rule|schedule|assert)$/) {
        if (word ~ /^(reg|input)$/ && caller_is_fun())
            return "a register is no parameter: a function reads it by its name, `read0(r)`"
        if (open > 0) return "a `}` is missing before it"
        if (last ~ /[])A-Za-z_0-9]/) return "a `;` is missing before it"
    }
    if (front ~ /(^|[^A-Za-z_0-9])(for|while|repeat)( ?\([^{};]*)?$/)
        return "there are no loops: write each item, or let a script do so (docs/GENERATING.md)"
    if (front ~ /(^|[^A-Za-z_0-9])(case|casez|switch|match)( [^{};]*| ?\([^{};]*\))?$/)
        return "there is no `case`: write `if a == b { .. } else if a == c { .. }`"
    said = shape_hint()
    if (said == "") said = call_hint()
    if (said == "") said = literal_hint()
    if (said == "") said = operator_hint()
    if (said == "") said = expression_hint()
    return said
}
# Whether the fault is among the parameters of a function's declaration.
function caller_is_fun() { return bracket == "(" && substr(front, 1, inner) ~ /(^|[ ;}])fun [A-Za-z_0-9]+ ?\($/ }

# The shapes of declarations.
function shape_hint() {
    if (open > 0 && front !~ /(^|[ ;}])(enum|struct|table) [^}]*$/) return ""
    if (front ~ /(^|[ ;}])reg [^=]*=$/ && byte == ";") return "a first value is missing: `reg r : bits 8 = 8'd0;`"
    if (front ~ /(^|[ ;}])enum [A-Za-z_0-9]+ ?: ?bits [0-9]+$/)
        return "the members are in braces: `{ A = 1'd0, B = 1'd1 }`"
    if (front ~ /(^|[ ;}])(enum|struct) [^{}]*\{[^}]*[A-Za-z_0-9]$/ && word != "" && before != "bits")
        return "a `" (word == "bits" ? ":" : ",") "` is missing before it"
    if (front ~ /(^|[ ;}])enum [^{}]*\{[^}]*$/ && byte == "=") return "a member's name is missing before it"
    if (before ~ /^(reg|input)$/ && byte == "[") return "the type follows the name: `r : bits 8`"
    if (before ~ /^(bit|Bit|u?int|UInt|SInt|logic)$/ && byte ~ /[[<(#]/) return "bits are `bits 8`"
    if (before == "bits") return "a width is a number without brackets: `bits 8`"
    if (front ~ /(^|[ ;}])reg [A-Za-z_0-9]+ ?: ?[^=;]*[]A-Za-z_0-9]$/ && (byte == "<" || byte == ":"))
        return "a first value follows `=`: `reg r : bits 8 = 8'd0;`"
    if (front ~ /(^|[ ;}])reg [A-Za-z_0-9]+ ?: ?[A-Za-z_0-9]+$/ && word != "" && before != "bits")
        return "a `=` is missing before it"
    if (front ~ /(^|[ ;}])reg [A-Za-z_0-9]+$/)
        return "a register has a type and a first value: `reg r : bits 8 = 8'd0;`"
    if (front ~ /(^|[ ;}])input [A-Za-z_0-9]+$/) return "each input is declared by itself: `input a : bits 8;`"
    if (front ~ /(^|[ ;}])input [A-Za-z_0-9]+ ?:[^;]*$/ && byte == "=")
        return "an input has no first value: the stimulus gives its values"
    if (last == ":" && at ~ /^[0-9]/) return "bits are `bits 8`"
    if (front ~ /bits [0-9]+$/ && byte == "[" || front ~ /: ?\[[^];=]*$/ && at ~ /^[0-9]/)
        return "an array is `[bits 8; 4]`"
    if (front ~ /(^|[ ;}])reg [^=;]*(; ?[0-9]+ ?\])?$/ && byte == ";")
        return "a register has a first value: `reg r : bits 8 = 8'd0;`"
    if (front ~ /(^|[ ;}])reg [^=;[]*= ?[0-9]+'[a-z0-9A-F]+$/ && byte == ",")
        return "each register is declared by itself"
    if (front ~ /(^|[ ;}])reg [^=;]*(;[^=;]*)?= ?[A-Za-z_0-9]+$/ && byte ~ /[.;]/)
        return "a member is `Type::Member`"
    if (front ~ /(^|[ ;}])reg [^=;]*(;[^=;]*)?= ?[A-Za-z_0-9]+$/ && byte == "{")
        return "a struct's first value is `S::{ f: 8'd0 }`"
    if (front ~ /(^|[ ;}])reg [^=]*= ?\[[^]=]*$/ && byte == ";")
        return "an array's items are listed: `[8'd0, 8'd0]`"
    if (front ~ /(^|[ ;}])reg [^=;]*(;[^=;]*)?=[^;{]*$/ && byte !~ /[];}]/ && at !~ /^[0-9]/)
        return "a first value has literals and members alone"
    return shape_hint_2()
}
function shape_hint_2() {
    if (front ~ /(^|[ ;}])rule [A-Za-z_0-9]+$/)
        return "a rule is `rule a { .. }`, and its guard `if ~c { abort };`"
    if (front ~ /(^|[ ;}])fun [A-Za-z_0-9]+ ?\(([^)]*,)? ?[A-Za-z_0-9]+$/)
        return "a parameter has its type after its name: `a : bits 8`"
    if (front ~ /(^|[ ;}])fun [A-Za-z_0-9]+ ?\([^)]*\)$/)
        return "the result's type is missing: `fun f(a : bits 8) : bits 8 { .. }`, or `: unit`"
    if (front ~ /(^|[ ;}])fun [A-Za-z_0-9]+ ?\([^)]*\) ?: ?(bits [0-9]+|[A-Za-z_0-9]+)$/ && before != "bits")
        return "a function's body is in braces"
    if (front ~ /(^|[ ;}])(fun [A-Za-z_0-9]+ ?\(|struct [A-Za-z_0-9]+ ?\{)([^)}]*,)?$/ && word == "bits")
        return "the type follows the name: `a : bits 8`"
    if (front ~ /(^|[ ;}])struct [A-Za-z_0-9]+ ?\{[^}]*$/ && byte == ";") return "there are commas between fields"
    if (front ~ /(^|[ ;}])table [^{}]*\{[^}]*$/ && byte == ";") return "there are commas between entries"
    if (front ~ /(^|[ ;}])table [^{}]*$/) return "a table is `table t : bits 1 -> bits 8 { 8'd3, 8'd5 }`"
    if (front ~ /(^|[ ;}])host [^;]*$/) return "a host function is `host popcount : bits 8 -> bits 4;`"
    if (front ~ /(^|[ ;}])enum [A-Za-z_0-9]+$/)
        return "an enum has a width: `enum E : bits 1 { A = 1'd0, B = 1'd1 }`"
    if (front ~ /(^|[ ;}])enum [A-Za-z_0-9]+ ?:[^}=]*(=[^,]*,[^=}]*)*$/ && byte ~ /[,}]/ && last != ",")
        return "each member has a value: `A = 1'd0`"
    if (byte == ";" && last == "}") return "there is no `;` after a declaration"
}
# Calls and brackets.
function call_hint() {
    if (last == "(" && caller ~ /^(read[0-3]|write[0-3])$/)
        return "a register's name comes first: `" caller "(r" further(caller) ")`"
    if (caller ~ /^write[0-3]$/ && bracket == "(" && byte ~ /[.[]/ && front ~ /write[0-3] ?\( ?[A-Za-z_0-9]+$/)
        return "a register is written whole: an item or field by `update(read0(r), f, value)`, bits by `++`"
    if (caller ~ /^read[0-3]$/ && bracket == "(" && byte !~ /[.[]/ && front ~ /read[0-3] ?\( ?[A-Za-z_0-9]+$/)
        return "a `)` is missing before it"
    if (byte ~ /[,)]/ && before ~ /^(read|write)[0-3][A-Za-z_]/)
        return "a `(` is missing after `" substr(before, 1, before ~ /^r/ ? 5 : 6) "`"
    if (byte == "," && bracket == "(" && caller == "" && substr(front, inner - 1, 1) !~ /[A-Za-z_0-9]/)
        return "parentheses hold one value; a call has its name before them"
    if (caller ~ /^read[0-3]$/ && bracket == "(" && byte ~ /[.[]/)
        return "the whole register is read: `read0(r)[2]`, `read0(r).f`"
    if (caller ~ /^write[0-3]$/ && byte == ")" && front ~ /write[0-3] ?\( ?[A-Za-z_0-9]+$/)
        return "a write has a register and a value: `" caller "(" before ", value)`"
    if (caller ~ /^(zext|sext)$/ && bracket == "(" && byte == ")")
        return "the wanted width is missing: `" caller "(a, 16)`"
    if (caller ~ /^(zext|sext)$/ && bracket == "(" && last ~ /[(,]/ && (at ~ /^[0-9]/ || last == "," && word != ""))
        return "first the value, then the wanted width as a number: `" caller "(a, 16)`"
    if (before ~ /^(read[0-3]|write[0-3]|pack|zext|sext)$/ && byte != "(" && last != ".")
        return "`" before "` has parentheses: `" before "(r" further(before) ")`"
    if (byte == ")" && caller ~ /^(slt|sle|sgt|sge)$/) return "it compares two values: `" caller "(a, b)`"
    if (byte ~ /[])}]/ && last == ",") return "there is no comma after the last item"
    if (bracket == "[" && ends_value(substr(front, 1, inner - 1)) && front ~ /\[( ?[0-9]+ ?:)?$/)
        return "an index is a number; an item at a computed index is picked by `if`s, by a table or by a shift"
    if (bracket == "[" && byte == "." && front ~ /[0-9]$/ || bracket == "[" && at ~ /^[-+]?:/ && front !~ /[0-9]$/)
        return "a slice is `a[7:4]`, the high bit first"
    if (bracket == "[" && byte == ";")
        return at ~ /^; ?[0-9]/ ? "an array's items are listed: `[8'd0, 8'd0]`" : "a `]` is missing before it"
    if (bracket == "(" && byte ~ /[;{}]/ && ends_value(front)) return "a `)` is missing before it"
    if (bracket == "[" && byte ~ /[;{})]/ && ends_value(front)) return "a `]` is missing before it"
    if (bracket == "{" && byte ~ /[])]/ && ends_value(front))
        return "a `" (byte == ")" ? "(" : "[") "` is missing, or this is one too many"
}
# What comes after the first argument of a read, a write or an extension.
function further(call) { return call ~ /^write/ ? ", value" : call ~ /ext$/ ? ", 16" : "" }
# Numbers and literals.
function literal_hint() {
    if (joined ~ /[0-9]'[bdh][0-9a-fA-F]+$/ && byte ~ /[0-9A-Za-z]/) return "a digit isn't one of the literal's base"
    if (at ~ /^[0-9]+'/ && last ~ /[])A-Za-z_0-9]/ && !is_keyword(before))
        return "an operator, a `,` or a `=` is missing before it"
    if (at ~ /^[0-9]+[dhb][0-9a-fA-F]/) return "a literal has an apostrophe before its base: `8'd5`"
    if (last == "{" && at ~ /^[0-9]+ ?\{/) return "bits are repeated by `a ++ a`, or by `sext(a, 8)` for one bit"
    if (match(at, /^0x[0-9a-fA-F]+/))
        return "a value is written with its width: `8'h" substr(at, 3, RLENGTH - 2) "`"
    if (at ~ /^0b[01]/) return "a value is written with its width: `8'b" at_binary() "`"
    if (at ~ /^[0-9]+'/) return
    if (at ~ /^[0-9]/) return "a value is written with its width: `8'd" at_number(at) "`"
}
function at_binary() { match(at, /^0b[01]+/); return substr(at, 3, RLENGTH - 2) }
# Operators that are written in another way.
function operator_hint() {
    if (word ~ /^(and|or|not|xor)$/ || before ~ /^(and|or|not|xor)$/ && !is_local(before))
        return "operators are `&`, `|`, `~`, `^`"
    if (byte == "&" && last == "&" || byte == "|" && last == "|")
        return "there is one `" byte "`, on bits of every width"
    if (byte ~ /[&|^]/ && (last ~ /[(,=~{&|^]/ || before ~ /^(if|else|return)$/))
        return "no operator joins a value's own bits: write `a == 8'hff`, `a != 8'd0`, or `parity` for `^`"
    if (byte == "=" && last == "=" || byte == "=" && front ~ /!=$/) return "equal is `==`, unequal `!=`"
    if (byte == ">" && last == "<") return "unequal is `!=`"
    if (byte == "<" && front ~ /<<$/) return "a shift is `<<`, `>>`, or `>>>` with the sign"
    if (byte == "*" && last == "*") return "there are no powers: a power of 2 is a shift"
    if (word == "if" && last ~ /[-+*&|^=<>~]/)
        return "an `if` is no operand: put it in parentheses, or bind it by `let`"
    if (word == "as") return "a value gets more bits by `zext(a, 16)`, and is cut by `a[7:0]`"
    if (byte == ":" && after_byte() == "=") return written()
    if (byte == "=" && last ~ /[-+*&|^]/) return written()
    if (byte ~ /[;}]/ && front ~ /(\+\+|--)$/)
        return "`++` joins bits; a register is counted up by `write0(r, read0(r) + 8'd1)`"
    if (byte == "=" && after_byte() == "=") return
    if (byte == "=" && front ~ /(^|[^A-Za-z_0-9])if[^A-Za-z_0-9][^;{]*$/) return "a test is `==`"
    if (byte == "=" && ends_value(front)) return written()
}
# What stands for an assignment to the name before the fault.
function written(    name, operator) {
    name = front
    if (name ~ /[A-Za-z_0-9)]\[[^][]*\]$/)
        return "a register is written whole: an item by `update(read0(r), 2, value)`, bits by `++`"
    operator = match(name, /[-+*&|^]$/) ? substr(name, RSTART) : ""
    sub(/ ?[-+*&|^]$/, "", name)
    name = last_word(name)
    if (name != "" && is_local(name) && kind_of(name) != "reg")
        return bound_again(name, operator == "" ? "value" : name " " operator " value")
    if (operator != "") return "a register is written by `write0(r, read0(r) " operator " 8'd1)`"
    return "a register is written by `write0(r, value)`, a name is bound by `let v = value;`"
}
function bound_again(name, value) {
    return "a `let` binds a name once: bind it again by `let " name " = " value ";`"
}
# What else is in a block.
function expression_hint() {
    if (front ~ /(^|[ ;{])let [A-Za-z_0-9]+$/ && byte == ":") return "a `let` has no type: `let a = b;`"
    if (open > 0 && word != "" && front ~ /(^|[ ;{])(var|mut|auto|const|logic|wire|bit|int|reg|let [A-Za-z_0-9]+)$/)
        return "a name is bound by `let a = b;`, once"
    if (front ~ /(^|[ ;{])let [A-Za-z_0-9]+ ?=[^;]*[^;]$/ && byte == "}") return "a `let` ends with `;`"
    if (byte == ";" && last ~ /[;{]/) return "there is a `;` too many"
    if (byte == "," && front ~ /[(,=+*&|^~<>-] ?\{[^{};]*$/) return "bits are joined by `a ++ b`"
    if (before == "else") return "an arm has braces: `else { .. }`"
    if (word == "else" && front ~ /\} ?;$/) return "there is no `;` before `else`"
    if (word == "else") return "a `}` is missing before it"
    if (byte == "{" && last == "}" && open > 0) return "an `else` or a `;` is missing before it"
    if (byte == "{" && bracket == "{" && ends_value(front)) return "an `if` is missing before the condition"
    if (last == "." && word ~ /^(zext|sext|pack|unpack)$/)
        return "`" word "` is written before its value: `" word "(a" further(word) ")`"
    if (last == "." && word == "") return "a field's name is missing before it"
    if (last == ".") return "ports are `read0(r)` to `read3(r)` and `write0(r, value)` to `write3(r, value)`"
    if (word == "bits" && bracket != "")
        return "a value has its width in its literal or its declaration; it is widened by `zext(a, 16)`"
    if (joined != "" && word != "" && ends_value(front)) return "an operator is missing before it"
    if (front ~ /(^|[^A-Za-z_0-9])if[^A-Za-z_0-9][^;{}]*$/ && (word != "" || byte == ";") && ends_value(front))
        return "an arm has braces: `if c { .. }`"
    if (before == "return") return "the last expression of a block, without `;`, is its value"
    if (last == "}" && (word != "" || byte == "("))
        return "an `if` or a block in the middle of a block ends with `;`"
    if (word == "" || last !~ /[])A-Za-z_0-9]/ || is_keyword(before)) return
    if (bracket == "{" && substr(front, 1, inner - 1) ~ /:: ?$/) return "a `,` is missing before it"
    return bracket == "{" ? "a `;` is missing before it" : "a `)`, a `,` or an operator is missing before it"
}
function declaration_hint() {
    if (word ~ /^(module|endmodule|package|interface|class|import|use|include)$/)
        return "there are no modules: a file is one flat design"
    if (word ~ /^(always.*|initial)$/)
        return "what a cycle does is a rule: `rule a { .. }`; a first value is the register's"
    if (word ~ /^(assign|wire)$/) return "a value without a register is a function: `fun f() : bits 8 { .. }`"
    if (word ~ /^(logic|integer|bit|int|var|Reg|register|static)$/) return "a register is `reg r : bits 8 = 8'd0;`"
    if (word == "output") return "there are no outputs: the report shows each register"
    if (word ~ /^(clock|clk|reset)$/)
        return "there is one clock, which isn't declared; a run begins with the first values"
    if (word ~ /^(parameter|localparam|const|let|define)$/)
        return "a constant is a function: `fun limit() : bits 8 { 8'd200 }`"
    if (word ~ /^(function|task|def|method|fn)$/) return "a function is `fun f(a : bits 8) : bits 8 { .. }`"
    if (word == "typedef" || word == "type")
        return "types are `enum E : bits 1 { A = 1'd0 }` and `struct S { f : bits 8 }`"
    if (!is_keyword(word) || word ~ /^(if|let|try|abort|read[0-3]|write[0-3])$/)
        return "a declaration begins with `reg`, `input`, `enum`, `struct`, `table`, `host`, `fun`, `rule` or `assert`"
}

function name_hint(    other) {
    if (after ~ /^[ \t]*<=/ && front ~ /[{};]$/)
        return "`<=` compares; a register is written by `write0(" word ", value)`"
    if (kind_of(word) == "fun" && within_function() == word)
        return "a function can't call itself: write each step as a function of its own, or a step each cycle as a rule"
    if (word in kind && !is_above[word] && declared[word] == line) return "`" word "` is declared after its use"
    if (word in kind && !is_above[word])
        return "`" word "` is declared on line " declared[word] ", below its use"
    if (caller ~ /^(read|write)[0-3]$/ && last == "(") return port_hint()
    if (word ~ /^(read|write)[0-9]*$/)
        return "ports are `read0(r)` to `read3(r)` and `write0(r, value)` to `write3(r, value)`"
    if (word == "return") return "the last expression of a block, without `;`, is its value"
    if (tolower(word) ~ /^(true|false)$/) return "one bit is `1'd1` or `1'd0`"
    if (last ~ /[:[]/ && tolower(word) ~ /^(bit|bool|logic|reg|int|integer|[iu](int)?[0-9]*(_t)?)$/)
        return "bits are `bits 1`, `bits 8`"
    if (word ~ /^(print|println|display|printf|assert)$/)
        return "nothing is printed by a rule: the report has a line for each cycle, with each register"
    if (scheduled || before == "assert") {
        if (word in kind) return "`" word "` is a " kind_text(kind_of(word)) ", and here is a rule's name"
        return nearest("rule")
    }
    if (kind_of(word) == "reg") return "a register is read by `read0(" word ")`"
    if (kind_of(word) == "fun" || kind_of(word) == "table" || kind_of(word) == "host")
        return "a " kind_text(kind_of(word)) " is called by `" word (kind_of(word) == "fun" ? "()" : "(a)") "`"
    if (kind_of(word) ~ /enum|struct/)
        return "`" word "` is a type: a value is `" word "::" (kind_of(word) == "enum" ? "A" : "{ f: a }") "`"
    if (kind_of(word) == "rule") return "a rule isn't called: the schedule tries it"
    for (other in kind)
        if (kind_of(other) == "enum" && index(", " names_of(other) ",", ", " word ","))
            return "a member is written `" other "::" word "`"
    if (is_local(word)) return "`" word "` ends with the block that it is bound in"
    return nearest("")
}
# What is wrong with the register of a port.
function port_hint() {
    if (kind_of(word) == "input" && caller ~ /^r/) return "an input is read by its name: `" word "`"
    if (kind_of(word) == "input") return "an input isn't written: the stimulus gives its values"
    if (is_local(word) && within_function() != "" && front !~ ("let " word " ?="))
        return "a register is no parameter: a function reads it by its name, `read0(r)`"
    if (is_local(word))
        return caller ~ /^r/ ? "`" word "` is a local name, which is read without a port" : bound_again(word, "value")
    if (word in kind) return "`" word "` is a " kind_text(kind_of(word)) ", and a port is of a register"
    return nearest("reg")
}
# The word for a kind of declaration.
function kind_text(kind) {
    if (kind == "reg") return "register"
    if (kind == "fun") return "function"
    if (kind == "host") return "host function"
    return kind == "enum" || kind == "struct" ? "type" : kind
}
# A declared name that differs by small and large letters alone.
function nearest(wanted,    other) {
    for (other in kind)
        if (other != word && tolower(other) == tolower(word) && (wanted == "" || kind_of(other) == wanted))
            return "`" other "` is declared: small and large letters differ"
}
# The function whose body the fault is in.
function within_function(    text, name, found) {
    text = front
    while (match(text, /(^|[ ;}])(fun|rule|reg|input|table|host|enum|struct) [A-Za-z_0-9]+/)) {
        found = substr(text, RSTART, RLENGTH)
        text = substr(text, RSTART + RLENGTH)
    }
    name = last_word(found)
    sub(/^[ ;}]/, "", found)
    return found ~ /^fun / ? name : ""
}
function again_hint() {
    if (before == "assert") return "a rule is asserted once"
    if (word in kind && (open == 0 || before ~ /^(rule|fun)$/))
        return "`" word "` is a " kind_text(kind_of(word)) " of line " declared[word]
}

function type_hint() {
    if (at ~ /^\{ *abort *;? *\}/) return "an arm that needs a value ends with one: `{ abort; 8'd0 }`"
    if (front ~ /\{ ?abort ?;? ?\} else$/) return "the arm before it has no value; it needs one: `{ abort; 8'd0 }`"
    if (at ~ /^if/ || front ~ /(^|[^A-Za-z_0-9])if [^;{]*$/ && at ~ /^\{[^{}]*\}[ \t]*[;),]/)
        return "an `if` without `else` has no value"
    if (front ~ /(^|[ ;}])fun [^{;]*: ?unit$/ && byte == "{")
        return "a function `: unit` has no value: end its last expression with `;`"
    if (front ~ /(^|[ ;}])fun [^{;]*$/ && byte == "{")
        return "a function's value is its last expression, without `;`; one without a value is `: unit`"
    if (front ~ /(^|[ ;}])rule [A-Za-z_0-9]+$/) return "a rule has no value: end its last expression with `;`"
    if (front ~ /(^|[ ;}])reg [A-Za-z_0-9]+ ?: ?\[[^=]*=$/)
        return "an array's first value is `[8'd0, 8'd0]`, with an item for each"
    if (front ~ /(^|[ ;}])reg [A-Za-z_0-9]+ ?: ?[A-Za-z_0-9]+ ?=$/)
        return "an enum's first value is `E::A`, a struct's `S::{ f: 8'd0 }`"
    if (front ~ /[=!]=$/)
        return "values of one type are compared: an enum with its members, `E::A`; bits of others are `pack(a)`"
    if (at ~ /^write[0-3]/ && front ~ /=$/) return "a write has no value"
}
function width_hint() {
    if (front ~ /(^|[^A-Za-z_0-9])if( ?\()*$/) return "a condition has one bit: `a != 8'd0`"
    if (front ~ /(^|[ ;}])(reg|input) [A-Za-z_0-9]+ ?:$/ && at ~ /^(bits 0|\[[^;]*; *0 *\])/)
        return "a register or an input has at least one bit"
    if (front ~ /(^|[ ;}])(reg|input) [A-Za-z_0-9]+ ?:$/)
        return "a register or an input has at most 128 bits; " \
            "larger: a table, or a bank of registers (docs/GENERATING.md)"
    if (front ~ /(^|[ ;}])table [A-Za-z_0-9]+ ?:$/) return "a table has 1 to 12 input bits"
    if (bracket == "[" && at ~ /^[0-9]+ *: *[0-9]/ && is_reversed(at))
        return "the high bit comes first: `a[" reversed(at) "]`"
    if (front ~ /(<<|>>)$/) return "the amount of a shift is as wide as what is shifted: `a << zext(n, 8)`"
    if (is_chained()) return "a comparison has one bit, so `a < b < c` is `a < b & b < c`"
    if (front ~ /[^|]\|$/ && front ~ /==[^|;{}]*\|$/) return "each side of `|` is a test of its own: `a == b | a == c`"
    if (front ~ /[^&|^][&|^]$/ && at ~ /^[^;{}&|^]*[=!]=/)
        return "`==` and `!=` bind tighter than `&`, `^` and `|`: `(a & b) == c`"
}
# Whether the fault follows a comparison with another before it.
function is_chained(    chain) {
    if (front !~ /[^<>-](<|>|<=|>=|==|!=)$/) return 0
    chain = substr(front, inner + 1)
    sub(/^.*(;|,| if |\{|[^&]&|[^|]\||[^^]\^|[^=!<>]=) /, "", chain)
    sub(/(<|>|<=|>=|==|!=)$/, "", chain)
    gsub(/<<|>>>?|->/, "", chain)
    return chain ~ /[<>]|[=!]=/
}
function is_reversed(at,    parts) { split(at, parts, /[^0-9]+/); return parts[1] + 0 < parts[2] + 0 }
function reversed(at,    parts) { split(at, parts, /[^0-9]+/); return parts[2] ":" parts[1] }
function member_hint(    type) {
    match(front, /[A-Za-z_0-9]+ ?:: ?(\{[^{}]*)?$/)
    if (RLENGTH > 0) {
        type = last_word(trimmed(substr(front, RSTART, index(substr(front, RSTART), "::") - 1)))
        if (kind_of(type) == "enum") return "the members of `" type "` are " names_of(type)
        if (kind_of(type) == "struct") return "the fields of `" type "` in order are " names_of(type)
    }
    if (match(front, /(read[0-3] ?\( ?)?[A-Za-z_0-9]+ ?\)?\.$/)) {
        type = trimmed(substr(front, RSTART, RLENGTH))
        gsub(/read[0-3]|[ ().]/, "", type)
        type = said_of[type]
        gsub(/[ :]/, "", type)
        if (kind_of(type) == "struct") return "the fields of `" type "` are " names_of(type)
    }
}
function entries_hint(    bits) {
    if (!match(said_of[word], /bits[ \t]+[0-9]+/)) return
    bits = substr(said_of[word], RSTART, RLENGTH)
    gsub(/[^0-9]/, "", bits)
    return "`" word "` has " entries[word] (entries[word] == 1 ? " entry" : " entries") ", and " bits \
        " input bits are " power(bits)
}
function host_hint(    known) {
    known = " popcount:8:4 parity:8:1 reverse:8:8 clz:8:4 gray:8:8 hamming:12:4 morton:12:12 satadd:12:6 "
    if (match(known, " " word ":[0-9:]+ ") == 0) return
    split(substr(known, RSTART + 1), host_parts, /[: ]/)
    return "it is `host " word " : bits " host_parts[2] " -> bits " host_parts[3] ";`"
}
function rules_hint() {
    if (rules == "") return "the design has no rules"
    return "the design's rules are " (length(rules) > 200 ? substr(rules, 1, 200) ".." : rules)
}

function stimulus_hint(    value) {
    if (text ~ /^journal workers=/)
        return "a journal comes after a second line `%%`: `recheck` reads a design, a stimulus and a journal"
    if (text ~ /^%%/) return "a stimulus ends with the source: there is one line `%%`, for `recheck` two"
    if (number == 30 && at ~ /^(\/\/|#|;)/) return "a stimulus has no comments"
    if (at ~ /^[A-Za-z_0-9]+=[0-9]+'/) return "a value has no width here: `a=5` or `a=0xff`"
    if (at ~ /^[A-Za-z_0-9]+=\[/) return "an array is given as its bits, item 0 lowest"
    if (at ~ /^[^ \t]*,/) return "assignments are separated by blanks"
    if (at ~ /^[^ \t]*;/) return "there is no `;` at the end"
    if (number == 30 && at ~ /^[A-Za-z_0-9]+[ \t]*=[ \t]/ || at ~ /^[A-Za-z_0-9]+[ \t]+=/)
        return "there are no blanks beside the `=`"
    if (number == 31) return input_hint()
    match(at, /^[^ \t=]+=/)
    value = RLENGTH > 0 ? substr(at, RLENGTH + 1) : ""
    sub(/[ \t].*/, "", value)
    if (number == 32) return greatest_hint()
    if (value ~ /^-/) return "a value has no sign: -1 of 8 bits is 255"
    if (value ~ /^0[bBoX]/) return "a value is decimal, or hexadecimal after `0x`"
    if (value ~ /^[0-9]*[a-fA-F][0-9a-fA-F]*$/ && !is_member(value))
        return "a hexadecimal value has `0x` before it: `" word "=0x" value "`"
    if (is_member(value)) return "a member is given as its bits, a number"
    if (value ~ /^[A-Za-z_]/) return "a value is a number: there is no `x` and `z`"
    if (value ~ /_/) return "a value has digits alone"
    if (value != "" && front ~ ("(^| )" word "=")) return "`" word "` has a value in this line already"
    if (at !~ /^[^ \t]*=/) return "an assignment is `name=5`; each line is one cycle, without its number"
}
function is_member(value,    other) {
    for (other in kind)
        if (kind_of(other) == "enum" && index(", " names_of(other) ",", ", " last_word(value) ",")) return 1
}
function input_hint() {
    if (at ~ /^[A-Za-z_0-9]+[.[]/) return "an input is given whole, as its bits"
    if (at ~ /^[A-Za-z_0-9]+==/) return "an assignment has one `=`"
    if (kind_of(word) == "reg") return "`" word "` is a register, and a stimulus gives inputs"
    if (word in kind && kind_of(word) != "input")
        return "`" word "` is a " kind_text(kind_of(word)) ", and a stimulus gives inputs"
    return nearest("input")
}
function greatest_hint(    bits) {
    bits = said_of[word]
    if (kind_of(word) == "input" && match(bits, /^[ \t]*:[ \t]*bits[ \t]+[0-9]+[ \t]*$/)) {
        gsub(/[^0-9]/, "", bits)
        return "`" word "` has " bits " bit" (bits + 0 == 1 ? "" : "s") \
            (bits + 0 <= 31 ? ": at most " power(bits) - 1 : "")
    }
}
# A form of BTOR2 that isn't supported: the word at fault in the line.
function circuit_hint(    plain, words, count, k) {
    plain = text
    sub(/;.*/, "", plain)
    count = split(plain, words, /[ \t\r]+/)
    k = words[1] == "" ? 2 : 1
    if (words[k + 1] ~ /^([us]div|[us]rem|smod|ro[lr]|read|write|constraint|fair|justice|[us](add|sub|mul)o|sdivo)$/)
        return "the form is `" words[k + 1] "`" instead_of(words[k + 1])
    if (words[k + 1] == "sort" && words[k + 2] == "array")
        return "the sort is `array`; yosys replaces memories by `memory_map`"
    for (k++; k <= count; k++) {
        if (words[k] !~ /^-/) continue
        if (words[2] ~ /^const/) return "`" words[k] "` has a minus sign; write the number of the same bits"
        return "`" words[k] "` has a minus sign; a `not` line of its own negates a value"
    }
}
function instead_of(form) {
    if (form ~ /^(udiv|sdiv|urem|srem|smod)$/) return "; yosys replaces divisions by `techmap`"
    if (form ~ /^ro[lr]$/) return ": write it by `slice` and `concat`"
    if (form ~ /^(read|write)$/) return ", of memories; yosys replaces these by `memory_map`"
    if (form == "constraint") return ": an assumption has no meaning in a run"
    if (form ~ /^(fair|justice)$/) return ", of liveness, which a run can't show"
    return ""
}
