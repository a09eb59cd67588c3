# The answers that a journal's board may give: reads lines `NAME=VALUE`, the registers before the current cycle, and
# then a source with a design, a stimulus and a journal, and prints the answers that are possible at `line` by the lines
# before it. With `only_cycle` it prints the current cycle. bin/findings calls it, and has the program choose.
FILENAME == ARGV[1] { split($0, pair, "="); first_value[pair[1]] = pair[2]; next }
/^%%\r?$/ { marks++; next }
marks == 0 {
    sub(/\/\/.*/, "")
    while (match($0, /(^|[ \t;{}])rule[ \t]+[A-Za-z_0-9]+/)) {
        name = substr($0, RSTART, RLENGTH)
        $0 = substr($0, RSTART + RLENGTH)
        sub(/.*[ \t]/, "", name)
        rules[++rule_count] = name
    }
}
marks < 2 { next }
FNR == line {
    if (only_cycle) print cycle
    else if ($1 == "s") print "stored\nlate\nahead\ntwice"
    else print_answers_to_turn()
    exit
}
$1 == "batch" { cycle = $2 + 1; forget() }
$1 == "s" && $NF == "stored" { attempt[$3, $4] = $0 }
$1 == "t" && $4 == "committed" {
    fired[++fired_count] = $6
    log_of[$6] = events_of(attempt[$5, $6])
    is_settled[$6] = 1
}
$1 == "t" && $4 == "skipped" { is_settled[$6] = 1 }
$1 == "t" && $4 == "stale" { delete attempt[$5, $6] }
$1 == "t" && $4 == "closed" { cycle = $5 + 1; forget() }

function forget() { split("", is_settled); split("", fired); fired_count = 0 }
# The events of a line of an attempt, with spaces around them.
function events_of(text,    words, count, k, events) {
    count = split(text, words, " ")
    for (k = 5; k <= count && words[k] != ":"; k++) if (index(words[k], "=")) events = events " " words[k]
    return events " "
}
function print_answers_to_turn(    k) {
    for (k = 1; k <= rule_count; k++)
        if (!is_settled[rules[k]] && (cycle, rules[k]) in attempt) print verdict(rules[k])
    for (k = 1; k <= rule_count; k++)
        if (!is_settled[rules[k]] && !((cycle, rules[k]) in attempt)) print "waiting " cycle " " rules[k]
    print "closed " cycle
    print "finished"
}
# What comes of a rule's attempt: the first event that clashes or isn't up to date decides, and else its outcome.
function verdict(rule,    text, events, count, k, clash, value, words) {
    text = attempt[cycle, rule]
    count = split(events_of(text), events, " ")
    for (k = 1; k <= count; k++) {
        clash = clash_of(access_of(events[k]))
        if (clash != "") return "skipped " cycle " " rule " clash " access_of(events[k]) " " clash
        value = value_at(events, k)
        if (events[k] ~ /^r/ && value != value_of(events[k]))
            return "stale " cycle " " rule " " access_of(events[k]) " held=" value_of(events[k]) " now=" value
    }
    split(text, words, " ")
    if (words[5] == "done") return "committed " cycle " " rule
    return "skipped " cycle " " rule " " words[5] (words[5] == "own" ? " " words[6] : "")
}
function access_of(event) { sub(/=.*/, "", event); return event }
function value_of(event) { sub(/.*=/, "", event); return event }
function register_of(access) { sub(/=.*/, "", access); sub(/^[^:]*:/, "", access); return access }
function port_of(access) { return substr(access, 2, 1) + 0 }
# The earliest rule that fired with an access that this one clashes with, and the first such access: reads before
# writes, the lower port first.
function clash_of(access,    k, kind, port, other, register) {
    register = register_of(access)
    for (k = 1; k <= fired_count; k++)
        for (kind = 1; kind <= 2; kind++)
            for (port = 0; port <= 3; port++) {
                other = (kind == 1 ? "r" : "w") port ":" register
                if (!index(log_of[fired[k]], " " other "=")) continue
                if (kind == 1 ? access ~ /^w/ && port > port_of(access) : port >= port_of(access))
                    return fired[k] " " other
            }
    return ""
}
# What the event's read would return now.
function value_at(events, k,    value, register, port, j, n, other, count) {
    register = register_of(events[k])
    port = port_of(events[k])
    value = first_value[register]
    for (j = 1; j <= fired_count; j++) {
        count = split(log_of[fired[j]], other, " ")
        for (n = 1; n <= count; n++) value = seen(other[n], register, port, value)
    }
    for (j = 1; j < k; j++) value = seen(events[j], register, port, value)
    return value
}
function seen(event, register, port, value) {
    return event ~ /^w/ && register_of(event) == register && port_of(event) < port ? value_of(event) : value
}
