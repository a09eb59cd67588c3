# Plans a build. It reads the measured table of the gate, whose third column is what a crate's own proof takes, and the
# crates to prove, each with those below it. Without `lanes` it prints these, those that most work waits for first. With
# `lanes`, the checks that run side by side, and `passed`, the seconds since the build began, it also reads how far each
# crate is that was begun, where 1 is proved, and prints how much of the work is done and how many minutes are left.

FNR == 1 { file++ }
file == 1 {
    if (split($0, cells, " *[|] *") > 4 && gsub(/`/, "", cells[2])) {
        gsub(/,/, "", cells[4])
        measured[cells[2]] = cells[4]
    }
    next
}
file == 2 {
    names[++crates] = $1
    line[$1] = $0
    seconds[$1] = $1 in measured ? measured[$1] : 100
    sub(/^[^ ]* */, "")
    below[names[crates]] = $0
    next
}
{
    part[$1] = $2
    if ($2 == 1) proved++
    else running = running " " $1
}

function needs(name, lower) { return index(" " below[name] " ", " " lower " ") }

# The seconds of the longest chain of crates that begins with this one.
function chain(name,    k, most) {
    if (!(name in chains)) {
        for (k = 1; k <= crates; k++) if (needs(names[k], name) && chain(names[k]) > most) most = chain(names[k])
        chains[name] = seconds[name] + most
    }
    return chains[name]
}

function can_begin(name,    count, k, lower) {
    count = split(below[name], lower, " ")
    for (k = 1; k <= count; k++) if (!(lower[k] in over)) return 0
    return 1
}

# The seconds that the rest takes, by the table, or the whole: a check begins where a lane is free and all below it is
# proved.
function rest(all,    k, name, now, free, left, soonest) {
    split("", ends)
    split("", over)
    free = lanes
    for (left = crates; left > 0; left--) {
        for (k = 1; k <= crates; k++) {
            name = names[k]
            if (free > 0 && !(name in ends) && can_begin(name)) {
                ends[name] = now + seconds[name] * (all ? 1 : 1 - part[name])
                free--
            }
        }
        soonest = ""
        for (name in ends) if (!(name in over) && (soonest == "" || ends[name] < ends[soonest])) soonest = name
        now = ends[soonest]
        over[soonest] = 1
        free++
    }
    return now
}

END {
    if (!lanes) {
        for (k = 1; k <= crates; k++) print chain(names[k]), line[names[k]]
        exit
    }
    for (k = 1; k <= crates; k++) {
        whole += seconds[names[k]]
        done += seconds[names[k]] * part[names[k]]
    }
    taken = rest(1) - rest(0)
    # How slow this machine is against the table. What an earlier check kept takes no time, and shows nothing.
    pace = done > whole / 50 && taken > 0 ? passed / taken : 1
    if (pace < 0.5) pace = 0.5
    printf "%d%% is proved, %d of %d crates; ", 100 * done / whole, proved, crates
    printf "about %d minutes left; now%s\n", rest(0) * pace / 60 + 1, running
}
