"""Prints what the house measures of itself: `bench/house.sh` says what."""
import collections
import re
import signal
import sys

from sources import TOP, crates, definitions_of, files, functions_of, lines_of

RUN = 6  # lines that a pair shares at least
COMMON = 8  # a run that is in more places than this is a form, not a copy
PARAMETERS = 7
COLUMNS = 200
THOUSAND = 1000
NOTHING = r"(0|&\[\]|\"\"|Lowered::unit\(\)|Ok\(Lowered::unit\(\)\))"
DEFAULT = rf"(None|_) => {NOTHING},|unwrap_or\({NOTHING}\)|unwrap_or_default\("


def texts(part, ending):
    """The files of a part of all crates, without tests."""
    return [(crate, path) for crate in crates() for path in files(crate, part, ending)]


def pairs(part, ending):
    """Pairs of files of different crates that share six lines or more to the letter.

    Comments, imports and lines without a word don't count."""
    kept, places = {}, collections.defaultdict(list)
    for crate, path in texts(part, ending):
        lines = [
            (number, line.strip())
            for number, line in enumerate(lines_of(path), 1)
            if re.search(r"\w", line) and not re.match(r"\s*(//|--|(ghost |pub )*use |#|mod |pub mod )", line)
        ]
        kept[path] = lines
        for at in range(len(lines) - RUN + 1):
            window = tuple(line for _, line in lines[at : at + RUN])
            places[window].append((crate, path, at))
    shared = collections.defaultdict(set)
    for found in places.values():
        if 2 <= len(found) <= COMMON:
            for place, (crate, path, at) in enumerate(found):
                for other, there, where in found[place + 1 :]:
                    if crate != other:
                        shared[path, there].add((at, where))
    for (path, there), starts in sorted(shared.items()):
        best, runs = (0, 0, 0), 0
        for at, where in sorted(starts):
            if (at - 1, where - 1) in starts:
                continue
            runs, size = runs + 1, RUN
            while (at + size - RUN + 1, where + size - RUN + 1) in starts:
                size += 1
            best = max(best, (size, at, where))
        size, at, where = best
        more = f", and {runs - 1} more" if runs > 1 else ""
        here = f"{path}:{kept[path][at][0]}-{kept[path][at + size - 1][0]}"
        yield f"{here} = {there}:{kept[there][where][0]}-{kept[there][where + size - 1][0]} ({size} lines{more})"


def lemmas():
    """Lemmas that two files or more have, to the letter. Those of one function's proof don't count."""
    found = collections.defaultdict(list)
    for _, path in texts("proofs", ".antt"):
        if path.count("/") == 3:
            item, begin = [], 0
            for number, line in enumerate(lines_of(path) + [""], 1):
                if line.strip() and not re.match(r"(pub )?use |--", line):
                    item.append(line)
                    begin = begin or number
                elif item:
                    found["\n".join(item)].append(f"{path}:{begin}")
                    item, begin = [], 0
    for text, places in sorted(found.items(), key=lambda it: it[1]):
        if len({place.split(":")[0] for place in places}) > 1:
            yield f"{' = '.join(places)} ({text.count(chr(10)) + 1} lines)"


def parameters():
    """Functions with seven parameters or more, `self` aside."""
    for crate, path in texts("src", ".rt"):
        for function in functions_of(crate, path):
            count = sum(not re.match(r"(&(mut )?|mut )?self$", it) for it in function.parameters)
            if count >= PARAMETERS:
                yield f"{path}:{function.line} {function.name} ({count})"


def defaults():
    """Values for cases that can't be, by the list bench/house.txt. It also has cases that a definition gives a value.

    Each other place is shown as a new one, and so is a line of the list that fits no place any more."""
    listed = {}
    with open(f"{TOP}/bench/house.txt", encoding="utf-8") as file:
        for line in file:
            if line.strip() and not line.startswith("#"):
                why, count, path, text = line.rstrip("\n").split(None, 3)
                listed[path, text] = [why, int(count)]
    for crate, path in texts("src", ".rt"):
        for number, line in enumerate(lines_of(path), 1):
            text = line.strip()
            if not re.search(DEFAULT, text) or text.startswith(("//", "ensures", "ghost")) or crate == "source_runs":
                continue
            why, left = listed.get((path, text), ("new", 1))
            if left > 0 and (path, text) in listed:
                listed[path, text][1] -= 1
            else:
                why = "new"
            if why != "defined":
                yield f"{path}:{number} {text}" + (" (new: not in bench/house.txt)" if why == "new" else "")
    for (path, text), (_, left) in listed.items():
        if left > 0:
            yield f"{path} {text} ({left} more in bench/house.txt than there are)"


def wide():
    """Lines that are longer than 200 columns."""
    for part, ending in (("src", ".rt"), ("specs", ".antt"), ("proofs", ".antt")):
        for _, path in texts(part, ending):
            for number, line in enumerate(lines_of(path), 1):
                if len(line) > COLUMNS:
                    yield f"{path}:{number} ({len(line)} columns)"


def uncommented():
    """Definitions without a comment line of their own."""
    for crate in crates():
        for path in files(crate, "specs", ".antt"):
            for found in definitions_of(crate, path):
                if not found.comment:
                    yield f"{path}:{found.first} {found.name}"


def constants():
    """Constants of src/ and numbers of specs/ that have one value or one name in two places or more: values from 1,000 on,
    and names."""
    places, names = collections.defaultdict(list), collections.defaultdict(list)
    for crate, path in [*texts("src", ".rt"), *texts("specs", ".antt")]:
        if crate.endswith("_runs") or crate.endswith("_tests"):
            continue
        for number, line in enumerate(lines_of(path), 1):
            found = re.match(r"\s*(?:pub(?:\([a-z]+\))? )?const (\w+): \w+ = ([\d_]+);", line) or re.match(r"(\w+) = (\d+)$", line)
            if found:
                value = int(found[2].replace("_", ""))
                if value >= THOUSAND:
                    places[value].append(f"{path}:{number} {found[1]}")
                elif path.endswith(".rt"):
                    names[found[1], value].append(f"{path}:{number}")
            elif not re.match(r"\s*(--|//)", line):
                for value in re.findall(r"(?<![\w.])(\d{4,})(?!\w)", line):
                    places[int(value)].append(f"{path}:{number}")
    for value, found in sorted(places.items()):
        if len(found) > 1 and any(" " in it for it in found):
            yield f"{value:,}: {', '.join(found)}"
    for (name, value), found in sorted(names.items()):
        if len(found) > 1:
            yield f"{name} = {value}: {', '.join(found)}"


MEASURES = {
    "code": ("pairs of src/ in different crates that share six lines or more", lambda: pairs("src", ".rt")),
    "specs": ("pairs of specs/ in different crates that share six lines or more", lambda: pairs("specs", ".antt")),
    "proofs": ("pairs of proofs/ in different crates that share six lines or more", lambda: pairs("proofs", ".antt")),
    "lemmas": ("lemmas that two files or more have to the letter", lemmas),
    "parameters": ("functions with seven parameters or more", parameters),
    "defaults": ("defaults for cases that can't be", defaults),
    "constants": ("numbers that are in two places or more", constants),
    "wide": ("lines over 200 columns", wide),
    "uncommented": ("definitions without a comment line", uncommented),
}


def main(words):
    counts_only = "--counts" in words
    names = [word for word in words if word != "--counts"] or list(MEASURES)
    for name in names:
        if name not in MEASURES:
            sys.exit(f"there is no measure {name}: {' '.join(MEASURES)}")
        title, measure = MEASURES[name]
        rows = list(measure())
        print(f"{len(rows)} {title}")
        if not counts_only:
            print("".join(f"    {row}\n" for row in rows), end="")


if __name__ == "__main__":
    signal.signal(signal.SIGPIPE, signal.SIG_DFL)  # a reader may stop early
    main(sys.argv[1:])
