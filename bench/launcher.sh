#!/usr/bin/env bash
# Tries what ./koika does around the programs: help and version, which program a command belongs to, files and standard
# input, building, packing and running without proofs. The programs and the proof kit are stand-ins in a copy of the
# scripts, so nothing is proved and no program is needed. It is run by hand.
set -eu
cd "$(dirname "$0")/.."

room=$(mktemp -d)
trap 'rm -rf "$room"' EXIT
tried=0 wrong=0
unset KOIKA_EXPLAIN

complain() {
    wrong=$((wrong + 1))
    echo "wrong: $*"
}

# Compares a text with the one that is wanted.
same() {
    tried=$((tried + 1))
    [ "$2" = "$3" ] || complain "$1: $2, and not $3"
}

# Whether a text has another one in it.
has() {
    tried=$((tried + 1))
    case $2 in *"$3"*) ;; *) complain "$1: no \`$3\` in $(head -c 400 <<<"$2")" ;; esac
}

# A copy of the scripts with four small crates: koika_cli stands on `low` and `middle`, lab_cli on `low`.
make_tree() {
    mkdir "$1"
    cp -r koika bin CHANGELOG.md "$1"
    mkdir "$1/docs"
    cp -r docs/*.md docs/measured "$1/docs"
    printf 'low:\nmiddle: low\nkoika_cli may_wait=2: middle low\nlab_cli: low\n' >"$1/crates.txt"
    for name in low middle koika_cli lab_cli; do
        mkdir -p "$1/crates/$name/src"
        echo "$name" >"$1/crates/$name/src/lib.rt"
    done
    printf 'sim\n--cycles\n8\n' >"$1/crates/koika_cli/args"
    printf 'why\n--cycle\n1\n' >"$1/crates/lab_cli/args"
    for name in koika_cli lab_cli; do echo 'schedule { }' >"$1/crates/$name/stdin"; done
}
# A copy of the tree without what was built.
copy_tree() {
    mkdir "$1"
    cp -r "$tree/koika" "$tree/bin" "$tree/CHANGELOG.md" "$tree/docs" "$tree/crates.txt" "$1"
    mkdir "$1/crates"
    for name in low middle koika_cli lab_cli; do
        mkdir "$1/crates/$name"
        cp -r "$tree/crates/$name/src" "$1/crates/$name"
    done
    cp "$tree/crates/koika_cli/args" "$tree/crates/koika_cli/stdin" "$1/crates/koika_cli"
    cp "$tree/crates/lab_cli/args" "$tree/crates/lab_cli/stdin" "$1/crates/lab_cli"
}

tree=$room/tree
make_tree "$tree"

# What stands in for a program writes its name, its words and what it reads, and ends with the status in $WITH.
mkdir "$room/kit"
cat >"$room/program" <<'PROGRAM'
#!/bin/sh
case ${WITH-0} in
    1) echo "usage: .." ;;
    2) cat >/dev/null; echo "fault $FAULT" ;;
    *)
        printf '%s\n' "$(basename "$0")" "$@"
        if [ "${1-}" != gen ]; then od -An -c; fi ;;
esac
exit "${WITH-0}"
PROGRAM
# What stands in for the kit notes what it was asked; `run` makes the program.
cat >"$room/kit/rt" <<'KIT'
#!/bin/sh
name=$(basename "$PWD")
case $1 in
    version) echo a kit ;;
    check) echo "check $name" >>"$ROOM/asked"; mkdir -p out; echo "$name" >out/proof ;;
    run)
        shift
        echo "run $name $*: $(cat)" >>"$ROOM/asked"
        mkdir -p out
        cp "$ROOM/program" "out/$name"
        chmod +x "out/$name" ;;
    try) shift; echo "run=ended by stand-in" >&2; echo "try $name $*: $(cat)" ;;
esac
KIT
chmod +x "$room/kit/rt"
export ROOM=$room PATH=$room/kit:$PATH

# Help and version, before there is any program.
version=$(awk '$1 == "##" && $2 ~ /^[0-9]/ { print $2; exit }' CHANGELOG.md | grep -o '^[0-9.]*' || true)
same version "$("$tree/koika" --version)" "koika ${version:-without a number}"
screen=$("$tree/koika" --help)
same -h "$("$tree/koika" -h)" "$screen"
same help "$("$tree/koika" help)" "$screen"
same "--unproved --help" "$("$tree/koika" --unproved --help)" "$screen"
mapfile -t names < <(awk -v RS= '{ print $1 }' bin/commands.txt bin/commands_lab.txt)
for name in "${names[@]}"; do
    has "help of $name" "$screen" "
  $name "
    has "help $name" "$("$tree/koika" help "$name")" "./koika $name "
done
# The manual page and the completions know each command and each of its options.
for list in bin/commands.txt $(grep -q '^lab_cli[ :]' crates.txt && echo bin/commands_lab.txt); do
    mapfile -t names < <(awk -v RS= '{ print $1 }' "$list")
    for name in "${names[@]}"; do
        tried=$((tried + 2))
        grep -q "^\.It Cm $name$" editors/koika.1 || complain "the manual page has no $name"
        grep -q "^    '$name:" editors/completion/_koika || complain "zsh doesn't complete $name"
    done
    mapfile -t names < <(grep -o -e '--[a-z]*' "$list" | sort -u)
    for option in "${names[@]}"; do
        tried=$((tried + 2))
        grep -q "^\.It Fl ${option#-}\b" editors/koika.1 || complain "the manual page has no $option"
        grep -q "'$option\[" editors/completion/_koika || complain "zsh doesn't complete $option"
    done
done
same "the width of the help" "$(printf '%s\n' "$screen" | awk 'length($0) > 120' | wc -l)" 0
status=0
said=$("$tree/koika" help nothing 2>&1) || status=$?
same "help of no command" "$status $said" "1 koika: there is no command \`nothing\`; \`./koika --help\` shows them all"
same "nothing was built" "$(cat "$room/asked" 2>/dev/null || true)" ""

# The first call builds the program that is called, and no more.
: >"$room/empty"
WITH=0 "$tree/koika" sim --cycles 2 <"$room/empty" >"$room/out" 2>"$room/said"
same "sim asks for" "$(tr '\n' ' ' <"$room/asked")" \
    "check low check middle check koika_cli run koika_cli -- sim --cycles 8: schedule { } "
same "sim writes" "$(tr '\n' ' ' <"$room/out")" "koika_cli sim --cycles 2 "
: >"$room/asked"
"$tree/koika" sim --cycles 2 <"$room/empty" >/dev/null
same "the second call asks for" "$(cat "$room/asked")" ""
"$tree/koika" why --cycle 3 <"$room/empty" >"$room/out" 2>"$room/said"
same "why asks for" "$(tr '\n' ' ' <"$room/asked")" \
    "check low check lab_cli run lab_cli -- why --cycle 1: schedule { } "
same "why writes" "$(tr '\n' ' ' <"$room/out")" "lab_cli why --cycle 3 "

# Which program a word belongs to, with and without the second one in the tree.
for name in why profile lint waves step verilog obligation certify; do
    same "the program of $name" "$("$tree/koika" "$name" <"$room/empty" | head -n 1)" lab_cli
done
for name in check print sim compile btorsim gen aiger aigsim recheck simulate ""; do
    same "the program of '$name'" "$("$tree/koika" "$name" <"$room/empty" | head -n 1)" koika_cli
done
same "the program of no word" "$("$tree/koika" <"$room/empty" | head -n 1)" koika_cli
sed -i /lab_cli/d "$tree/crates.txt"
same "why without the lab" "$("$tree/koika" why <"$room/empty" 2>/dev/null | head -n 1)" koika_cli
case $("$tree/koika" --help) in *"profile "*) complain "help has the lab's commands without the lab" ;; esac
printf 'lab_cli: low\n' >>"$tree/crates.txt"
"$tree/koika" check <"$room/empty" >/dev/null 2>&1
"$tree/koika" why <"$room/empty" >/dev/null 2>&1

# A changed source is built again, by the program that stands on it.
: >"$room/asked"
echo more >>"$tree/crates/middle/src/lib.rt"
"$tree/koika" why <"$room/empty" >/dev/null 2>&1
same "why after a change of middle" "$(cat "$room/asked")" ""
"$tree/koika" sim <"$room/empty" >/dev/null 2>&1
has "sim after a change of middle" "$(tr '\n' ' ' <"$room/asked")" "run koika_cli"

# Files: what the program reads is what it reads without them.
work=$room/work
mkdir "$work"
cd "$work"
printf 'a\n' >whole
printf 'b' >broken
printf 'c\r\n' >dos
printf 'd\n%%%%\ne' >both
: >none
printf 'f\n' >'a b *'
reads() {
    local what=$1 wanted=$2 status=0
    shift 2
    "$tree/koika" "$@" >"$room/out" 2>"$room/said" <"$room/empty" || status=$?
    printf '%b' "$wanted" | od -An -c >"$room/wanted"
    same "$what" "$status $(sed 1d "$room/out" | grep '^ ' || true)" "0 $(cat "$room/wanted")"
}
reads "one file" 'a\n' check whole
reads "a file without a line feed" 'b' check broken
reads "two files" 'a\n%%\nb' sim --cycles 2 whole broken
reads "two files, the options last" 'a\n%%\nb' sim whole broken --cycles 2
reads "an option between" 'a\n%%\nb' sim whole --cycles=2 broken
reads "the first without a line feed" 'b\n%%\na\n' sim --cycles 2 broken whole
reads "lines with carriage returns" 'c\r\n%%\nc\r\n' sim --cycles 2 dos dos
reads "an empty file" '%%\na\n' sim --cycles 2 none whole
reads "an empty last file" 'a\n%%\n' sim --cycles 2 whole none
reads "a file with a line %%" 'd\n%%\ne\n%%\na\n' recheck --cycles 2 both whole
reads "three files" 'a\n%%\n%%\nb' recheck --cycles 2 whole none broken
reads "no stimulus" 'a\n%%\n%%\nb' recheck --cycles 2 whole /dev/null broken
reads "a name with blanks" 'f\n' check 'a b *'
reads "a process's output" 'g\n%%\nh\n' sim --cycles 2 <(echo g) <(echo h)
reads "an engine's name" 'a\n' sim --engine whole --cycles 1 --workers none whole
reads "the lab's options" 'a\n' why --cycle none --rule broken --cycles 2 whole
reads "four files" 'a\n%%\n%%\nb\n%%\na\n' certify whole none broken whole
reads "three of obligation" 'a\n%%\n%%\nb' obligation whole none broken
same "standard input as a file" "$(echo i | "$tree/koika" sim --cycles 2 whole - | tail -n 1 | tr -s ' ')" \
    " a \n % % \n i \n"
same "standard input alone" "$(echo i | "$tree/koika" check - | tail -n 1 | tr -s ' ')" " i \n"
same "the words without files" \
    "$("$tree/koika" sim --cycles 2 whole --summary none --engine plain | head -n 7 | tr '\n' ' ')" \
    "koika_cli sim --cycles 2 --summary --engine plain "
same "gen has no file" "$("$tree/koika" gen 3 | tr '\n' ' ')" "koika_cli gen 3 "
ln -s "$tree/koika" "$room/link"
same "by a link" "$("$room/link" check whole | tail -n 1 | tr -s ' ')" " a \n"

# Too many files, and files that can't be read.
for words in "check whole none whole" "recheck --cycles 1 whole none none none" "why --cycle 1 none none none"; do
    status=0
    # shellcheck disable=SC2086
    said=$(WITH=1 "$tree/koika" $words 2>&1 <"$room/empty") || status=$?
    has "too many files: $words" "$status $said" "takes at most"
    has "too many files: $words" "$status $said" "usage: .."
done
mkdir folder
touch locked
chmod 000 locked
for words in "check missing:there is no such file" "sim --cycles 2 whole missing:there is no such file" \
    "check folder:it is a folder" "recheck --cycles 2 whole folder none:it is a folder" "check locked:permitted"; do
    [ "$words" != "check locked:permitted" ] || [ "$(id -u)" != 0 ] || continue
    status=0
    # shellcheck disable=SC2086
    said=$("$tree/koika" ${words%:*} 2>&1 <"$room/empty") || status=$?
    has "unreadable: $words" "$status $said" "${words#*:}"
    has "unreadable: $words" "$status $said" "3 koika: "
done

# A fault's place is in its file.
places() {
    local what=$1 wanted=$2 fault=$3 status=0
    shift 3
    said=$(FAULT=$fault WITH=2 "$tree/koika" "$@" 2>&1 >"$room/out" <"$room/empty") || status=$?
    same "$what" "$status $(head -n 1 <<<"$said" | cut -d ' ' -f 1-3)" "2 $wanted"
    same "$what, on standard output" "$(cat "$room/out")" "fault $fault"
}
places "the first line" "whole:1:2: fault 11:" "11 at 1:2" check whole
places "the second file" "broken:1:4: fault 30:" "30 at 3:4" sim --cycles 2 whole broken
places "past the end of the first file" "whole:2:1: fault 11:" "11 at 2:1" sim --cycles 2 whole broken
places "past the end of the last file" "broken:2:1: fault 30:" "30 at 4:1" sim --cycles 2 whole broken
places "after an added line feed" "whole:1:1: fault 30:" "30 at 3:1" sim --cycles 2 broken whole
places "the third file" "dos:1:1: fault 80:" "80 at 4:1" recheck --cycles 2 whole none dos
places "after an empty file" "whole:1:1: fault 30:" "30 at 2:1" sim --cycles 2 none whole
places "no place" "whole: fault 45:" "45 at 0:0" sim --cycles 2 whole broken
places "a mark of its own" "both:2:1: fault 30:" "30 at 4:1" sim --cycles 2 both whole
places "in a file's own part before it" "both:3:1: fault 30:" "30 at 3:1" sim --cycles 2 both whole
places "in a file after its own parts" "whole:1:1: fault 80:" "80 at 5:1" recheck --cycles 2 both whole
places "no place, with a mark of its own" "both: fault 45:" "45 at 0:0" sim --cycles 2 both whole
places "a rule's name" "whole: fault 90:" "90 at 0:0" why --cycle 2 --rule zero whole
has "a part too many" "$(FAULT="30 at 4:1" WITH=2 "$tree/koika" sim --cycles 2 both whole 2>&1 || true)" \
    "hint: line 2 of both is"
has "a part too many, later" "$(FAULT="80 at 5:1" WITH=2 "$tree/koika" recheck --cycles 2 both none whole 2>&1 || true)" \
    "hint: line 2 of both is"
case $(FAULT="30 at 3:1" WITH=2 "$tree/koika" sim --cycles 2 both whole 2>&1) in
    *"is \`%%\`"*) complain "a file's own line isn't of a part too many" ;;
esac
same "no explanation" "$(KOIKA_EXPLAIN=0 FAULT="11 at 1:1" WITH=2 "$tree/koika" check whole 2>&1 || true)" \
    "fault 11 at 1:1"
same "no explanation without files" "$(FAULT="11 at 1:1" WITH=2 "$tree/koika" check <whole 2>&1 || true)" \
    "fault 11 at 1:1"
has "asked for" "$(KOIKA_EXPLAIN=1 FAULT="11 at 1:1" WITH=2 "$tree/koika" check <whole 2>&1 || true)" \
    "koika: fault 11 at line 1, column 1: "
# A session has a file, a line `%%` where the file has none, and then standard input as it comes.
read_by_step() { "$tree/koika" step "$@" | tail -n +3 | tr -d ' \n'; }
printf 'rule' >"$room/open"
printf 'rule\n%%%%\r\na=1\n' >"$room/marked"
same "step with a design" "$(printf 'a=2\n' | read_by_step "$room/open")" 'rule\n%%\na=2\n'
same "step with lines in the file" "$(printf 'a=2\n' | read_by_step "$room/marked")" 'rule\n%%\r\na=1\na=2\n'
same "step without a file" "$(printf 'rule\n%%%%\n' | read_by_step)" 'rule\n%%\n'
status=0
said=$(WITH=1 timeout 20 "$tree/koika" step "$room/open" 2>&1 < <(sleep 60)) || status=$?
same "a session that ends before its input" "$status $said" "1 usage: .."
status=0
said=$("$tree/koika" step nowhere 2>&1 <"$room/empty") || status=$?
same "step without its file" "$status $said" "3 koika: nowhere can't be read: there is no such file"
status=0
said=$(KOIKA_EXPLAIN=1 WITH=8 "$tree/koika" profile --strict --cycles 2 whole 2>&1 >/dev/null) || status=$?
has "status 8" "$status $said" "8 koika: an assertion was violated"
for words in "why:--cycle C" "why --cycle 0:counted from 1" "why --cycle 1 --rule 1a:no name" "profile:--cycles N" \
    "profile --cycles 1 --strict --strict:given twice" "profile --cycles 1 --summary:no option" "waves:--cycles N" \
    "waves --cycles 1 --strict:no option" "step --cycles 1:no option" \
    "verilog --reset --reset:given twice" "verilog --cycles 1:no option" "obligation --rule 1:no name" \
    "certify --rule a --rule b:given twice" "certify --cycles 1:no option" "lint --cycles 1:no option"; do
    # shellcheck disable=SC2086
    said=$(KOIKA_EXPLAIN=1 WITH=1 "$tree/koika" ${words%:*} 2>&1 >/dev/null <"$room/empty" || true)
    has "${words%:*}" "$said" "${words#*:}"
    has "${words%:*}" "$said" "koika: usage:"
done

# Without proofs.
same "--unproved why" "$("$tree/koika" --unproved why --cycle 2 whole 2>/dev/null)" "try lab_cli -- why --cycle 2: a"
same "--unproved sim" "$("$tree/koika" --unproved sim --cycles 2 whole broken 2>/dev/null | tr '\n' ' ')" \
    "try koika_cli -- sim --cycles 2: a %% b "

# Packed and unpacked.
cd "$tree"
bin/pack "$room/all.tgz" && bin/pack --program "$room/programs.tgz"
for archive in all programs; do
    copy_tree "$room/$archive"
    : >"$room/asked"
    same "unpack $archive" "$("$room/$archive/bin/unpack" "$room/$archive.tgz" 2>&1; echo $?)" 0
    for words in "sim koika_cli" "why lab_cli"; do
        same "$archive: ${words% *}" "$("$room/$archive/koika" "${words% *}" <"$room/empty" | head -n 1)" "${words#* }"
    done
    same "$archive: nothing is built" "$(cat "$room/asked")" ""
done
[ -e "$room/all/crates/low/out/proof" ] || complain "the archive of all has no proofs"
! [ -e "$room/programs/crates/low/out" ] || complain "the archive of programs has more"
# Only what is built is packed; where nothing is, koika_cli is built.
rm -r "$tree/crates/koika_cli/out"
bin/pack --program "$room/lab.tgz"
same "the lab alone" "$(tar -tzf "$room/lab.tgz" | grep -c koika_cli || true)" 0
rm -r "$tree/crates/lab_cli/out"
: >"$room/asked"
bin/pack --program "$room/koika.tgz" 2>/dev/null
has "koika is built to be packed" "$(cat "$room/asked")" "run koika_cli"
same "koika alone" "$(tar -tzf "$room/koika.tgz" | grep -c lab_cli || true)" 0
# Another kit, and other sources.
sed -i 's/a kit/another kit/' "$room/kit/rt"
has "another kit" "$("$room/all/bin/unpack" "$room/all.tgz" 2>&1)" "another kit"
echo more >>"$room/all/crates/low/src/lib.rt"
status=0
said=$("$room/all/bin/unpack" "$room/all.tgz" 2>&1) || status=$?
has "other sources" "$status $said" "lab_cli was made from other sources"
same "other sources" "$status" 7

echo "$tried tried, $wrong wrong"
[ "$wrong" = 0 ]
