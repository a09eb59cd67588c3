#!/usr/bin/env python3
"""Tries the folder textmate/ as an extension of VS Code, and Vim's compiler file: extension.py PROGRAM

The files that package.json names are there and of the right form, each snippet gives text that the program takes, and
the places of faults are found in what bin/explain writes."""
import json
import os
import re
import subprocess
import sys
import tempfile

HERE = os.path.dirname(os.path.abspath(__file__))
FOLDER = os.path.join(HERE, "textmate")

# Where a snippet is put; all others are declarations.
AROUND = {
    "design": "@",
    "increment": "reg r : bits 8 = 8'd0; rule a { @ } schedule { a; }",
    "choice": "input c : bits 1; rule a { @ } schedule { a; }",
    "try": "rule a { } schedule { @ }",
}


def load(name):
    with open(os.path.join(FOLDER, name)) as file:
        return json.load(file)


def filled(body):
    """The text of a snippet with its own words in place of the marks, of which one number has one word."""
    words = {}

    def word(found):
        number, default = found.group(1) or found.group(2), found.group(3) or ""
        assert words.setdefault(number, default) == default, f"${number} has two words in {body}"
        return default

    return re.sub(r"\$(?:(\d+)|\{(\d+)(?::([^}]*))?\})", word, "\n".join(body))


def wrong_snippets(program):
    for name, snippet in load("koika.snippets.json").items():
        assert set(snippet) == {"prefix", "body", "description"}, name
        source = AROUND.get(name, "@ schedule { }").replace("@", filled(snippet["body"]))
        answer = subprocess.run([program, "check"], input=source.encode(), capture_output=True).stdout.decode()
        if not answer.startswith("ok "):
            yield f"the snippet {name} is answered {answer.strip()}: {source}"


def wrong_parts(package):
    languages = {language["id"] for language in package["languages"]}
    for language in package["languages"]:
        if not set(load(language["configuration"])) <= {"comments", "brackets", "autoClosingPairs", "surroundingPairs"}:
            yield f"the configuration of {language['id']} has unknown parts"
    for grammar in package["grammars"]:
        if grammar["language"] not in languages or load(grammar["path"])["scopeName"] != grammar["scopeName"]:
            yield f"the grammar {grammar['path']} is of another language or scope"
    for snippets in package["snippets"]:
        if snippets["language"] not in languages:
            yield f"the snippets {snippets['path']} are of another language"


def fault_of(program, path):
    """What bin/explain writes of a file."""
    command = [os.path.join(HERE, "../bin/explain"), "--part", "1", path, program, "check"]
    with open(path) as source:
        return subprocess.run(command, stdin=source, capture_output=True).stderr.decode()


def wrong_places(package, program, room):
    path = os.path.join(room, "a b.koika")
    with open(path, "w") as file:
        file.write("schedule {\n    a;\n}\n")
    pattern = package["problemMatchers"][0]["pattern"]
    found = [match for line in fault_of(program, path).splitlines() if (match := re.match(pattern["regexp"], line))]
    parts = [(match[pattern["file"]], match[pattern["line"]], match[pattern["column"]]) for match in found]
    if parts != [(path, "2", "5")]:
        yield f"VS Code finds the places {parts}"
    out, script = os.path.join(room, "out"), os.path.join(room, "script.vim")
    with open(script, "w") as file:
        file.write(f"""set nocompatible
set runtimepath^={HERE}/vim
edit {path.replace(" ", chr(92) + " ")}
compiler koika
let explain = '{HERE}/../bin/explain --part 1 ' . expand('%:S') . ' {program} check <'
let &makeprg = substitute(&makeprg, 'koika check', explain, '')
silent make!
let rows = []
for row in getqflist()
  call add(rows, row.lnum . ' ' . row.col . ' ' . bufname(row.bufnr))
endfor
call writefile(rows, '{out}')
quitall!
""")
    subprocess.run(["vim", "-es", "-u", "NONE", "-S", script], check=True, capture_output=True, timeout=120)
    with open(out) as file:
        rows = file.read().splitlines()
    if rows != ["2 5 " + path]:
        yield f"Vim finds the places {rows}"


def main():
    program = os.path.abspath(sys.argv[1])
    package = load("package.json")["contributes"]
    with tempfile.TemporaryDirectory() as room:
        wrong = [*wrong_parts(package), *wrong_snippets(program), *wrong_places(package, program, room)]
    for line in wrong:
        print(line)
    print(f"{len(load('koika.snippets.json'))} snippets, {len(wrong)} wrong")
    sys.exit(bool(wrong))


main()
