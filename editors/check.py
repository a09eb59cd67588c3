#!/usr/bin/env python3
"""Compares what editors colour with the program's own tokens: check.py PROGRAM FILE..

For each design, `print` gives the tokens in order; they are found again in the source, and each of their bytes has a class: keyword,
name, number, literal or symbol. The classes of Vim's syntax and of the TextMate grammar have to be the same, and those of blanks and
comments too. For BTOR2 files the classes follow from the form of a line: id, keyword, argument, symbol."""
import json
import os
import re
import subprocess
import sys
import tempfile

HERE = os.path.dirname(os.path.abspath(__file__))
KEYWORDS = set(
    "reg input enum struct table host fun rule schedule try then else if let bits unit abort pack unpack update zext sext slt sle "
    "sgt sge read0 read1 read2 read3 write0 write1 write2 write3 assert".split()
)


def class_of(token):
    """The class of a printed token."""
    if token in KEYWORDS:
        return "keyword"
    if re.fullmatch(r"[A-Za-z_]\w*", token):
        return "name"
    if re.fullmatch(r"\d+", token):
        return "number"
    return "literal" if "'" in token else "symbol"


def expected_of_design(program, source):
    """The class of each byte of a design, and None where blanks are; the stimulus is left out."""
    tokens = subprocess.run([program, "print"], input=source.encode(), capture_output=True, check=True).stdout.decode().split()
    classes = [None] * len(source)
    at = 0
    for token in tokens:
        while True:
            if source[at].isspace():
                at += 1
            elif source.startswith("//", at):
                end = source.index("\n", at)
                classes[at:end] = ["comment"] * (end - at)
                at = end
            else:
                break
        kind = class_of(token)
        forms = {"literal": r"\d+'(?:d\d+|h[\dA-Fa-f]+|b[01]+)", "number": r"\d+"}
        found = re.compile(forms.get(kind, re.escape(token))).match(source, at)
        assert found, f"the token {token} isn't at {at}"
        classes[at : found.end()] = [kind] * (found.end() - at)
        at = found.end()
    mark = re.search(r"^%%$", source, re.M)
    return classes[: mark.start() if mark else len(source)]


def expected_of_circuit(source):
    """The class of each byte of a BTOR2 file."""
    classes = [None] * len(source)
    for line in re.finditer(r"[^\n]*\n?", source):
        text, comment = line.group(), line.group().find(";")
        if comment >= 0:
            end = line.end() - text.endswith("\n")
            classes[line.start() + comment : end] = ["comment"] * (end - line.start() - comment)
            text = text[:comment]
        words = list(re.finditer(r"\S+", text))
        for number, word in enumerate(words):
            if number == 0:
                kind = "id"
            elif number == 1:
                kind = "keyword"
            elif word.group() == "bitvec":
                kind = "keyword"
            elif re.fullmatch(r"-?\d+", word.group()) or words[1].group() == "consth" and number == 3:
                kind = "argument"
            else:
                kind = "symbol"
            classes[line.start() + word.start() : line.start() + word.end()] = [kind] * len(word.group())
    return classes


# The classes of Vim's groups and of TextMate's scopes, by how they begin.
VIM = {
    "koikaDeclaration": "keyword", "koikaType": "keyword", "koikaConditional": "keyword", "koikaStatement": "keyword",
    "koikaAccess": "keyword", "koikaBuiltin": "keyword", "koikaName": "name", "koikaNumber": "number", "koikaLiteral": "literal",
    "koikaSymbol": "symbol", "koikaComment": "comment", "koikaError": "error", "btor2Id": "id", "btor2Keyword": "keyword",
    "btor2Bitvec": "keyword", "btor2Argument": "argument", "btor2Hexadecimal": "argument", "btor2HexSort": "argument",
    "btor2Symbol": "symbol", "btor2Comment": "comment",
}
SCOPES = [
    ("comment", "comment"), ("constant.numeric.literal", "literal"), ("constant.numeric.number", "number"),
    ("constant.numeric.btor2", "argument"), ("keyword.operator", "symbol"), ("keyword", "keyword"), ("storage", "keyword"),
    ("variable.other.koika", "name"), ("variable.other.symbol", "symbol"), ("entity.name.id", "id"), ("invalid", "error"),
]


def vim_classes(source, kind):
    """The class of each byte by Vim's syntax."""
    with tempfile.TemporaryDirectory() as room:
        path, out, script = (os.path.join(room, name) for name in ("source." + kind, "out", "script.vim"))
        with open(path, "w") as file:
            file.write(source)
        with open(script, "w") as file:
            file.write(f"""set nocompatible
set runtimepath^={HERE}/vim
syntax on
edit {path}
set filetype={kind}
let rows = []
for line in range(1, line('$'))
  for column in range(1, len(getline(line)))
    call add(rows, line . ' ' . column . ' ' . synIDattr(synID(line, column, 0), 'name'))
  endfor
endfor
call writefile(rows, '{out}')
quitall!
""")
        subprocess.run(["vim", "-es", "-u", "NONE", "-S", script], check=True, capture_output=True, timeout=120)
        groups = {}
        with open(out) as file:
            for row in file:
                line, column, *name = row.split()
                groups[int(line), int(column)] = name[0] if name else ""
    classes, line, column = [], 1, 1
    for byte in source:
        if byte == "\n":
            classes.append(None)
            line, column = line + 1, 1
        else:
            classes.append(VIM.get(groups.get((line, column), "")))
            column += 1
    return classes


def scope_class(scope):
    return next((kind for begin, kind in SCOPES if scope and scope.startswith(begin)), None)


def textmate_classes(source, kind):
    """The class of each byte by the TextMate grammar: at each place the earliest match, and of several the first pattern's."""
    with open(f"{HERE}/textmate/{kind}.tmLanguage.json") as file:
        grammar = json.load(file)
    classes = []
    inside = grammar["patterns"]
    for line in source.splitlines(keepends=True):
        text = line.rstrip("\n")
        scopes = [None] * len(line)
        at = 0
        while at <= len(text):
            best = None
            for pattern in inside:
                found = re.compile(pattern.get("match", pattern.get("begin"))).search(text, at)
                if found and (best is None or found.start() < best[0].start()):
                    best = (found, pattern)
            if best is None:
                break
            found, pattern = best
            captures = pattern.get("captures", pattern.get("beginCaptures", {}))
            if "match" in pattern and "name" in pattern:
                scopes[found.start() : found.end()] = [pattern["name"]] * (found.end() - found.start())
            for number, capture in captures.items():
                start, end = found.span(int(number))
                scopes[start:end] = [capture["name"]] * (end - start)
            if "begin" in pattern:
                inside = pattern["patterns"]
            at = found.end() if found.end() > found.start() else found.end() + 1
        classes += [scope_class(scope) for scope in scopes]
    return classes


def main():
    program, *paths = sys.argv[1:]
    wrong = 0
    for path in paths:
        with open(path) as file:
            source = file.read()
        jobs = [("koika", source, expected_of_design(program, source))]
        circuit = subprocess.run([program, "compile"], input=source.encode(), capture_output=True, check=True).stdout.decode()
        circuit = "; a comment\n" + circuit.replace("\n", " ; the first line\n", 1)
        jobs.append(("btor2", circuit, expected_of_circuit(circuit)))
        for kind, text, expected in jobs:
            for editor, found in (("vim", vim_classes(text, kind)), ("textmate", textmate_classes(text, kind))):
                differ = [k for k, want in enumerate(expected) if want != found[k] and not text[k].isspace()]
                if differ:
                    wrong += 1
                    k = differ[0]
                    line = text.count("\n", 0, k) + 1
                    print(f"{path}: {editor}, {kind}, line {line}: {text[k:k + 20]!r} is {found[k]}, and not {expected[k]}")
    print(f"{len(paths)} designs and their circuits, {wrong} wrong")
    sys.exit(wrong > 0)


main()
