"""Gives types of src/ and definitions of specs/ other names, in all files that mean them. `bench/rename.sh` says how."""
import collections
import os
import re
import signal
import sys

from imports import IMPORT, Tree, module_of, read, unresolved
from sources import TOP, lines_of

# Lines of sources that a script knows by heart.
PLACES = "bench/house.txt"

Rename = collections.namedtuple("Rename", "crate kind module old new")
# A name of antt with its modules, and one of Rust with its modules.
CHAIN = re.compile(r"[^\s(){}\[\],;:@\"`]+")
PATH = re.compile(r"[A-Za-z_]\w*(?:::[A-Za-z_]\w*)*")
MASK = "\0"
# An import of Rust.
USE = re.compile(r"(^ *(?:pub(?:\([a-z ]+\))? )?use )((?!Rattle\.)[^;]*);", re.M)


def place_of(path):
    """The whole name of the module that a file of definitions or proofs is."""
    return ".".join(["Rattle", path.split("/")[1], *path[: -len(".antt")].split("/")[2:]])


class Change:
    """Renames of the tree."""

    def __init__(self, tree, renames):
        self.tree, self.renames, self.wrong = tree, renames, []
        self.scope = tree.in_scope(renames)
        # By module of definitions, the names that change, those that a module names again (`pub use`) too.
        self.homes = collections.defaultdict(dict)
        for one in renames:
            if one.kind == "definition":
                self.homes[f"Rattle.{one.crate}.specs.{one.module}"][one.old] = one
        again = []
        for path, text in tree.texts.items():
            if path.endswith(".antt"):
                for line in text.split("\n"):
                    found = IMPORT.match(line)
                    if found and found[1].startswith("pub ") and found[3]:
                        again.append((place_of(path), found[2], [it.strip() for it in found[3].split(",")]))
        size = -1
        while size != sum(map(len, self.homes.values())):
            size = sum(map(len, self.homes.values()))
            for here, there, names in again:
                for name in names:
                    if name in self.homes.get(there, {}):
                        self.homes[here][name] = self.homes[there][name]
        self.name_lemmas()

    def name_lemmas(self):
        """Lemmas that are named for a definition that changes, as `Name-..`, change with it."""
        for path, text in self.tree.texts.items():
            if not path.endswith(".antt"):
                continue
            names = dict(self.homes.get(place_of(path), {}))
            for line in text.split("\n"):
                found = IMPORT.match(line)
                for name in (it.strip() for it in (found[3] or "").split(",")) if found else ():
                    if name in self.homes.get(found[2], {}):
                        names[name] = self.homes[found[2]][name]
            for lemma in set(re.findall(r"^ *(?:\w+ )*([^\s(){}\[\],;:.]+-\S+) :", text, re.M)):
                begin, _, rest = lemma.partition("-")
                if begin in names:
                    self.homes[place_of(path)][lemma] = names[begin]._replace(old=lemma, new=f"{names[begin].new}-{rest}")

    # ---- names of antt

    def segment(self, names, part):
        """A part of a name where these names change: the name itself, or one that the kit makes of it, as `fold-Name`."""
        if part in names:
            return names[part].new
        if "-" in part or "_" in part:
            for old, one in names.items():
                if one.kind == "type" and re.search(rf"(^|[-_]){re.escape(old)}($|-)", part):
                    return re.sub(rf"(^|[-_]){re.escape(old)}(?=$|-)", rf"\g<1>{one.new}", part)
        return part

    def of_impl(self, names, part):
        """A part of a path that names a type or the impl of a trait for it."""
        for old, one in names.items():
            if part == old or part.startswith(old) and part[len(old) :] in self.tree.traits:
                return one.new + part[len(old) :]
        return part

    def path(self, parts):
        """A whole name, as a list of its parts from `Rattle` on, with the new names."""
        if len(parts) < 4 or parts[0] != "Rattle":
            return parts
        crate, side, new = parts[1], parts[2], list(parts)
        for at in range(len(parts) - 1, 3, -1):
            names = self.homes.get(".".join(parts[:at]), {})
            if self.segment(names, parts[at]) != parts[at]:
                new[at] = self.segment(names, parts[at])
                return new
        if parts[2:4] == ["specs", "declared"] or parts[2:4] == ["specs", "contracts"] or side == "proofs":
            begin = 4 if side == "specs" else 3
            for at in range(begin, len(parts)):
                names = self.scope.get((crate, tuple(parts[begin:at])), {})
                if not names:
                    continue
                declared = {old: one for old, one in names.items() if one.crate == crate and one.module.split(".") == parts[begin:at]}
                if parts[3] == "declared" and parts[at] in declared:
                    # What comes after the module of a type is made of it, and then there are its cases.
                    for here in range(at, len(parts)):
                        if parts[here] == "TheVariants":
                            break
                        new[here] = self.segment(declared, parts[here])
                    return new
                if parts[3] != "declared":
                    new[at] = self.of_impl(names, parts[at])
        return new

    def imported(self, line, local, modules):
        """An import with the new names. Adds the names that it brings, and the modules, by the word that they go by."""
        found = IMPORT.match(line)
        begin, path, listed, alias, end, space = found.groups()
        parts = path.split(".")
        if listed is None:
            new = self.path(parts)
            word = alias[4:] if alias else parts[-1]
            modules[word] = parts
            if not alias and new[-1] != parts[-1]:
                local[parts[-1]] = new[-1]
            return f"{begin}{'.'.join(new)}{alias}{end}{space}"
        names = []
        for name in filter(None, (it.strip() for it in listed.split(","))):
            there, _, here = name.partition(" as ")
            new = self.path([*parts, there])
            local[here or there] = here or new[-1]
            names.append(f"{new[-1]} as {here}" if here else new[-1])
        # (a module that is named as a type keeps its name in a list)
        return f"{begin}{'.'.join(self.path([*parts, '_'])[:-1])}.{{{', '.join(names)}}}{alias}{end}{space}"

    def chained(self, chain, local, modules):
        """A name in a text of antt, maybe with a module or fields."""
        parts = chain.split(".")
        if parts[0] == "Rattle":
            return ".".join(self.path(parts))
        if parts[0] in modules and len(parts) > 1:
            whole = modules[parts[0]]
            new = self.path([*whole, *parts[1:]])
            return ".".join([parts[0], *new[len(whole) :]])
        parts[0] = local.get(parts[0], parts[0])
        return ".".join(parts)

    def antt(self, path, text):
        """A file of definitions or proofs."""
        local, modules = {}, {}
        lines = text.split("\n")
        for number, line in enumerate(lines):
            if IMPORT.match(line):
                lines[number] = self.imported(line, local, modules)
        local |= {old: one.new for old, one in self.homes.get(place_of(path), {}).items()}
        changed = {old: new for old, new in local.items() if old != new}
        self.look_for_clashes(path, changed)
        text, is_of = masked("\n".join(lines)), ""
        lines = text.split("\n")
        for number, line in enumerate(lines):
            if not line.startswith(" "):
                is_of = (re.match(r"(?:\w+ )*(data|record) ", line) or [None, ""])[1]
            if not IMPORT.match(line):
                lines[number] = self.antt_line(line, changed, modules, is_of if line.startswith(" ") else "")
        return "\n".join(lines).replace(MASK, "")

    def antt_line(self, line, changed, modules, is_of=""):
        if line.lstrip().startswith("--"):
            return in_quotes(line, changed)
        # (a case of a data type and a field of a record keep their names)
        begin = re.match(r"\s+(?:pub )?[^():{}]+ : ", line)
        begin = begin[0] if is_of and begin else ""
        return begin + CHAIN.sub(lambda it: self.chained(it[0], changed, modules), line[len(begin) :])

    # ---- names of Rust

    def rust(self, at, path, text):
        """A file of src/."""
        scope = {old: one.new for old, one in self.scope.get(at, {}).items()}
        local, modules = {}, {}
        lines = text.split("\n")
        for number, line in enumerate(lines):
            if IMPORT.match(line):
                lines[number] = self.imported(line, local, modules)
        # In a clause a name is what `ghost use` brings, and else what it is in Rust.
        ghost = {**{old: new for old, new in scope.items() if old not in local}, **{old: new for old, new in local.items() if old != new}}
        self.look_for_clashes(path, {**scope, **ghost})
        text = "\n".join(lines)
        said, last = [], 0
        for first, end in clauses_of(text):
            said.append(self.rust_code(at, text[last:first], scope))
            said.append("\n".join(
                line if IMPORT.match(line) else self.clause_line(line, ghost, modules) for line in masked(text[first:end]).split("\n"))
                .replace(MASK, ""))
            last = end
        said.append(self.rust_code(at, text[last:], scope))
        return "".join(said)

    def clause_line(self, line, ghost, modules):
        if line.lstrip().startswith("//"):
            return in_quotes(line, ghost)
        return CHAIN.sub(lambda it: self.chained(it[0], ghost, modules), line)

    def rust_code(self, at, text, scope):
        """Code, where these names change. Imports change by what they name."""
        said, last = [], 0
        for item in USE.finditer(text):
            said += [self.outside_imports(at, text[last : item.start()], scope), self.used(at, item[0])]
            last = item.end()
        return "".join([*said, self.outside_imports(at, text[last:], scope)])

    def outside_imports(self, at, text, scope):
        cases = cases_of(text)

        def name(found):
            before = text[: found.start()][-2:]
            if before[-1:] == "." and before != ".." or found.start() in cases:
                return found[0]
            return self.rust_path(at, found[0], scope)

        # Strings and comments are no code.
        pieces, last = [], 0
        for other in re.finditer(r"//[^\n]*|b?\"(?:\\.|[^\"\\])*\"|b?'(?:\\.|[^'\\])'|(?<![\w'])'[a-z_]\w*\b(?!')", text):
            pieces.append((last, other.start(), True))
            pieces.append((other.start(), other.end(), False))
            last = other.end()
        pieces.append((last, len(text), True))
        said = []
        for first, end, is_code in pieces:
            if not is_code:
                said.append(in_quotes(text[first:end], scope) if text[first : first + 2] == "//" else text[first:end])
                continue
            at_, piece = first, ""
            for found in PATH.finditer(text, first, end):
                if re.match(r"[\w']", text[found.start() - 1 : found.start()]):
                    continue
                piece += text[at_ : found.start()] + name(found)
                at_ = found.end()
            said.append(piece + text[at_:end])
        return "".join(said)

    def rust_path(self, at, chain, scope):
        parts = chain.split("::")
        if len(parts) > 2 and parts[1] in ("specs", "proofs"):
            whole = ["Rattle", at[0] if parts[0] == "crate" else parts[0], *parts[1:]]
            return "::".join([parts[0], *self.path(whole)[2:]])
        if parts[0] in scope:
            return "::".join([scope[parts[0]], *parts[1:]])
        for end in range(1, len(parts)):
            there = self.tree.place(at, parts[:end])
            if there and parts[end] in self.scope.get(there, {}):
                parts[end] = self.scope[there][parts[end]].new
                break
        return "::".join(parts)

    def used(self, at, text):
        """The `use` items of a text, whose names are under the modules before their brackets."""

        def item(found):
            def walk(tree, before):
                group = re.match(r"(\s*)([\w:]*::)?\{(.*)\}(\s*)$", tree, re.S)
                if group:
                    inside, depth, part = [], 0, ""
                    deeper = (*before, *[it for it in (group[2] or "").split("::") if it])
                    for sign in group[3] + ",":
                        depth += (sign == "{") - (sign == "}")
                        if sign == "," and depth == 0:
                            inside.append(walk(part, deeper))
                            part = ""
                        else:
                            part += sign
                    return f"{group[1]}{group[2] or ''}{{{','.join(inside)}}}{group[4]}"
                named = re.match(r"(\s*)([\w:]+)(.*)$", tree, re.S)
                if not named:
                    return tree
                whole = (*before, *named[2].split("::"))
                there = self.tree.place(at, whole[:-1])
                if there is None or whole[-1] not in self.scope.get(there, {}):
                    return tree
                new = self.scope[there][whole[-1]].new
                return f"{named[1]}{'::'.join([*named[2].split('::')[:-1], new])}{named[3]}"

            return f"{found[1]}{walk(found[2], ())};"

        return USE.sub(item, text)

    # ---- files

    def look_for_clashes(self, path, changed):
        """Notes where a new name is one that the file has already."""
        if not changed:
            return
        words, mark = set(), "//" if path.endswith((".rt", ".rt.in")) else "--"
        for line in self.tree.texts[path].split("\n"):
            found = IMPORT.match(line)
            if found:
                line = f"{found[3] or found[2].split('.')[-1]}{found[4]}" if not found[4] or found[3] else found[4]
            if not line.lstrip().startswith(mark):
                words |= set(re.findall(r"[\w'-]+", re.sub(r'"[^"]*"', "", line)))
        self.wrong += [f"{path}: {new} is a name there already" for old, new in changed.items() if old != new and new in words]

    def edit(self, path, text):
        """A deliberate mistake: its lines change as those of the file that it is of."""
        crate, lines, of = path.split("/")[1], [], ""
        for line in text.split("\n"):
            if line.startswith("file: "):
                of = f"crates/{crate}/{line[6:].strip()}"
            mark = re.match(r"(?:old|new): ?", line)
            if mark and of in self.tree.texts:
                line = mark[0] + self.fragment(of, line[mark.end() :])
            lines.append(line)
        return "\n".join(lines)

    def fragment(self, path, text):
        """A line of an edit, with the names of the file that it is for."""
        whole = self.tree.texts[path]
        local, modules = {}, {}
        for line in whole.split("\n"):
            if IMPORT.match(line):
                self.imported(line, local, modules)
        if IMPORT.match(text):
            return self.imported(text, {}, {})
        local = {old: new for old, new in local.items() if old != new}
        if path.endswith(".antt"):
            return self.antt_line(text, local, modules)
        at = path.split("/")[1], module_of(path)
        if re.match(r"\s*(requires|ensures|ghost)\b", text):
            return self.clause_line(text, local, modules)
        return self.rust_code(at, text, {old: one.new for old, one in self.scope.get(at, {}).items()})

    def list_of_places(self, text):
        """The list of places of bench/house.sh: a line has a file, and then a line of that file."""
        lines = text.split("\n")
        for number, line in enumerate(lines):
            found = re.match(r"(\w+ \d+ (\S+) )(.*)", line)
            if found and found[2] in self.tree.texts:
                lines[number] = found[1] + self.fragment(found[2], found[3])
        return "\n".join(lines)

    def texts(self):
        """The files that change: path and new text."""
        of_module = {path: at for at, path in self.tree.modules.items()}
        places = read(PLACES)
        if self.list_of_places(places) != places:
            yield PLACES, self.list_of_places(places)
        for path, text in self.tree.texts.items():
            if path.endswith(".edit"):
                new = self.edit(path, text)
            elif path in of_module:
                new = self.rust(of_module[path], path, text)
            else:
                new = self.antt(path, text)
            if new != text:
                yield path, new

    def folders(self):
        """The folders of proofs that have another name: those of the methods of a type."""
        for crate in self.tree.crates:
            for folder, names, _ in os.walk(f"{TOP}/crates/{crate}/proofs"):
                below = os.path.relpath(folder, f"{TOP}/crates/{crate}/proofs")
                module = () if below == "." else tuple(below.split("/"))
                there = self.scope.get((crate, module), {})
                for name in names:
                    new = self.of_impl(there, name)
                    if new == name and name.startswith("+"):
                        for old, one in there.items():
                            new = re.sub(rf"(?<=[-+]){re.escape(old)}(?=$|[-+])", one.new, new)
                    if new != name:
                        yield f"{folder}/{name}", f"{folder}/{new}"


def masked(text):
    """A text in which the names of fields that records are given are no names: those between `{` or `;` and `=`."""
    return re.sub(r"([{;]\s*)(?=[^\s(){}\[\],;:@\"`.]+ = )", rf"\g<1>{MASK}", text)


def in_quotes(line, changed):
    """A comment, in which only what is written as code changes."""
    return re.sub(r"`[^`]*`", lambda it: re.sub(r"[A-Za-z_][\w'-]*", lambda name: changed.get(name[0], name[0]), it[0]), line)


def clauses_of(text):
    """Where the clauses and ghost items of a Rust text are: pairs of offsets."""
    last = 0
    for begin in re.finditer(r"^[ \t]*(?:pub )?(?:ghost use [^\n]*|(?:requires|ensures|ghost)\b[^\n{;]*\{)|\brequires \{", text, re.M):
        if begin.start() < last:
            continue
        at, depth = begin.end(), 1 if begin[0].endswith("{") else 0
        while depth > 0 and at < len(text):
            depth += (text[at] == "{") - (text[at] == "}")
            at += 1
        last = at
        yield begin.start(), at


def cases_of(text):
    """The offsets of the names of enums' cases."""
    found = set()
    for begin in re.finditer(r"\benum \w+[^{;]*\{", text):
        depth, at, is_first = 1, begin.end(), True
        while depth > 0 and at < len(text):
            sign = text[at]
            if text[at : at + 2] == "//":
                at = text.index("\n", at)
                continue
            if text[at : at + 2] == "#[":
                at = text.index("]", at)
            elif sign in "({[":
                depth += 1
            elif sign in ")}]":
                depth -= 1
            elif depth == 1 and sign == ",":
                is_first = True
            elif depth == 1 and is_first and re.match(r"\w", sign):
                found.add(at)
                is_first = False
            at += 1
    return found


def renames_of(lines):
    found = []
    for line in lines:
        words = line.partition("#")[0].split()
        if not words:
            continue
        if len(words) != 4 or words[1] not in ("type", "definition") or "." not in words[2]:
            sys.exit(f"not understood: {line.strip()}\na line is: CRATE type|definition MODULE.OLD NEW")
        module, _, old = words[2].rpartition(".")
        found.append(Rename(words[0], words[1], module, old, words[3]))
    return found


def check_is_there(tree, renames):
    for one in renames:
        if one.kind == "type":
            path = tree.modules.get((one.crate, tuple(one.module.split("."))))
            begins = rf"^ *(?:pub(?:\([a-z ]+\))? )?(?:struct|enum|type|trait) {one.old}\b"
        else:
            path = f"crates/{one.crate}/specs/{one.module.replace('.', '/')}.antt"
            begins = rf"^(?:(?:abbrev|unfoldable|opaque|private|pub|record|data) )+{re.escape(one.old)}(?=[\s:(])"
        if path not in tree.texts or not re.search(begins, tree.texts[path], re.M):
            yield f"{one.crate} has no {one.kind} {one.module}.{one.old}"


def left_in_pages(renames):
    """Lines of pages and scripts that write an old name as code: a person has to look at them."""
    for folder in ("docs", "."):
        for name in sorted(os.listdir(f"{TOP}/{folder}")):
            if name.endswith(".md") and name != "DEFINITIONS.md":
                for number, line in enumerate(lines_of(f"{folder}/{name}"), 1):
                    quoted = " ".join(re.findall(r"`[^`]*`", line))
                    for one in renames:
                        if re.search(rf"(?<![\w'-]){re.escape(one.old)}(?![\w'-])", quoted):
                            yield f"{folder}/{name}:{number} has `{one.old}`: {one.crate} calls its own {one.new} now"


def main(words):
    tree = Tree()
    is_dry = words[:1] == ["--look"]
    words = words[is_dry:]
    if len(words) == 1 and os.path.exists(words[0]):
        with open(words[0], encoding="utf-8") as file:
            renames = renames_of(file)
    elif len(words) == 4:
        renames = renames_of([" ".join(words)])
    else:
        sys.exit("usage: bench/rename.sh [--look] FILE | [--look] CRATE type|definition MODULE.OLD NEW")
    wrong = list(check_is_there(tree, renames))
    if wrong:
        sys.exit("\n".join(wrong))
    before = unresolved(tree)
    change = Change(tree, renames)
    texts = list(change.texts())
    if change.wrong:
        sys.exit("\n".join(sorted(set(change.wrong))))
    folders = list(change.folders())
    print(f"{len(renames)} names, {len(texts)} files, {len(folders)} folders")
    if is_dry:
        print("\n".join([*(path for path, _ in texts), *(old for old, _ in folders)]))
        return 0
    for path, text in texts:
        with open(f"{TOP}/{path}", "w", encoding="utf-8") as file:
            file.write(text)
    for old, new in folders:
        os.rename(old, new)
    print("\n".join(left_in_pages(renames)))
    # (an import changes together with what it names, so what was wrong before is wrong in as many places)
    after = unresolved(Tree())
    if len(after) > len(before):
        print("\n".join(f"{path}: {what}" for path, what in sorted(after)))
    return 1 if len(after) > len(before) else 0


if __name__ == "__main__":
    signal.signal(signal.SIGPIPE, signal.SIG_DFL)  # a reader may stop early
    sys.exit(main(sys.argv[1:]))
