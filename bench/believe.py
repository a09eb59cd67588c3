"""Prints the definitions that the contract of `run` or of `lab` rests on, or one command's part of it.

`bench/believe.sh` says how."""
import collections
import re
import signal
import sys

from sources import HOLE, TOP, WORD, crates, definitions_of, files, functions_of, ghosts_of, imports_of, lines_of

# The top call of each program, and what each command's answer is.
CALLS = {"run": {("koika_top", "run"), ("koika_top", "run_here")}, "lab": {("lab_top", "lab")}}
COMMANDS = {
    "check": "AnswersCheck",
    "print": "AnswersPrint",
    "sim": "AnswersSim",
    "compile": "AnswersCompile",
    "btorsim": "AnswersBtorsim",
    "aiger": "AnswersAiger",
    "aigsim": "AnswersAigsim",
    "journal": "AnswersJournal",
    "recheck": "AnswersRecheck",
    "gen": "pipeline",
    "why": "AnswersWhy",
    "profile": "AnswersProfile",
    "waves": "AnswersWaves",
    "step": "stream_run.Sessions.IsKept",
    "lint": "AnswersLint",
    "verilog": "AnswersVerilog",
    "obligation": "AnswersObligation",
    "certify": "AnswersCertify",
}
BEGINS_TYPE = r"^ *(?:pub(?:\([a-z]+\))? )?(?:struct|enum|const|type) "
# The commands in the order in which docs/DEFINITIONS.md lists what they rest on: each brings what those before it don't.
LISTED = ["sim", "compile", "why", "profile", "waves", "step", "lint", "check", "print", "gen", "journal", "recheck", "aiger",
          "aigsim", "btorsim", "verilog", "obligation", "certify"]
PAGE = "docs/DEFINITIONS.md"
# The lines of the page between which the order stands.
BEGIN, END = "<!-- made by bench/believe.sh --page -->", "<!-- end of what is made -->"


class House:
    """All definitions, what each uses, and the contracts."""

    def __init__(self):
        self.definitions, self.modules, self.again, self.makes = {}, {}, {}, collections.defaultdict(dict)
        self.functions = []
        for crate in crates():
            for path in files(crate, "specs", ".antt"):
                found = definitions_of(crate, path)
                for one in found:
                    self.definitions[crate, one.module, one.name] = one
                    if one.kind == "data":
                        for line in one.text.split("\n")[1:]:
                            made = re.match(r"\s+(?:pub )?(" + WORD + r")\s*:", line)
                            if made:
                                self.makes[crate, one.module][made[1]] = one.name
                if found:
                    self.modules[crate, found[0].module] = [one.name for one in found]
                for line in lines_of(path):
                    named = re.match(r"pub use Rattle\.(\w+)\.specs\.([\w.]+?)(?:\.\{(.*)\})?\s*$", line)
                    if named:
                        here = path.split("/specs/")[1][: -len(".antt")].replace("/", ".")
                        if named[3] is None:
                            self.again[crate, named[2].split(".")[-1]] = named[1], named[2]
                        else:
                            for name in named[3].split(","):
                                self.again[crate, here, name.strip()] = named[1], named[2], name.strip()
            for path in files(crate, "src", ".rt"):
                self.functions += functions_of(crate, path)
        self.uses, self.types = {}, {}
        for key, one in self.definitions.items():
            names = set(self.modules[key[:2]]) | set(self.makes[key[:2]])
            used, self.types[key] = self.named(one.text, one.imports, key[:2], names)
            # In a file a definition comes after what it uses: another word of the same name is a parameter.
            self.uses[key] = {it for it in used if it[:2] != key[:2] or self.definitions[it].first < one.first}

    def module(self, path):
        """The module that an import names, if it is one of definitions: crate and module."""
        found = re.match(r"Rattle\.(\w+)\.specs\.(.+)$", path)
        if not found:
            return None
        return self.again.get(found.groups(), found.groups())

    def known(self, module, name):
        """The definition of a name in a module: its own, that of a case, or one that the module names again."""
        key = (*module, name)
        if key in self.definitions:
            return key
        if name in self.makes[module]:
            return (*module, self.makes[module][name])
        return self.again.get(key)

    def named(self, text, imports, here=None, own=()):
        """The definitions and the program's types that a text names."""
        text = "\n".join(line for line in text.split("\n") if not line.lstrip().startswith("--"))
        plain = re.sub(r"(?<=[\w)\]'])\.[\w']+", "", text)  # without the fields of values
        words = set(re.findall(WORD, plain)) | set(re.findall(r"[^\s(){}\[\],;:@\"]+", plain))
        found, types = set(), set()

        def is_there(name):
            return any(part in words for part in name.split(HOLE) if part) if HOLE in name else name in words

        def note(path, name):
            module = self.module(path)
            if module is None:
                return
            if module[1].startswith("declared."):
                types.add((module[0], re.sub(r"\.The\w+$", "", module[1][len("declared.") :])))
            else:
                key = self.known(module, name)
                if key:
                    found.add(key)

        for alias, name in re.findall(r"\b(\w+)\.(" + WORD + ")", text):
            if alias in imports.modules:
                note(imports.modules[alias], name)
        for name, (path, there) in imports.names.items():
            if is_there(name):
                note(path, there)
        for name in own:
            if is_there(name):
                found.add(self.known(here, name))
        return found, types

    def reached(self, start):
        """What these definitions use, themselves included."""
        seen, left = set(), list(start)
        while left:
            key = left.pop()
            if key not in seen:
                seen.add(key)
                left += self.uses[key]
        return seen

    def of_contracts(self, of=None):
        """What the contracts of these public functions rest on, or those of all, with what public types say of
        themselves."""
        found = set()
        for one in self.functions:
            if one.is_public and (of is None or (one.crate, one.name) in of):
                found |= self.named(one.clauses, one.imports)[0]
        if of is None:
            for crate in crates():
                for text, imports in ghosts_of(crate):
                    found |= self.named(text, imports)[0]
        return self.reached(found)

    def ordered(self, reached):
        """These definitions, each after those that it uses: file by file, and in a file as they come there."""
        below, order = collections.defaultdict(set), []
        for key in reached:
            below[key[:2]] |= {it[:2] for it in self.uses[key] if it[:2] != key[:2]}

        def visit(module, path):
            if module in order or module in path:
                return
            for lower in sorted(below[module]):
                visit(lower, path + [module])
            order.append(module)

        for module in sorted(below):
            visit(module, [])
        place = {module: at for at, module in enumerate(order)}
        return sorted(reached, key=lambda key: (place[key[:2]], self.definitions[key].first))

    def answers(self, command):
        """The definition that a command's answer is, by its name, which is written with its module where two have it."""
        return [key for key in self.definitions if COMMANDS[command] in (key[2], ".".join(key))]

    def has_command(self, command):
        return bool(self.answers(command))

    def size(self, keys):
        return sum(self.definitions[key].last - self.definitions[key].first + 1 for key in keys)

    def types_of(self, reached):
        """The program's types that these definitions name: file, first and last line, by name."""
        found = []
        for crate, path in sorted({it for key in reached for it in self.types[key]}):
            *folders, name = path.split(".")
            for file in (f"crates/{crate}/src/{'/'.join(folders)}.rt", f"crates/{crate}/src/lib.rt"):
                try:
                    text = "\n".join(lines_of(file))
                except FileNotFoundError:
                    continue
                type_ = re.search(BEGINS_TYPE + name + r"\b[^{;]*?(;|\{\}|\{.*?\n *\}|\{[^\n]*\})", text, re.S | re.M)
                if type_:
                    first = text.count("\n", 0, type_.start()) + 1
                    found.append((file, first, first + type_[0].count("\n"), name))
                    break
        return found


def check(house):
    """Whether what has to be believed is where it says: prints what is not."""
    wrong = []
    for call, functions in CALLS.items():
        for key in house.ordered(house.of_contracts(functions)):
            one = house.definitions[key]
            if key[1].startswith("inner."):
                wrong.append(f"{one.path}:{one.first} {key[2]} is in inner/, and `{call}` rests on it")
    public = house.of_contracts()
    for (crate, module), names in house.modules.items():
        # (the kit reads what describes a type's form by its place)
        if not module.startswith(("inner.", "formers.")) and not any((crate, module, name) in public for name in names):
            wrong.append(f"crates/{crate}/specs/{module.replace('.', '/')}.antt: no public contract rests on it")
    seen = set()
    for key in (key for keys in lists_of(house) for key in house.ordered(keys)):
        for used in house.uses[key] - seen - {key}:
            wrong.append(f"{house.definitions[key].path}: {key[2]} comes before {used[2]} of {used[1]}, which it uses")
        seen.add(key)
    if order_of(house) != page_parts()[1]:
        wrong.append(f"{PAGE} isn't what `bench/believe.sh --page` makes of the sources")
    print("\n".join(wrong) if wrong else f"all that has to be believed is in specs/ and in {PAGE}")
    return 1 if wrong else 0


def sentence(path):
    """What a file says of itself: the first sentence of the comment that it begins with."""
    said = []
    for line in lines_of(path):
        if not line.startswith("--"):
            break
        said.append(line[2:].strip())
    found = re.match(r"(.*?[.:])(?= [A-Z`]|$)", " ".join(said))
    said = (found[1] if found else " ".join(said)).rstrip(":")
    return said.replace("|", "\\|").replace("*", "\\*")


def table_of(house, keys):
    """A row for each file that these definitions are in, in the order in which to read them."""
    of = collections.defaultdict(list)
    for key in house.ordered(keys):
        of[house.definitions[key].path].append(f"`{key[2]}`".replace("|", "\\|"))
    rows = ["| file | what it says | definitions |", "|---|---|---|"]
    return rows + [f"| `{path[len('crates/'):]}` | {sentence(path)} | {', '.join(names)} |" for path, names in of.items()]


def how_much(house, keys):
    return f"{len(keys):,} definitions, {house.size(keys):,} lines:"


def lists_of(house):
    """What the page lists, in its order: for each command what those before it don't rest on, and then the rest."""
    seen, found = set(), []
    for command in filter(house.has_command, LISTED):
        found.append(house.reached(roots(house, command)) - seen)
        seen |= found[-1]
    return [*found, set().union(*(house.of_contracts(functions) for functions in CALLS.values())) - seen]


def order_of(house):
    """The order in which to read what is believed, as Markdown: a row for each file, with its definitions."""
    said = ["| to believe | definitions | lines | files |", "|---|---|---|---|", *counts_of(house), ""]
    *lists, rest = lists_of(house)
    for command, keys in zip(filter(house.has_command, LISTED), lists):
        what = "read in this order" if command == LISTED[0] else "read besides"
        said += [f"### `{command}`", ""]
        if keys:
            said += [f"To believe it, {what}, {how_much(house, keys)}", "", *table_of(house, keys), ""]
        else:
            said += ["It rests on nothing else.", ""]
    said += ["### The calls", "", f"What `run` and `lab` say of each command alike, {how_much(house, rest)}", ""]
    return "\n".join(said + table_of(house, rest))


def page_parts():
    """The page before the order, the order, and what comes after it."""
    with open(f"{TOP}/{PAGE}", encoding="utf-8") as file:
        page = file.read()
    if BEGIN not in page or END not in page:
        return page, "", ""
    before, _, rest = page.partition(f"{BEGIN}\n\n")
    made, _, after = rest.partition(f"\n\n{END}")
    return before, made, after


def write_page(house):
    before, _, after = page_parts()
    with open(f"{TOP}/{PAGE}", "w", encoding="utf-8") as file:
        file.write(f"{before}{BEGIN}\n\n{order_of(house)}\n\n{END}{after}")


def counts_of(house):
    """A row for each command and call: how much it is to believe."""
    rows = []
    for name, keys in [
        *((f"`{it}`", house.reached(roots(house, it))) for it in COMMANDS if house.has_command(it)),
        *((f"all that `{it}` says", house.of_contracts(functions)) for it, functions in CALLS.items()),
    ]:
        rows.append(f"| {name} | {len(keys):,} | {house.size(keys):,} | {len({key[:2] for key in keys})} |")
    return rows


def roots(house, command):
    found = house.answers(command)
    if len(found) != 1:
        sys.exit(f"{len(found)} definitions are called {COMMANDS[command]}")
    return found


def main(words):
    house = House()
    if words == ["--check"]:
        return check(house)
    if words == ["--page"]:
        return write_page(house)
    if words == ["--move"]:
        import inner

        inner.main(house)
        return inner.write_meanings(House())
    if words == ["--counts"]:
        print("\n".join(["| to believe | definitions | lines | files |", "|---|---|---|---|", *counts_of(house)]))
        return 0
    if len(words) > 1 or words and words[0] not in COMMANDS and words[0] not in CALLS:
        sys.exit(f"usage: bench/believe.sh [--check | --counts | --page | --move | {' | '.join([*CALLS, *COMMANDS])}]")
    if words and words[0] in COMMANDS:
        reached = house.reached(roots(house, words[0]))
    else:
        reached = house.of_contracts(CALLS[words[0] if words else "run"])
    order = house.ordered(reached)
    types = house.types_of(reached)
    what = words[0] if words else "run"
    many, lines = len({key[:2] for key in order}), sum(last - first + 1 for _, first, last, _ in types)
    print(f"To believe {what}, read {len(order):,} definitions, {house.size(order):,} lines, in {many} files,")
    print(f"and {len(types)} types of the program, {lines:,} lines.")
    for path, first, last, name in types:
        print(f"{path}:{first}-{last} {name}")
    for key in order:
        one = house.definitions[key]
        print(f"{one.path}:{one.first}-{one.last} {one.name}")
    return 0


if __name__ == "__main__":
    signal.signal(signal.SIGPIPE, signal.SIG_DFL)  # a reader may stop early
    sys.exit(main(sys.argv[1:]))
