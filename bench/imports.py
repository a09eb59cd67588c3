"""Says which imports of the sources name nothing, and what a file uses without an import: `bench/imports.sh`. `rename.py` uses
it, too."""
import collections
import functools
import os
import re
import signal
import sys

from sources import TOP, crates, definitions_of, files

# What a kit's derive or an impl adds to a type's name: the trait. The others are found in the sources.
TRAITS = {"Clone", "Copy", "Debug", "Default", "Drop", "Eq", "Hash", "Ord", "PartialEq", "PartialOrd", "Error", "Display"}
# What stands between a type and the trait where the impl is at a reference to a `dyn` type, before and behind its traits.
AT = {"Ref", "Dyn", "Sync"}
IMPORT = re.compile(r"^(\s*(?:ghost )?(?:pub )?use )(Rattle\.[\w.'+-]+?)(?:\.\{(.*)\})?((?: as [\w']+)?)(;?)(\s*)$")


class Tree:
    """The files of the crates, and which Rust names each module has in scope."""

    def __init__(self):
        self.crates = crates()
        self.texts, self.modules = {}, {}
        for crate in self.crates:
            for part, ending in (("src", ".rt"), ("specs", ".antt"), ("proofs", ".antt"), ("must-fail", ".edit"), ("wrong-bodies", ".edit")):
                for path in files(crate, part, ending):
                    self.texts[path] = read(path)
            for path in files(crate, "src", ".rt"):
                self.modules[crate, module_of(path)] = path
        # Files that scripts put into a copy of the tree are of no crate here.
        for folder, _, names in os.walk(f"{TOP}/bench"):
            for name in names:
                if name.endswith(".rt.in"):
                    path = os.path.relpath(f"{folder}/{name}", TOP)
                    self.texts[path] = read(path)
                    self.modules["", (path,)] = path
        self.uses = {key: uses_of(self.texts[path]) for key, path in self.modules.items()}
        self.traits = TRAITS | set(re.findall(r"\btrait (\w+)", "\n".join(self.texts[path] for path in self.modules.values())))

    def place(self, at, path):
        """The crate and module that the modules of a Rust path name, from a module on; none where they name no module."""
        crate, module = at
        if not path:
            return at
        first, rest = path[0], tuple(path[1:])
        if first == "crate":
            found = crate, rest
        elif first == "self":
            found = crate, (*module, *rest)
        elif first == "super":
            found = crate, (*module[:-1], *rest)
        elif (crate, (*module, first)) in self.modules:
            found = crate, (*module, first, *rest)
        elif first in self.crates:
            found = first, rest
        else:
            return None
        return found if found in self.modules else None

    def in_scope(self, renames):
        """For each module the renames of the types that it has in scope by their own names: by declaring or by importing
        them."""
        scope = collections.defaultdict(dict)
        for one in renames:
            if one.kind == "type":
                scope[one.crate, tuple(one.module.split("."))][one.old] = one
        while True:
            more = []
            for at, uses in self.uses.items():
                for path, alias in uses:
                    there = self.place(at, path[:-1])
                    if there is None or there == at:
                        continue
                    if path[-1] == "*":
                        more += [(at, name, one) for name, one in scope[there].items() if scope[at].get(name) != one]
                    elif alias is None and path[-1] in scope[there] and path[-1] not in scope[at]:
                        more.append((at, path[-1], scope[there][path[-1]]))
            if not more:
                return scope
            for at, name, one in more:
                scope[at][name] = one


def read(path):
    with open(f"{TOP}/{path}", encoding="utf-8") as file:
        return file.read()


def module_of(path):
    """The module of a file of src/, as a list of names."""
    parts = path.split("/src/")[1][: -len(".rt")].split("/")
    if parts[-1] in ("lib", "main", "mod"):
        parts.pop()
    return tuple(parts)


def uses_of(text):
    """What the `use` items of a Rust text import: paths, with the name that they go by here if it is another one."""
    found = []

    def walk(tree, before):
        tree = tree.strip()
        group = re.match(r"(.*?)\{(.*)\}$", tree, re.S)
        if group:
            before = (*before, *[it for it in group[1].split("::") if it.strip()])
            depth, part = 0, ""
            for sign in group[2] + ",":
                depth += (sign == "{") - (sign == "}")
                if sign == "," and depth == 0:
                    if part.strip():
                        walk(part, before)
                    part = ""
                else:
                    part += sign
            return
        path, _, alias = tree.partition(" as ")
        names = [it.strip() for it in path.split("::")]
        if names[-1] == "self":
            names.pop()
        found.append(((*before, *names), alias.strip() or None))

    for tree in re.findall(r"^ *(?:pub(?:\([a-z ]+\))? )?use ([^;]*);", text, re.M):
        if not tree.startswith("Rattle."):
            walk(tree, ())
    return found


def unresolved(tree):
    """The imports that name nothing of the repository that is there: file and what is missing."""
    found, words = set(), {}

    def has(path, name):
        """Whether a file has a word, its own imports and comments aside."""
        if path not in words:
            text = "\n".join(line for line in tree.texts.get(path, "").split("\n") if not re.match(r"\s*(--|//|(ghost )?use )", line))
            words[path] = set(re.findall(r"[^\s(){}\[\],;:@\".!&<>?|]+", text))
        if "◌" in name:
            return all(part in tree.texts.get(path, "") for part in name.split("◌") if part)
        return name in words[path]

    @functools.cache
    def private(path):
        """What a file of definitions or proofs has for itself alone."""
        begins = re.compile(r"((?:(?:abbrev|unfoldable|opaque|private|pub|record|data) )*)([^\s(){}\[\],;:]+)(?= *[:({])")
        first = {}
        for line in tree.texts[path].split("\n"):
            found = begins.match(line)
            if found:
                first.setdefault(found[2], "pub" in found[1].split())
        return {name for name, is_public in first.items() if not is_public}

    def makes(path, name):
        """Whether a name is a type of that file, or what the kit makes of one: with a trait, or with words beside it."""
        name = name.rstrip("'")

        def is_trait(rest):
            return rest in tree.traits or any(rest.startswith(it) and is_trait(rest[len(it) :]) for it in tree.traits | AT)

        with_trait = any(has(path, name[:at]) and is_trait(name[at:]) for at in range(1, len(name)))
        return has(path, name) or with_trait or any(has(path, part) for part in re.split(r"[-_]", name) if len(part) > 1)

    def missing(crate, side, rest, names):
        """What isn't there of a module's names. A module is given by its parts after `specs` or `proofs`."""
        place = f"crates/{crate}/{side}/{'/'.join(rest)}.antt"
        if place in tree.texts:
            # (a module that names others' again may have any name)
            return [name for name in names if name in private(place) or not has(place, name) and "pub use " not in tree.texts[place]]
        if side == "specs" and rest[0] not in ("declared", "contracts"):
            above = f"crates/{crate}/specs/{'/'.join(rest[:-1]) or 'Lib'}.antt"
            return [] if has(above, rest[-1]) else [".".join(rest)]
        # What the kit makes of src/: the modules of a file, then a type, then what it makes of that.
        rest = rest[1:] if side == "specs" else rest
        at = next((at for at in range(len(rest), -1, -1) if (crate, tuple(rest[:at])) in tree.modules), None)
        if at is None or at < len(rest) and rest[at] == "Lib":
            return [".".join(rest)]
        file = tree.modules[crate, tuple(rest[:at])]
        types = [it for it in rest[at : at + 1] if re.match(r"[A-Z]", it) and it != "TheConstants"]
        wrong = [it for it in types if not makes(file, it)]
        if not wrong and side == "specs" and (rest[-1] in ("TheVariants", "TheConstants") or at + 1 == len(rest)):
            wrong = [name for name in names if not name.startswith("the_") and not makes(file, name)]
        return wrong

    for path, text in tree.texts.items():
        if path.endswith((".edit", ".rt.in")):
            continue
        for line in text.split("\n"):
            named = IMPORT.match(line)
            parts = named[2].split(".") if named else []
            if len(parts) < 4 or parts[1] not in tree.crates:
                continue
            names = [it.partition(" as ")[0].strip() for it in (named[3] or "").split(",") if it.strip()]
            for it in missing(parts[1], parts[2], parts[3:], names):
                found.add((path, f"{named[2]}: {it} isn't there"))
    return found


# Operators of the logic that a file has to import. (Others are written in comments and as parts of names, too.)
OPERATORS = ("[]", "∷", "++", "≡", "≢", "≤", "⊎", "↔", "∙", "&&", "||")


def untold(tree):
    """What files of definitions and proofs use and neither import nor define: operators, and definitions of the crate that
    begin with a capital letter."""
    own = collections.defaultdict(set)
    for crate in tree.crates:
        for path in files(crate, "specs", ".antt"):
            own[crate] |= {one.name for one in definitions_of(crate, path) if one.name[:1].isupper()}
    for path, text in tree.texts.items():
        # (the kit reads a former by its place)
        if not path.endswith(".antt") or "/formers/" in path:
            continue
        names, body = set(), []
        for line in text.split("\n"):
            named = IMPORT.match(line)
            if named and named[3] is None:
                names.add(named[4][4:] if named[4] else named[2].split(".")[-1])
            elif named:
                names |= {it.partition(" as ")[2].strip() or it.strip() for it in named[3].split(",")}
            elif not re.match(r"\s*--|(pub )?mod ", line):
                body.append(line)
        text = re.sub(r'"[^"]*"', "", "\n".join(body))
        words = r"(?:(?:abbrev|unfoldable|opaque|private|pub|record|data|infix\w*|\d+) )*"
        names |= set(re.findall(rf"^ *{words}([^\s(){{}}\[\],;:]+)", text, re.M))
        names |= {word for binder in re.findall(r"[(λ{∀]\s*([^():{}.]+?)\s*[:.]", text) for word in binder.split()}
        parts = {part for name in names for part in name.split("◌")}
        used = set(re.findall(r"\[\]|[^\s(){}\[\],;:@\"`]+", text))
        for it in sorted(used):
            if it in OPERATORS and it not in parts or it.split(".")[0] in own[path.split("/")[1]] - names:
                yield path, f"{it} is used, and isn't imported"


def unfolded(tree):
    """The definitions and lemmas that attributes of functions name, as `crate::specs::Module::name`, and that aren't there."""
    for path in tree.modules.values():
        for first, side, rest in re.findall(r"\b(\w+)::(specs|proofs)::([\w:'-]+)", tree.texts[path]):
            *module, name = rest.split("::")
            crate = path.split("/")[1] if first == "crate" else first
            place = f"crates/{crate}/{side}/{'/'.join(module)}.antt"
            if crate in tree.crates and not re.search(rf"(?<![\w'-]){re.escape(name)}(?![\w'-])", tree.texts.get(place, "")):
                yield path, f"{first}::{side}::{rest} isn't there"


def of_rust(tree):
    """The imports of Rust that name nothing that is there, as far as they name modules of the repository."""
    words = r"(?:fn|struct|enum|trait|type|const|static|mod|macro)"
    has = {}
    for at, path in tree.modules.items():
        text = tree.texts[path]
        has[at] = set(re.findall(rf"^ *(?:pub(?:\([a-z ]+\))? )?(?:const |unsafe )*{words} (\w+)", text, re.M))
        has[at] |= set(re.findall(r"\bmacro_rules! (\w+)", text)) | {alias or used[-1] for used, alias in tree.uses[at]}
    # An exported macro is in its crate's root.
    for at, path in tree.modules.items():
        exported = re.findall(r"#\[macro_export\]\s*macro_rules! (\w+)", tree.texts[path])
        if exported and (at[0], ()) in has:
            has[at[0], ()] |= set(exported)
    for at, uses in tree.uses.items():
        for used, _ in uses:
            there = tree.place(at, used[:-1]) if len(used) > 1 else None
            if there and there != at and used[-1] != "*" and used[-1] not in has[there] and "*" not in has[there]:
                yield tree.modules[at], f"{'::'.join(used)} isn't there"


def main():
    tree = Tree()
    found = sorted({*unresolved(tree), *untold(tree), *unfolded(tree), *of_rust(tree)})
    print("\n".join(f"{path}: {what}" for path, what in found) if found else "each import names what is there")
    return 1 if found else 0


if __name__ == "__main__":
    signal.signal(signal.SIGPIPE, signal.SIG_DFL)  # a reader may stop early
    sys.exit(main())
