"""Reads the sources of the repository: crates, the definitions of specs/, the functions of src/ with their contracts.

`house.py` and `believe.py` use it."""
import collections
import os
import re

TOP = os.path.dirname(os.path.dirname(os.path.abspath(__file__)))
WORD = r"[^\s(){}\[\].,;:@\"]+"
HOLE = "◌"

Definition = collections.namedtuple("Definition", "crate module name kind path first last text comment imports")
Function = collections.namedtuple("Function", "crate path line name is_public parameters clauses imports")
Imports = collections.namedtuple("Imports", "names modules")


def crates():
    """The names of the crates, in the order of crates.txt."""
    with open(f"{TOP}/crates.txt", encoding="utf-8") as file:
        names = [re.match(r"[a-z_0-9]*", line)[0] for line in file if line.strip() and not line.startswith("#")]
    return [name for name in names if os.path.isdir(f"{TOP}/crates/{name}")]


def files(crate, part, ending):
    """The files of a part of a crate, `src`, `specs` or `proofs`: paths from the top."""
    found = []
    for folder, _, names in os.walk(f"{TOP}/crates/{crate}/{part}"):
        found += [os.path.relpath(f"{folder}/{name}", TOP) for name in names if name.endswith(ending)]
    return sorted(found)


def lines_of(path):
    with open(f"{TOP}/{path}", encoding="utf-8") as file:
        return file.read().split("\n")[:-1]


def imports_of(lines):
    """What the lines `use`: names with the module and the name there, and modules by the word that they go by here."""
    names, modules = {}, {}
    for line in lines:
        found = re.match(r"\s*(?:ghost )?(?:pub )?use (Rattle\.[\w.'+-]+?)(?:\.\{(.*)\})?(?: as (\w+))?;?\s*$", line)
        if not found:
            continue
        path, listed, alias = found.groups()
        if listed is None:
            modules[alias or path.split(".")[-1]] = path
            continue
        for name in filter(None, (part.strip() for part in listed.split(","))):
            there, _, here = name.partition(" as ")
            names[here or there] = path, there
    return Imports(names, modules)


def module_of(crate, path):
    """The module of a file of definitions, as imports name it."""
    return os.path.relpath(path, f"crates/{crate}/specs")[: -len(".antt")].replace("/", ".")


def definitions_of(crate, path):
    """The definitions of a file, in their order."""
    lines = lines_of(path)
    imports, module = imports_of(lines), module_of(crate, path)
    words = "abbrev|unfoldable|opaque|private|pub"
    begins = re.compile(rf" *(?=(?:{words}|record|data) )(?:(?:{words}) )*(?:(record|data) )?({WORD})(?=[\s:({{])")
    found, comment, opened = [], [], None

    def close():
        if opened:
            first, kind, name, said = opened
            text = "\n".join(lines[first - 1 : end])
            found.append(Definition(crate, module, name, kind, path, first, end, text, said, imports))

    is_within, end = False, 0
    for number, line in enumerate(lines, 1):
        indent = len(line) - len(line.lstrip(" "))
        # (what isn't indented is after the module)
        is_within = is_within and (indent > 0 or not line.strip())
        level = 2 if is_within and indent >= 2 else 0
        if line.startswith("module "):
            close()
            is_within, opened, comment = True, None, []
        elif line.startswith("infix"):
            pass
        elif not line.strip() or re.match(r"(pub )?(use|mod) ", line):
            comment = []
        elif line.strip().startswith("--") and indent <= level:
            comment.append(line.strip()[2:].strip())
        elif indent == level and begins.match(line):
            close()
            start = begins.match(line)
            opened, end, comment = (number, start[1] or "abbrev", start[2], comment), number, []
        else:
            end = number
    close()
    return found


def functions_of(crate, path):
    """The functions of a file, with their parameters and clauses. Those of a trait and of its impls are public."""
    lines = lines_of(path)
    imports = imports_of(lines)
    found, is_of_trait = [], False
    for number, line in enumerate(lines, 1):
        if line[:1] not in ("", " "):
            is_of_trait = bool(re.match(r"(pub )?(unsafe )?trait |impl\b.*\bfor\b", line))
        begins = re.match(r"\s*(pub )?(?:pub\([a-z ]+\) )?(?:const )?(?:unsafe )?fn (\w+)", line)
        if not begins:
            continue
        # The parameters are between the first bracket that isn't one of a type parameter and the one that closes it.
        text, depth, at = "\n".join(lines[number - 1 : number + 60]), 0, begins.end()
        if text[at : at + 1] == "<":
            for at in range(at, len(text)):
                depth += (text[at] == "<") - (text[at] == ">" and text[at - 1] != "-")
                if depth == 0:
                    break
            at += 1
        depth, parts, part = 0, [], ""
        for at in range(at, len(text)):
            sign = text[at]
            depth += (sign in "([{<") - (sign in ")]}" or sign == ">" and text[at - 1] != "-")
            if depth == 0:
                break
            if sign == "," and depth == 1:
                parts.append(part.strip())
                part = ""
            elif depth > 1 or sign not in "(":
                part += sign
        parts.append(part.strip())
        clauses = []
        for place in range(number, len(lines)):
            clause = lines[place]
            if re.match(r"\s*(requires|ensures)\b", clause):
                open_brackets = clause.count("{") - clause.count("}")
                clauses.append(clause)
                while open_brackets > 0 and place + 1 < len(lines):
                    place += 1
                    clauses.append(lines[place])
                    open_brackets += lines[place].count("{") - lines[place].count("}")
            elif re.match(r"\s*(\{|\}|pub |fn |impl\b|struct\b|enum\b|trait\b|use |mod |#\[)", clause):
                break
        parts = [it for it in parts if it]
        is_public = bool(begins[1]) or is_of_trait
        found.append(Function(crate, path, number, begins[2], is_public, parts, "\n".join(clauses), imports))
    return found


def public_names(crate):
    """The names that a crate hands out: those that its root names by `pub use`, and all of its public modules'."""
    try:
        text = "\n".join(lines_of(f"crates/{crate}/src/lib.rt"))
    except FileNotFoundError:
        return set()
    found = set()
    for used in re.findall(r"^pub use ([^;]*);", text, re.M):
        found |= set(re.findall(r"\w+", used))
    for module in re.findall(r"^pub mod (\w+);", text, re.M):
        for path in (f"crates/{crate}/src/{module}.rt", f"crates/{crate}/src/{module}/mod.rt"):
            if os.path.exists(f"{TOP}/{path}"):
                found |= set(re.findall(r"^pub (?:struct|enum|trait|fn) (\w+)", "\n".join(lines_of(path)), re.M))
    return found | set(re.findall(r"^pub (?:struct|enum|trait|fn) (\w+)", text, re.M))


def ghosts_of(crate):
    """The ghost fields and items of the types and traits that a crate hands out: texts, with the imports of their files.
    Its contracts are read with them."""
    public, found = public_names(crate), []
    for path in files(crate, "src", ".rt"):
        lines, of = lines_of(path), None
        imports = imports_of(lines)
        for number, line in enumerate(lines):
            begins = re.match(r"(?:pub )?(?:struct|enum|trait|unsafe trait) (\w+)|(?:unsafe )?impl\b(?:<.*?>)? ?(?:.* for )?&?(?:mut )?(\w+)", line)
            if begins:
                of = begins[1] or begins[2]
            if of not in public or not re.match(r"\s+(pub )?ghost (?!use\b)", line):
                continue
            text, last = line, number
            while text.count("{") > text.count("}"):
                last += 1
                text += "\n" + lines[last]
            found.append((text, imports))
    return found
