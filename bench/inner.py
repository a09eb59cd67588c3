"""Moves definitions on which no public contract rests from specs/ to specs/inner/, file by file, and follows their imports.
Then it writes the lines of bench/meanings.txt above the definitions that they are of.

`bench/believe.sh --move` calls it. It proves nothing: look at what it did with `git diff` and `bench/imports.sh`, and prove
the crates again.
A file of specs/ that holds some of both is cut into two of the same name. What it can't cut, a file with a module
inside, it names and leaves. A private definition that both parts need has to be made public by hand."""
import collections
import os
import re
import sys
import textwrap

from sources import HOLE, TOP, WORD, lines_of

USE = re.compile(r"^(\s*(?:pub )?(?:ghost )?(?:pub )?use )(Rattle\.(\w+)\.specs\.([\w.]+?))(?:\.\{(.*)\})?((?: as \w+)?)(;?)\s*$")


def is_used(name, words, text):
    code = "\n".join(line for line in text.split("\n") if not line.lstrip().startswith("--"))
    if HOLE not in name:
        return name in words or not re.search(r"\w", name) and name in code
    # (a chain of steps is written by it)
    is_chain = name == f"{HOLE}>>={HOLE}" and re.search(r"\bdo$", text, re.M)
    return bool(is_chain) or any(
        part in words or re.search(rf"(^|[\s(]){re.escape(part)}([\s)]|$)", code, re.M) for part in name.split(HOLE) if part)


def words_of(text):
    text = "\n".join(line for line in text.split("\n") if not line.lstrip().startswith("--"))
    return set(re.findall(WORD, text)) | set(re.findall(r"[^\s(){}\[\],;:@\"]+", text)) | set(re.findall(r"[\w']+", text))


def needed_uses(uses, text):
    """Of these lines, those that the text needs, with the names that it needs."""
    words, found = words_of(text), []
    for line in uses:
        parts = re.match(r"^(\s*(?:pub )?use )([\w.'+-]+?)(?:\.\{(.*)\})?((?: as \w+)?)$", line)
        begin, path, listed, alias = parts.groups()
        if listed is None:
            word = alias[4:] if alias else path.split(".")[-1]
            if word in words or begin.strip().startswith("pub"):
                found.append(line)
            continue
        kept = []
        for name in (it.strip() for it in listed.split(",")):
            if is_used(name.partition(" as ")[2] or name, words, text):
                kept.append(name)
        if kept:
            found.append(f"{begin}{path}.{{{', '.join(kept)}}}{alias}")
    return found


def cut(house, crate, module, moved):
    """Cuts a file: returns the text of what stays and that of what moves, or None if it can't be cut."""
    path = f"crates/{crate}/specs/{module.replace('.', '/')}.antt"
    lines = lines_of(path)
    if any(line.startswith("module ") for line in lines):
        return None
    ones = [one for key, one in house.definitions.items() if key[:2] == (crate, module)]
    ones.sort(key=lambda one: one.first)
    uses = [line for line in lines if re.match(r"(pub )?use ", line)]
    heads = []
    for line in lines:
        if not line.startswith("--"):
            break
        heads.append(line)
    # Each definition goes with the lines above it, and a rule `-- ---- ..` with what comes next.
    body = {True: [], False: []}
    at = max((number for number, line in enumerate(lines, 1) if re.match(r"(pub )?use ", line)), default=len(heads))
    section = []
    for number, one in enumerate(ones):
        last = ones[number + 1].first - 1 if number + 1 < len(ones) else len(lines)
        text = lines[at:one.first - 1] + lines[one.first - 1:one.last]
        at = one.last
        while text and not text[0].strip():
            text.pop(0)
        rules = [line for line in text if line.startswith("-- ----")]
        if rules:
            section = rules
            text = [line for line in text if not line.startswith("-- ----")]
            while text and not text[0].strip():
                text.pop(0)
        is_moved = one.name in moved
        side = body[is_moved]
        if section and not (side and section[0] in [line for part in side for line in part]):
            text = section + [""] + text
        side.append(text)
    if at < len(lines) and any(line.strip() for line in lines[at:]):
        return None
    texts = {}
    for side in (False, True):
        inside = "\n\n".join("\n".join(part).rstrip() for part in body[side])
        its = needed_uses(uses, inside)
        if side:
            stay = [one.name for one in ones if one.name not in moved]
            makes = [it for it, of in house.makes[crate, module].items() if of in stay]
            words = words_of(inside)
            wanted = [name for name in [*stay, *makes] if is_used(name, words, inside)]
            if wanted:
                its.append(f"use Rattle.{crate}.specs.{module}.{{{', '.join(wanted)}}}")
        head = heads if not side else ["-- What private functions alone cite of this crate's `" + module + "`."]
        texts[side] = "\n".join(head + its) + "\n\n" + inside + "\n"
    return texts[False], texts[True]


def main(house):
    reached = house.of_contracts()
    whole, parts, left = set(), {}, []
    for (crate, module), names in house.modules.items():
        if module.startswith(("inner.", "formers")) or module in ("Lib", "inner"):
            continue
        moved = {name for name in names if (crate, module, name) not in reached}
        if not moved:
            continue
        if len(moved) == len(set(names)):
            whole.add((crate, module))
        else:
            texts = cut(house, crate, module, moved)
            if texts is None:
                left.append((crate, module, len(moved)))
            else:
                made = {it for it, of in house.makes[crate, module].items() if of in moved}
                parts[crate, module] = moved | made, texts
    # A file that others name again (`pub use`) stays.
    for crate, module in sorted(whole | set(parts)):
        if any(there[:2] == (crate, module) for there in house.again.values()):
            whole.discard((crate, module))
            parts.pop((crate, module), None)
            left.append((crate, module, 0))
    below = collections.defaultdict(list)
    for crate, module in sorted(whole):
        os.makedirs(f"{TOP}/crates/{crate}/specs/inner", exist_ok=True)
        place = f"{TOP}/crates/{crate}/specs"
        os.rename(f"{place}/{module}.antt", f"{place}/inner/{module}.antt")
        below[crate].append(module)
    for (crate, module), (_, (stays, moves)) in sorted(parts.items()):
        place = f"{TOP}/crates/{crate}/specs"
        os.makedirs(f"{place}/inner", exist_ok=True)
        with open(f"{place}/{module}.antt", "w", encoding="utf-8") as file:
            file.write(stays)
        if os.path.exists(f"{place}/inner/{module}.antt"):
            sys.exit(f"{crate}: specs/inner/{module}.antt is there already")
        with open(f"{place}/inner/{module}.antt", "w", encoding="utf-8") as file:
            file.write(moves)
        below[crate].append(module)
    for crate, modules in below.items():
        place = f"{TOP}/crates/{crate}/specs"
        lib = [line for line in lines_of(f"crates/{crate}/specs/Lib.antt")
               if not any(line == f"pub mod {module}" for c, module in whole if c == crate)]
        if "pub mod inner" not in lib:
            lib.append("pub mod inner")
        with open(f"{place}/Lib.antt", "w", encoding="utf-8") as file:
            file.write("\n".join(lib) + "\n")
        old = lines_of(f"crates/{crate}/specs/inner.antt") if os.path.exists(f"{place}/inner.antt") else ["-- What only contracts of private functions cite."]
        with open(f"{place}/inner.antt", "w", encoding="utf-8") as file:
            file.write("\n".join(old + [f"pub mod {module}" for module in sorted(modules)]) + "\n")
    follow(whole, {key: moved for key, (moved, _) in parts.items()})
    print(f"{len(whole)} files moved, {len(parts)} cut into two")
    for crate, module, count in left:
        print(f"crates/{crate}/specs/{module}.antt isn't cut: {count} of its definitions serve private functions alone")


def follow(whole, parts):
    """Changes the imports of what moved, in all files of crates/."""
    for folder, _, names in os.walk(f"{TOP}/crates"):
        if "out" in folder.split("/"):
            continue
        for name in names:
            if not name.endswith((".antt", ".rt", ".edit")):
                continue
            path = f"{folder}/{name}"
            with open(path, encoding="utf-8") as file:
                old = file.read()
            if "Rattle." not in old and "::specs::" not in old:
                continue
            own = re.search(r"crates/(\w+)/specs/(.*)\.antt$", path)
            new = followed(old, whole, parts, own and (own[1], own[2].replace("/", ".")))
            if name.endswith((".rt", ".edit")):
                new = in_attributes(new, os.path.relpath(path, f"{TOP}/crates").split("/")[0], whole, parts)
            if new != old:
                with open(path, "w", encoding="utf-8") as file:
                    file.write(new)


def in_attributes(text, crate, whole, parts):
    """The names in attributes of functions, as `crate::specs::Module::name`, of what moved."""

    def name(found):
        key = crate if found[1] == "crate" else found[1], found[2].replace("::", ".")
        is_moved = key in whole or found[3] in parts.get(key, ())
        return f"{found[1]}::specs::inner::{found[2]}::{found[3]}" if is_moved else found[0]

    return re.sub(r"\b(\w+)::specs::((?:\w+::)*\w+)::([^\s,()]+)", name, text)


def followed(text, whole, parts, own):
    lines, aliases = [], {}
    for line in text.split("\n"):
        prefix = re.match(r"(?:old|new): ", line)
        found = USE.match(line[len(prefix[0]):] if prefix else line)
        if not found:
            lines.append(line)
            continue
        begin, path, crate, module, listed, alias, end = found.groups()
        mark = prefix[0] if prefix else ""
        there = f"Rattle.{crate}.specs.inner.{module}"
        if (crate, module) in whole:
            lines.append(f"{mark}{begin}{there}{'' if listed is None else '.{' + listed + '}'}{alias}{end}")
        elif (crate, module) in parts and (own != (crate, f"inner.{module}")):
            moved = parts[crate, module]
            if listed is None:
                word = alias[4:] if alias else module.split(".")[-1]
                aliases[word] = begin, there, end, moved
                lines.append(line)
                continue
            names = [it.strip() for it in listed.split(",")]
            go = [it for it in names if it.partition(" as ")[0] in moved]
            stay = [it for it in names if it not in go]
            if stay:
                lines.append(f"{mark}{begin}{path}.{{{', '.join(stay)}}}{alias}{end}")
            if go:
                lines.append(f"{mark}{begin}{there}.{{{', '.join(go)}}}{alias}{end}")
        else:
            lines.append(line)
    text = "\n".join(lines)
    for word, (begin, there, end, moved) in aliases.items():
        used = [it for it in re.findall(rf"\b{word}\.({WORD})", text) if it in moved]
        if used:
            for it in set(used):
                text = re.sub(rf"\b{word}\.{re.escape(it)}(?![\w'])", f"inner_{word}.{it}", text)
            at = re.search(rf"^{re.escape(begin)}Rattle\.\w+\.specs\.[\w.]+(?: as {word})?{re.escape(end)}\s*$", text, re.M)
            lines = text.split("\n")
            for number, line in enumerate(lines):
                found = USE.match(line)
                if found and found[5] is None and (found[6][4:] if found[6] else found[4].split(".")[-1]) == word:
                    lines.insert(number + 1, f"{begin}{there} as inner_{word}{end}")
                    break
            text = "\n".join(lines)
    return text


MEANINGS = f"{TOP}/bench/meanings.txt"


def write_meanings(house):
    """Writes each meaning above its definition, and empties the file of them."""
    with open(MEANINGS, encoding="utf-8") as file:
        lines = file.read().split("\n")
    of, module = collections.defaultdict(dict), None
    for line in lines:
        if line.startswith("## "):
            module = tuple(line[3:].split("/"))
        elif line and not line.startswith("#"):
            name, _, said = line.partition(": ")
            of[module][name] = said
    count = 0
    for (crate, module), said in of.items():
        ones = {one.name: one for key, one in house.definitions.items() if key[:2] == (crate, module)}
        path = f"crates/{crate}/specs/{module.replace('.', '/')}.antt"
        text = lines_of(path)
        for one in sorted((ones[name] for name in said if name in ones), key=lambda it: -it.first):
            if one.comment:
                continue
            at = one.first - 1
            while text[at - 1].startswith("infix"):
                at -= 1
            indent = " " * (len(text[one.first - 1]) - len(text[one.first - 1].lstrip()))
            text[at:at] = [f"{indent}-- {line}" for line in wrapped(said[one.name], 116 - len(indent))]
            count += 1
        with open(f"{TOP}/{path}", "w", encoding="utf-8") as file:
            file.write("\n".join(text) + "\n")
    with open(MEANINGS, "w", encoding="utf-8") as file:
        file.write("\n".join(line for line in lines if line.startswith("# ")) + "\n")
    print(f"{count} comment lines written")


def wrapped(text, width):
    return textwrap.wrap(text, width, break_long_words=False, break_on_hyphens=False)
