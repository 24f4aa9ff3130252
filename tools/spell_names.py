#!/usr/bin/env python3
"""Brings this repository's own definitions and lemmas to the spelling of today's Rattle: words in snake case, types in camel case.

usage: python3 tools/spell_names.py [--list]        at the top of the repository, once, right after port.py of the kit
       --list prints each old name and its new one, and what would fall together, and writes nothing

Functions, types and constants of src/, exported C names, strings and comments keep their spelling; so do names of the library.
"""
import os
import re
import sys

# A fact that would otherwise have the name of a type of src/, and lemmas named after a word of the library that has another name now.
APART = {"Good-by-domain": "IsGoodByDomain"}
APART.update({f"getD-put-{w}": f"get_or_put_{w}" for w in ("in", "before", "after")})
APART["get_d_tabulate"] = "get_or_tabulate"
TOKEN = re.compile(r"[^\s(){}\[\].,;⌜⌝«»\"`|]+")
DECLARED = re.compile(r"^(\s*)((?:pub |abbrev |unfoldable )*)(record |data |module )?([^\s:(){}.,;]+)(?=[\s:])")
LIBRARY = ("mathlib.", "native.", "lib.", "Prim.", "borrow.", "denote.", "Rattle.std.", "Rattle.core.", "Rattle.io.", "Rattle.libc.", "Rattle.os.", "sem.", "kit.")


def files(kinds):
    for folder, dirs, names in os.walk("crates"):
        dirs[:] = sorted(d for d in dirs if d not in ("out", "data"))
        for name in sorted(names):
            if name.endswith(kinds):
                yield os.path.join(folder, name)


def read(path):
    with open(path, encoding="utf-8") as f:
        return f.read()


def code_of(line, path):
    """The line up to its comment."""
    mark = "//" if path.endswith(".rt") else "--"
    at = line.find(mark)
    while at > 0 and mark == "--" and line[at - 1] not in " ":
        at = line.find(mark, at + 2)
    return line if at < 0 else line[:at]


def spelled(old):
    if old in APART:
        return APART[old]
    if old[0].isupper():
        return "".join(p[:1].upper() + p[1:] for p in re.split(r"[-_]", old))
    return old.replace("-", "_")


def declared():
    """Each own name with a dash, with the files that declare it."""
    found = {}
    for path in files(".antt"):
        walked = path.endswith("/Proof.antt")
        for line in read(path).split("\n"):
            line = code_of(line, path)
            m = DECLARED.match(line)
            if not m or not re.search(r"\s:(\s|$)", line):
                continue
            name = m.group(4)
            if walked and (re.search(r":\s*(?:\([^)]*\)\s*→\s*)?(tie|[\w-]+lts|lts|goal)\.", line) or name.endswith("-spec")):
                continue
            if m.group(3) == "module " or name in ("use", "open", "where", "module", "_", "|", "let", "in", "elim"):
                continue
            if "-" in name or name in APART:
                if re.search(r"[A-Za-z]", name):
                    found.setdefault(name, set()).add(path)
    for path in files(".antt"):
        for line in read(path).split("\n"):
            line = code_of(line, path)
            m = re.match(r"^\s+pub ([^\s:]+) : ", line)
            if m and "-" in m.group(1):
                found.setdefault(m.group(1), set()).add(path)
    return found


def imported(text):
    """The names that a file takes from the library."""
    names = set()
    for m in re.finditer(r"(?m)^\s*(?:ghost )?use ([^\n]*?);?$", text):
        if m.group(1).startswith(LIBRARY):
            names.update(TOKEN.findall(m.group(1)))
    return names


def turned(path, text, names):
    taken = imported(text)
    own_here = {n for n in names if path in names[n]}
    out = []
    for line in text.split("\n"):
        code = code_of(line, path)
        rest = line[len(code):]
        m = re.match(r"\s*(?:ghost )?use ", code)
        if m and code[m.end():].startswith(LIBRARY):
            out.append(line)
            continue

        def word(m):
            t = m.group(0)
            tail = ""
            while t and t[-1] in "'" and t not in names:
                t, tail = t[:-1], t[-1] + tail
            if t not in names or (t in taken and t not in own_here):
                return m.group(0)
            before = code[: m.start()]
            if path.endswith("/Proof.antt") and before.endswith("."):
                stem = re.search(r"([^\s(){}\[\],;]+)\.$", before)
                last = stem.group(1).split(".")[-1] if stem else ""
                if not last[:1].isupper():
                    return m.group(0)
            if path.endswith(".rt"):
                quotes = len(re.findall(r'(?<!\\)"', before))
                if quotes % 2:
                    return m.group(0)
            return spelled(t) + tail

        out.append(TOKEN.sub(word, code) + rest)
    return "\n".join(out)


def clashes(names):
    types = {}
    for path in files(".rt"):
        for m in re.finditer(r"(?m)^\s*(?:pub )?(?:struct|enum|trait|const|static|type) (\w+)", read(path)):
            types.setdefault(m.group(1), set()).add(path)
    every = {}
    for path in files(".antt"):
        for line in read(path).split("\n"):
            m = DECLARED.match(code_of(line, path))
            if m and re.search(r"\s:(\s|$)", code_of(line, path)):
                every.setdefault(m.group(4), set()).add(path)
    new = {}
    for n in names:
        new.setdefault(spelled(n), []).append(n)
    for s, olds in sorted(new.items()):
        if len(olds) > 1:
            yield f"{s}: {', '.join(sorted(olds))}"
        if s in every:
            both = [p for o in olds for p in names[o]]
            yield f"{s}: stands already in {sorted(every[s])[:3]}; {olds} in {sorted(both)[:3]}"
        if s in types:
            yield f"{s}: is a type of {sorted(types[s])}; {olds} in {sorted(names[olds[0]])[:2]}"


def main(argv):
    if argv not in ([], ["--list"]):
        print(__doc__.strip())
        return 0 if argv in (["--help"], ["-h"]) else 2
    names = declared()
    if "--list" in argv:
        for n in sorted(names):
            print(f"{n}\t{spelled(n)}\t{sorted(names[n])[0]}")
        for line in clashes(names):
            print("together: " + line)
        return 0
    changed = 0
    for path in files((".antt", ".rt", ".edit")):
        text = read(path)
        new = turned(path, text, names)
        if new != text:
            with open(path, "w", encoding="utf-8") as f:
                f.write(new)
            changed += 1
    print(f"{len(names)} names, {changed} files")
    return 0


if __name__ == "__main__":
    raise SystemExit(main(sys.argv[1:]))
