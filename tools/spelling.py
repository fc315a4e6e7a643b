#!/usr/bin/env python3
"""Spells the names of definitions and lemmas as today's Rattle does: definitions, fields and constructors in snake case; in a lemma a dash joins
the names of two definitions, and a plain word is added with an underscore. Types, modules, functions of src/, strings and files keep their names.

usage: tools/spelling.py [--list] FOLDER     FOLDER has crates/; --list prints old and new names, and those that fall together, and writes nothing
"""

import collections
import glob
import os
import re
import sys

TOKEN = re.compile(r"--[^\n]*|//[^\n]*|\"(?:[^\"\\\n]|\\.)*\"|[^\s(){}\[\],;.λ\"@]+|\.|\s+|.", re.S)
SIGNATURE = re.compile(r"^(\s*)((?:abbrev |unfoldable |pub |inductive )*)([^\s(){}\[\],;.λ\"]+)((?:\s+[{(][^(){}]*[)}])*)\s+:\s")
TYPE = re.compile(r"^\s*(?:abbrev |unfoldable |pub )*(record|data) (\S+)")
LET = re.compile(r"\blet\s+([^\s(){}\[\],;.λ\"]+)\s")
BINDER = re.compile(r"[({λ]\s*([^\s(){}\[\],;.λ\"]+(?: [^\s(){}\[\],;.λ\"]+)*) : ")
NAME = re.compile(r"^[A-Za-zℕℤ0-9_'₀-₉]+(-[A-Za-zℕℤ0-9_'₀-₉]+)*$")
HUMP = re.compile(r"(?<=[a-z0-9])(?=[A-Z])")


def files(root, *ends):
    for folder, dirs, names in os.walk(os.path.join(root, "crates")):
        dirs[:] = sorted(d for d in dirs if d != "out")
        for name in sorted(names):
            if name.endswith(ends):
                yield os.path.join(folder, name)


def read(path):
    with open(path, encoding="utf-8", newline="") as it:
        return it.read()


def own_crates(root):
    return {os.path.basename(os.path.dirname(p)) for p in glob.glob(os.path.join(root, "crates", "*", "src"))}


def declared(root):
    """The names of fields and constructors, of definitions of specs/, and of all else that the tree declares."""
    fields, makers, words, all_of = set(), set(), set(), set()
    for path in files(root, ".antt"):
        inside, depth = None, 0
        of_specs = "/specs/" in path
        for line in read(path).split("\n"):
            if line.lstrip().startswith("--"):
                continue
            indent = len(line) - len(line.lstrip())
            it = TYPE.match(line)
            if it:
                inside, depth = it.group(1), indent
                all_of.add(it.group(2))
                continue
            if line.strip() and indent <= depth:
                inside = None
            it = SIGNATURE.match(line)
            if it:
                name = it.group(3)
                all_of.add(name)
                if inside == "record":
                    fields.add(name)
                elif inside == "data":
                    makers.add(name)
                elif of_specs and indent == 0:
                    words.add(name)
            for it in LET.finditer(line):
                all_of.add(it.group(1))
    return fields, makers, words, all_of


# What returns a type is spelled as a type.
TYPES = {"allEffects": "AllEffects", "effects": "Effects"}

# Variables and aliases, which no declaration names.
BOUND = (
    "asOf afterEvents askWords bestWordSquare betterWord consideredWord curveFitsWords downWords headAfter heldRecord idleState landingWord lookWord nextIn"
    " passWordSpare pickWordBest pickWordProgress rootAfter seekWord standsIn tourWord tourWordDown tourWordParent tourWordUp touredWord wordAnswer wordParent"
    " wordSibling"
).split()


def snake(part):
    """camelCase as snake_case; a type's name stays."""
    if not part or part[0].isupper():
        return part
    return HUMP.sub("_", part).lower() if HUMP.search(part) else part


def spell(name, plain, definitions):
    if not NAME.match(name):
        return name
    parts = name.split("-")
    out = snake(parts[0])
    for before, part in zip(parts, parts[1:]):
        joined = not plain and before in definitions and part in definitions
        out += ("-" if joined else "_") + snake(part)
    return out


def alone(text):
    """The words of a text that no dot stands before."""
    tokens = TOKEN.findall(text)
    return {t for before, t in zip([""] + tokens, tokens) if before != "."}


def said(comment, names):
    """A comment with the new names: of what stands between backticks, and of what has a hump."""
    comment = re.sub(r"`([^`\s]+)`", lambda it: "`" + names.get(it.group(1), it.group(1)) + "`", comment)
    return re.sub(r"(?<![\w`-])[a-z]+[A-Z]\w*(?![\w`-])", lambda it: names.get(it.group(0), it.group(0)), comment)


def table(root, crates):
    """The new name of each old one. Where a lemma would get the name of something else in a file, it gets `_lem`."""
    fields, makers, words, all_of = declared(root)
    definitions = {w for w in words | makers if HUMP.search(w) or "_" in w or w[0].isupper()} | {w for w in all_of if w[0].isupper()}
    names = {}
    for name in all_of | fields | makers:
        new = spell(name, name in fields | makers | words, definitions)
        if new != name:
            names[name] = new
    names |= {old: new for old, new in TYPES.items() if old in all_of}
    names |= {old: snake(old) for old in BOUND}
    for path in files(root, ".antt"):
        text = read(path)
        foreign, _ = own_modules(text, crates)
        there = set(TOKEN.findall(text))
        met = collections.defaultdict(set)
        for name in there - foreign - set(TYPES):
            if name in names:
                met[spell(name, name in fields | makers | words, definitions)].add(name)
        for new, olds in met.items():
            if new in there or len(olds) > 1:
                for name in olds:
                    if "-" in name:
                        names[name] = new + "_lem"
            if new in all_of - words and new in alone(text) and any("-" not in name for name in olds):
                names[new] = new + "_lem"
    return names, fields


def own_modules(text, crates):
    """The names that a file takes from elsewhere than this repository's own files, and the names that it gives to modules."""
    foreign, modules = set(), set()
    for it in re.finditer(r"^\s*(?:pub )?(?:ghost )?use ([\w.+·'-]+?)(?:\.\{([^}]*)\})?(?: as (\w+))?;?$", text, re.M):
        path = it.group(1).split(".")
        ours = path[0] == "Rattle" and path[1] in crates
        made = ours and (path[-1] in ("Statement", "Tie", "Met", "Lts", "Code", "Goals", "Given") or "declared" in path or "contracts" in path)
        if ours and not made:
            modules |= {it.group(3)} if it.group(3) else set() if it.group(2) else {path[-1]}
        if it.group(2) and (not ours or made):
            for name in it.group(2).split(","):
                foreign.add(name.strip().split(" as ")[0].strip())
    return foreign, modules


def turn(text, names, fields, crates, proof):
    """A text with the new names. Behind a dot stands a field, or a name of one of the repository's modules; in a function's proof also a step."""
    foreign, modules = own_modules(text, crates)
    out, last = [], None
    tokens = TOKEN.findall(text)
    for before, token in zip([""] + tokens, tokens):
        new = token
        if token.startswith(("--", "//")) and len(token) > 2:
            new = said(token, names)
        elif token in names and token not in foreign:
            step = proof and last in ("c", "before", "w")
            if before != "." or (token in fields and not step) or last in modules or HUMP.search(token):
                new = names[token]
        out.append(new)
        if token != "." and not token.isspace():
            last = token
    return "".join(out)


def without_dots(text):
    """A source with no alias that has a middle dot: the definition keeps its name there."""
    text = re.sub(r" as [A-Z]\w*·\w+", "", text)
    return re.sub(r"\b[A-Z]\w*·(\w+)", lambda it: snake(it.group(1)), text)


def is_of_a_function(path):
    it = path.split("/proofs/")
    return len(it) == 2 and "/" in it[1]


def main(argv):
    listing = "--list" in argv
    argv = [a for a in argv if a != "--list"]
    if len(argv) != 1:
        print(__doc__)
        return 2
    root = argv[0]
    crates = own_crates(root)
    names, fields = table(root, crates)
    together = collections.defaultdict(set)
    for path in files(root, ".antt", ".rt", ".edit"):
        text = read(path)
        foreign, _ = own_modules(text, crates)
        there = {t for t in TOKEN.findall(text)}
        met = collections.defaultdict(set)
        for t in there:
            if t in names and t not in foreign:
                met[names[t]].add(t)
        for new, olds in met.items():
            if len(olds) > 1 or new in there:
                together[(new, tuple(sorted(olds)))].add(path.replace(root, ""))
    if listing:
        for old, new in sorted(names.items()):
            print(old, new, sep="\t")
        print()
        for (new, olds), paths in sorted(together.items()):
            print("together:", new, *olds, "in", *sorted(paths)[:3])
        return 0
    for path in files(root, ".antt", ".rt", ".edit"):
        text = read(path)
        here = names if path.endswith(".antt") else {old: new for old, new in names.items() if "-" in old or HUMP.search(old)}
        new = turn(text, here, fields, crates, is_of_a_function(path))
        if path.endswith(".rt"):
            new = without_dots(new)
        if new != text:
            with open(path, "w", encoding="utf-8", newline="") as it:
                it.write(new)
    return 0


if __name__ == "__main__":
    raise SystemExit(main(sys.argv[1:]))
