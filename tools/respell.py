#!/usr/bin/env python3
"""Respells the repository's own definitions and lemmas as Rattle's library spells its names.

usage: tools/respell.py [ROOT]

It is run once, behind the kit's port.py, on files that still have the older spelling; a second run changes nothing.
A definition, field or lemma of specs/ or proofs/ is in snake case, a fact or type in upper camel case. A dash stays where it joins
a definition and a word of the library in the name of a lemma, as in `length-drop`. What Rattle names itself (goals, invariants,
measures, clauses) stays, and so do functions, types and constants of src/, strings, inputs and outputs.
It changes .antt and .rt files, must-fail edits, and what stands between backticks in README.md and docs/.
It stops, and writes nothing, where two names would fall together.
"""
import os
import re
import sys

DECLARES = re.compile(
    r"^\s*(?:(?:abbrev|unfoldable|pub|data|record|ruleset)\s+)*([^\s(){}:;.,`\"|]+)((?:\s+\([^:]*:.*?\)|\s+\{[^:]*:.*?\})*)\s*:(?=\s)(.*)"
)
GENERATED = re.compile(r"^(returns|loop|invariant|decreases|overflow|bounds|slice_bounds|nonzero)-|-(requires|init|preserved|smaller|laws?)(-|$)|^invariant_of-|-clause-")
TOKEN = re.compile(r"[^\s(){}\[\]:;.,`\"«»|]+")
# Names that would fall together with those of another crate.
OWN = {"None-keeps": "NoneKeepsRows", "None-breaks": "NoneBreaksRows", "Right-word": "RightWordOfRows"}
# Names of the library to which a dash may join a name of ours.
LIBRARY = {"append", "push", "drop", "take", "length", "set", "map", "cond", "refl", "suc", "decimal", "min", "sum"}
SKIP = {".git", "out", "target"}


def files(root, ends):
    for folder, dirs, names in os.walk(root):
        dirs[:] = sorted(d for d in dirs if d not in SKIP)
        for name in sorted(names):
            if name.endswith(ends):
                yield os.path.join(folder, name)


def declared(root):
    """Each declared name, with whether it is a lemma alone."""
    names = {}
    for path in files(os.path.join(root, "crates"), (".antt",)):
        in_proofs = "/proofs/" in path or path.endswith("Lemmas.antt")
        answers = os.path.basename(path) in ("Answers.antt", "Invariants.antt", "Choices.antt")
        with open(path, encoding="utf-8") as file:
            for line in file:
                found = DECLARES.match(line)
                if not found or line.lstrip().startswith("--"):
                    continue
                name, rest = found.group(1), found.group(3)
                if answers and ("goal." in rest or GENERATED.search(name)):
                    continue
                names[name] = names.get(name, True) and in_proofs
    return names


def camel(name):
    return "".join(part[:1].upper() + part[1:] for part in name.split("-"))


def snake(name):
    return name.replace("-", "_")


def respelled(name, lemma, functions):
    if name in OWN:
        return OWN[name]
    if name[0].isupper():
        return camel(name)
    if lemma:
        left, right = name.rsplit("-", 1)
        if left in functions and right in LIBRARY:
            return snake(left) + "-" + right
    return snake(name)


def table(root):
    names = declared(root)
    functions = {n for n, lemma in names.items() if not lemma}
    turned = {n: respelled(n, lemma, functions) for n, lemma in names.items() if "-" in n}
    turned = {old: new for old, new in turned.items() if old != new}
    seen = {}
    for old, new in turned.items():
        if new in names or new in seen:
            raise SystemExit(f"respell: {old} and {seen.get(new, new)} would both be {new}; nothing was written")
        seen[new] = old
    return turned


def turn(text, turned, quotes):
    def word(found):
        return turned.get(found.group(0), found.group(0))

    text = re.sub(r"«([^»]*)»", lambda m: m.group(0) if m.group(1) not in turned else named(turned[m.group(1)]), text)
    if not quotes:
        return TOKEN.sub(word, text)
    # A Rust string keeps its text.
    parts = re.split(r'("(?:[^"\\]|\\.)*")', text)
    return "".join(part if k % 2 else TOKEN.sub(word, part) for k, part in enumerate(parts))


def other_names(text):
    """The other names of imports in snake case, and none for a name that is imported as itself."""
    given = re.findall(r" as «?([^\s,}«»]+)»?", "\n".join(line for line in text.split("\n") if line.startswith("ghost use")))
    turned = {name: re.sub(r"(?<=[a-z])[A-Z]", lambda m: "_" + m.group(0).lower(), name).replace("-", "_") for name in given if not name[0].isupper()}
    text = turn(text, {old: new for old, new in turned.items() if old != new}, True)
    return re.sub(r"\b(\w+) as \1\b", r"\1", text)


def named(name):
    return name if re.fullmatch(r"[A-Za-z_][A-Za-z0-9_]*", name) else f"«{name}»"


def in_backticks(text, turned):
    return re.sub(r"`[^`\n]+`", lambda m: turn(m.group(0), turned, False), text)


def main():
    root = os.path.abspath(sys.argv[1] if len(sys.argv) > 1 else ".")
    turned = table(root)
    changed = 0
    paths = [p for p in files(os.path.join(root, "crates"), (".antt", ".rt", ".edit"))]
    paths += [p for p in files(os.path.join(root, "docs"), (".md",))] + [os.path.join(root, "README.md")]
    for path in paths:
        with open(path, encoding="utf-8") as file:
            old = file.read()
        new = in_backticks(old, turned) if path.endswith(".md") else turn(old, turned, path.endswith((".rt", ".edit")))
        if path.endswith(".rt"):
            new = other_names(new)
        if new != old:
            with open(path, "w", encoding="utf-8") as file:
                file.write(new)
            changed += 1
    print(f"respell: {len(turned)} names turned in {changed} files")


main()
