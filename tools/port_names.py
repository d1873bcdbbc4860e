#!/usr/bin/env python3
"""Spells the repository's own names as this Rattle does, once, after port.py: words in snake case, types in camel case.

usage: tools/port_names.py        at the top of the repository

Renamed are the definitions and lemmas that specs/ and proofs/ declare (functions of src/, exported names, strings, inputs and outputs keep theirs):
- a name in camel case that begins with a small letter, as sideAfter, becomes side_after; dashes that join two names stay in lemmas;
- a name with dashes that specs/ declares gets underscores, as few-bids, and a type with dashes is joined, as From-snapshot;
- the productions of RFC 8259 keep the names that the RFC gives them.
A renaming that would meet another name of the same file is written on standard error and is not made.
"""
import glob
import json
import os
import re
import sys

NAME = r"[^\s(){}.;,@\"«»:\[\]?]+"
DECLARED = re.compile(r"^(\s*)((?:(?:abbrev|unfoldable|pub|data|record|module|opaque) )*)(" + NAME + r")((?:\s.*)?)$")
# Names of RFC 8259's grammar, and of the published CRC.
KEPT = set(
    "JSON-text UTF8-tail UTF8-2 UTF8-3 UTF8-4 digit1-9 utf-8 begin-array begin-object end-array end-object name-separator value-separator"
    " decimal-point quotation-mark".split()
)
WORDS = {"use", "unfolding", "--", "where", "let", "in", "elim", "rewrite", "mod", "_", "="}
# Names that say something else than their spelling would, or that stay.
ELSE = {
    "Demand-1": "FirstDemand",
    "Demand-2": "SecondDemand",
    "Demand-3": "ThirdDemand",
    "Demand-3-lent": "ThirdDemandLent",
    "bit-xor": "bit-xor",
}
# Lemmas that would meet a definition's new name: where, and what they are called instead.
FIRST = [
    ("crates/decimal/proofs", "is_digit", "is-digit"),
    ("crates/json_grammar/proofs", "is_digit", "is-digit"),
    ("crates/reference", "is_live", "when_live"),
    ("crates/feed/proofs", "last_line", "last-line"),
    ("crates/json/proofs", "no_items", "no-items"),
    ("crates/reference/proofs", "text_in", "text-in"),
]


def snake(name):
    return re.sub(r"(?<=[a-z0-9])([A-Z])(?=[a-z])|(?<=[a-z])([A-Z])(?![a-z])", lambda m: "_" + (m[1] or m[2]).lower(), name)


def camel(name):
    return "".join(p[:1].upper() + p[1:] for p in re.split(r"-", name))


def antt_files():
    return sorted(glob.glob("crates/*/specs/**/*.antt", recursive=True) + glob.glob("crates/*/proofs/**/*.antt", recursive=True))


def declared(path):
    """The names that a file declares, each with whether it is a type and whether it belongs to a block."""
    block = False
    for line in open(path, encoding="utf-8"):
        line = line.rstrip("\n")
        m = DECLARED.match(line)
        if not m or line.lstrip().startswith("--"):
            continue
        indent, mods, name, rest = m.groups()
        if name in WORDS or name == "pub":
            continue
        if "record " in mods or "data " in mods:
            yield name, True
        elif re.match(r"^\s*(\s[({].*[)}])?\s:(\s|$)", rest):
            yield name, bool(re.search(r"Type \d+$", line)) and name[:1].isupper()


def first(paths):
    for folder, old, new in FIRST:
        for path in paths:
            if path.startswith(folder + "/"):
                text = open(path, encoding="utf-8").read()
                changed = re.sub(r"(?<![^\s(){},;@])" + old + r"(?![^\s(){},;@])", new, text)
                if changed != text:
                    open(path, "w", encoding="utf-8").write(changed)


def main():
    first(antt_files())
    names = {}
    for path in antt_files():
        for name, is_type in declared(path):
            if name in KEPT or not re.search(r"[A-Za-z]", name):
                continue
            if is_type and "-" in name and name[0].isupper():
                names[name] = camel(name)
            elif name[0].islower() and re.search(r"[A-Z]", name):
                new = snake(name)
                if new != name:
                    names[name] = new
            if "/specs/" in path and "-" in name and name[0].islower():
                names[name] = snake(name).replace("-", "_").replace("·", "_")
    names.update(ELSE)
    token = re.compile(r"(?<![^\s(){}.;,@\"«»:\[\]?λ])(" + "|".join(sorted(map(re.escape, names), key=len, reverse=True)) + r")(?![^\s(){}.;,@\"«»:\[\]?])")
    files = antt_files() + sorted(glob.glob("crates/*/src/**/*.rt", recursive=True)) + sorted(glob.glob("crates/*/must-fail/*.edit"))
    # two names of one file must not fall together; a function of src/ may have the name of its definition, a parameter may not
    stay = {}
    for path in files:
        text = open(path, encoding="utf-8").read()
        if path.endswith(".antt"):
            used = {n for n, _ in declared(path)} | set(re.findall(r"^\s*(?:pub )?mod (\S+)", text, re.M))
            for group in re.findall(r"^\s*(?:pub )?use [^\n{]*\{([^}]*)\}", text, re.M):
                used |= set(re.split(r"[,\s]+", group))
        else:
            used = set(re.findall(r"^\s*(?:fn .*[(,] *)?(\w+):(?!:).*,$", text, re.M)) - {"bad_at"}
        for old in set(token.findall(text)):
            if names[old] in used:
                stay.setdefault(old, []).append(path)
    for old, where in sorted(stay.items()):
        print(f"meets another name: {old} -> {names[old]}: {' '.join(where[:4])}", file=sys.stderr)
    if "--list" in sys.argv:
        json.dump(names, sys.stdout, indent=0, ensure_ascii=False)
        return
    for path in files:
        text = open(path, encoding="utf-8").read()
        parts = re.split(r'(b?"(?:[^"\\\n]|\\.)*")', text) if path.endswith(".rt") else [text]
        new = "".join(p if i % 2 else token.sub(lambda m: names[m[1]] if m[1] not in stay else m[1], p) for i, p in enumerate(parts))
        if new != text:
            open(path, "w", encoding="utf-8").write(new)


main()
