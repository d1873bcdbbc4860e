#!/usr/bin/env python3
"""Which definitions the claims reach, and whether docs/TRUSTED.md lists the files that hold them.

    tools/trusted.py            compares; exit status 1 if the list is not true
    tools/trusted.py --write    writes the line counts of the list anew
    tools/trusted.py --reached  prints what is reached, file by file, and what else stands in those files

The claims are the statements that the list's first table names, as CRATE FILE NAME. A definition reaches the definitions that its
type and its text name. A row of the second table is a file with its count of lines, net of blank lines, comments and `use` lines;
every file that holds a definition which is reached is listed, and no other. Types of the code that definitions name (structs and
enums, by way of `declared`) are listed in the third table, as CRATE TYPE.
"""
import pathlib
import re
import sys

TOP = pathlib.Path(__file__).resolve().parent.parent
PAGE = TOP / "docs" / "TRUSTED.md"
WORD = re.compile(r"[^\s(){}\[\],;\\|]+")
HEAD = re.compile(r"(?:unfoldable |abbrev |pub )*(?:(record |data )(\S+) .*|(\S+) :( .*)?)$")
PART = re.compile(r"\s+(?:pub )?(\S+) :")
CLAIM = re.compile(r"\| `(\w+)` `(\w+)` `([^`]+)` \|")
ROW = re.compile(r"\| \[(crates/\w+/specs/\w+\.antt)\]\(\.\./\1\) \| (\d+) \|")
TYPE = re.compile(r"\| `(\w+)` struct or enum `(\w+)` \|")


def code_of(line):
    """The line without its comment."""
    return re.sub(r"(^|\s)--(\s.*|-+.*)?$", "", line).rstrip()


class Module:
    """A file of definitions: what it defines, and what its names stand for."""

    def __init__(self, path):
        self.crate, self.name = path.parts[-3], path.stem
        self.path = path
        lines = [code_of(line) for line in path.read_text(encoding="utf-8").splitlines()]
        self.net = sum(1 for line in lines if line.strip() and not re.match(r"(?:unfoldable |abbrev )*(?:pub )?(?:use|mod) ", line))
        self.imports, self.aliases, self.owner, self.words = {}, {}, {}, {}
        self.define([line for line in self.without_imports(lines) if line.strip()])

    def without_imports(self, lines):
        for line in lines:
            if not (found := re.match(r"(?:unfoldable |abbrev )*(?:pub )?use (\S+?)(?:\.\{(.*)\})?(?: as (\S+))?$", line)):
                yield line
            elif found[2]:
                for item in found[2].split(","):
                    name, _, other = item.strip().partition(" as ")
                    self.imports[other or name] = (found[1], name)
            elif found[3]:
                self.aliases[found[3]] = found[1]

    def define(self, lines):
        """A definition goes from its head to the next head; its head stands at the margin, or at a section's."""
        section, margin, current, parts = [], 0, None, False
        for line in lines:
            indent = len(line) - len(line.lstrip())
            words = WORD.findall(line)
            if indent == 0:
                section, margin = [], 0
            if not words:
                continue
            if words[0] == "module":
                section, margin, current = words, 2, None
                continue
            head = HEAD.match(line.strip()) if indent == margin else None
            if head:
                current, parts = head[2] or head[3], head[1] == "data "
                self.owner[current] = current
                self.words[current] = set(section)
            elif parts and (part := PART.match(line)):
                self.owner[part[1]] = current
            if current and words[0] != "unfolding":
                self.words[current] |= set(words)


def modules():
    """All files of definitions, by crate and name."""
    return {(m.crate, m.name): m for m in (Module(p) for p in sorted((TOP / "crates").glob("*/specs/*.antt"))) if m.name != "Lib"}


def target(path, crates):
    """The crate and the file that a module's path names, or the crate and the type of its code; none for a library of the kit."""
    found = re.match(r"Rattle\.(\w+)\.specs\.(.+)$", path)
    if not found or found[1] not in crates:
        return None
    if declared := re.match(r"declared\.(.+?)(?:\.TheVariants)?$", found[2]):
        return "type", found[1], declared[1].split(".")[-1]
    return "file", found[1], found[2]


def reached(found, claims):
    """Definitions and types of the code that the claims reach."""
    todo, definitions, types, crates = list(claims), set(), set(), {crate for crate, _ in found}
    while todo:
        crate, file, name = todo.pop()
        module = found[crate, file]
        name = module.owner.get(name, name)
        if (crate, file, name) in definitions:
            continue
        if name not in module.words:
            sys.exit(f"crates/{crate}/specs/{file}.antt has no definition of {name}")
        definitions.add((crate, file, name))
        for word in module.words[name]:
            if (whole := word.partition(".")[0]) in module.owner or whole in module.imports:
                word = whole  # one of its fields is asked for
            if word in module.owner:
                todo.append((crate, file, module.owner[word]))
                continue
            path, item = module.imports.get(word, (None, None))
            if path is None and "." in word:
                alias, _, item = word.partition(".")
                path = module.aliases.get(alias)
            place = target(path, crates) if path else None
            if place and place[0] == "file":
                todo.append((place[1], place[2], item))
            elif place:
                types.add((place[1], place[2]))
    return definitions, types


def report(found, definitions):
    for crate, file in sorted({d[:2] for d in definitions}):
        module = found[crate, file]
        names = {d[2] for d in definitions if d[:2] == (crate, file)}
        print(f"{module.net:5} crates/{crate}/specs/{file}.antt")
        print("      reached:", *sorted(names))
        print("      not:    ", *sorted(set(module.words) - names))
    print(f"{sum(found[key].net for key in {d[:2] for d in definitions}):5} in all")


def main():
    page = PAGE.read_text(encoding="utf-8")
    found = modules()
    claims = CLAIM.findall(page)
    if not claims:
        sys.exit("docs/TRUSTED.md names no claim")
    definitions, types = reached(found, claims)
    if "--reached" in sys.argv:
        report(found, definitions)
        print(*sorted(types), sep="\n")
        return
    wanted = {f"crates/{c}/specs/{f}.antt": found[c, f].net for c, f, _ in definitions}
    if "--write" in sys.argv:
        page = ROW.sub(lambda row: row[0].replace(f"| {row[2]} |", f"| {wanted.get(row[1], 0)} |"), page)
        page = re.sub(r"\*\*[\d,]+ net lines\*\*", f"**{sum(wanted.values()):,} net lines**", page)
        PAGE.write_text(page, encoding="utf-8")
    listed = {path: int(count) for path, count in ROW.findall(page)}
    faults = [f"reached by the claims, and not listed: {path}" for path in sorted(wanted.keys() - listed.keys())]
    faults += [f"listed, and no claim reaches it: {path}" for path in sorted(listed.keys() - wanted.keys())]
    faults += [f"{path} has {wanted[path]} net lines, not {listed[path]}" for path in sorted(wanted.keys() & listed.keys()) if wanted[path] != listed[path]]
    named = set(TYPE.findall(page))
    faults += [f"a type of the code that definitions name, and not listed: {c} {t}" for c, t in sorted(types - named)]
    faults += [f"listed, and no definition names it: {c} {t}" for c, t in sorted(named - types)]
    if f"**{sum(wanted.values()):,} net lines**" not in page:
        faults.append(f"the page does not say **{sum(wanted.values()):,} net lines**")
    print(*faults, sep="\n", end="\n" if faults else "")
    print(f"{len(claims)} claims reach {len(definitions)} definitions in {len(wanted)} files of {sum(wanted.values())} net lines, {len(faults)} faults")
    sys.exit(bool(faults))


if __name__ == "__main__":
    main()
