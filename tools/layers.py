#!/usr/bin/env python3
"""Which crates each crate names, and whether crates.txt and README.md say so.

    tools/layers.py            compares; exit status 1 if a list or the picture is not true
    tools/layers.py --write    writes the lists of crates.txt and the picture of README.md anew

A crate names another by a path in its code (`json_values::value_end`), or by a module in its contracts, definitions and proofs
(`Rattle.json_values.specs.Json`). crates.txt lists what is named, what declares a type in a field of a struct that is held (REACHED: the
checker wants to name it), and no more; libraries of the kit stay as they are listed. The picture has a line for each crate, by layers: what
it stands on, without what stands below that already.
"""
import pathlib
import re
import sys

TOP = pathlib.Path(__file__).resolve().parent.parent
LIST, PAGE = TOP / "crates.txt", TOP / "README.md"
REACHED = {"feed": {"level", "lifecycle"}, "replay": {"lifecycle"}, "booklines": {"book", "level", "lifecycle", "settings"}}
LINE = re.compile(r"^(\w+)((?: +[\w=+]+)*):(.*)$")  # name, `staticlib` and the like, what it stands on
PICTURE = re.compile(r"(<!-- layers -->\n```\n).*?(```\n)", re.S)


def code_of(path):
    """The text of a file without its comments."""
    mark = "//" if path.suffix == ".rt" else "--"
    return re.sub(rf"(^|\s){mark}(\s.*)?$", r"\1", path.read_text(encoding="utf-8"), flags=re.M)


def named_by(crate, crates):
    names, paths, modules = set(), set(), set()
    for part in ("src", "specs", "proofs"):
        for path in (TOP / "crates" / crate / part).rglob("*"):
            if path.suffix in (".rt", ".antt"):
                text = code_of(path)
                names.update(re.findall(r"\bRattle\.(\w+)\.(?:specs|proofs)\b", text))
                if path.suffix == ".rt":
                    paths.update(re.findall(r"(?<![\w:])(\w+)::", text))
                    modules.update(re.findall(r"\bmod (\w+);", text))
    return (names | paths - modules | REACHED.get(crate, set())) & crates - {crate}


def below(crate, named, memo):
    """All crates that a crate stands on."""
    if crate not in memo:
        memo[crate] = set().union(*({d} | below(d, named, memo) for d in named[crate]), set())
    return memo[crate]


def picture(order, named):
    memo, level = {}, {}
    for crate in order:
        level[crate] = 1 + max((level[d] for d in named[crate]), default=-1)
    rows = []
    for n in range(max(level.values()) + 1):
        for crate in (c for c in order if level[c] == n):
            direct = [d for d in order if d in named[crate] and not any(d in below(e, named, memo) for e in named[crate])]
            rows.append(f"{n:2}  {crate:17}" + (f" ─▶ {' '.join(direct)}" if direct else ""))
    return "\n".join(row.rstrip() for row in rows) + "\n"


def main():
    lines = LIST.read_text(encoding="utf-8").splitlines()
    listed = {m[1]: m[3].split() for m in map(LINE.match, lines) if m}
    order = list(listed)
    crates = set(listed)
    named = {crate: named_by(crate, crates) for crate in order}
    wanted = {crate: [d for d in order if d in named[crate]] + [d for d in listed[crate] if d not in crates] for crate in order}
    page = PAGE.read_text(encoding="utf-8")
    drawn = PICTURE.sub(lambda m: m[1] + picture(order, named) + m[2], page)
    if "--write" in sys.argv:
        rows = [f"{m[1]}{m[2]}: {' '.join(wanted[m[1]])}".rstrip() if (m := LINE.match(line)) else line for line in lines]
        LIST.write_text("\n".join(rows) + "\n", encoding="utf-8")
        PAGE.write_text(drawn, encoding="utf-8")
        return
    faults = [f"crates.txt: {c} names {' '.join(sorted(named[c]))}" for c in order if sorted(wanted[c]) != sorted(listed[c])]
    for crate in order:
        late = [d for d in named[crate] if order.index(d) > order.index(crate)]
        faults += [f"crates.txt: {crate} stands before {d}, which it names" for d in late]
    if not PICTURE.search(page):
        faults.append("README.md has no picture of the layers")
    elif drawn != page:
        faults.append("README.md: the picture of the layers is not what the sources name")
    print(*faults, sep="\n", end="\n" if faults else "")
    print(f"{len(order)} crates, {sum(len(n) for n in named.values())} names, {len(faults)} faults")
    sys.exit(bool(faults))


if __name__ == "__main__":
    main()
