#!/usr/bin/env python3
"""Changes one operand of the sources at a time, and has each change tried: a change that is still proved is a hole in a contract.

    tools/mutate.py list                       the changes, a line each
    tools/mutate.py run CLONE [CRATE..]        tries them in CLONE, a clone of this repository for nothing else: its must-fail edits are
                                               replaced by these. `rt all check` there first, or it is done now.
    tools/mutate.py told LOG                   what became of them

A change is of a constant, a comparison, a sum, a truth value, a variant, a name beside its counterpart (bids for asks), or of the order of two
arguments, in a line of code that stands once in its file. Programs are left out. `--each N` takes N of every function (2), `--public` those of public
functions and constants alone, by `--seed N` (1).

A public constant has no contract of its own: a change of one may be proved in its crate, and is then to be tried in the crates that use it.
"""
import argparse
import collections
import pathlib
import random
import re
import subprocess
import sys

TOP = pathlib.Path(__file__).resolve().parent.parent

FUNCTION = re.compile(r"^\s*(pub )?(extern \"C\" )?fn (\w+)")
CONSTANT = re.compile(r"^(pub )?const (\w+)")
# What no change is made in: comments, names brought in, contracts, declarations, attributes, the patterns of a match.
PASSED_OVER = re.compile(r"^\s*(//|use |ghost |mod |pub mod |struct |pub struct |enum |pub enum |#|requires |ensures |invariant |decreases |\w+: [\w&\[\]; ]+,$)|\bfn ")

COUNTERPARTS = [("bids", "asks"), ("bid_side", "ask_side"), ("price", "size"), ("true", "false"), ("both", "either"), ("Bids", "Asks"),
                ("Snapshot", "Update"), ("Current", "LastGood"), ("K", "M"), ("min", "max")]
OPERATORS = [(" < ", " <= "), (" <= ", " < "), (" == ", " != "), (" != ", " == "), (" + ", " - "), (" - ", " + "), (" += ", " -= "), (" * ", " + "), (" / ", " * "),
             (" >> ", " << "), (" << ", " >> "), (" & ", " | "), (" | ", " & "), (" ^ ", " | ")]
NUMBER = re.compile(r"(?<![\w'.])(0x[0-9a-f]+|\d+)(?![\w'.])")
BYTE = re.compile(r"b'([ -~])'")
ARGUMENTS = re.compile(r"\(([\w.&]+), ([\w.&]+)(?=[,)])")
# Names of slices and records: exchanged with a place or a count, they would be refused for their type.
NOT_EXCHANGED = {"s", "self", "table", "script", "part", "out", "buffer", "header", "outline", "settings", "book", "lifecycle", "kind", "dialect", "reply"}
ANSWER = re.compile(r"Answer::(\w+)")


def of_line(line):
    """Every change of a line: what it is, and the line changed."""
    head = line.index("=>") + 2 if "=>" in line else 0
    for old, new in OPERATORS:
        for found in re.finditer(re.escape(old), line[head:]):
            at = head + found.start()
            yield f"{old.strip()} to {new.strip()}", line[:at] + new + line[at + len(old):]
    for found in NUMBER.finditer(line, head):
        if line[:found.start()].endswith("; "):
            continue
        more = str(int(found[1], 0) + 1)
        yield f"{found[1]} to {more}", line[:found.start()] + more + line[found.end():]
    for found in BYTE.finditer(line, head):
        other = chr(ord(found[1]) + 1)
        if other not in "'\\":
            yield f"b'{found[1]}' to b'{other}'", line[:found.start()] + f"b'{other}'" + line[found.end():]
    for pair in COUNTERPARTS:
        for old, new in (pair, pair[::-1]):
            for found in re.finditer(rf"(?<!\w){old}(?!\w|: )", line[head:]):
                at = head + found.start()
                if "let" not in line[:at].split("=")[0] or "=" in line[:at]:
                    yield f"{old} to {new}", line[:at] + new + line[at + len(old):]
    for found in ARGUMENTS.finditer(line, head):
        if found[1] != found[2] and not NOT_EXCHANGED & {found[1].lstrip("&"), found[2].lstrip("&")}:
            yield f"{found[1]}, {found[2]} exchanged", f"{line[:found.start()]}({found[2]}, {found[1]}{line[found.end():]}"
    for found in ANSWER.finditer(line, head):
        other = "NotJson" if found[1] == "Taken" else "Taken"
        yield f"{found[1]} to {other}", line[:found.start()] + f"Answer::{other}" + line[found.end():]


def changes_of(path):
    """The changes of a file, by function: (whether it is public, line, what, the line as it is, the line changed)."""
    text = path.read_text(encoding="utf-8")
    lines = text.split("\n")
    name, public, found = "", False, collections.OrderedDict()
    for number, line in enumerate(lines, 1):
        if function := FUNCTION.match(line) or CONSTANT.match(line):
            name, public = function[function.lastindex], bool(function[1])
            found.setdefault((name, public), [])
        if not name or PASSED_OVER.search(line) or text.count(line) != 1:
            continue
        for what, changed in of_line(line):
            if changed != line:
                found[name, public].append((number, what, line, changed))
    return found


def crates():
    rows = [row.split("#")[0].split() for row in (TOP / "crates.txt").read_text(encoding="utf-8").splitlines()]
    return [row[0].rstrip(":") for row in rows if row]


def chosen(options):
    """The changes to try: crate, label, and (file, function, line, what, the line as it is, the line changed)."""
    draw = random.Random(options.seed)
    for crate in crates():
        if options.crates and crate not in options.crates:
            continue
        rows = []
        if (TOP / "crates" / crate / "src" / "main.rt").exists():
            continue
        for path in sorted((TOP / "crates" / crate / "src").glob("*.rt")):
            for (name, public), found in changes_of(path).items():
                drawn = draw.sample(found, min(options.each, len(found)))
                if public or not options.public:
                    rows += [(path.name, name, *change) for change in drawn]
        for i, row in enumerate(sorted(rows)):
            yield crate, f"change_{i:03}_{row[1]}", row


def lay(options):
    clone = pathlib.Path(options.clone).resolve()
    if clone == TOP:
        sys.exit("a clone of this repository is wanted, not this one: its must-fail edits are replaced")
    for old in clone.glob("crates/*/must-fail/*.edit"):
        old.unlink()
    count = 0
    for crate, label, (file, name, number, what, old, new) in chosen(options):
        where = clone / "crates" / crate / "must-fail"
        where.mkdir(exist_ok=True)
        (where / f"{label}.edit").write_text(f"# {file}:{number} {name}: {what}\nfile: src/{file}\nold: {old}\nnew: {new}\n", encoding="utf-8")
        count += 1
    print(f"{count} changes laid", flush=True)
    log = clone / "target" / "mutate.log"
    log.parent.mkdir(exist_ok=True)
    with log.open("w", encoding="utf-8") as out:
        subprocess.run(["rt", "must-fail"], cwd=clone, stdout=out, stderr=subprocess.STDOUT, check=False)
    tell(log)


def tell(log):
    """By a proof, for a name that a proof file cites or at a limit (which both say little of a contract), by the compiler, or not refused."""
    by = collections.Counter()
    for line in pathlib.Path(log).read_text(encoding="utf-8", errors="replace").splitlines():
        if not (found := re.match(r"rt: must-fail (\S+): (.*)", line)):
            continue
        if "only because a proof file names" in found[2]:
            by["refused for a name in a proof file"] += 1
        elif "only by a limit" in found[2]:
            by["refused at a limit"] += 1
        elif found[2].startswith("refused"):
            by["refused by the checker"] += 1
        elif "did not reach the prover" in found[2] or "the prover cannot read" in found[2]:
            by["refused by the compiler"] += 1
        else:
            by["other"] += 1
            print(line)
    print(", ".join(f"{count} {what}" for what, count in by.items()))


def main():
    parser = argparse.ArgumentParser(description=__doc__.split("\n")[0])
    parser.add_argument("what", choices=["list", "run", "told"])
    parser.add_argument("clone", nargs="?", help="the clone, or the log")
    parser.add_argument("crates", nargs="*")
    parser.add_argument("--each", type=int, default=2)
    parser.add_argument("--public", action="store_true")
    parser.add_argument("--seed", type=int, default=1)
    options = parser.parse_args()
    if options.what == "list":
        for crate, _, row in chosen(options):
            print(f"{crate}/{row[0]}:{row[2]} {row[1]}: {row[3]}")
    elif options.clone is None:
        parser.error("a clone, or a log, is wanted")
    elif options.what == "run":
        lay(options)
    else:
        tell(options.clone)


main()
