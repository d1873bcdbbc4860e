#!/usr/bin/env python3
"""Counts, in crates/*/src, the places where the code has a form that today's language has a better one for.

    python3 tools/old_forms.py [--list] [POINT ..]

A point is a row of the table in docs/DESIGN-PASS.md. A place is found by its text, so a row is a place to look at and not a verdict. Run it at the top of
the repository, or of a checkout of an older commit.
"""
import collections
import pathlib
import re
import sys

ROOT = pathlib.Path.cwd() / "crates"
GENERATED = ("crc32_tables", "crc32_tables_long")


def sources():
    for path in sorted(ROOT.glob("*/src/**/*.rt")):
        if path.parts[-3] not in GENERATED:
            yield path, path.read_text()


def place(path, text, at):
    return f"{path.relative_to(ROOT)}:{text.count(chr(10), 0, at) + 1}"


def bodies(text):
    """Each function: its name, where it begins, its head (signature and clauses) and its body."""
    for m in re.finditer(r"^ *(?:pub(?:\(crate\))? )?(?:extern \"C\" )?fn (\w+)", text, re.M):
        start = m.start()
        indent = len(m.group(0)) - len(m.group(0).lstrip())
        end = text.find("\n" + " " * indent + "}\n", start)
        end = len(text) if end < 0 else end
        whole = text[start:end]
        cut = re.search(r"^" + " " * indent + r"\{$|\) *(?:-> [^\n{]+)?\{$", whole, re.M)
        at = cut.end() if cut else whole.find("{")
        yield m.group(1), start, whole[:at], whole[at:]


def own_options():
    """1a: an enum of two variants of which one holds a value; an order of one's own."""
    for path, text in sources():
        for m in re.finditer(r"enum (\w+) \{\n(.*?)\n\}", text, re.S):
            variants = [v.strip() for v in m.group(2).split("\n") if v.strip() and not v.strip().startswith(("//", "#"))]
            holding = [v for v in variants if "(" in v]
            order = {v.rstrip(",") for v in variants} == {"Less", "Equal", "Greater"}
            if order or (len(variants) <= 3 and holding and len(holding) < len(variants)) or {re.sub(r"\W.*", "", v) for v in variants} == {"Fails", "Passes"}:
                yield place(path, text, m.start()), m.group(1)


def sentinel_ends():
    """1b: a function whose answer is a number with one value for 'none' (an end of 0)."""
    for path, text in sources():
        for name, at, head, _ in bodies(text):
            if re.search(r"-> usize", head) and (re.search(r"end_of|EntryEnd|RestEnd|CharEnd|Spelled", head)):
                yield place(path, text, at), name


def sentinel_tests():
    """1c: a test of a number for 'none' where the code goes on with it."""
    for path, text in sources():
        for m in re.finditer(r"if (?:[\w.]+ == 0|0 < [\w.]+|[\w.]+ != 0) \{\n\s*(?:return )?(?:0|no_\w+\(.*|none|told_not\(.*|not_\w+\(.*|empty|Part \{.*|closed\(.*|Entries \{|let end = .*)", text):
            yield place(path, text, m.start()), m.group(0).split("\n")[0]


def flags():
    """1d: a field that says whether others mean something, or a number with one value for 'none'."""
    for path, text in sources():
        for m in re.finditer(r"((?:^ *//.*\n)*)^ *(?:pub )?(\w+): (bool|usize|u64|u32),$", text, re.M):
            note = m.group(1)
            if re.search(r"If not,|or 0 where|0 where|or 0\b|An end of 0", note) or (m.group(3) == "bool" and m.group(2) in ("well_formed", "is_object", "framed", "printed", "whole", "ours")):
                yield place(path, text, m.start(2)), m.group(2)


def codes():
    """1e: a number, or a byte as a number, in place of a name."""
    for path, text in sources():
        for m in re.finditer(r"(?:if|while) \w+(?:\[\w+\])? (?:==|<|<=|!=) (\d\d+) |\b(?:kind|opcode|c|d|n) == \d+ |^(?:pub )?const \w+: u8 = \d+;", text, re.M):
            yield place(path, text, m.start()), m.group(0)


def twins():
    """2: functions whose text is the same but for names and numbers (six lines or more)."""
    shapes = collections.defaultdict(list)
    for path, text in sources():
        for name, at, head, body in bodies(text):
            shape = re.sub(r"\b[A-Za-z_]\w*\b", lambda w: w.group(0) if w.group(0) in ("if", "else", "match", "return", "let", "mut", "while", "loop", "for", "in", "fn", "Some", "None", "true", "false") else "x", re.sub(r"//.*", "", body))
            shape = re.sub(r"\s+", " ", re.sub(r"b\"(?:\\.|[^\"])*\"|\b\d+\b", "n", shape))
            if body.count("\n") >= 5:
                shapes[shape].append((place(path, text, at), name))
    for group in shapes.values():
        if len(group) > 1:
            for where, name in group:
                yield where, name + " ~ " + ", ".join(n for w, n in group if w != where)


def counted_loops():
    """3: a loop that counts its index by hand."""
    for path, text in sources():
        for m in re.finditer(r"^( *)(?:'\w+: )?(?:while ([^\n]+)|loop) \{\n(.*?)^\1\}", text, re.S | re.M):
            steps = re.findall(r"\b(\w+) (?:\+|-)= (?:1|8|BLOCK);", m.group(3))
            if m.group(2) and any(re.search(r"\b%s\b" % s, m.group(2)) for s in steps):
                yield place(path, text, m.start()), m.group(2)


def by_hand():
    """4: equality, order, copying, conversion or printing written by hand."""
    names = r"is_same\w*|is_equal|is_not_less|compare_numbers|number_of|side_number|side_in|event_number|event_in|scope_of|side_of|by_fields|copy\w*|least|at_most|either|both|wide|is_hex|is_blank|is_escaped|say\w*|write|put_\w+|print\w*|is_shut|is_snapshot|is_taken"
    for path, text in sources():
        for name, at, head, body in bodies(text):
            if re.fullmatch(names, name) and body.count("\n") <= 22:
                yield place(path, text, at), name


def facts():
    """5: a fact that three contracts or more ask for, by its head; together with how many ask for it."""
    seen = collections.defaultdict(list)
    for path, text in sources():
        for name, at, head, _ in bodies(text):
            m = re.search(r"requires \{(.*)\}", head)
            if not m:
                continue
            for fact in {re.sub(r"\s+", " ", re.sub(r"\w+\.(?:old|now)|\b(?:at|from|count|entries|buffer|words|bids|asks|n|i|kept|name)\b", "_", f.strip())).strip("() ") for f in m.group(1).split("×")}:
                seen[fact].append((place(path, text, at), name))
    for fact, where in sorted(seen.items(), key=lambda kv: -len(kv[1])):
        if len(where) >= 3:
            for w, n in where:
                yield w, f"{n}: {fact}"


def buffers():
    """6: an array with a length beside it, as fields or as parameters."""
    for path, text in sources():
        for m in re.finditer(r"\w+: (?:&(?:'a )?(?:mut )?)?\[[^\]\n]+\],?\n? *(?:pub )?(\w+): usize", text):
            yield place(path, text, m.start()), re.sub(r"\s+", " ", m.group(0))


def switches():
    """7: a parameter that says which step to run, and a dispatch on a number."""
    for path, text in sources():
        for name, at, head, body in bodies(text):
            if re.search(r"\b(?:stamped|listed|snapshot|most_first): bool", head) or len(re.findall(r"(?:opcode|kind) == \d+", body)) > 1:
                yield place(path, text, at), name


POINTS = {
    "1a": own_options,
    "1b": sentinel_ends,
    "1c": sentinel_tests,
    "1d": flags,
    "1e": codes,
    "2": twins,
    "3": counted_loops,
    "4": by_hand,
    "5": facts,
    "6": buffers,
    "7": switches,
}


def main(arguments):
    listed = "--list" in arguments
    wanted = [a for a in arguments if a != "--list"] or list(POINTS)
    for point in wanted:
        found = list(POINTS[point]())
        print(f"{point:3} {len(found):4}  {POINTS[point].__doc__.split(': ', 1)[1].splitlines()[0]}")
        if listed:
            for where, what in found:
                print(f"          {where}  {what}")


if __name__ == "__main__":
    main(sys.argv[1:])
