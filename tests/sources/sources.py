"""The arrays on the path of a checksum, from the sources: none may hold more of the text than one price or size.

The path is found from the calls. It starts at every public function of the crate `checksum`, which makes a level's piece (`level_of`) and
sums a book (`k_checksum`, `m_checksum`), and goes on with every function that one on the path calls, through `use` lines, `mod`s and
methods, whatever the crate. A call that cannot be found is an error, but for the library's methods on numbers, orders and Options, and off
the path for those of a written list. So is a function outside the path and the crates of the CRC that calls `piece` or `crc32` itself, or
hands a function of theirs on, if it stands in a crate that `book` stands on: it would sum a text elsewhere. Only filling a table is free.

Of every file that has a function on the path, each array is named, with its element, its length and where it stands. It counts if it
stands in a function on the path, or in a struct, an enum or a name for a type that such a function names:

- an array by value, and one that is lent to be written to, holds its length times its element's bytes, and at most 23 bytes are allowed
  (LIMIT): ten digits, a point and twelve decimals. An element whose type is not written counts as 8 bytes;
- a copy of a lent array (`*name`) is an array by value;
- a slice that is lent to be written to has no limit of length, and is refused;
- bytes that are lent to be read (`&[u8]`) are a text that stands somewhere else, and are refused;
- numbers that are lent to be read are allowed: the words of a side, which hold levels, and the table that is summed by. Nothing on the
  path can write to them;
- a `const` and a byte string are written in the source and hold nothing of a book's text.

No array leaves the path: what its functions hand back are numbers and structs, which are looked into. So arrays of the functions above it
(the working side of 200 levels, the entries of a message, the words of a side) can hold none of the text, and are not on the path.

A number can hold eight bytes, which is less than a price, but bytes are to be summed as they are made: a function of `crc32` that sums
several at once (SEVERAL) is refused on the path.
"""
import pathlib
import re

TOP = pathlib.Path(__file__).resolve().parent.parent.parent
LIMIT = 23
START, BOOK = "checksum", "book"
SUMMING, FREE = ("piece", "crc32"), {("crc32", "fill_table")}
SEVERAL = {"absorb", "absorb8", "crc", "run"}
SIZES = {"u8": 1, "i8": 1, "bool": 1, "u16": 2, "i16": 2, "u32": 4, "i32": 4, "f32": 4}
SIZES |= dict.fromkeys(("u64", "i64", "usize", "isize", "f64", ""), 8)
WORDS = {"if", "while", "match", "return", "loop", "for", "in", "fn", "as", "let", "else", "Some", "Ok", "Err"}
NUMBERS = {"std", "u8", "u16", "u32", "u64", "usize"}
# The library's methods that functions on the path call: on numbers, orders and Options, which hold no array.
LIBRARY = {"len", "min", "max", "cmp", "is_eq", "is_ge", "is_gt", "is_lt", "is_some", "is_none", "unwrap_or"}
# Those that functions off the path call besides, on bytes, numbers and slices.
ELSEWHERE = {"all", "copy_from_slice", "copy_within", "enumerate", "get", "is_ascii_digit", "is_ascii_graphic", "is_empty", "iter", "saturating_sub",
             "trailing_zeros", "wrapping_sub"}
NAME = r"[A-Za-z_]\w*"


class Refused(Exception):
    """What a source does that it must not do."""


def blank(text, pattern, flags=0):
    """The text with what the pattern finds made blanks, so that every place stays where it is."""
    return re.sub(pattern, lambda m: re.sub(r"[^\n]", " ", m[0]), text, flags=flags)


def closing(text, at):
    """Past the bracket that closes the one at a place."""
    depth = 0
    for i in range(at, len(text)):
        depth += (text[i] in "([{") - (text[i] in ")]}")
        if depth == 0:
            return i + 1
    raise Refused(f"a bracket is not closed: {text[at:at + 40]!r}")


def code_of(text):
    """A source without comments, strings' contents, attributes, ghost lines and contracts."""
    text = blank(text, r"//[^\n]*")
    text = re.sub(r"b'(?:[^'\\]|\\.)+'", lambda m: "0".ljust(len(m[0])), text)
    text = re.sub(r'"((?:[^"\\]|\\.)*)"', lambda m: '"' + re.sub(r"[^\n]", "_", m[1]) + '"', text)
    text = blank(text, r"#!?\[[^\]]*\]")
    text = blank(text, r"^\s*ghost use [^;]*;", re.M)
    while clause := re.search(r"\b(?:requires|ensures)\b[^{}]*\{", text):
        end = closing(text, clause.end() - 1)
        text = text[:clause.start()] + re.sub(r"[^\n]", " ", text[clause.start():end]) + text[end:]
    return text


def brought_by(path):
    """What a `use` item brings in, each with its path: `a::b`, `a::{b, c::d}`."""
    if group := re.fullmatch(rf"((?:{NAME}::)*)\{{(.*)\}}", path, re.S):
        for item in group[2].split(","):
            if item.strip():
                yield from brought_by(group[1] + item.strip())
    elif re.fullmatch(rf"(?:{NAME}::)+{NAME}", path):
        yield path.rsplit("::", 1)[-1], path.split("::")
    else:
        raise Refused(f"a use of {path!r}, which is not read here")


class Source:
    """A file: its functions, types, constants and what its `use` lines bring in."""

    def __init__(self, crate, path, text):
        self.crate, self.path, self.code = crate, path, code_of(text)
        self.brought = {name: full for item in re.findall(r"\buse ([^;]*);", self.code) for name, full in brought_by(item.strip())}
        self.consts = dict(re.findall(rf"\bconst ({NAME})\s*:[^=;]*(?:;[^=\]]*\])?[^=;]*=\s*([^;]*);", self.code))
        self.const_spans = [m.span() for m in re.finditer(rf"\bconst {NAME}\s*:\s*(?:\[[^\]]*\]|[^=;])*=", self.code)]
        self.const_spans = [(a, self.code.index(";", b)) for a, b in self.const_spans]
        impls = [(m[1], m.end() - 1, closing(self.code, m.end() - 1)) for m in re.finditer(rf"\bimpl ({NAME})\s*\{{", self.code)]
        if other := re.search(rf"^\s*(?:pub(?:\([^)]*\))?\s+)?(?:unsafe\s+)?(?:trait\b|impl\b(?!\s+{NAME}\s*\{{)).*", self.code, re.M):
            raise Refused(f"{path}: {other[0].strip()!r}: a trait or an impl of one, or of a type with parameters, is not read here")
        self.functions, self.types = [], []
        for m in re.finditer(rf"(\bpub(?:\([^)]*\))?\s+)?(?:extern\s+\S+\s+)?\bfn ({NAME})", self.code):
            body = self.code.index("{", closing(self.code, self.code.index("(", m.end())))
            owner = next((t for t, a, b in impls if a < m.start() < b), None)
            self.functions.append(Declared(self, m[2], m.start(), closing(self.code, body), owner, bool(m[1])))
        for m in re.finditer(rf"\b(?:struct|enum) ({NAME})[^({{;]*([({{])", self.code):
            self.types.append(Declared(self, m[1], m.start(), closing(self.code, m.end() - 1)))
        for m in re.finditer(rf"\btype ({NAME})\s*=\s*[^;\[]*", self.code):
            end = closing(self.code, m.end()) if self.code[m.end()] == "[" else m.end()
            self.types.append(Declared(self, m[1], m.start(), end))

    def line(self, at):
        return self.code.count("\n", 0, at) + 1

    def holder(self, at):
        """The function or type that a place stands in."""
        return next((h for h in self.functions + self.types if h.start <= at < h.end), None)


class Declared:
    """A struct, an enum, a name for a type, or a function (which may be a type's own, and public)."""

    def __init__(self, source, name, start, end, owner=None, public=False):
        self.source, self.name, self.start, self.end, self.owner, self.public = source, name, start, end, owner, public
        self.text = source.code[start:end]

    def __str__(self):
        return f"{self.source.crate}::{self.owner + '::' if self.owner else ''}{self.name}"


class Tree:
    """All sources of the crates that `book` and the programs are made of; a planted text stands in place of its file."""

    def __init__(self, planted=None):
        self.deps = {}
        for row in (TOP / "crates.txt").read_text().splitlines():
            if m := re.match(r"^(\w+)(?: +[\w=+]+)*:(.*)$", row):
                self.deps[m[1]] = m[2].split()
        self.sources = []
        for crate in self.deps:
            for path in sorted((TOP / "crates" / crate / "src").rglob("*.rt")):
                name = str(path.relative_to(TOP))
                self.sources.append(Source(crate, name, (planted or {}).get(name) or path.read_text(encoding="utf-8")))
        self.functions = [f for s in self.sources for f in s.functions]
        self.types = [t for s in self.sources for t in s.types]
        self.type_names = {t.name for t in self.types}
        self.consts = {}
        for s in self.sources:
            self.consts.update(s.consts)

    def below(self, crate, seen=None):
        seen = set() if seen is None else seen
        for dep in self.deps.get(crate, ()):
            if dep not in seen:
                seen.add(dep)
                self.below(dep, seen)
        return seen

    def crate_of(self, source, path, name):
        """The crate in which a name stands that a source writes with this path, as the `use` lines have it."""
        path = path or source.brought.get(name, [])[:-1]
        if path and path[0] in source.brought:
            path = source.brought[path[0]][:-1] + path
        return (path[0] if path and path[0] in self.deps else source.crate), path

    def find(self, crate, name, owner=None):
        return [f for f in self.functions if f.source.crate == crate and f.name == name and (owner is None or f.owner == owner)]

    def called(self, f, on_path=True):
        """The functions that a function calls: all of that name in the crate that the call names."""
        source, found = f.source, []
        body = f.text[f.text.index(")"):]
        for m in re.finditer(rf"(\.\s*)?((?:{NAME}::)*)({NAME})(?:::<[^()]*?>)?\s*\(", body):
            method, path, name = m[1], m[2].split("::")[:-1], m[3]
            if name in WORDS:
                continue
            if method:
                near = self.below(source.crate) | {source.crate}
                hits = [g for g in self.functions if g.name == name and g.owner and g.source.crate in near]
            else:
                crate, path = self.crate_of(source, path, name)
                owner = path[-1] if path and path[-1] in self.type_names else None
                hits = self.find(crate, name, owner) or ([] if owner else self.find(crate, name))
                if not hits and (owner or name in self.type_names or (path and path[0] in NUMBERS)):
                    continue  # a variant or a tuple struct, or a function of the kit on numbers
            if not hits and method and (name in LIBRARY or (not on_path and name in ELSEWHERE)):
                continue
            if not hits:
                raise Refused(f"{source.path}:{source.line(f.start)}: {f} calls {m[0].strip()}..), and no source has it")
            found += hits
        return found

    def handed_on(self, f):
        """The functions of `crc32` and `piece` that a function names without calling them: what they are handed to may."""
        yield from self.named(f.source, f.text[f.text.index(")"):])

    def named(self, source, text):
        for m in re.finditer(rf"(?<![\w.])((?:{NAME}::)*)({NAME})\b(?!\s*(?:\(|::(?!<)))", text):
            crate, path = self.crate_of(source, m[1].split("::")[:-1], m[2])
            yield from self.find(crate, m[2]) if crate in SUMMING else ()

    def path(self):
        todo = [f for f in self.functions if f.source.crate == START and f.public]
        path = []
        while todo:
            f = todo.pop()
            if f not in path:
                path.append(f)
                todo += self.called(f)
        for crate in SUMMING:
            if not any(f.source.crate == crate for f in path):
                raise Refused(f"no function of `{crate}` is on the path from `{START}`: say where checksums are made now")
        return path

    def elsewhere(self, path):
        """Functions below `book` that sum by themselves and are not on the path."""
        for f in self.functions:
            if f in path or f.source.crate not in self.below(BOOK) | {BOOK} or f.source.crate.startswith("crc32"):
                continue
            for how, others in (("calls", self.called(f, on_path=False)), ("hands on", self.handed_on(f))):
                for g in others:
                    if g.source.crate in SUMMING and g.source.crate != f.source.crate and (g.source.crate, g.name) not in FREE:
                        yield f"{f.source.path}:{f.source.line(f.start)}: {f} {how} {g}, outside the path from `{START}`"

        for s in self.sources:
            if s.crate in self.below(BOOK) | {BOOK} and not s.crate.startswith("crc32"):
                for a, b in s.const_spans:
                    for g in self.named(s, s.code[a:b]):
                        if g.source.crate != s.crate:
                            yield f"{s.path}:{s.line(a)}: a constant hands on {g}"

    def number(self, text):
        """The value of a length, or None where it is not constant."""
        text = text.strip()
        for _ in range(8):
            text = re.sub(rf"(?:{NAME}::)*({NAME})", lambda m: f"({self.consts[m[1]]})" if m[1] in self.consts else m[0], text)
        return eval(text) if re.fullmatch(r"[\d\s()*+/-]+", text) else None

    def size(self, source, element):
        """How many bytes an element takes; of a struct the sum of its fields."""
        if element in SIZES:
            return SIZES[element]
        if not (found := self.types_in(source, element)):
            raise Refused(f"{source.path}: an array of {element}, whose size is not known")
        return sum(self.size(found[0].source, field) for field in re.findall(rf":\s*({NAME})", found[0].text))

    def types_in(self, source, text):
        """The structs and enums of the repository that a part of a source names."""
        found = []
        for path, name in re.findall(rf"((?:{NAME}::)*)({NAME})", text):
            if name in self.type_names or path:
                crate, path = self.crate_of(source, path.split("::")[:-1], name)
                found += [t for t in self.types if t.source.crate == crate and t.name in (name, *path)]
        return found

    def types_of(self, path):
        """The types that functions on the path name, and those that their fields name."""
        todo, types = list(path), []
        while todo:
            one = todo.pop()
            for t in self.types_in(one.source, one.text):
                if t not in types:
                    types.append(t)
                    todo.append(t)
        return types


class Array:
    """An array or a slice that a source names: `how` it is had, its element and its length (None: any)."""

    def __init__(self, source, at, how, element, length):
        self.source, self.at, self.how, self.element, self.length = source, at, how, element, length
        self.holder = source.holder(at)

    def __str__(self):
        length = "any length" if self.length is None else self.length
        return f"{self.source.path}:{self.source.line(self.at)}: {self.how} of {self.element or 'numbers'}, {length}, in {self.holder or 'no function'}"


def arrays_of(tree, source):
    """Every array type and array expression of a file."""
    code = source.code
    for m in re.finditer(r"\[", code):
        end = closing(code, m.start())
        inner, before = code[m.end():end - 1].strip(), code[:m.start()]
        constant = any(a <= m.start() < b for a, b in source.const_spans)
        lent = re.search(rf"&\s*(?:'{NAME}\s+)?(mut\s+)?$", before)
        parts = inner.rsplit(";", 1)
        before = before.rstrip()
        a_type = re.fullmatch(rf"(?:{NAME}::)*{NAME}", parts[0].strip()) and (lent or re.search(r"[:<>(,]$|->$", before))
        if not lent and re.search(r"[\w)\]]$", before) and not re.search(r"\b(?:return|in|match|if|else)$", before):
            if part := re.search(rf"&\s*mut\s+((?:{NAME}\.)*{NAME})$", before):
                yield Array(source, m.start(), f"a part of {part[1]} lent to be written to", "", None)
            continue  # an index, or a part that is read
        element = parts[0].strip()
        if len(parts) == 1 and not a_type:
            element, length = re.sub(r"^\d+|\W.*$", "", inner.split(",")[0]), len([p for p in inner.split(",") if p.strip()])
        else:
            length = tree.number(parts[1]) if len(parts) == 2 else None
            if re.match(r"\d", element):
                element = re.sub(r"^\d+", "", element)
            elif not a_type and element in tree.consts:
                element = (re.findall(rf"^\s*({NAME})\s*\{{", tree.consts[element]) or [""])[0]
            if len(parts) == 2 and length is None:
                raise Refused(f"{source.path}:{source.line(m.start())}: an array whose length {parts[1].strip()} is not known")
        what = "a slice" if length is None else "an array"
        how = "a constant array" if constant else what if not lent else f"{what} lent to be written to" if lent[1] else f"{what} lent to be read"
        yield Array(source, m.start(), how, element, length)
    for m in re.finditer(r'b"(_*)"', code):
        yield Array(source, m.start(), "a constant array", "u8", len(m[1]))
    for f in source.functions:
        lent = dict(re.findall(rf"({NAME})\s*:\s*&\s*(?:'{NAME}\s+)?(?:mut\s+)?\[([^\]]*)\]", f.text))
        for name, inner in lent.items():
            for m in re.finditer(rf"=\s*\*{name}\b", f.text):
                element, _, length = inner.partition(";")
                yield Array(source, f.start + m.start(), f"a copy of {name}", element.strip(), tree.number(length) if length else None)


def fault(tree, array):
    """Why an array on the path is refused, or None."""
    if "constant" in array.how:
        return None
    if array.how.endswith("to be read"):
        return "bytes are lent that were made elsewhere" if array.element == "u8" else None
    if array.length is None:
        return "what is lent to be written to may hold any text"
    held = array.length * tree.size(array.source, array.element)
    return f"it holds {held} bytes, and one price or size has {LIMIT} at the most" if held > LIMIT else None


def judged(planted=None):
    """The arrays of all files on the path, each with whether it is on the path; and what is refused."""
    tree, rows, faults = Tree(planted), [], []
    path = tree.path()
    types, files = tree.types_of(path), sorted({f.source for f in path}, key=lambda s: s.path)
    for f in path:
        if f.source.crate == "crc32" and f.name in SEVERAL:
            faults.append(f"{f.source.path}:{f.source.line(f.start)}: {f} is on the path: it sums several bytes at once")
    faults += tree.elsewhere(path)
    for source in files + [s for s in tree.sources if s not in files and any(t in types for t in s.types)]:
        for array in arrays_of(tree, source):
            on = array.holder in path or array.holder in types
            rows.append((array, on))
            if on and (why := fault(tree, array)):
                faults.append(f"{array}: {why}")
    return path, files, rows, faults
