#!/usr/bin/env python3
"""Writes the cases of crates/message_vectors (stdin) and what they must print (stdout), from the rules of documents 01 and 02 alone: a
reader of JSON that keeps positions, then checks 1 to 8 in their order. The answer number that stands with a message was found by reading
these documents; the tool stops where its own rules find another. Run from the top of the repository."""
import random
import re

MAX_MESSAGE = 32768
MAX_NESTING = 16
MAX_ENTRIES = 100
MAX_CHECKSUM = 4294967295
MAX_INPUT = 262144
M_DIALECTS = (b"M", b"M1", b"M2")

# ---- JSON, RFC 8259, by positions

NUMBER = re.compile(rb"-?(?:0|[1-9][0-9]*)(?:\.[0-9]+)?(?:[eE][+-]?[0-9]+)?")
STRING = re.compile(rb'"(?:[^"\\\x00-\x1f]|\\["\\/bfnrt]|\\u[0-9a-fA-F]{4})*"')
BLANKS = re.compile(rb"[ \t\r\n]*")
ESCAPE = re.compile(rb"\\(?:u(....)|(.))", re.DOTALL)
SHORT = {b"b": 8, b"f": 12, b"n": 10, b"r": 13, b"t": 9}
WORDS = (b"true", b"false", b"null")


class NotJson(Exception):
    pass


class Value:
    """A value of the message: its kind, where it lies, and what it holds. `held` lists the elements of an array, and key and value of each
    member of an object."""

    def __init__(self, text, kind, start, end, held=()):
        self.kind, self.start, self.end, self.held = kind, start, end, held
        self.text = text[start:end]

    def inside(self):
        return self.text[1:-1]

    def means(self):
        """The bytes that a string means; an escape that means no byte of 33 to 126 becomes a blank, which no name has."""
        def meaning(found):
            code = int(found[1], 16) if found[1] else SHORT.get(found[2], ord(found[2]))
            return bytes([code]) if 33 <= code <= 126 else b" "

        return ESCAPE.sub(meaning, self.inside())

    def equals(self, name):
        return self.kind == "string" and self.means() == name

    def named(self, name):
        """The values of the members of a name."""
        return [value for key, value in self.held if key.equals(name)]


def past_blanks(text, at):
    return BLANKS.match(text, at).end()


def read_value(text, at, nesting):
    first = text[at:at + 1]
    if first in (b"[", b"{"):
        if nesting == MAX_NESTING:
            raise NotJson
        return read_held(text, at, nesting + 1, first == b"{")
    for word in WORDS:
        if text.startswith(word, at):
            return Value(text, "word", at, at + len(word))
    if first == b'"':
        return read_string(text, at)
    found = NUMBER.match(text, at)
    if not found:
        raise NotJson
    return Value(text, "number", at, found.end())


def read_string(text, at):
    found = STRING.match(text, at)
    if not found:
        raise NotJson
    return Value(text, "string", at, found.end())


def read_held(text, start, nesting, is_object):
    kind, close = ("object", b"}") if is_object else ("array", b"]")
    held = []
    at = past_blanks(text, start + 1)
    if text[at:at + 1] == close:
        return Value(text, kind, start, at + 1, held)
    while True:
        if is_object:
            key = read_string(text, at)
            at = past_blanks(text, key.end)
            if text[at:at + 1] != b":":
                raise NotJson
            value = read_value(text, past_blanks(text, at + 1), nesting)
            held.append((key, value))
        else:
            value = read_value(text, at, nesting)
            held.append(value)
        at = past_blanks(text, value.end)
        if text[at:at + 1] == close:
            return Value(text, kind, start, at + 1, held)
        if text[at:at + 1] != b",":
            raise NotJson
        at = past_blanks(text, at + 1)


def read_message(text):
    value = read_value(text, past_blanks(text, 0), 0)
    if past_blanks(text, value.end) != len(text):
        raise NotJson
    return value


# ---- documents 01 and 02

class Refused(Exception):
    def __init__(self, number, bad=None):
        self.number, self.bad = number, bad


def need(number, holds):
    if not holds:
        raise Refused(number)


def good_settings(dialect, depth, name):
    good_depth = 10 <= depth <= 100 if dialect == b"K" else dialect in M_DIALECTS and depth == 100
    return good_depth and 1 <= len(name) <= 16 and all(33 <= byte <= 126 and byte not in b'"\\' for byte in name)


WHOLE = re.compile(rb"(?:0|[1-9][0-9]{0,18})\Z")
DECIMAL = re.compile(rb"(?:0|[1-9][0-9]{0,9})(?:\.[0-9]{1,12})?\Z")


def whole(text):
    need(6, WHOLE.match(text))
    return int(text)


def checksum(text):
    need(6, whole(text) <= MAX_CHECKSUM)
    return int(text)


class Read:
    """A message of the layout: the bids' and the asks' arrays, or None."""

    def __init__(self, snapshot, bids, asks, checksum, number, previous=None):
        self.snapshot, self.bids, self.asks, self.checksum, self.number, self.previous = snapshot, bids, asks, checksum, number, previous


def once(values):
    need(6, len(values) == 1)
    return values[0]


def of_kind(value, kind):
    need(6, value.kind == kind)
    return value


def k_layout(elements):
    whole(of_kind(elements[0], "number").text)
    objects = [of_kind(element, "object") for element in elements[1:-2]]
    by_name = {name: [o.named(name) for o in objects] for name in (b"as", b"bs", b"a", b"b", b"c")}
    over_all = {name: sum(lists, []) for name, lists in by_name.items()}
    if over_all[b"as"] or over_all[b"bs"]:
        need(6, len(objects) == 1 and not over_all[b"a"] and not over_all[b"b"] and not over_all[b"c"])
        return Read(True, once(over_all[b"bs"]), once(over_all[b"as"]), None, 0)
    need(6, len(over_all[b"a"]) <= 1 and len(over_all[b"b"]) <= 1)
    need(6, all(asks or bids for asks, bids in zip(by_name[b"a"], by_name[b"b"])))
    need(6, not any(by_name[b"c"][:-1]))
    printed = checksum(of_kind(once(by_name[b"c"][-1]), "string").inside())
    return Read(False, *((over_all[name] or [None])[0] for name in (b"b", b"a")), printed, 0)


def m_layout(message, linked):
    for name in (b"channel", b"product"):
        once(message.named(name))
    kind = once(message.named(b"type"))
    need(6, kind.equals(b"snapshot") or kind.equals(b"update"))
    data = of_kind(once(message.named(b"data")), "object")
    bids, asks = once(data.named(b"bids")), once(data.named(b"asks"))
    printed = checksum(of_kind(once(message.named(b"checksum")), "number").text)
    number = whole(of_kind(once(message.named(b"gsn")), "number").text)
    previous = whole(of_kind(once(message.named(b"prev_gsn")), "number").text) if linked and kind.equals(b"update") else None
    return Read(kind.equals(b"snapshot"), bids, asks, printed, number, previous)


def entries(dialect, side):
    """Price and size of each entry of an array."""
    if side is None:
        return []
    rows = []
    for entry in of_kind(side, "array").held:
        held = of_kind(entry, "array").held
        need(6, len(held) >= 3 if dialect == b"K" else len(held) == 2)
        rows.append([of_kind(value, "string") for value in held[:3 if dialect == b"K" else 2]][:2])
    return rows


def addressed(dialect, depth, name, message):
    """Check 5; 4 is given no more."""
    if dialect == b"K":
        need(5, message.kind == "array" and len(message.held) in (4, 5))
        channel, pair = message.held[-2:]
        need(5, channel.equals(b"book-%d" % depth) and pair.equals(name))
    else:
        need(5, message.kind == "object")
        channels, products = message.named(b"channel"), message.named(b"product")
        need(5, any(value.equals(b"book") for value in channels) and any(value.equals(name) for value in products))


def zero(text):
    return not text.strip(b"0.")


def check(dialect, depth, name, text):
    """What a message that passes checks 1 to 8 says, or Refused."""
    need(1, good_settings(dialect, depth, name))
    need(2, len(text) <= MAX_MESSAGE)
    try:
        message = read_message(text)
    except NotJson:
        raise Refused(3) from None
    addressed(dialect, depth, name, message)
    said = k_layout(message.held) if dialect == b"K" else m_layout(message, dialect == b"M2")
    said.rows = [entries(dialect, said.bids), entries(dialect, said.asks)]
    need(7, all(len(rows) <= MAX_ENTRIES for rows in said.rows))
    bad = []
    for price, size in sum(said.rows, []):
        if not DECIMAL.match(price.inside()) or zero(price.inside()):
            bad.append(price)
        if not DECIMAL.match(size.inside()) or said.snapshot and zero(size.inside()):
            bad.append(size)
    if bad:
        raise Refused(8, min(bad, key=lambda value: value.start))
    return said


def digits(text):
    """The digits up to the ninth decimal as one whole number, and what tells the rest: how many decimals there are, up to 9, else a 1 and the
    digits past the ninth."""
    before, _, after = text.partition(b".")
    return b"%d/%d" % (int(before + after[:9]), int(b"1" + after[9:]) if len(after) > 9 else len(after))


def entry_texts(rows):
    """The entries of both sides in the order in which they stand in the message."""
    listed = [(letter, *row) for letter, side in zip((b"b", b"a"), rows) for row in side]
    listed.sort(key=lambda entry: entry[1].start)
    return [b" %s %s %s" % (letter, digits(price.inside()), digits(size.inside())) for letter, price, size in listed]


def answer(settings, text):
    """The answer number, and the line to print."""
    dialect, depth, name = settings
    try:
        said = check(dialect, depth, name, text)
    except Refused as refused:
        bad = refused.bad
        place = b"%d %d %s" % (bad.start, bad.end, bad.text) if bad else b"0 0"
        return refused.number, b"%d bad %s" % (refused.number, place)
    line = b"0 snapshot" if said.snapshot else b"0 update"
    line += b" bids %d asks %d" % tuple(map(len, said.rows))
    if said.checksum is not None:
        line += b" checksum %d" % said.checksum
    line += b" number %d" % said.number
    if said.previous is not None:
        line += b" previous %d" % said.previous
    return 0, b"".join([line, *entry_texts(said.rows), b" bad 0 0"])


# ---- messages

K_BOOK = (b"K", 10, b"XBT/USD")
M_BOOK = (b"M", 100, b"BTC-VND")
M2_BOOK = (b"M2", 100, b"BTC-VND")
BOOKS = {"K": K_BOOK, "M": M_BOOK, "M2": M2_BOOK}


def k(*objects, number="0", channel='"book-10"', pair='"XBT/USD"'):
    return "[%s]" % ",".join([number, *objects, channel, pair])


def k_row(price="1.5", size="2", *rest):
    return "[%s]" % ",".join(['"%s"' % price, '"%s"' % size, *(rest or ['"3"'])])


def m_row(price="1.5", size="2"):
    return '["%s","%s"]' % (price, size)


def rows(*texts):
    return "[%s]" % ",".join(texts)


def members(*pairs):
    return "{%s}" % ",".join('"%s":%s' % pair for pair in pairs)


def k_snapshot(asks="[]", bids="[]", *more):
    return members(("as", asks), ("bs", bids), *more)


def k_update(asks="[]", bids="[]", printed='"5"'):
    return members(("a", asks), ("b", bids), ("c", printed))


def m_data(bids="[]", asks="[]", *more):
    return members(("bids", bids), ("asks", asks), *more)


def m_pairs(kind="snapshot", data=None, printed="5", gsn="7"):
    return [("channel", '"book"'), ("product", '"BTC-VND"'), ("type", '"%s"' % kind), ("data", data or m_data()), ("checksum", printed), ("gsn", gsn)]


def m(*more, leave=(), **parts):
    return members(*(pair for pair in m_pairs(**parts) if pair[0] not in leave), *more)


def nested(depth, opening="[", closing="]", inner=""):
    return opening * depth + inner + closing * depth


NOT_WHOLE = ["-0", "-1", "1.0", "1e0", "1E0", "0.0", "10000000000000000000", '""', "null", "true", "[]", "{}"]
NOT_CHECKSUM = NOT_WHOLE + ["4294967296", "9999999999999999999"]
NOT_CHECKSUM_TEXT = ["", " 5", "5 ", "05", "00", "-0", "-1", "+5", "1.0", "1e0", "0x5", "4294967296", "9999999999999999999", "10000000000000000000",
                     "\\u0035", "5\\n"]
NOT_ENTRIES = ["{}", "null", "5", '"x"', "[5]", '["1"]', "[null]", "[{}]", "[[]]", '[["1"]]', '[["1",2]]', '[[1,"2"]]', '[["1",null]]',
               '[["1",["2"]]]', '[{"1":"2"}]']
NOT_DECIMAL = ["", "05", "00", "5.", ".5", "-1", "+1", "1e5", "1,5", "1.2.3", " 1", "1 ", "10000000000", "0.0000000000001", "9999999999.0000000000000", "\\u0035", "5\\n", "x",
               "1.-5", "00.5", "0x1", "\x80"]
DECIMALS = ["1", "9999999999", "0.000000001", "9999999999.999999999", "0.05120", "10.0", "0.000000000001", "9999999999.999999999999", "1.0000000000",
            "0.00000000010"]
ZEROS = ["0", "0.0", "0.000000000", "0.0000000000", "0.000000000000"]


def hexed(text, upper=False):
    """Every byte as an escape."""
    return "".join(("\\u%04X" if upper else "\\u%04x") % ord(letter) for letter in text)


def spellings(name):
    """Texts that mean the name: an escape in each place, in both cases of hex, and in all places."""
    for at in range(len(name)):
        for upper in (False, True):
            yield name[:at] + hexed(name[at], upper) + name[at + 1:]
    yield hexed(name)
    yield hexed(name, True)
    yield name.replace("/", "\\/")


def misspellings(name):
    """Texts that come near and mean something else."""
    for escape in ("\\b", "\\f", "\\n", "\\r", "\\t", '\\"', "\\\\", "\\/", "\\u0020", "\\u007f", "\\u007F", "\\u0000", "\\u0100", "\\ud800", "\\ud83d\\ude00"):
        yield name + escape
        yield escape + name[1:]
    yield name[:-1] + "\\u%02x00" % ord(name[-1])
    yield name[:-1] + "\\u01%02x" % ord(name[-1])
    yield name[:-1] + "\\uff%02x" % (ord(name[-1]) - 32)
    yield name[:-1] + "\\" + hexed(name[-1])
    yield name[:-1] + "\\\\" + name[-1]
    yield hexed(name[:-1])
    yield hexed(name + name[-1])
    swapped = ord(name[0]) % 16 * 16 + ord(name[0]) // 16
    if swapped != ord(name[0]):
        yield "\\u%04x" % swapped + name[1:]


def escape_cases():
    """Names that are written with escapes, for both dialects, with the settings for them."""
    snapshot = k_snapshot(rows(k_row()))
    yield (b"K", 10, b"XBT/USD"), "K: names by meaning", (
        [(0, k(snapshot, pair='"%s"' % text)) for text in spellings("XBT/USD")] + [(0, k(snapshot, channel='"%s"' % text)) for text in spellings("book-10")]
        + [(5, k(snapshot, pair='"%s"' % text)) for text in misspellings("XBT/USD")] + [(5, k(snapshot, channel='"%s"' % text)) for text in misspellings("book-10")]
        + [(0, k('{"%s":[],"%s":[]}' % (hexed("as"), hexed("bs", True)))), (0, k('{"%s":[]}' % hexed("a"), '{"%s":[],"%s":"1"}' % (hexed("b"), hexed("c"))))]
        + [(6, k('{"as":[],"bs":[],"%s":[]}' % hexed(name))) for name in ("as", "bs", "a", "b", "c")]
        + [(6, k('{"a":[],"b":[],"c":"1","%s":[]}' % hexed(name))) for name in ("as", "bs", "a", "b", "c")]
        + [(0, k('{"as":[],"bs":[],"%s":[]}' % text)) for name in ("as", "c") for text in misspellings(name) if text != hexed("a")])
    for name in ("a", "~", "/", "0123456789abcdef", "JKLMNO/jklmno-!~"):
        yield (b"K", 10, name.encode()), "K: a name of %d" % len(name), (
            [(0, k(snapshot, pair='"%s"' % text)) for text in list(spellings(name))[-3:]] + [(5, k(snapshot, pair='"%s"' % text)) for text in misspellings(name)][-9:])
        yield (b"M", 100, name.encode()), "M: a name of %d" % len(name), (
            [(0, m(("product", '"%s"' % text), leave=["product"])) for text in list(spellings(name))[-3:]]
            + [(5, m(("product", '"%s"' % text), leave=["product"])) for text in misspellings(name)][-9:])
    yield M_BOOK, "M: names by meaning", (
        [(0, m(("product", '"%s"' % text), leave=["product"])) for text in spellings("BTC-VND")]
        + [(0, m(("channel", '"%s"' % text), leave=["channel"])) for text in spellings("book")]
        + [(0, m(("type", '"%s"' % text), leave=["type"])) for kind in ("snapshot", "update") for text in list(spellings(kind))[::3]]
        + [(5, m(("product", '"%s"' % text), leave=["product"])) for text in misspellings("BTC-VND")]
        + [(5, m(("channel", '"%s"' % text), leave=["channel"])) for text in misspellings("book")]
        + [(6, m(("type", '"%s"' % text), leave=["type"])) for text in misspellings("update")]
        + [(0, m((hexed(name), value), leave=[name])) for name, value in m_pairs()] + [(6, m((hexed(name, True), value))) for name, value in m_pairs()]
        + [(0, m((text, "null"))) for name in ("gsn", "data") for text in misspellings(name)]
        + [(0, "{%s}" % ",".join('"%s":%s' % (hexed(name), value) for name, value in m_pairs())),
           (0, m(data='{"%s":[],"%s":[]}' % (hexed("bids"), hexed("asks", True)))), (6, m(data='{"bids":[],"asks":[],"%s":[]}' % hexed("bids"))),
           (6, m(data='{"bids":[],"asks":[],"ask\\u0073":5}')), (0, m(data='{"bids":[],"asks":[],"ask\\u0173":5}'))])


def json_cases():
    yield "not JSON, or JSON with odd values"
    for text in ("", " ", " \t\r ", "x", "nul", "nulll", "True", "NaN", "Infinity", "'a'", '"', '"a', '"a" "b"', "[", "]", "[]]", "[1,]", "[,]",
                 "[,1]", "[1 2]", "[1", "{", "}", "{,}",
                 '{"a"}', '{"a":}', '{"a" 1}', "{a:1}", '{"a":1,}', '{"a":1 "b":2}', "{1:2}", '{"a":1', "[] x", "[1]{}", "//", "[1]//",
                 "\xef\xbb\xbf[]", "\x80", "[\xff]",
                 "\x0b[]", "\x0c[]", "\xa0[]", "01", "-", "+1", ".5", "1.", "1e", "1e+", "--1", "0x1", "-01", '"\x1f"', '"\t"', '"\\x"', '"\\\'"',
                 '"\\U0041"', '"\\u004"',
                 '"\\u00g0"', '"\\', '"\\"', '"\\u"', '["a\x01"]', '{"a\x02":1}'):
        yield 3, text
    for text in ("7", '"x"', "true", "false", "null", "-0", "1E400", "1e-999", "123456789012345678901234567890.5", '"\\ud800"', '"\\udc00\\ud800"',
                 '"\x7f"', '"\x80\xff"', '"\\"\\\\\\/\\b\\f\\n\\r\\t\\u00e9"',
                 "[]", "{}", " [ ] ", "\t{ }\r", "[1,2,3]", '{"a":1,"a":2}'):
        yield 5, text
    for dialect, passed in (("K", lambda x: k(k_snapshot("[]", "[]", ("x", x)))), ("M", lambda x: m(("x", x)))):
        yield "a member that is passed over is JSON: " + dialect
        for good in ("1e999", "-0.0e-0", "1" * 40, "[]", "{}", '{"a":1,"a":2}', '"\\ud800"', '"\\\\"', '"\x80\x7f"', "[[1,[2]],{}]", "null"):
            yield 0, passed(good), dialect
        for bad in ("01", "1.", "nul", '"\\x"', '"\x1f"', "[1,]", '{"a":1,}', "", "1 2", "\x80", '{"a"}', "[[]"):
            yield 3, passed(bad), dialect


def nesting_cases():
    yield "nested 16 and 17 deep"
    for opening, closing, inner in (("[", "]", ""), ("[", "]", "1"), ('{"a":', "}", "1"), ('[{"a":', "}]", "1")):
        step = 2 if opening.startswith("[{") else 1
        yield 5, nested(16 // step, opening, closing, inner)
        yield 3, nested(17 // step, opening, closing, "[]" if step == 2 else inner)
    yield 3, "[%s,%s]" % (nested(15), nested(16))
    yield 5, "[%s,%s]" % (nested(15), nested(15))
    for most, make in ((14, lambda x: k(k_snapshot("[]", "[]", ("x", x)))), (12, lambda x: k(k_snapshot(rows(k_row("1", "1", '"3"', x)))))):
        for depth in (most, most + 1, 16, 17):
            yield 0 if depth == most else 3, make(nested(depth)), "K"
    for most, make in ((15, lambda x: m(("x", x))), (14, lambda x: m(data=m_data("[]", "[]", ("x", x)))), (15, lambda x: m(("bids", x)))):
        for depth in (most, most + 1, 16, 17):
            yield 0 if depth == most else 3, make(nested(depth)), "M"
    yield 3, k(nested(16)), "K"
    yield 6, k(nested(15)), "K"
    yield 6, k(k_snapshot(nested(14))), "K"
    yield 3, k(k_snapshot(nested(15))), "K"
    yield 6, m(data=nested(15)), "M"
    yield 3, m(data=nested(16)), "M"


def length_cases():
    yield "32,768 and 32,769 bytes"
    for dialect, text in (("K", k(k_snapshot())), ("K", k(k_update())), ("M", m()), ("M", m(kind="update"))):
        yield 0, text, dialect, 32768
        yield 2, text, dialect, 32769
    for number, text in ((3, ""), (3, "x"), (3, "[1]]"), (5, "[1,2,3]"), (5, '[1,2,"\\n","trade"]'), (6, k("{}")),
                         (8, k(k_snapshot(rows(k_row("0")))))):
        yield number, text, "K", 32767
        yield number, text, "K", 32768
        yield 2, text, "K", 32769
        yield 2, text, "K", 40000


def k_address_cases():
    yield "K: an array of four or five; channel and pair"
    snapshot = k_snapshot(rows(k_row()))
    yield 0, k(snapshot)
    for text in ("[]", '[0,"book-10","XBT/USD"]', '["book-10","XBT/USD"]', k(snapshot, snapshot, snapshot), k(snapshot)[:-1] + ",1]", "{}", "7", m(),
                 "[%s]" % k(snapshot)):
        yield 5, text
    for channel in ('"book-25"', '"book-1"', '"book-100"', '"book-010"', '"book-10 "', '" book-10"', '"Book-10"', '"book10"', '"book-"', '"10"', '""',
                    '"book-10\x80"', "10", "null", '["book-10"]', '{"book-10":1}', '["\\n"]'):
        yield 5, k(snapshot, channel=channel)
    for pair in ('"XBT/EUR"', '"xbt/usd"', '"XBT/USD "', '"XBT/US"', '"XBT/USDT"', '""', "7", "null", '["XBT/USD"]', '["XBT\\/USD"]',
                 '{"a\\n":"\\n"}'):
        yield 5, k(snapshot, pair=pair)
    yield 5, k(snapshot, channel='"XBT/USD"', pair='"book-10"')
    yield 5, '["book-10","XBT/USD",0,%s]' % snapshot
    yield "K: escapes in the last two elements"
    for ours, channel, pair in ((True, '"book-10"', '"XBT\\/USD"'), (True, '"book\\u002d10"', '"XBT/USD"'), (False, '"\\n"', '"trade"'),
                                (False, '"trade"', '"\\\\"'), (False, "7", '"\\n"'), (False, '"\\n"', "7"), (False, '"\\n"', '"\\n"'),
                                (False, "[]", '"BTC\\/USD"')):
        yield 0 if ours else 5, k(snapshot, channel=channel, pair=pair)
        yield 6 if ours else 5, k("1", "2", channel=channel, pair=pair)
        yield 5, "[%s,%s,%s]" % (snapshot, channel, pair)
        yield 5, k(snapshot, snapshot, "1", channel=channel, pair=pair)
    yield 5, '{"channel":"book-10","a\\n":"\\n"}'
    yield 5, '"XBT\\/USD"'
    yield 5, '["\\n",{"\\n":"\\n"},"book-25","XBT/USD"]'
    yield 5, '[0,{},"\\n","book-25","XBT/USD"]'
    yield 6, '["\\n",{"\\n":"\\n"},"book-10","XBT/USD"]'
    yield 6, '[0,{},"\\n","book-10","XBT/USD"]'
    yield 3, k(snapshot, channel='"\\x"')


def k_number_cases():
    yield "K: the first element is a whole number"
    for number in ("0", "7", "336", "9223372036854775808", "9999999999999999999"):
        yield 0, k(k_snapshot(), number=number)
        yield 0, k('{"a":[]}', '{"b":[],"c":"1"}', number=number)
    for number in NOT_WHOLE + ['"0"', '"\\n"']:
        yield 6, k(k_snapshot(), number=number)
    for number in ("00", "01", "007", "+1", "1.", ""):
        yield 3, k(k_snapshot(), number=number)
    yield 6, k(k_snapshot(rows(k_row("0"))), number="-0")


def k_object_cases():
    yield "K: one or two objects"
    for other in ("7", "[]", "null", "true", '"x"', '{"x":1}', "{}"):
        yield 6, k(other)
        yield 6, k(other, '{"a":[],"c":"1"}')
        yield 6, k('{"a":[],"c":"1"}', other)
        yield 6, k(k_snapshot(), other)
        yield 6, k(other, k_snapshot())
    yield "K: snapshots"
    for good in ('{"as":[],"bs":[]}', '{"bs":[],"as":[]}', '{"x":1,"as":[],"y":[["0","0"]],"bs":[],"x":2}',
                 '{"as":[],"bs":[],"AS":1,"asks":2,"":3,"d":4,"ab":5,"aas":6}',
                 '{"\\u0061s":[],"bs":[]}', '{"as":[],"b\\u0073":[]}', '{"as":[],"bs":[],"a\\n":[["0","0"]]}',
                 '{"as":[],"bs":[],"x":{"c":"1","as":[]}}', '{"as":[],"bs":[],"channel":"\\n"}'):
        yield 0, k(good)
    for bad in ('{"as":[]}', '{"bs":[]}', '{"as":[],"as":[],"bs":[]}', '{"as":[],"bs":[],"bs":[]}', '{"as":[],"bs":[],"as":5}',
                '{"as":[],"bs":[],"a":[]}', '{"as":[],"bs":[],"b":[]}',
                '{"as":[],"bs":[],"c":"1"}', '{"as":[],"bs":[],"c":1}', '{"as":[],"bs":[],"a":[],"b":[],"c":"1"}', '{"as":[],"b":[],"c":"1"}',
                '{"as":[],"bs":[],"\\u0061s":[]}', '{"as":[],"bs":[],"\\u0063":"1"}',
                '{"as":[],"asks":[]}', '{"x":{"as":[],"bs":[]}}', '{"as":[],"b":[]}', '{"a":[],"bs":[]}'):
        yield 6, k(bad)
    yield "K: a snapshot of two objects"
    for pair in (('{"as":[]}', '{"bs":[]}'), ('{"bs":[]}', '{"as":[]}'), (k_snapshot(), "{}"), ("{}", k_snapshot()), (k_snapshot(), k_snapshot()),
                 (k_snapshot(), '{"x":1}'), (k_snapshot(), '{"a":[],"c":"1"}'),
                 ('{"a":[]}', '{"as":[],"bs":[]}'), ('{"as":[],"a":[]}', '{"b":[],"c":"1"}'), ('{"a":[]}', '{"bs":[],"b":[],"c":"1"}')):
        yield 6, k(*pair)


def k_update_cases():
    yield "K: updates of one object"
    for good in ('{"a":[],"c":"1"}', '{"b":[],"c":"1"}', '{"a":[],"b":[],"c":"1"}', '{"c":"1","b":[],"a":[]}',
                 '{"x":1,"c":"1","x":[["0","0"]],"b":[]}', '{"\\u0061":[],"c":"1"}', '{"a":[],"\\u0063":"1"}',
                 '{"a":[],"c":"1","a\\n":5,"\\u0020c":5,"C":6}'):
        yield 0, k(good)
    for bad in ('{"c":"1"}', '{"a":[]}', '{"b":[]}', '{"a":[],"b":[]}', '{"a":[],"a":[],"c":"1"}', '{"b":[],"a":[],"b":[],"c":"1"}',
                '{"a":[],"c":"1","c":"1"}', '{"a":[],"c":"1","as":[]}', '{"a":[],"c":"1","bs":[]}',
                '{"a":[],"c":"1","\\u0061":5}', '{"a":[],"c":"1","\\u0063":5}', '{"b":[],"c":"1","\\u0062s":5}',
                '{"b":[],"c":"1","\\u0062":[]}', '{"A":[],"c":"1"}', '{"a":[],"c":"1","c":5}', '{"x":{"a":[],"c":"1"}}'):
        yield 6, k(bad)
    yield "K: updates of two objects"
    for pair in (('{"a":[]}', '{"b":[],"c":"1"}'), ('{"b":[]}', '{"a":[],"c":"1"}'), ('{"a":[],"x":1}', '{"c":"1","b":[],"x":2}'),
                 ('{"\\u0061":[],"\\u0163":1}', '{"\\u0062":[],"c":"1"}'), ('{"b":[],"x":{"c":"1"}}', '{"a":[],"c":"1"}')):
        yield 0, k(*pair)
    for pair in (('{"a":[]}', '{"a":[],"c":"1"}'), ('{"b":[]}', '{"b":[],"c":"1"}'), ('{"a":[],"b":[]}', '{"b":[],"c":"1"}'),
                 ('{"a":[]}', '{"a":[],"b":[],"c":"1"}'), ('{"a":[],"b":[]}', '{"c":"1"}'), ('{"a":[]}', '{"c":"1"}'),
                 ("{}", '{"a":[],"b":[],"c":"1"}'), ('{"a":[],"c":"1"}', '{"b":[]}'), ('{"a":[],"c":"1"}', '{"b":[],"c":"1"}'),
                 ('{"a":[],"\\u0063":1}', '{"b":[],"c":"1"}'), ('{"a":[]}', '{"\\u0061":[],"c":"1"}'),
                 ('{"a":[]}', '{"b":[],"c":"1","c":"1"}'), ('{"a":[]}', '{"b":[]}'), ('{"a":[],"c":"1"}', "{}"),
                 ('{"c":"1"}', '{"a":[],"b":[]}'), ('{"a":[],"a":[]}', '{"b":[],"c":"1"}'), ('{"c":"1"}', '{"a":[],"b":[],"c":"1"}'),
                 ('{"a":[],"b":[]}', '{"a":[],"b":[],"c":"1"}')):
        yield 6, k(*pair)
    yield "K: the checksum is a string holding a whole number"
    for printed in ("0", "5", "974947235", "4294967295"):
        yield 0, k(members(("a", "[]"), ("c", '"%s"' % printed)))
        yield 0, k('{"b":[]}', members(("a", "[]"), ("c", '"%s"' % printed)))
    for printed in NOT_CHECKSUM_TEXT:
        yield 6, k(members(("a", "[]"), ("c", '"%s"' % printed)))
    for printed in ("5", "null", "[]", '["5"]', "{}", "true", "-0"):
        yield 6, k(members(("a", "[]"), ("c", printed)))


def k_entry_cases():
    yield "K: arrays of entries"
    for bad in NOT_ENTRIES + ['[["1","2"]]', '[["1","2",3]]', '[["1",2,"3"]]', '[[1,"2","3"]]', '[["1","2",null]]', '[["1","2",["3"]]]',
                              '[["1","2","3"],5]', '[["1","2","3"],["1","2"]]', '[[["1","2","3"]]]', '["1","2","3"]']:
        yield 6, k(k_snapshot(bad))
        yield 6, k(k_snapshot("[]", bad))
        yield 6, k(members(("a", bad), ("c", '"1"')))
        yield 6, k(members(("a", "[]")), members(("b", bad), ("c", '"1"')))
    for good in ("[ ]", '[["1","2","3"]]', '[["1","2",""]]', '[["1","2","\\n\\u0000\x80"]]', '[["1","2","3","r"]]',
                 '[["1","2","3",4,null,[[]],{"a":5,"a":6},"\\n"]]', '[["1","2","x"],["1","2","y"]]',
                 ' [ [ "1" , "2" , "3" ] , [ "4" , "5" , "6" ] ] '):
        yield 0, k(k_snapshot(good, good))
        yield 0, k(members(("b", good), ("c", '"1"')))
        yield 0, k(members(("b", good)), members(("a", good), ("c", '"1"')))
    for bad in ('[["1","2","3",]]', '[["1","2","3",x]]', '[["1","2","3",01]]', '[["1","2","3"]', '[["1","2","3"],]', '[["1","2" "3"]]',
                '[["1","2","3\x1f"]]', '[["1\\x","2","3"]]'):
        yield 3, k(k_snapshot(bad))
    yield 0, '\t [ 0 , { "as" : [ [ "1" , "2" , "3" ] ] , "bs" : [ ] } , "book-10" , "XBT/USD" ] \r'
    yield 0, ' [0 ,{ "a":[ ]} , {"b" :[["1","0","3" , "r" ] ],"c": "1" },"book-10","XBT/USD"]'


def m_address_cases():
    yield "M: an object; channel and product"
    yield 0, m()
    for text in ("[]", "7", '"book"', "[%s]" % m(), k(k_snapshot()), "{}", '{"channel":"trades"}', '{"channel":"book"}', '{"product":"BTC-VND"}',
                 '{"data":%s}' % m(), '["a\\n"]', '"\\n"'):
        yield 5, text
    for channel in ('"trades"', '"Book"', '"book "', '""', '"boo"', '"books"', "7", "null", '["book"]', '{"book":"\\n"}', '["\\n"]'):
        yield 5, m(("channel", channel), leave=["channel"])
        yield 6, m(("channel", channel))
    for product in ('"BTC"', '"btc-vnd"', '"BTC-VND "', '""', '"BTC-VNDX"', "7", "null", '["BTC-VND"]', '["BTC\\u002dVND"]'):
        yield 5, m(("product", product), leave=["product"])
        yield 6, m(("product", product))
    yield 5, m(leave=["channel"])
    yield 5, m(leave=["product"])
    yield 5, m(("channel", '"a"'), ("channel", '"b"'), leave=["channel"])
    yield 5, m(("product", '"book"'), ("channel", '"BTC-VND"'), leave=["product", "channel"])
    yield 6, m(("channel", '"book"'))
    yield 6, '{"product":"x","channel":"y","product":"BTC-VND","channel":"book"}'
    yield 6, '{"channel":"book","product":"BTC-VND"}'
    yield "M: escapes in keys of the object, in channel and in product"
    for text in ('{"a\\n":1}', '{"\\u0061":1}', '{"x":1,"\\\\":2}', '{"chann\\u0065l":"trades"}', '{"channel":"bo\\u006fk"}', '{"channel":"\\n"}',
                 '{"product":"BTC\\/USD"}', '{"product":"\\n","channel":"trades"}',
                 '{"channel":"trades","channel":"\\n"}', '{"channel":"\\n","channel":"trades"}', '{"product":7,"product":"\\n"}'):
        yield 5, text
    for text in (m(("dat\\u0061", "1")), m(("\\u0063hannel", '"book"')), m(("channel", '"boo\\u006b"')), m(("product", '"BTC\\u002dVND"')),
                 '{"channel":"trades","ch\\u0061nnel":"book","product":"BTC-VND"}'):
        yield 6, text
    for text in (m(("x\\t", "1")), m(("product", '"BTC\\u002dVND"'), leave=["product"]), m(("t\\u0079pe", '"update"'), leave=["type"])):
        yield 0, text
    for text in ('{"x":"\\n"}', '{"type":"\\n"}', '{"x":{"a\\n":1}}', '{"channel":["\\n"],"product":{"\\n":"\\n"}}',
                 '{"data":{"channel":"\\n","product":"\\n"}}', '{"Channel":"\\n"}', '{"channels":"\\n"}'):
        yield 5, text
    yield 0, m(("x", '"\\n"'))
    yield 0, m(("x", '{"a\\n":"\\n"}'))
    yield 0, m(data=m_data("[]", "[]", ("channel", '"\\n"'), ("product", '"\\n"'), ("a\\n", "1")))
    yield 3, '{"a\\x":1}'


def m_layout_cases():
    yield "M: each member once"
    for name, value in m_pairs():
        ours = name in ("channel", "product")
        yield 5 if ours else 6, m(leave=[name])
        yield 6, m((name, value))
        yield 6, m((name, "null"))
        yield 5 if ours else 6, m((name.upper(), value), leave=[name])
        yield 0, m((name.upper(), "null"))
        yield 0, m((name, value), leave=[name])
    yield 0, members(*reversed(m_pairs()))
    yield 0, m(("x", "1"), ("x", "[2]"), ("", "{}"), ("bids", "5"), ("asks", "6"), ("as", "7"), ("c", "8"), ("sequence", "-1"))
    for kind in ("heartbeat", "Snapshot", "updates", "", "update\\n", "snapshot ", "snap\\u0053hot", "\\u0175pdate", "s\\napshot"):
        yield 6, m(kind=kind)
    for kind in ("snap\\u0073hot", "\\u0075pdate", "updat\\u0065"):
        yield 0, m(kind=kind)
    for kind in ("7", "null", '["update"]', '{"update":1}'):
        yield 6, m(("type", kind), leave=["type"])
    yield "M: data"
    for bad in ("[]", "null", "7", '"x"', "{}", '{"bids":[]}', '{"asks":[]}', '{"bids":[],"asks":[],"bids":[]}', '{"asks":[],"bids":[],"asks":[]}',
                '{"bi\\u0064s":[],"asks":[],"bids":[]}', '{"bids":[],"\\u0061sks":[],"asks":[]}', '{"Bids":[],"asks":[]}',
                '{"x":{"bids":[],"asks":[]}}', '[{"bids":[],"asks":[]}]', '{"bids":[],"asks":[],"asks":null}'):
        yield 6, m(data=bad)
        yield 6, m(kind="update", data=bad)
    for good in ('{"asks":[],"bids":[]}', '{"bids":[],"asks":[],"gsn":5}', '{"gsn":"x","bids":[],"gsn":-1,"asks":[],"checksum":null}',
                 '{"bi\\u0064s":[],"asks":[]}', '{"bids":[],"\\u0061sks":[]}',
                 '{"bids":[],"asks":[],"bi\\u0164s":5,"a":6,"as":7,"data":8}', '{ "bids" : [ ] , "asks" : [ ] }'):
        yield 0, m(data=good)
        yield 0, m(kind="update", data=good)
    yield "M: checksum and gsn are JSON numbers written as whole numbers"
    for printed in ("0", "5", "1226559413", "4294967295"):
        yield 0, m(printed=printed)
    for printed in NOT_CHECKSUM + ['"5"']:
        yield 6, m(printed=printed)
    for gsn in ("0", "7", "4294967296", "9223372036854775808", "9999999999999999999"):
        yield 0, m(gsn=gsn)
    for gsn in NOT_WHOLE + ['"7"']:
        yield 6, m(gsn=gsn)
    for text in ("00", "07", "+7", "7.", ""):
        yield 3, m(gsn=text)
        yield 3, m(printed=text)


def m_entry_cases():
    yield "M: arrays of entries"
    for bad in NOT_ENTRIES + ['[["1","2","3"]]', '[["1","2"],5]', '[["1","2"],["1"]]', '[[["1","2"]]]', '["1","2"]', '[["1","2",null]]']:
        yield 6, m(data=m_data(bad))
        yield 6, m(kind="update", data=m_data("[]", bad))
    for good in ("[ ]", '[["1","2"]]', '[["1","2"],["1","2"]]', ' [ [ "1" , "2" ] , [ "3" , "4" ] ] '):
        yield 0, m(data=m_data(good, good))
        yield 0, m(kind="update", data=m_data(good, good))
    yield 3, m(data=m_data('[["1","2",]]'))
    yield 3, m(data=m_data('[["1","2"]'))
    yield 0, '\t { "channel" : "book" , "product" : "BTC-VND" , "type" : "update" , "data" : { "asks" : [ ] , "bids" : [ [ "1" , "0" ] ] } , "checksum" : 5 , "gsn" : 7 } \r'


def m2_cases():
    yield "M2: an update has the number before once, written as a whole number; a snapshot's is passed over"
    row = rows(m_row())
    for previous in ("0", "7", "4294967296", "9223372036854775808", "9999999999999999999"):
        yield 0, m(("prev_gsn", previous), kind="update", data=m_data(row))
        yield 0, members(("prev_gsn", previous), *m_pairs("update"))
    yield 6, m(kind="update")
    yield 0, m(kind="snapshot")
    for bad in NOT_WHOLE + ['"7"', '"\\u0037"', '["7"]']:
        yield 6, m(("prev_gsn", bad), kind="update")
        yield 0, m(("prev_gsn", bad), kind="snapshot")
    for bad in ("07", "00", "+7", "7.", ""):
        yield 3, m(("prev_gsn", bad), kind="update")
        yield 3, m(("prev_gsn", bad), kind="snapshot")
    yield 6, m(("prev_gsn", "7"), ("prev_gsn", "7"), kind="update")
    yield 6, m(("prev_gsn", "7"), ("prev_gsn", '"x"'), kind="update")
    yield 6, m(("prev_gsn", "7"), ("prev\\u005fgsn", "7"), kind="update")
    yield 6, m(("prev_gsn", "7"), (hexed("prev_gsn"), "7"), kind="update")
    yield 0, m(("prev_gsn", "7"), ("prev_gsn", "7"), kind="snapshot")
    yield 0, m((hexed("prev_gsn"), "7"), kind="update")
    yield 0, m(("\\u0070rev_gs\\u006E", "7"), kind="update")
    for name in ("prev-gsn", "Prev_gsn", "prev_sequence", "prev_gs", "prev_gsnn", "\\u0170rev_gsn", "gsn_prev"):
        yield 6, m((name, "7"), kind="update")
        yield 0, m((name, "7"), ("prev_gsn", "6"), kind="update")
    yield 6, m(kind="update", data=m_data("[]", "[]", ("prev_gsn", "7")))
    yield 0, m(("prev_gsn", "7"), kind="update", data=m_data("[]", "[]", ("prev_gsn", "null"), ("gsn", '"x"')))
    yield 6, m(("x", '{"prev_gsn":7}'), kind="update")
    yield "M2: the other checks as in M"
    yield 5, m(("prev_gsn", "7"), kind="update", leave=["product"])
    yield 6, m(("prev_gsn", "7"), kind="update", leave=["gsn"])
    yield 6, m(("prev_gsn", "-0"), kind="update", data=m_data(many('["1","1"]', 101)))
    yield 7, m(("prev_gsn", "7"), kind="update", data=m_data(many('["1","1"]', 101)))
    yield 8, m(("prev_gsn", "7"), kind="update", data=m_data(rows(m_row("0")))), None, None, '"0"'
    yield 6, m(kind="update", data=m_data(rows(m_row("0"))))


def m1_cases():
    yield "M1, which plain M means: prev_gsn is passed over"
    for settings in (b"M", b"M1"):
        yield settings
        yield 0, m(kind="update")
        for any_value in ("7", "-0", '"x"', "null", "[]"):
            yield 0, m(("prev_gsn", any_value), ("prev_gsn", any_value), kind="update")
            yield 0, m(("prev_gsn", any_value), kind="snapshot")


def many(row, count, *last):
    return rows(*[row] * (count - len(last)), *last)


def k_many_cases():
    row, gone = '["1","1",""]', '["1","0",""]'
    yield "K: 100 and 101 entries on a side"
    for count in (100, 101):
        expected = 0 if count == 100 else 7
        yield expected, k(k_snapshot(many(row, count)))
        yield expected, k(k_snapshot("[]", many(row, count)))
        yield expected, k(members(("b", many(gone, count, row)), ("c", '"1"')))
        yield expected, k(members(("b", rows(row))), members(("a", many(row, count, *[gone] * 51)), ("c", '"1"')))
    yield 0, k(k_snapshot(many(row, 100), many(row, 100)))
    yield 0, k(members(("a", many(row, 51))), members(("b", many(row, 50)), ("c", '"1"')))
    yield 6, k(k_snapshot(many(row, 101), many(row, 1, '["1","1",1]')))
    yield 6, k(k_snapshot(many(row, 101, '["1","1"]')))
    yield 7, k(k_snapshot(many('["x","1",""]', 101)))
    yield 7, k(k_snapshot(rows('["0","1",""]'), many(row, 101)))
    yield 8, k(k_snapshot(many(row, 100, '["0","1",""]'))), "K", None, '"0"'
    yield 0, k(k_snapshot("[]", "[]", ("x", many(row, 101))))


def m_many_cases():
    row, gone = '["1","1"]', '["1","0"]'
    yield "M: 100 and 101 entries on a side"
    for count in (100, 101):
        expected = 0 if count == 100 else 7
        yield expected, m(data=m_data(many(row, count)))
        yield expected, m(data=m_data("[]", many(row, count)))
        yield expected, m(kind="update", data=m_data(many(row, count, *[gone] * 51)))
        yield expected, m(kind="update", data=m_data("[]", many(gone, count)))
    yield 0, m(data=m_data(many(row, 100), many(row, 100)))
    yield 6, m(data=m_data(many(row, 101), rows('["1",1]')))
    yield 6, m(data=m_data(many(row, 101, '["1","1","1"]')))
    yield 6, m(data=m_data(many(row, 101)), gsn="-0")
    yield 7, m(data=m_data(many('["x","1"]', 101)))
    yield 7, m(data=m_data(rows('["0","1"]'), many(row, 101)))
    yield 8, m(data=m_data(many(row, 100, '["1","x"]'))), "M", None, '"x"'


def decimal_cases(snapshot, update, row, name):
    yield name + ": decimals"
    for good in DECIMALS:
        yield 0, snapshot(rows(row(good, good)), rows(row(good, good)))
        yield 0, update(rows(row(good, good)), rows(row(good, good)))
    for bad in NOT_DECIMAL:
        yield 8, snapshot(rows(row(bad, "2")), "[]"), name, None, '"%s"' % bad
        yield 8, update("[]", rows(row("1", bad))), name, None, '"%s"' % bad
    for zero_text in ZEROS:
        text = '"%s"' % zero_text
        yield 8, snapshot(rows(row(zero_text, "2")), "[]"), name, None, text
        yield 8, update(rows(row(zero_text, "2")), "[]"), name, None, text
        yield 8, update("[]", rows(row(zero_text, "0"))), name, None, text
        yield 8, snapshot("[]", rows(row("1", zero_text))), name, None, text
        yield 0, update(rows(row("1", zero_text)), rows(row("1", zero_text)))
    yield name + ": the first bad text in message order"
    yield 8, snapshot(rows(row("a", "2"), row("b", "2")), rows(row("c", "2"))), name, None, '"a"'
    yield 8, snapshot(rows(row("1", "2"), row("1", "b")), rows(row("c", "2"))), name, None, '"b"'
    yield 8, snapshot(rows(row("1", "2"), row("2", "2")), rows(row("1", "2"), row("3", "c"))), name, None, '"c"'
    yield 8, update(rows(row("1", "0"), row("a", "b")), rows(row("c", "d"))), name, None, '"a"'
    yield 8, update(rows(row("1", "0"), row("2", "b")), rows(row("c", "d"))), name, None, '"b"'
    yield 8, update(rows(row("1", "0")), rows(row("1", "0"), row("2", "d"))), name, None, '"d"'
    yield 8, snapshot(rows(row("1", "0"), row("x", "2")), "[]"), name, None, '"0"'
    yield 8, update(rows(row("1", "0"), row("x", "2")), "[]"), name, None, '"x"'


def both_orders_cases():
    for name, first, second in (("K", "as", "bs"), ("K", "bs", "as")):
        yield 8, k(members((first, rows(k_row("1", "f"))), (second, rows(k_row("s"))))), name, None, '"f"'
        yield 8, k(members((first, rows(k_row("1", "2"))), (second, rows(k_row("s"))))), name, None, '"s"'
    for first, second in (("a", "b"), ("b", "a")):
        yield 8, k(members((first, rows(k_row("1", "f")))), members((second, rows(k_row("s"))), ("c", '"1"'))), "K", None, '"f"'
        yield 8, k(members((first, "[]")), members(("c", '"1"'), (second, rows(k_row("s"))))), "K", None, '"s"'
    for first, second in (("bids", "asks"), ("asks", "bids")):
        data = members((first, rows(m_row("1", "f"))), (second, rows(m_row("s"))))
        yield 8, m(data=data), "M", None, '"f"'
        yield 8, members(*reversed(m_pairs("update", data))), "M", None, '"f"'
    yield 6, k(k_snapshot(rows(k_row("x")), '[["1","2"]]')), "K"
    yield 6, m(data=m_data(rows(m_row("x")), '[["1"]]')), "M"


def settings_cases():
    """Pairs of settings and their cases."""
    for dialect, depths in ((b"K", (9, 10, 11, 100, 101, 0, 1000)), (b"M", (99, 100, 101, 10, 0)), (b"M1", (99, 100, 101, 10)), (b"M2", (99, 100, 101, 25)),
                            (b"M0", (100,)), (b"M3", (100,)), (b"M12", (100,)), (b"m2", (100,)), (b"K1", (10,)), (b"L", (10, 100)), (b"k", (10,)), (b"m", (100,))):
        for depth in depths:
            good = dialect == b"K" and depth in (10, 11, 100) or dialect in M_DIALECTS and depth == 100
            message = k(k_snapshot(), channel='"book-%d"' % depth) if dialect in b"Kk" else m()
            name = b"XBT/USD" if dialect in b"Kk" else b"BTC-VND"
            texts = [message, "", "[1,2,3]", k(k_snapshot(rows(k_row("0"))), channel='"book-%d"' % depth)]
            numbers = [0, 3, 5, 8 if dialect == b"K" else 5] if good else [1] * 4
            yield (dialect, depth, name), list(zip(numbers, texts)) + [(2 if good else 1, "x", None, 32769)]
    names = [(0, b"!"), (0, b"~"), (0, b"0123456789abcdef"), (0, b"it's"), (0, b"!#$%&()*+,-./:;<"), (0, b"=>?@[]^_`{|}~"), (0, b"book-10"), (1, b""),
             (1, b"0123456789abcdefg"), (1, b'a"b'), (1, b"a\\b"),
             (1, b"a b"), (1, b" a"), (1, b"a "), (1, b" "), (1, b"a\x7f"), (1, b"\x80"), (1, b"a\x1f"), (1, b"a\t"), (1, b"\xff" * 16)]
    for expected, name in names:
        text = name.decode("latin-1")
        yield (b"K", 10, name), [(expected, k(k_snapshot(), pair='"%s"' % text))]
        yield (b"M", 100, name), [(expected, m(("product", '"%s"' % text), leave=["product"])), (expected or 5, m(("product", '"%sx"' % text), leave=["product"]))]


# ---- messages at random, each clause of the layout broken now and then

def random_entries(pick, row, rest):
    def entry():
        price = pick.choice(DECIMALS) if pick.random() < 0.97 else pick.choice(NOT_DECIMAL + ZEROS)
        size = pick.choice(DECIMALS + ZEROS[:1] * pick.randrange(2)) if pick.random() < 0.97 else pick.choice(NOT_DECIMAL)
        return row(price, size, *rest[:pick.randrange(len(rest) + 1)])

    if pick.random() < 0.03:
        return pick.choice(NOT_ENTRIES)
    return "[%s]" % pick.choice([",", " , "]).join(entry() for _ in range(pick.randrange(5)))


def random_object(pick, names, values, spare):
    """An object with members of the names, or with one too many or too few."""
    names = list(names)
    if pick.random() < 0.12:
        names.append(pick.choice(spare))
    if names and pick.random() < 0.06:
        names.remove(pick.choice(names))
    pick.shuffle(names)
    return members(*((name, values(name)) for name in names))


def random_k(pick):
    def value(name):
        if name == "c":
            return '"%s"' % (pick.randrange(MAX_CHECKSUM + 1) if pick.random() < 0.95 else pick.choice(NOT_CHECKSUM_TEXT))
        return random_entries(pick, k_row, ['"3"', '"r"', "4"]) if len(name) < 3 else "null"

    spare = ["x", "xyz", "as", "bs", "a", "b", "c", "\\u0061", "\\u0062s"]
    layouts = [["as", "bs"]], [["a", "b", "c"]], [["a", "c"]], [["b", "c"]], [["a"], ["b", "c"]], [["b"], ["a", "c"]]
    objects = [random_object(pick, names, value, spare) for names in pick.choice(layouts)]
    number = str(pick.randrange(10 ** 19)) if pick.random() < 0.97 else pick.choice(NOT_WHOLE)
    pair = '"XBT/USD"' if pick.random() < 0.9 else pick.choice(['"XBT/EUR"', '"XBT\\/USD"', '"XBT\\u002fUSD"', '"XBT\\u012fUSD"', "7"])
    return k(*objects, number=number, pair=pair)


def random_m(pick):
    data = random_object(pick, ["bids", "asks"], lambda name: random_entries(pick, m_row, []) if name in ("bids", "asks") else "null", ["x", "bids", "asks", "gsn", "a\\n"])
    values = dict(m_pairs(pick.choice(["snapshot", "update"]), data, str(pick.randrange(MAX_CHECKSUM + 1)), str(pick.randrange(10 ** 19))))
    if pick.random() < 0.1:
        values[pick.choice(list(values))] = pick.choice(["null", "-0", "7", '"x"', '"\\n"'])
    return random_object(pick, list(values), lambda name: values.get(name, "null"), ["x", "channel", "product", "type", "data", "checksum", "gsn", "bids", "a\\n"])


def random_m2(pick):
    """As in M, with a number before."""
    text = random_m(pick)
    if pick.random() < 0.9:
        previous = str(pick.randrange(10 ** 19)) if pick.random() < 0.9 else pick.choice(NOT_WHOLE)
        text = text[:-1] + (',"%s":%s}' % (pick.choice(["prev_gsn"] * 5 + ["prev\\u005fgsn"]), previous))
    return text


def damaged(pick, text):
    """A message with a byte less, a byte twice or two bytes exchanged."""
    at = pick.randrange(len(text) - 1)
    return pick.choice([text[:at] + text[at + 1:], text[:at + 1] + text[at:], text[:at] + text[at + 1] + text[at] + text[at + 2:]])


def random_cases(seed, count):
    pick = random.Random(seed)
    for name, make in (("K", random_k), ("M", random_m), ("M2", random_m2)):
        yield name + ": at random"
        for _ in range(count):
            text = make(pick)
            yield None, text if pick.random() < 0.9 else damaged(pick, text), name


# ---- the files

class Files:
    def __init__(self):
        self.cases, self.answers, self.settings, self.numbers = [], [], None, []

    def say(self, line, told=None):
        self.cases.append(line)
        self.answers.append(line if told is None else told)

    def choose(self, settings):
        if settings != self.settings:
            self.settings = settings
            self.say(b"= %s %d %s" % settings)

    def add(self, expected, text, name=None, length=None, bad=None):
        """A message, its answer number by hand, the dialect where it is not the one before, its length with blanks, its bad text by hand."""
        if name:
            self.choose(BOOKS[name])
        text = text.encode("latin-1")
        assert b"\n" not in text
        line = b"+ %d %s" % (length, text) if length else b"< " + text
        whole_text = text.ljust(length or 0)
        number, told = answer(self.settings, whole_text)
        assert expected in (None, number), (expected, number, text)
        assert bad is None or told.endswith(b" " + bad.encode("latin-1")), (bad, told, text)
        self.numbers.append(number)
        self.say(line, told)

    def add_all(self, cases, name=None):
        if name:
            self.choose(BOOKS[name])
        for case in cases:
            if isinstance(case, str):
                self.say(b"# " + case.encode())
            elif isinstance(case, bytes):
                self.choose((case, 100, b"BTC-VND"))
            else:
                self.add(*case)

    def write(self):
        for name, lines in (("stdin", self.cases), ("stdout", self.answers)):
            content = b"".join(line + b"\n" for line in lines)
            assert name == "stdout" or len(content) <= MAX_INPUT, len(content)
            with open("crates/message_vectors/" + name, "wb") as out:
                out.write(content)


def k_pairs(make):
    return lambda asks, bids: k(make(asks, bids))


def main():
    files = Files()
    for name, groups in (("K", (json_cases, k_address_cases, k_number_cases, k_object_cases, k_update_cases, k_entry_cases, k_many_cases)),
                         ("M", (m_address_cases, m_layout_cases, m_entry_cases, m_many_cases, m1_cases)), ("M2", (m2_cases,))):
        for group in groups:
            files.add_all(group(), name)
    files.add_all(decimal_cases(k_pairs(k_snapshot), k_pairs(k_update), k_row, "K"), "K")
    files.add_all(decimal_cases(lambda bids, asks: m(data=m_data(bids, asks)), lambda bids, asks: m(kind="update", data=m_data(bids, asks)), m_row, "M"), "M")
    for group in (both_orders_cases, nesting_cases, length_cases):
        files.add_all(group(), "K")
    for settings, heading, cases in escape_cases():
        files.choose(settings)
        files.say(b"# " + heading.encode())
        files.add_all(cases)
    files.say(b"# settings")
    for settings, cases in settings_cases():
        files.choose(settings)
        files.add_all(cases)
    files.add_all(random_cases(1, 25))
    files.write()


if __name__ == "__main__":
    main()
