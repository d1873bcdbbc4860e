#!/usr/bin/env python3
"""Writes the cases of crates/entries_vectors (stdin) and what they must print (stdout), from document 01's rules, with Python's own
reader of JSON. Run from the top of the repository."""
import json
import random
import re

DECIMAL = re.compile(r"(0|[1-9][0-9]{0,9})(\.[0-9]{1,12})?\Z")
BLANKS = " \t\r\n"
ENTRIES_DEPTH = 14
ENTRY_DEPTH = 13
# where the value of a case stands in its line
AT = 2
# how many entries the buffer has room for
ROOM = 200


def no_constant(name):
    raise ValueError(name)


READER = json.JSONDecoder(parse_constant=no_constant)


def depth(value):
    if isinstance(value, dict):
        value = list(value.values())
    return 1 + max(map(depth, value), default=0) if isinstance(value, list) else 0


def value_at(text, at, most):
    """The value at a position and the position past it, or None."""
    try:
        value, end = READER.raw_decode(text, at)
    except (ValueError, StopIteration):
        return None
    return (value, end) if depth(value) <= most else None


def spans(text, at):
    """Where the elements of an array that is JSON lie."""
    out, at = [], at + 1
    while True:
        while text[at] in BLANKS + ",":
            at += 1
        if text[at] == "]":
            return out
        end = READER.raw_decode(text, at)[1]
        out.append((at, end))
        at = end


def row(text, value, at, dialect):
    """The texts of price and size, quotes included, or None."""
    if not isinstance(value, list):
        return None
    if len(value) != 2 if dialect == "M" else len(value) < 3:
        return None
    if not all(isinstance(v, str) for v in value[:2 if dialect == "M" else 3]):
        return None
    return [text[a:b] for a, b in spans(text, at)[:2]]


def entry(line, dialect):
    found = value_at(line, AT, ENTRY_DEPTH)
    if found is None:
        return "  end 0"
    texts = row(line, found[0], AT, dialect)
    return "  end %d%s" % (found[1], "".join(" " + t for t in texts or []))


def number(text):
    """Of a text between quotes, the digits up to the ninth decimal, and what tells the rest: how many decimals there are, up to 9, else a 1
    and the digits past the ninth; both are 0 where it is no decimal."""
    if not DECIMAL.match(text[1:-1]):
        return (0, 0)
    whole, _, fraction = text[1:-1].partition(".")
    return (int(whole + fraction[:9]), int("1" + fraction[9:]) if len(fraction) > 9 else len(fraction))


def is_zero(text):
    return not text.strip('"0.')


def is_bad(texts, snapshot):
    price, size = texts
    if not DECIMAL.match(price[1:-1]) or is_zero(price):
        return True
    return not DECIMAL.match(size[1:-1]) or (snapshot and is_zero(size))


def entries(line, dialect):
    found = value_at(line, AT, ENTRIES_DEPTH)
    if found is None:
        return "  end 0"
    value, end = found
    if not isinstance(value, list):
        return "  end %d" % end
    places = [a for a, _ in spans(line, AT)]
    rows = [row(line, v, a, dialect) for v, a in zip(value, places)]
    if None in rows:
        return "  end %d" % end
    out = "  end %d entries %d" % (end, len(rows))
    for word, snapshot in (("broken", False), ("strict", True)):
        bad = [a for a, texts in zip(places, rows) if is_bad(texts, snapshot)]
        if bad:
            out += " %s %d" % (word, bad[0])
    for texts in rows[:ROOM]:
        out += "\n    " + " ".join("%d/%d" % number(text) for text in texts)
    return out


ENTRIES = [
    "[]", "[ ]", '["1"]', '["1","2"]', '["1","2","3"]', '["1","2","3","r"]', '[ "1" , "2" , "3" , "r" ]', '["1","2","3",4,[5],{"a":6}]',
    '["1","2",3]', '["1",2,"3"]', '[1,"2","3"]', '[1,"2"]', '["1",2]', '["1","2",]', '["1","2","3",]', '["1","2"', '["1","2","3"', '["1","2" "3"]',
    '["1" "2"]', '["1","2","3" "4"]', '["1","2","3",x]', '["1","2","3",01]', '["5541.30000","2.50700000","1534614248.123678"]', '["\\u0031","2","3"]',
    '["\\u0031","2"]', '["","",""]', '["",""]', '["a\\"b","c","d"]', '["a\\"b","c"]', '["1","2","3"]]', '["1","2"]]', '"1"', "12", "true", "{}",
    '{"a":["1","2"]}', "null", "", "x", "[", "]", '["1\\x","2","3"]', '["1","2","3",' + "[" * 12 + "]" * 12 + "]", '["1","2","3",' + "[" * 13 + "]" * 13 + "]",
    '[["1","2"],"3"]', '["1","2",["3"]]', '["1","2",null]',
]
NUMBERS = ["1", "0", "0.0", "0.000000000", "10.5", "01", "1.", ".5", "", "-1", "1e5", "12345678901", "1234567890.123456789", "1.1234567890", "0.00", "x", "1 ", "\\u0031", "9", "9999999999.999999999999", "0.000000000001", "0.000000000000", "1.1234567890123", "0.0000000000000"]


def arrays(dialect):
    last = ',"9"' if dialect == "K" else ""
    yield from ["[]", "[ ]", "[,]", "[[]]", "{}", "null", '"a"', "12", "", "x", "[" * 14 + "]" * 14, "[" * 15 + "]" * 15]
    for price in NUMBERS:
        for size in ("1", "0", "0.0", "x"):
            yield '[["%s","%s"%s]]' % (price, size, last)
    for e in ENTRIES:
        yield "[%s]" % e
        yield '[["1","2"%s],%s]' % (last, e)
        yield '[ %s , ["1","0"%s] ]' % (e, last)
    pick = random.Random(5)
    for n in range(60):
        rows = ['["%s","%s"%s]' % (pick.choice(NUMBERS[:5] + NUMBERS[18:]), pick.choice(NUMBERS[3:5] + ["1", "2"]), last) for _ in range(pick.randrange(9))]
        yield "[%s]" % pick.choice([",", " , "]).join(rows)
    # more than the buffer has room for
    for n in (199, 200, 201, 205):
        yield "[%s]" % ",".join('["%d","%d.5"%s]' % (k + 1, k, last) for k in range(n))


def main():
    cases, answers = [], []
    for dialect in "KM":
        for kind, texts, tell in ((dialect, ENTRIES, entry), (dialect.lower(), list(arrays(dialect)), entries)):
            for text in texts:
                cases.append("%s %s" % (kind, text))
                answers.append(cases[-1] + "\n" + tell(cases[-1], dialect))
    for name, lines in (("stdin", cases), ("stdout", answers)):
        with open("crates/entries_vectors/" + name, "w") as out:
            out.write("".join(line + "\n" for line in lines))


main()
