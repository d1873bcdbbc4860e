#!/usr/bin/env python3
"""Writes the cases of crates/checksum_vectors (stdin) and what they must print (stdout), from document 01's rules: a side is a map from a price's
value to its texts, sorted and cut after each message; the CRC is Python's zlib. Run from the top of the repository."""
import random
import zlib
from fractions import Fraction

random.seed(4)
lines, out = [], []
book = {}


def new(dialect, depth):
    book.clear()
    book.update(dialect=dialect, depth=depth, b={}, a={})
    lines.append(f"{dialect} {depth}")
    out.append(f"{dialect} {depth}")


def message(side, *entries):
    levels, met = book[side], 0
    for price, size in entries:
        key = Fraction(price)
        if Fraction(size) == 0:
            levels.pop(key, None)
        else:
            met |= key in levels
            levels[key] = (price, size)
    count = len(levels)
    best = sorted(levels, reverse=side == "b")[: book["depth"]]
    book[side] = {k: levels[k] for k in best}
    lines.append(" ".join([side] + [t for e in entries for t in e]))
    out.append(f"{count} {met}")


def twelve(units):
    return f"{units // 10**12}.{units % 10**12:012}"


def shown(text):
    """The digits up to the ninth decimal, and what tells the rest: how many decimals there are, up to 9, else a 1 and the digits past the ninth."""
    whole, _, part = text.partition(".")
    return f"{int(whole + part[:9])}/{int('1' + part[9:]) if len(part) > 9 else len(part)}"


def show():
    bids, asks = shown_sides = list(book["b"].values()), list(book["a"].values())
    if book["dialect"] == "K":
        text = "".join(t.replace(".", "").lstrip("0") for level in asks[:10] + bids[:10] for t in level)
    else:
        if book["dialect"] == "M2":
            bids, asks = bids[:25], asks[:25]
        levels = [side[i] for i in range(max(len(bids), len(asks))) for side in (bids, asks) if i < len(side)]
        text = ":".join(p + ":" + s for p, s in levels)
    lines.append("=")
    for name, side in zip(("bids", "asks"), shown_sides):
        out.append(name + "".join(f" {shown(p)}:{shown(s)}" for p, s in side))
    out.append(f"sum {zlib.crc32(text.encode())}")


# 001's book of twenty levels: 974947235
new("K", 10)
message("a", *((f"0.050{n:02}", "0.00000500") for n in range(5, 55, 5)))
message("b", *((p, "0.00000500") for p in ("0.05000", "0.04995", "0.04990", "0.04980", "0.04975", "0.04970", "0.04965", "0.04960", "0.04955", "0.04950")))
show()
assert out[-1] == "sum 974947235"
# an insert and a removal in one update at full depth keep the good level, in either order
message("a", ("0.05001", "1"), ("0.05001", "0"))
show()
message("a", ("0.05002", "1"), ("0.05050", "0"))
show()
message("b", ("0.04950", "0"), ("0.04901", "3"))
show()
# 000's example: 1226559413; texts kept exactly; 0.5 replaced by 0.50; the last entry for a price holds
new("M", 100)
show()
message("b", ("9", "2"))
message("a", ("10", "1"))
show()
assert out[-1] == "sum 1226559413"
message("b", ("8", "3"))
show()
message("a", ("0.00000500", "0.00000500"))
message("b", ("0.5", "1"), ("0.50", "1.0"))
show()
message("b", ("0.500", "7"), ("0.5", "0"), ("0.50", "0.0"), ("7", "0"), ("9.0", "2.00"))
show()
# 100 levels and 100 inserts, in K and in M
for dialect in "KM":
    new(dialect, 100)
    for side in "ab":
        message(side, *((str(1000 + 2 * i), str(i + 1)) for i in range(100)))
        show()
        message(side, *((str(1001 + 2 * i), "1." + "0" * (i % 9 + 1)) for i in range(100)))
        show()
# 24 to 27 levels a side and unequal sides: M2 sums 25 of them, as 003 has it; a change past the 25th leaves its sum as it was
for dialect in ("M2", "M1"):
    new(dialect, 100)
    for bids, asks in ((24, 24), (25, 24), (25, 25), (26, 25), (26, 26), (27, 40), (0, 40), (40, 3)):
        for side, count in (("b", bids), ("a", asks)):
            message(side, *((p, "0") for p, _ in book[side].values()))
            message(side, *((f"{100 + i}.5", f"{i + 1}.0") for i in range(count)))
        show()
    before = out[-1]
    message("b", ("100.5", "7"))
    show()
    assert (out[-1] == before) == (dialect == "M2")
# texts of 23 bytes, and prices that the last digits alone tell apart, or 2^64 of them
for dialect, depth in (("K", 10), ("K", 100), ("M", 100), ("M2", 100)):
    new(dialect, depth)
    for side, low in (("b", 9999999999_999999999900), ("a", 2**64 - 3), ("a", 1)):
        message(side, *((twelve(low + i), twelve(9999999999_999999999999 - i)) for i in range(0, 20, 3)))
        message(side, *((twelve(low + i), twelve(i)) for i in range(19, 0, -2)))
        show()
    message("b", (twelve(9999999999_999999999903), "0.000000000000"), ("0.0000000001", "0.00000000010"), ("0.000000000100", "0.0000000001"))
    message("a", (twelve(1), "1"), (twelve(1 + 2**64), "2"), (twelve(2**64 - 3), "0"))
    show()
# two hundred updates of a few entries, near the top and anywhere
for dialect, depth in (("K", 10), ("K", 25), ("K", 100), ("M", 100), ("M2", 100)):
    new(dialect, depth)
    for turn in range(50):
        for side in "ab":
            entries = []
            for _ in range(random.choice((0, 1, 1, 2, 2, 3, 5))):
                price = f"{random.randint(1, 40)}"
                if random.random() < 0.7:
                    price += "." + random.choice(("5", "50", "25", "0", "000000001", "123456789", "0000000010", "000000000001", "123456789012"))
                size = random.choice(("0", "0.0", "1", "2.50", "0.00000500", "9999999999.999999999", "123.456", "0.0000000000", "0.000000000001"))
                entries.append((price, size))
            message(side, *entries)
        if turn % 5 == 4:
            show()

with open("crates/checksum_vectors/stdin", "w") as f:
    f.write("\n".join(lines) + "\n")
with open("crates/checksum_vectors/stdout", "w") as f:
    f.write("\n".join(out) + "\n")
print(len(lines), "lines")
