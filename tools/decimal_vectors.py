#!/usr/bin/env python3
"""Writes the cases of crates/decimal_vectors (stdin) and what they must print (stdout), from the rules of documents 01 and 02
and Python's own numbers. Run from the top of the repository."""
import random
import re
from fractions import Fraction

DECIMAL = re.compile(rb"(0|[1-9][0-9]{0,9})(\.([0-9]{1,12}))?\Z")
WHOLE = re.compile(rb"(0|[1-9][0-9]{0,18})\Z")
ROOM = 28


def laid(text, at):
    if at + len(text) > ROOM:
        return b"full " + b"*" * ROOM
    return b"%d %s" % (at + len(text), (b"*" * at + text).ljust(ROOM, b"*"))


def words(text):
    """The digits up to the ninth decimal, and the code for the rest: the decimals up to 9, else a 1 and the digits past the ninth."""
    before, _, after = text.partition(b".")
    return int(before + after[:9]), int(b"1" + after[9:]) if len(after) > 9 else len(after)


def decimal(text):
    m = DECIMAL.match(text)
    if not m:
        return b"refused"
    digits, code = words(text)
    stripped = text.replace(b".", b"").lstrip(b"0")
    zero = b" zero" if Fraction(text.decode()) == 0 else b""
    return b"%d %d %s %s %s%s" % (digits, code, laid(text, 2), laid(text, 8), stripped[::-1], zero)


def whole(text):
    return laid(text, 2) if WHOLE.match(text) else b"refused"


def checksum(text):
    return text if WHOLE.match(text) and int(text) < 2**32 else b"refused"


def order(text):
    parts = text.split(b" ", 1)
    if len(parts) < 2:
        return b"no case"
    if not all(DECIMAL.match(p) for p in parts):
        return b"refused"
    a, b = (Fraction(p.decode()) for p in parts)
    return b"less" if a < b else b"equal" if a == b else b"greater"


KINDS = {b"d": decimal, b"w": whole, b"c": checksum, b"<": order}
random.seed(1)


def digits(n, first="0123456789"):
    return (random.choice(first) + "".join(random.choice("0123456789") for _ in range(n - 1))).encode() if n else b""


cases = []
# document 01, "Checked by hand"
for t in (b"0.05120", b"05", b"5.", b".5", b"9999999999", b"10000000000", b"0.000000000001", b"0.0000000000001", b"9999999999.999999999999", b"0.5", b"0.50"):
    cases.append((b"d", t))
# every length before and after the point, two beyond each limit
for w in range(0, 13):
    for f in range(0, 15):
        cases.append((b"d", digits(w, "123456789") + (b"." + digits(f) if f else b"")))
for f in range(0, 15):
    cases.append((b"d", b"0" + (b"." + digits(f) if f else b"")))
    cases.append((b"d", b"0" + (b"." + b"0" * f if f else b"")))
    cases.append((b"d", b"9999999999" + (b"." + b"9" * f if f else b"")))
# what is no decimal
for t in (b"", b".", b"..", b"0.", b"1.", b".0", b"00", b"00.1", b"01", b"01.5", b"-1", b"+1", b"-0", b"1e3", b"1E3", b"1.e3", b"1.5e0",
          b" 1", b"1 ", b"1 .5", b"1. 5", b"1.5.6", b"1..5", b"1,5", b"0x10", b"1_000", b"a", b"1a", b"a1", b"1.a", b"1.5a", b"/", b":", b"1/",
          b"1:", b"1.5/", b"1.5:", b"\x00", b"1\x00", b"\xff", b"1\xff", b"1.5\x80", b"\"1\"", b"NaN", b"Infinity", b"1.5\t", b"\r", b"1\r"):
    cases.append((b"d", t))
# a few hundred texts as venues send them
for _ in range(300):
    w, f = random.randint(1, 10), random.randint(0, 12)
    cases.append((b"d", (digits(w, "123456789") if random.random() < 0.7 else b"0") + (b"." + digits(f) if f else b"")))
# whole numbers and checksums
for n in range(0, 22):
    cases += [(b"w", digits(n, "123456789")), (b"c", digits(n, "123456789")), (b"w", b"0" + digits(n)), (b"w", b"9" * n)]
for t in (b"0", b"00", b"-0", b"-1", b"1.0", b"1e0", b" 1", b"1 ", b"", b"a", b"1a", b"18446744073709551615", b"18446744073709551616",
          b"9999999999999999999", b"10000000000000000000", b"9223372036854775808", b"4294967295", b"4294967296", b"4294967294", b"04294967295",
          b"42949672950", b"974947235", b"3310070434"):
    cases += [(b"w", t), (b"c", t)]
# the order by value
for a, b in ((b"0.5", b"0.50"), (b"0.5", b"0.500000000"), (b"1", b"1.000000000"), (b"9", b"10"), (b"9.9", b"9.89"), (b"0.1", b"0.09"),
             (b"9999999999", b"9999999999.000000001"), (b"9999999999.999999999", b"9999999999.99999999"), (b"0", b"0.0"), (b"1", b"0.999999999"),
             (b"0.0000000001", b"0.000000000100"), (b"0.0000000001", b"0.00000000009"), (b"0.000000000101", b"0.0000000001"), (b"1", b"1.000000000001"),
             (b"1.000000000", b"1.000000000000"), (b"0.000000001", b"0.000000000999"), (b"9999999999.999999999999", b"9999999999.99999999999"),
             (b"9999999999.999999999", b"9999999999.999999999001"), (b"2.0000000001", b"2.00000000010"), (b"5.", b"5"), (b"5", b"05")):
    cases += [(b"<", a + b" " + b), (b"<", b + b" " + a)]
for _ in range(200):
    a, b = (digits(random.randint(1, 3), "123456789") + b"." + digits(random.randint(1, 12)) for _ in range(2))
    if random.random() < 0.3:
        b = a + b"0" * random.randint(0, max(0, 12 - len(a.split(b".")[1])))
    cases.append((b"<", a + b" " + b))

# 22 digits that differ in the last one alone, and prices that are 2^64 units of 10^-12 apart
for units in (1, 999, 10**12, 10**21, 2**63, 2**64 - 1, 2**64, 2**73, 10**22 - 1 - 2**64, 10**22 - 2):
    for step in (1, 1000, 2**32, 2**64):
        if units + step < 10**22:
            a, b = (b"%d.%012d" % (n // 10**12, n % 10**12) for n in (units, units + step))
            cases += [(b"<", a + b" " + b), (b"<", b + b" " + a), (b"<", b + b" " + b)]

with open("crates/decimal_vectors/stdin", "wb") as f:
    f.write(b"".join(kind + b" " + text + b"\n" for kind, text in cases))
with open("crates/decimal_vectors/stdout", "wb") as f:
    f.write(b"".join(KINDS[kind](text) + b"\n" for kind, text in cases))
print(len(cases), "cases")
