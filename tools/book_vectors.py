"""Calls on books, and what they must answer: writes crates/book_vectors/stdin and stdout. Run at the top of the repository.

The book here follows documents 01 and 02 with Python's own numbers and zlib's CRC: a dictionary from price to level for each side. What a
message says is read by message_vectors.py. Lines of input:

    = DIALECT DEPTH NAME    opens a book
    < MESSAGE               hands it a message
    c n u                   how many bids and asks, the number, the count of updates; C N U of the last good book
    b I, a I                level I of the bids, of the asks; B I, A I of the last good book
    w LENGTH                writes it into a buffer of that many dots
    r                       writes it, opens a new book with the same settings, hands it the text, and goes on with that book
"""
import random
import zlib
from decimal import Decimal

import message_vectors as message

MAX_LEVELS, MAX_UPDATES, ROOM, SUMMED = 100, 4294967295, 20000, 25


def fixed(value):
    """The text with twelve decimals."""
    return format(value, ".12f")


def stripped(text):
    return text.replace(b".", b"").lstrip(b"0")


class Book:
    def __init__(self, dialect, depth, name):
        self.settings = dialect, depth, name
        self.status = "waiting" if message.good_settings(dialect, depth, name) else "shut"
        self.sides, self.number, self.updates, self.ever, self.moved = ({}, {}), 0, 0, False, 0

    def ranked(self, side, levels):
        return [levels[price] for price in sorted(levels, reverse=side == 0)]

    def shown(self, side):
        return self.ranked(side, self.sides[side])

    def checksum(self, sides):
        bids, asks = (self.ranked(side, levels) for side, levels in enumerate(sides))
        if self.settings[0] == b"K":
            return zlib.crc32(b"".join(stripped(price) + stripped(size) for price, size in asks[:10] + bids[:10]))
        if self.settings[0] == b"M2":
            bids, asks = bids[:SUMMED], asks[:SUMMED]
        turns = [levels[i] for i in range(max(len(bids), len(asks))) for levels in (bids, asks) if i < len(levels)]
        return zlib.crc32(b":".join(price + b":" + size for price, size in turns))

    def crossed(self, sides):
        return all(sides) and max(sides[0]) >= min(sides[1])

    def refuse(self, number):
        if number not in (1, 5, 10):
            self.status = "waiting"
        return number

    def after(self, said):
        """The sides after a message, ranked and cut."""
        sides = []
        for side, rows in enumerate(said.rows):
            levels = {} if said.snapshot else dict(self.sides[side])
            for price, size in ((price.inside(), size.inside()) for price, size in rows):
                levels.pop(Decimal(price.decode()), None)
                if not message.zero(size):
                    levels[Decimal(price.decode())] = price, size
            if self.settings[0] == b"K":
                best = sorted(levels, reverse=side == 0)[:self.settings[1]]
                levels = {price: levels[price] for price in best}
            sides.append(levels)
        return tuple(sides)

    def moves(self, said):
        """How many levels the entries move: for each that comes or goes, those that stand and are worse."""
        count = 0
        for side, rows in enumerate(said.rows):
            prices = set() if said.snapshot else set(self.sides[side])
            for price, size in rows:
                value = Decimal(price.inside().decode())
                if (value in prices) == message.zero(size.inside()):
                    prices ^= {value}
                    count += sum(other < value if side == 0 else other > value for other in prices)
        return count

    def take(self, text):
        self.moved = 0
        if self.status == "shut":
            return 1
        try:
            said = message.check(*self.settings, text)
        except message.Refused as refused:
            return self.refuse(refused.number)
        for rows in said.rows:
            prices = [Decimal(price.inside().decode()) for price, _ in rows]
            if said.snapshot and len(set(prices)) < len(prices):
                return self.refuse(9)
        if not said.snapshot and self.status != "live":
            return 10
        is_m = self.settings[0] != b"K"
        if is_m and not said.snapshot and (said.number <= self.number or said.previous not in (None, self.number)):
            return self.refuse(11)
        sides = self.after(said)
        if is_m and max(map(len, sides)) > MAX_LEVELS:
            return self.refuse(12)
        if self.crossed(sides):
            return self.refuse(16)
        if said.checksum is not None and said.checksum != self.checksum(sides):
            return self.refuse(13)
        self.moved = self.moves(said)
        self.sides, self.status, self.number = sides, "live", said.number
        self.updates = 0 if said.snapshot else min(self.updates + 1, MAX_UPDATES)
        self.ever = self.ever or said.snapshot
        return 0

    def asked(self, last):
        if self.status == "shut":
            return 1
        return 0 if (self.ever if last else self.status == "live") else 10

    def text(self):
        dialect, depth, name = self.settings
        listed = [b"[" + b",".join(b'["%s","%s"%s]' % (price, size, b',"0.000000"' if dialect == b"K" else b"") for price, size in self.shown(side)) + b"]"
                  for side in (0, 1)]
        if dialect == b"K":
            return b'[0,{"as":%s,"bs":%s},"book-%d","%s"]' % (listed[1], listed[0], depth, name)
        return (b'{"channel":"book","product":"%s","type":"snapshot","data":{"bids":%s,"asks":%s},"checksum":%d,"gsn":%d}'
                % (name, listed[0], listed[1], self.checksum(self.sides), self.number))


class Files:
    def __init__(self):
        self.cases, self.answers, self.book = [], [], None

    def say(self, line, told):
        self.cases.append(line)
        self.answers.append(told)

    def heading(self, text):
        self.say(b"# " + text.encode(), b"# " + text.encode())

    def open(self, dialect, depth, name):
        self.book = Book(dialect, depth, name)
        self.say(b"= %s %d %s" % (dialect, depth, name), b"")

    def take(self, text, expected=None):
        text = text if isinstance(text, bytes) else text.encode()
        number = self.book.take(text)
        assert expected in (None, number), (expected, number, text)
        self.say(b"< " + text, b"%d %d" % (number, self.book.moved))

    def ask(self, letter, i=None):
        last, kind = letter.isupper(), letter.lower()
        number = self.book.asked(last)
        if kind == "c":
            told = b"%d %d %d" % (number, *((len(self.book.shown(side)) for side in (0, 1)) if number == 0 else (0, 0)))
        elif kind in "nu":
            told = b"%d %d" % (number, 0 if number else self.book.number if kind == "n" else self.book.updates)
        else:
            levels = self.book.shown("ba".index(kind))
            if number == 0 and i >= len(levels):
                number = 14
            told = b"%d %s %s" % (number, *(levels[i] if number == 0 else (b"0", b"0")))
        self.say(letter.encode() + (b" %d" % i if i is not None else b""), told)

    def ask_all(self, deep=1):
        for letter in "cnuCNU":
            self.ask(letter)
        for letter in "baBA":
            for i in range(deep + 1):
                self.ask(letter, i)

    def write(self, length):
        number, text = self.book.asked(False), self.book.text() if self.book.status == "live" else b""
        if number == 0 and length < len(text):
            number = 15
        room = (text if number == 0 else b"").ljust(length, b".")
        self.say(b"w %d" % length, b"%d %d %s" % (number, len(text) if number == 0 else 0, room))

    def back(self):
        number, text = self.book.asked(False), self.book.text() if self.book.status == "live" else b""
        told = b"%d" % number
        if number == 0:
            new = Book(*self.book.settings)
            told += b" %d %d" % (new.take(text), new.moved)
            assert [new.shown(side) for side in (0, 1)] == [self.book.shown(side) for side in (0, 1)] and new.number == self.book.number
            self.book = new
        self.say(b"r", told)

    def message(self, snapshot, bids, asks, number=0, checksum=None, previous=None):
        """A message of the book's dialect with the checksum that the book will have and, in M2, the number before, or with others."""
        dialect, depth, name = self.book.settings
        def listed(rows):
            return b"[" + b",".join(b'["%s","%s"%s]' % (price.encode(), size.encode(), b',"1.0"' if dialect == b"K" else b"") for price, size in rows) + b"]"
        def make(printed):
            if dialect == b"K":
                body = (b'{"as":%s,"bs":%s}' % (listed(asks), listed(bids)) if snapshot else b'{"a":%s,"b":%s,"c":"%d"}' % (listed(asks), listed(bids), printed))
                return b'[1,%s,"book-%d","%s"]' % (body, depth, name)
            last = b',"prev_gsn":%d' % (self.book.number if previous is None else previous) if dialect == b"M2" and not snapshot else b""
            return (b'{"channel":"book","product":"%s","type":"%s","data":{"bids":%s,"asks":%s},"checksum":%d,"gsn":%d%s}'
                    % (name, b"snapshot" if snapshot else b"update", listed(bids), listed(asks), printed, number, last))
        if checksum is None:
            checksum = self.book.checksum(self.book.after(message.check(*self.book.settings, make(0))))
        return make(checksum)


K10, K11, M100, M2 = (b"K", 10, b"XBT/USD"), (b"K", 11, b"XBT/USD"), (b"M", 100, b"BTC-VND"), (b"M2", 100, b"BTC-VND")


def session(files):
    files.heading("the session of 01")
    files.open(*M100)
    files.ask_all()
    files.take('{"channel":"book","product":"BTC-VND","type":"snapshot","data":{"bids":[["9","2"]],"asks":[["10","1"]]},"checksum":1226559413,"gsn":7}', 0)
    files.ask_all()
    files.take('{"channel":"trades"}', 5)
    files.ask("c")
    files.take('{"channel":"book"', 3)
    files.ask_all()
    files.take('{"channel":"book","product":"BTC-VND","type":"update","data":{"bids":[],"asks":[]},"checksum":1226559413,"gsn":8}', 10)
    files.ask_all()
    files.write(400)


def depths(files):
    files.heading("depth 9, 10, 100, 101 in K, 99, 100, 101 in M: shut or not")
    for dialect, depth in ((b"K", 9), (b"K", 10), (b"K", 100), (b"K", 101), (b"M", 99), (b"M", 100), (b"M", 101), (b"M1", 100), (b"M1", 99), (b"M2", 100), (b"M2", 25), (b"M3", 100), (b"L", 10)):
        files.open(dialect, depth, b"XBT/USD")
        files.ask_all(0)
        files.take("7")
        files.take(b"x" * 40)
        files.ask("c")
        files.write(10)
        files.back()


def numbers(files):
    files.heading("gsn equal and one more; a snapshot may carry any")
    files.open(*M100)
    files.take(files.message(True, [("9", "2")], [("10", "1")], 7), 0)
    files.take(files.message(False, [("8", "3")], [], 8), 0)
    for letter in "nNuU":
        files.ask(letter)
    files.take(files.message(False, [("8", "4")], [], 8), 11)
    files.ask_all(2)
    files.take(files.message(True, [("9", "2")], [], 3), 0)
    files.ask_all(1)
    files.take(files.message(False, [], [("10", "1")], 9999999999999999999), 0)
    files.take(files.message(False, [], [("10", "2")], 9999999999999999999), 11)
    files.take(files.message(True, [], [], 0), 0)
    files.ask_all(0)
    for length in (0, 119, 120, 121, 122, 123, 130):
        files.write(length)


def twice(files):
    files.heading("a price twice: in a snapshot 9, also by value and beyond the cut; in an update the last holds")
    for settings in (K10, M100):
        files.open(*settings)
        files.take(files.message(True, [("9", "2"), ("9.0", "3")], [("10", "1")], 1, 0), 9)
        files.take(files.message(True, [("9", "2")], [("10", "1"), ("11", "1"), ("10.00", "1")], 1, 0), 9)
        files.take(files.message(True, [("9", "2")], [("9", "1")], 1), 16)
        files.take(files.message(True, [("9", "2")], [("9.5", "1")], 1), 0)
        files.take(files.message(False, [("9", "2"), ("9.00", "5"), ("9.0", "4")], [("9.500", "0"), ("12", "0")], 2), 0)
        files.ask_all(1)
        files.take(files.message(False, [("9", "0"), ("9", "7")], [("12", "3"), ("12", "0.0")], 3), 0)
        files.ask_all(1)
        files.take(files.message(False, [("9", "1")], [], 4, 5), 13)
        files.ask_all(1)
        files.back()
        files.take(files.message(True, [("0.000000001", "9999999999.999999999")], [("9", "1")], 4), 0)
        files.write(200)
        files.back()
        files.ask_all(1)


def meanings(files):
    files.heading("names by meaning: taken, or not this book's, which then stays as it is")
    files.open(*K10)
    files.take(r'[1,{"\u0061s":[["10","1","1"]],"b\u0073":[]},"\u0062ook-10","XBT\/USD"]', 0)
    files.ask("c")
    update = files.message(False, [("9", "2")], [])
    for pair in (b"XBT\\\\/USD", b"XBT\\u012fUSD", b"XBT/US\\u0064", b"XBT/USD\\u0020", b"XBT/USD\\n", b"\\ud800"):
        files.take(update.replace(b"XBT/USD", pair), 5)
        files.ask("c")
    files.take(r'[1,2,"\n","trade"]', 5)
    files.take(update.replace(b"XBT/USD", b"\\u0058BT\\u002fUSD").replace(b'"a"', b'"\\u0061"').replace(b'"c"', b'"\\u0063"'), 0)
    files.ask_all(1)
    files.take(update.replace(b'"c"', b'"\\u0061":[],"c"'), 6)
    files.ask_all(1)
    files.open(*M100)
    files.take(files.message(True, [("9", "2")], [("10", "1")], 7).replace(b'"gsn"', b'"gs\\u006E"').replace(b'"book"', b'"boo\\u006b"'), 0)
    files.ask_all(1)
    update = files.message(False, [("8", "3")], [], 8)
    files.take(update.replace(b"BTC-VND", b"BTC\\u002D\\u0056ND\\u0000"), 5)
    files.take(update.replace(b"channel", b"c\\u0048annel"), 5)
    files.ask("c")
    files.take(update.replace(b"BTC-VND", b"BTC\\u002D\\u0056ND").replace(b"update", b"\\u0075pdate").replace(b"bids", b"\\u0062\\u0069\\u0064\\u0073"), 0)
    files.ask_all(1)
    files.take(files.message(False, [], [], 9).replace(b'"gsn"', b'"gs\\u006e":9,"gsn"'), 6)
    files.ask_all(1)


def cuts(files):
    files.heading("K cuts to the depth after the whole message; M refuses more than 100 levels")
    low, high = ([("%d.5" % price, "1") for price in range(first, first + 12)] for first in (1, 21))
    files.open(*K10)
    files.take(files.message(True, low, high), 0)
    files.ask("c")
    files.take(files.message(False, [("100", "1"), ("100", "0"), ("20", "2"), ("12.5", "0")], [("20.5", "1"), ("21.5", "0")]), 0)
    files.ask("c")
    for i in (0, 8, 9, 10):
        files.ask("b", i)
        files.ask("a", i)
    files.open(*M100)
    hundred, far = ([("%d" % price, "1") for price in range(first, first + 100)] for first in (1, 201))
    files.take(files.message(True, hundred, [], 1), 0)
    files.take(files.message(False, [("0.5", "1"), ("100", "0")], far, 2), 0)
    files.ask("c")
    files.take(files.message(False, [("0.25", "1")], [], 3, 0), 12)
    files.ask_all(0)
    files.take(files.message(True, hundred + [("101", "1")], [], 1, 0), 7)
    files.take(files.message(True, hundred, far, 1), 0)
    files.take(files.message(False, [("%d" % price, "1") for price in range(101, 201)], [], 2, 0), 12)


def linked(files):
    files.heading("M2: the number before; the gsn must still be greater")
    start = [("9", "2")], [("10", "1")]
    for number, previous, answer in ((8, 7, 0), (9, 7, 0), (8, 6, 11), (8, 8, 11), (8, 0, 11), (7, 7, 11), (6, 7, 11), (7, 6, 11), (9999999999999999999, 7, 0)):
        files.open(*M2)
        files.take(files.message(True, *start, 7), 0)
        files.take(files.message(False, [("8", "3")], [], number, None, previous), answer)
        files.ask_all(0)
    files.take(files.message(False, [("8", "4")], [], 9999999999999999999, None, 9999999999999999999), 11)
    files.open(*M2)
    files.take(files.message(True, *start, 9999999999999999997), 0)
    files.take(files.message(False, [], [], 9999999999999999998), 0)
    files.take(files.message(False, [], [], 9999999999999999999, None, 9999999999999999997), 11)
    # a wrong number before comes before too many levels, a crossed book and a wrong checksum
    files.take(files.message(True, [("%d" % price, "1") for price in range(1, 101)], [("200", "1")], 3), 0)
    files.take(files.message(False, [("300", "1")], [], 4, 5, 2), 11)
    files.heading("M2: missing, twice, not whole; in a snapshot, in data and in M1 it is passed over")
    for before, after, answer in ((b',"prev_gsn":7', b"", 6), (b',"prev_gsn":7', b',"prev_gsn":7,"prev_gsn":7', 6), (b':7}', b':"7"}', 6), (b':7}', b":7.0}", 6),
                                  (b"prev_gsn", b"prev\\u005fgsn", 0), (b'{"bids"', b'{"prev_gsn":5,"bids"', 0), (b',"prev_gsn":7', b',"prev_gsn":7,"x":{"prev_gsn":5}', 0)):
        files.open(*M2)
        files.take(files.message(True, *start, 7).replace(b'"gsn":7', b'"gsn":7,"prev_gsn":"x","prev_gsn":[]'), 0)
        text = files.message(False, [("8", "3")], [], 8)
        assert before in text
        files.take(text.replace(before, after), answer)
        files.ask_all(0)
    for dialect in (b"M", b"M1"):
        files.open(dialect, 100, b"BTC-VND")
        files.take(files.message(True, *start, 7), 0)
        files.take(files.message(False, [("8", "3")], [], 8).replace(b'"gsn":8', b'"gsn":8,"prev_gsn":5,"prev_gsn":null'), 0)
        files.ask_all(1)
        files.back()
    files.heading("24, 25 and 26 levels a side, and unequal sides: M2 sums 25, M1 all")
    for bids, asks in ((24, 24), (25, 25), (26, 26), (25, 26), (26, 25), (24, 26), (26, 24), (0, 26), (30, 1), (100, 100)):
        sides = [("%d" % price, "1") for price in range(101 - bids, 101)], [("%d.5" % price, "2") for price in range(101, 101 + asks)]
        for settings, other in ((M2, M100), (M100, M2)):
            files.open(*settings)
            files.take(files.message(True, *sides, 7), 0)
            files.take(files.message(False, [("%d" % (101 - bids), "3")] if bids else [], [], 8), 0)
            files.write(len(files.book.text()))
            files.back()
            files.ask_all(0)
            mine = files.book
            files.book = Book(*other)
            theirs = files.message(True, *sides, 7)
            files.book = mine
            files.take(theirs, 0 if max(bids, asks) <= SUMMED else 13)


def twelve(files):
    files.heading("twelve decimals: prices that only the last digits tell apart, and that differ by 2^64 of them")
    one, wrap = Decimal("0.000000000001"), Decimal(2 ** 64).scaleb(-12)
    for settings in (K10, M100, M2):
        for low in (Decimal("1.000000000000"), Decimal("9999999999.999999999900"), Decimal("0.000000000001"), Decimal("18446744.073709551610")):
            files.open(*settings)
            prices = [fixed(low + i * one) for i in range(12)]
            files.take(files.message(True, [(price, "0.000000000001") for price in prices[5::-1]], [(price, "9999999999.999999999999") for price in prices[6:]], 7), 0)
            files.ask_all(6)
            files.take(files.message(False, [(prices[3], "0.000000000000"), (prices[5], "0.0000000000")], [(prices[6], "0"), (prices[7], "0.0000000001")], 8), 0)
            files.ask_all(5)
            files.write(len(files.book.text()))
            files.back()
            files.ask_all(1)
            files.take(files.message(False, [(prices[7], "1")], [], 9), 16)
            files.take(files.message(True, [(prices[7], "1")], [(prices[7], "1")], 9), 16)
            files.take(files.message(True, [(prices[7], "1")], [(prices[8], "1")], 9), 0)
        files.open(*settings)
        apart = [fixed(Decimal("0.5") + i * wrap) for i in range(4)]
        files.take(files.message(True, [(price, "1") for price in apart[:2]], [(price, "1") for price in apart[2:]], 7), 0)
        files.ask_all(2)
        files.take(files.message(False, [(apart[0], "0")], [(apart[3], "2.000000000000")], 8), 0)
        files.ask_all(2)
        files.take(files.message(False, [("0.0000000000001", "1")], [], 9, 5), 8)
        files.take(files.message(True, [("1", "1.0000000000000")], [], 9, 5), 8)
    files.heading("one price with nine decimals and with more")
    for settings in (K10, M100):
        files.open(*settings)
        files.take(files.message(True, [("0.5", "1")], [], 7), 0)
        for number, (price, size) in enumerate([("0.5000000000", "2"), ("0.50000000000", "0.1000000000"), ("0.500000000000", "3"), ("0.5", "4.000000000000"),
                                                ("0.500000000", "0.000000000000")], 8):
            files.take(files.message(False, [(price, size)], [], number), 0)
            files.ask_all(1)
        files.take(files.message(True, [("0.5", "1"), ("0.500000000000", "1")], [], 7, 5), 9)
    files.heading("the longest snapshot that a book can write, and its text back")
    for settings in ((b"K", 100, b"0123456789abcdef"), (b"M", 100, b"0123456789abcdef"), (b"M2", 100, b"0123456789abcdef")):
        files.open(*settings)
        high = Decimal("9999999999.999999999999")
        rows = [(fixed(high - i * one), fixed(high - (7 * i % 11) * one)) for i in range(200)]
        files.take(files.message(True, rows[100:], rows[:100], 9999999999999999999), 0)
        text = files.book.text()
        assert all(len(price) == len(size) == 23 for price, size in rows) and len(text) <= message.MAX_MESSAGE
        files.write(len(text) - 1)
        files.write(len(text))
        files.back()
        files.ask_all(0)
        for letter in "ba":
            files.ask(letter, 99)


def crossed(files):
    files.heading("crossed: the best bid is not below the best ask, by value, after the whole message and the cut")
    for settings in (K10, K11, M100, M2):
        files.open(*settings)
        files.take(files.message(True, [("0.5", "1")], [("0.50", "2")], 1), 16)
        files.ask_all(0)
        files.take(files.message(True, [("0.500000001", "1"), ("0.1", "1")], [("0.50", "2"), ("9", "1")], 1), 16)
        files.take(files.message(True, [("9999999999.999999999", "1")], [], 1), 0)
        files.take(files.message(True, [], [("0.000000001", "1")], 1), 0)
        files.ask_all(0)
        files.take(files.message(True, [("0.499999999", "1")], [("0.5", "2")], 1), 0)
        files.ask_all(0)
        # equal, written alike or differently; above; with another checksum
        for bid, wrong in (("0.5", None), ("0.500", None), ("0.500000000", 5), ("7", None), ("7", 5)):
            files.take(files.message(False, [(bid, "1")], [], 2, wrong), 16)
            files.ask_all(1)
            files.take(files.message(False, [], [], 3), 10)
            files.take(files.message(True, [("0.499999999", "1")], [("0.5", "2")], 1), 0)
        files.take(files.message(False, [], [("0.499999999", "1")], 2), 16)
        files.take(files.message(True, [("0.499999999", "1")], [("0.5", "2")], 1), 0)
        # on the way, and not at the end
        files.take(files.message(False, [("7", "1"), ("7.0", "0")], [], 2), 0)
        files.take(files.message(False, [("7", "1")], [("0.50", "0"), ("7.000000001", "1")], 3), 0)
        files.take(files.message(False, [], [("1", "1"), ("1.0", "0.0")], 4), 0)
        files.ask_all(1)
        files.back()
        # one side goes, and the other may stand anywhere
        files.take(files.message(False, [("7", "0"), ("0.499999999", "0")], [("0.000000001", "1")], 5), 0)
        files.ask_all(1)
    files.heading("crossed by the best of the levels that the cut leaves; the ones that it takes away come nowhere near")
    files.open(*K10)
    low = [("%d.5" % price, "1") for price in range(1, 13)]
    files.take(files.message(True, low, [("12.50", "1")]), 16)
    files.take(files.message(True, low, [("12.6", "1")]), 0)
    files.take(files.message(False, [("12.6", "1"), ("0.5", "1")], []), 16)
    files.take(files.message(True, low, [("12.6", "1")]), 0)
    files.take(files.message(False, [], [("%d.5" % price, "1") for price in range(11, 40)]), 16)
    files.take(files.message(True, [("1.5", "1")], [("%d.5" % price, "1") for price in range(2, 60)]), 0)
    files.take(files.message(False, [("2.50", "1")], []), 16)
    files.heading("crossed, with too many levels 12, with an old number 11, with neither 16")
    hundred = [("%d" % price, "1") for price in range(1, 101)]
    for number, bid, answer in ((8, "101", 12), (7, "101", 11), (8, "100", 16), (7, "100", 11)):
        files.open(*M100)
        files.take(files.message(True, hundred, [("100.5", "1")], 7), 0)
        files.take(files.message(False, [(bid, "1")], [("50.0", "1")], number), answer)
        files.ask_all(0)


def written(files, pick):
    files.heading("buffers of every length about the text's")
    for settings in (K10, K11, M100, M2):
        files.open(*settings)
        files.take(files.message(True, [("0.05000", "0.00000500"), ("0.05", "1")][:1], [("0.05005", "0.00000500")], 7), 0)
        text = files.book.text()
        for length in (0, 1, len(text) - 1, len(text), len(text) + 1, len(text) + 7):
            files.write(length)
        files.back()
        files.ask_all(1)
    files.heading("long histories")
    for settings in (K10, K11, M100, M2, (b"K", 100, b"!")):
        files.open(*settings)
        number = 0
        for turn in range(60):
            def rows(count, zeros, low):
                return [("%d.%0*d" % (pick.randrange(low, low + 30), places, pick.randrange(10 ** places)) if (places := pick.randrange(0, 4)) else "%d" % pick.randrange(low, low + 30),
                         "0" if zeros and pick.random() < 0.3 else "%d.%d" % (pick.randrange(0, 5), pick.randrange(1, 10))) for _ in range(count)]
            number += pick.randrange(0, 3)
            snapshot = turn % 20 == 0 or files.book.status != "live"
            lowest = 25 if pick.random() < 0.03 else 31
            bids, asks = rows(pick.randrange(0, 12), not snapshot, 1), rows(pick.randrange(0, 12), not snapshot, lowest)
            if snapshot:
                bids, asks = (list({Decimal(price): (price, size) for price, size in side}.values()) for side in (bids, asks))
            wrong = 5 if pick.random() < 0.08 else None
            files.take(files.message(snapshot, bids, asks, number, wrong))
            files.ask(pick.choice("cCnNuU"))
            files.ask(pick.choice("baBA"), pick.randrange(0, 14))
            if pick.random() < 0.1:
                files.back()
        files.ask_all(3)
        files.write(len(files.book.text()))


def main():
    files = Files()
    session(files)
    depths(files)
    numbers(files)
    twice(files)
    meanings(files)
    cuts(files)
    crossed(files)
    linked(files)
    twelve(files)
    written(files, random.Random(6))
    for name, lines in (("stdin", files.cases), ("stdout", files.answers)):
        with open("crates/book_vectors/" + name, "wb") as out:
            out.write(b"".join(line + b"\n" for line in lines))


if __name__ == "__main__":
    main()
