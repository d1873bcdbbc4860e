#!/usr/bin/env python3
"""Seeded feeds of right messages for booklines: the same arguments give the same bytes.

    bench/feed.py NAME [MESSAGES [SEED]] > FEED        NAME: k10, k100, m100 or k10mix

An update changes one to four levels near the top: a new size, a new price, or a removal, with the next deeper level
where one is then missing. The sides stay at full depth. Every 10,000 messages a snapshot comes.
"""
import bisect
import random
import sys
import zlib

SNAPSHOT_EVERY = 10_000
# name: dialect, depth, product, foreign messages in a hundred
FEEDS = {
    "k10": ("K", 10, "XBT/USD", 0),
    "k100": ("K", 100, "XBT/USD", 0),
    "m100": ("M", 100, "BTC-VND", 0),
    "k10mix": ("K", 10, "XBT/USD", 40),
}


class Side:
    """Levels best first: `keys` are ticks, negative for bids; `levels` has price and size as text."""

    def __init__(self, sign):
        self.sign, self.keys, self.levels = sign, [], {}

    def put(self, key, level):
        if key not in self.levels:
            bisect.insort(self.keys, key)
        self.levels[key] = level

    def remove(self, key):
        self.keys.remove(key)
        del self.levels[key]


class Venue:
    def __init__(self, dialect, depth, product, seed):
        self.dialect, self.depth, self.product = dialect, depth, product
        self.random = random.Random(f"{dialect} {depth} {product} {seed}")
        self.time, self.gsn = 1_700_000_000_000_000, 1_000_000
        middle = 271_830 if dialect == "K" else 2_275_000
        self.bids, self.asks = Side(-1), Side(1)
        for side in (self.bids, self.asks):
            key = side.sign * middle + 1
            while len(side.keys) < depth:
                side.put(key, self.level(side, key))
                key += self.gap()

    def gap(self):
        return 1 + int(self.random.expovariate(0.7))

    def level(self, side, key):
        """The level at a key with a new size."""
        tick = abs(key)
        units = 1 + int(10 ** self.random.uniform(2, 8.5))
        if self.dialect == "K":
            return f"{tick // 10}.{tick % 10}0000", f"{units // 10**8}.{units % 10**8:08}"
        return str(tick * 1000), f"{units // 10**6}.{units % 10**6:06}".rstrip("0").rstrip(".")

    def change(self, side):
        """The entries of one change, applied: price, size, whether it was sent before."""
        keys = side.keys
        place = min(int(self.random.expovariate(0.35)), len(keys) - 1)
        key, what = keys[place], self.random.random()
        if what < 0.6:
            side.put(key, self.level(side, key))
            return [(*side.levels[key], False)]
        if what < 0.8 and place and keys[place] - keys[place - 1] > 1:
            side.put(key - 1, self.level(side, key - 1))
            sent = [(*side.levels[key - 1], False)]
            return sent if self.dialect == "K" else sent + self.cut(side)
        sent = [(side.levels[key][0], "0.00000000" if self.dialect == "K" else "0", False)]
        side.remove(key)
        if len(keys) < self.depth:
            deeper = keys[-1] + self.gap()
            side.put(deeper, self.level(side, deeper))
            sent.append((*side.levels[deeper], True))
        return sent

    def cut(self, side):
        """Levels past the depth go; the entries that say so."""
        sent = []
        while len(side.keys) > self.depth:
            sent.append((side.levels[side.keys[-1]][0], "0", False))
            side.remove(side.keys[-1])
        return sent

    def checksum(self):
        sides = [[side.levels[key] for key in side.keys] for side in (self.bids, self.asks)]
        if self.dialect == "K":
            text = "".join(t.replace(".", "").lstrip("0") for level in sides[1][:10] + sides[0][:10] for t in level)
        else:
            text = ":".join(t for pair in zip(*sides) for level in pair for t in level)
        return zlib.crc32(text.encode())

    def entries(self, entries):
        if self.dialect == "M":
            return ",".join(f'["{price}","{size}"]' for price, size, _ in entries)
        rows = []
        for price, size, again in entries:
            self.time += self.random.randrange(1, 900)
            tail = ',"r"' if again else ""
            rows.append(f'["{price}","{size}","{self.time // 10**6}.{self.time % 10**6:06}"{tail}]')
        return ",".join(rows)

    def snapshot(self):
        bids, asks = ([(*side.levels[key], False) for key in side.keys] for side in (self.bids, self.asks))
        if self.dialect == "K":
            return self.wrap_k(f'{{"as":[{self.entries(asks)}],"bs":[{self.entries(bids)}]}}')
        return self.wrap_m("snapshot", bids, asks)

    def update(self):
        sent = {self.bids: [], self.asks: []}
        for _ in range(self.random.choice((1, 1, 1, 2, 2, 3, 4))):
            side = self.random.choice((self.bids, self.asks))
            sent[side] += self.change(side)
        bids, asks = sent[self.bids], sent[self.asks]
        if self.dialect == "M":
            return self.wrap_m("update", bids, asks)
        for side in sent:
            self.cut(side)  # the receiver does so after the whole message
        sides = [f'"{name}":[{self.entries(rows)}]' for name, rows in (("a", asks), ("b", bids)) if rows]
        sides[-1] += f',"c":"{self.checksum()}"'
        return self.wrap_k(",".join("{" + side + "}" for side in sides))

    def wrap_k(self, objects):
        return f'[336,{objects},"book-{self.depth}","{self.product}"]'

    def wrap_m(self, kind, bids, asks):
        self.gsn += self.random.randrange(1, 4)
        self.time += self.random.randrange(1, 90_000)
        return (
            f'{{"channel":"book","timestamp":"{self.time}000","product":"{self.product}","type":"{kind}",'
            f'"data":{{"bids":[{self.entries(bids)}],"asks":[{self.entries(asks)}]}},'
            f'"checksum":{self.checksum()},"gsn":{self.gsn}}}'
        )

    def foreign(self):
        """A message of another channel or product."""
        rows = lambda: self.entries([(*self.level(self.asks, self.random.randrange(9_000, 30_000)), False)])
        return self.random.choice((
            lambda: f'[337,[["27183.50000","0.01840000","{self.time // 10**6}.000001","s","l",""]],"trade","{self.product}"]',
            lambda: f'[340,{{"a":["27183.5",1,"1.2"],"b":["27183.4",0,"0.3"],"v":["51.0","993.4"]}},"ticker","{self.product}"]',
            lambda: f'[352,{{"a":[{rows()}],"c":"{self.random.getrandbits(32)}"}},"book-{self.depth}","ETH/USD"]',
        ))()


def messages(name, count, seed):
    dialect, depth, product, foreign = FEEDS[name]
    venue = Venue(dialect, depth, product, seed)
    yield f"{dialect} {depth} {product}"
    for place in range(count):
        if place % SNAPSHOT_EVERY == 0:
            yield venue.snapshot()
        elif venue.random.random() * 100 < foreign:
            yield venue.foreign()
        else:
            yield venue.update()


def write(path, name, count, seed):
    with open(path, "w") as file:
        file.writelines(line + "\n" for line in messages(name, count, seed))


if __name__ == "__main__":
    if len(sys.argv) < 2 or sys.argv[1] not in FEEDS:
        sys.exit(__doc__)
    count, seed = (list(map(int, sys.argv[2:4])) + [100_000, 1][len(sys.argv[2:4]):])
    sys.stdout.writelines(line + "\n" for line in messages(sys.argv[1], count, seed))
