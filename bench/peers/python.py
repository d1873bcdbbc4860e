#!/usr/bin/env python3
"""The line program's answers to right feeds, with orjson (or json), a dict for each side, and zlib."""
import sys
import zlib
from decimal import Decimal

try:
    from orjson import loads
except ImportError:
    from json import loads


class Book:
    def __init__(self, dialect, depth, product):
        self.k, self.depth, self.product = dialect == "K", int(depth), product
        self.channel = f"book-{depth}" if self.k else "book"
        self.bids, self.asks, self.live = {}, {}, False

    def read(self, message):
        """Whether it is a snapshot, bids, asks and checksum; nothing if it is foreign."""
        if self.k:
            if type(message) is not list or message[-2:] != [self.channel, self.product]:
                return None
            parts = {name: value for part in message[1:-2] for name, value in part.items()}
            if "as" in parts:
                return True, parts["bs"], parts["as"], None
            return False, parts.get("b", ()), parts.get("a", ()), int(parts["c"])
        if message["channel"] != self.channel or message["product"] != self.product:
            return None
        data = message["data"]
        return message["type"] == "snapshot", data["bids"], data["asks"], message["checksum"]

    def apply(self, side, entries, best):
        for entry in entries:
            price, size = entry[0], entry[1]
            key = Decimal(price)
            if size.strip("0.") == "":
                side.pop(key, None)
            else:
                side[key] = self.piece(price, size)
        keys = sorted(side, reverse=best)
        if self.k:
            for key in keys[self.depth :]:
                del side[key]
            del keys[self.depth :]
        return keys

    def piece(self, price, size):
        if self.k:
            return price.replace(".", "").lstrip("0") + size.replace(".", "").lstrip("0")
        return f"{price}:{size}"

    def take(self, line):
        read = self.read(loads(line))
        if read is None:
            return 5
        snapshot, bids, asks, checksum = read
        if snapshot:
            self.bids, self.asks = {}, {}
        bid_keys, ask_keys = self.apply(self.bids, bids, True), self.apply(self.asks, asks, False)
        self.live = checksum is None or checksum == self.checksum(bid_keys, ask_keys)
        return 0 if self.live else 13

    def checksum(self, bid_keys, ask_keys):
        if self.k:
            text = "".join([self.asks[k] for k in ask_keys[:10]] + [self.bids[k] for k in bid_keys[:10]])
        else:
            pieces = []
            for place in range(max(len(bid_keys), len(ask_keys))):
                pieces += [self.bids[k] for k in bid_keys[place : place + 1]]
                pieces += [self.asks[k] for k in ask_keys[place : place + 1]]
            text = ":".join(pieces)
        return zlib.crc32(text.encode())


def main():
    book = Book(*sys.stdin.buffer.readline().decode().split())
    for line in sys.stdin.buffer:
        answer = book.take(line)
        counts = f"{len(book.bids)} {len(book.asks)}" if book.live else "- -"
        sys.stdout.write(f"{answer} {counts}\n")


main()
