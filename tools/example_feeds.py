#!/usr/bin/env python3
"""Writes the feeds of examples/, with their checksums by zlib, and what booklines replies to them.

    python3 tools/example_feeds.py
"""
import zlib


def k_checksum(bids, asks):
    plain = lambda text: text.replace(".", "").lstrip("0")
    return zlib.crc32("".join(plain(p) + plain(s) for p, s in asks[:10] + bids[:10]).encode())


def m_checksum(bids, asks, most=100):
    levels = []
    for i in range(min(max(len(bids), len(asks)), most)):
        levels += bids[i : i + 1] + asks[i : i + 1]
    return zlib.crc32(":".join(f"{p}:{s}" for p, s in levels).encode())


def k_rows(levels):
    return "[" + ",".join(f'["{p}","{s}","1700000000.000000"]' for p, s in levels) + "]"


def k_snapshot(bids, asks):
    return f'[336,{{"as":{k_rows(asks)},"bs":{k_rows(bids)}}},"book-10","XBT/USD"]'


def k_update(changed, bids, asks):
    """One object for each side that changed; the checksum stands in the last one. The levels are those of the book afterwards."""
    objects = [f'"{side}":{k_rows(rows)}' for side, rows in changed]
    objects[-1] += f',"c":"{k_checksum(bids, asks)}"'
    return "[336," + ",".join("{" + o + "}" for o in objects) + ',"book-10","XBT/USD"]'


def m_message(kind, bid_entries, ask_entries, bids, asks, gsn, most=100):
    rows = lambda levels: "[" + ",".join(f'["{p}","{s}"]' for p, s in levels) + "]"
    return (
        f'{{"channel":"book","product":"BTC-VND","type":"{kind}","data":{{"bids":{rows(bid_entries)},"asks":{rows(ask_entries)}}},'
        f'"checksum":{m_checksum(bids, asks, most)},"gsn":{gsn}}}'
    )


def k_feed():
    bids = [("5541.20000", "1.52900000"), ("5539.90000", "0.30000000")]
    asks = [("5541.30000", "2.50700000"), ("5541.80000", "0.33000000"), ("5542.70000", "0.64700000")]
    lines = [("K 10 XBT/USD", None)]
    lines.append((k_snapshot(bids, asks), "0 2 3"))
    lines.append(('{"event":"heartbeat"}', "5 2 3"))
    asks = [("5541.30000", "4.10000000")] + asks[2:]
    lines.append((k_update([("a", [("5541.30000", "4.10000000"), ("5541.80000", "0.00000000")])], bids, asks), "0 2 2"))
    bids = [("5541.25000", "0.75000000")] + bids
    asks = asks[:1]
    lines.append((k_update([("a", [("5542.70000", "0.00000000")]), ("b", [("5541.25000", "0.75000000")])], bids, asks), "0 3 1"))
    # The pair as a gateway writes it: the same string.
    bids = bids[1:]
    lines.append((k_update([("b", [("5541.25000", "0.00000000")])], bids, asks).replace("XBT/USD", "XBT\\/USD"), "0 2 1"))
    return lines


def k_recovery_feed():
    """An update is lost: the checksum of the next one differs, and the book waits for a snapshot."""
    bids = [("5541.20000", "1.52900000")]
    asks = [("5541.30000", "2.50700000")]
    lines = [("K 10 XBT/USD", None)]
    lines.append((k_snapshot(bids, asks), "0 1 1"))
    lost = bids + [("5540.00000", "3.00000000")]
    later = [("5541.20000", "1.00000000"), lost[1]]
    lines.append((k_update([("b", [later[0]])], later, asks), "13 - -"))
    lines.append((k_update([("b", [("5540.50000", "0.10000000")])], later, asks), "10 - -"))
    lines.append((k_snapshot(later, asks), "0 2 1"))
    return lines


def m_feed():
    bids = [("9", "2"), ("8", "3")]
    asks = [("10", "1")]
    lines = [("M 100 BTC-VND", None)]
    lines.append((m_message("snapshot", bids, asks, bids, asks, 7), "0 2 1"))
    asks = [("10.5", "0.50")]
    lines.append((m_message("update", [], [("10", "0"), ("10.5", "0.50")], bids, asks, 8), "0 2 1"))
    lines.append((m_message("update", [], [], bids, asks, 8), "11 - -"))
    lines.append((m_message("snapshot", bids, asks, bids, asks, 3), "0 2 1"))
    bids = bids[:1]
    lines.append((m_message("update", [("8", "0.0")], [], bids, asks, 4), "0 1 1"))
    # The best bid at the best ask, with a right checksum.
    crossed = [("10.50", "1")] + bids
    lines.append((m_message("update", crossed[:1], [], crossed, asks, 5), "16 - -"))
    lines.append((m_message("snapshot", bids, asks, bids, asks, 6), "0 1 1"))
    return lines


def m2_feed():
    """Thirty bids, of which 25 are summed; each update names the number before it."""
    def update(bid_entries, gsn, previous):
        text = m_message("update", bid_entries, [], bids, asks, gsn, 25)
        return text[:-1] + f',"prev_gsn":{previous}}}'

    bids = [(f"{price}", "1") for price in range(130, 100, -1)]
    asks = [("131", "0.5")]
    lines = [("M2 100 BTC-VND", None)]
    lines.append((m_message("snapshot", bids, asks, bids, asks, 7, 25), "0 30 1"))
    bids = bids[:-1]
    lines.append((update([("101", "0")], 8, 7), "0 29 1"))
    bids = [("130", "2.00")] + bids[1:]
    lines.append((update([("130", "2.00")], 12, 8), "0 29 1"))
    lines.append((update([], 14, 13), "11 - -"))
    lines.append((m_message("snapshot", bids, asks, bids, asks, 14, 25), "0 29 1"))
    return lines


for name, lines in [("k", k_feed()), ("k-recovery", k_recovery_feed()), ("m", m_feed()), ("m2", m2_feed())]:
    with open(f"examples/{name}.feed", "w") as feed, open(f"examples/{name}.replies", "w") as replies:
        for line, reply in lines:
            feed.write(line + "\n")
            if reply is not None:
                replies.write(reply + "\n")
