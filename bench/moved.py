#!/usr/bin/env python3
"""How many levels the messages of the benchmark's feeds move, as a Markdown table.

    tools/static_library.py replay && bench/moved.py [--messages N] [--seed N] [--feeds k10,m100]

Each feed goes through target/staticlib/libreplay.a as one script (docs/REPLAY.md), and what is told of each taken message
is read from its reply. 99 in a hundred messages move no more than the 99th percentile says. Needs cc, for a shared
library in target/bench. Exit status 1 if a message of a feed gets another answer than 0 or 5.
"""
import argparse
import ctypes
import math
import os
import statistics
import struct
import subprocess
import sys

import feed

TARGET = os.path.join(os.path.dirname(os.path.dirname(os.path.abspath(__file__))), "target")
HEADER, REPLY = struct.Struct("<6Q"), struct.Struct("<7Q")
TAKEN, FOREIGN = 0, 5


def library():
    """`huurqan_replay`, from the static library."""
    archive, shared = os.path.join(TARGET, "staticlib", "libreplay.a"), os.path.join(TARGET, "bench", "libreplay.so")
    if not os.path.exists(archive):
        sys.exit(f"there is no {archive}; tools/static_library.py replay makes it")
    os.makedirs(os.path.dirname(shared), exist_ok=True)
    subprocess.run(["cc", "-shared", "-o", shared, "-Wl,--whole-archive", archive, "-Wl,--no-whole-archive"], check=True)
    replay = ctypes.CDLL(shared).huurqan_replay
    replay.restype = ctypes.c_size_t
    replay.argtypes = [ctypes.c_char_p, ctypes.c_size_t] * 3
    return replay


def replies(replay, settings, messages):
    """Answer and levels moved of each message, handed to one book."""
    script = b"".join(HEADER.pack(0, 0, 0, 0, 0, len(message)) + message for message in messages)
    out = ctypes.create_string_buffer(REPLY.size * len(messages))
    made = replay(settings, len(settings), script, len(script), out, len(out))
    if made != len(messages):
        sys.exit(f"replay made {made} of {len(messages)} calls")
    return [reply[:2] for reply in REPLY.iter_unpack(out.raw)]


def main():
    parser = argparse.ArgumentParser(description=__doc__, formatter_class=argparse.RawDescriptionHelpFormatter)
    parser.add_argument("--messages", type=int, default=60_000)
    parser.add_argument("--seed", type=int, default=1)
    parser.add_argument("--feeds", default=",".join(feed.FEEDS))
    wanted = parser.parse_args()
    replay, good = library(), True
    print("| feed | messages taken | median | 99th percentile | most |\n|---|--:|--:|--:|--:|")
    for name in wanted.feeds.split(","):
        settings, *messages = (line.encode() for line in feed.messages(name, wanted.messages, wanted.seed))
        told = replies(replay, settings, messages)
        good &= all(answer in (TAKEN, FOREIGN) for answer, _ in told)
        moved = sorted(count for answer, count in told if answer == TAKEN)
        high = moved[math.ceil(0.99 * len(moved)) - 1]
        print(f"| {name} | {len(moved)} | {statistics.median_low(moved)} | {high} | {moved[-1]} |", flush=True)
    sys.exit(not good)


if __name__ == "__main__":
    main()
