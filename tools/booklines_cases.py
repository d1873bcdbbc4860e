#!/usr/bin/env python3
"""Runs the line program on the cases below, each whole and in pieces, and compares what it writes.

    (cd crates/booklines && rt run </dev/null) && python3 tools/booklines_cases.py [PROGRAM]

PROGRAM is crates/booklines/out/booklines unless it is named. The last line written has the count of cases and of those that failed;
the exit status is 1 if one failed.
"""
import os
import subprocess
import sys
import threading
import time
import zlib

PROGRAM = os.path.abspath(sys.argv[1] if len(sys.argv) > 1 else "crates/booklines/out/booklines")
MAX_MESSAGE = 32_768
# how long a run may take, in seconds
LIMIT = 30


def k_snapshot(depth, name, bids, asks):
    rows = lambda side: ",".join(f'["{p}","{s}","0.0"]' for p, s in side)
    return f'[1,{{"as":[{rows(asks)}],"bs":[{rows(bids)}]}},"book-{depth}","{name}"]'.encode()


def m_message(name, kind, bids, asks, checksum, gsn):
    rows = lambda side: ",".join(f'["{p}","{s}"]' for p, s in side)
    return (
        f'{{"channel":"book","product":"{name}","type":"{kind}","data":{{"bids":[{rows(bids)}],"asks":[{rows(asks)}]}},'
        f'"checksum":{checksum},"gsn":{gsn}}}'
    ).encode()


def m2_update(bids, text, gsn, previous):
    """An update of bids; the text is what is summed afterwards."""
    return m_message("A-B", "update", bids, [], zlib.crc32(text.encode()), gsn)[:-1] + b',"prev_gsn":%d}' % previous


K = k_snapshot(10, "A/B", [("9", "2")], [("10", "1"), ("11", "1")])
M = m_message("A-B", "snapshot", [("9", "2")], [("10", "1")], zlib.crc32(b"9:2:10:1"), 7)


def padded(message, size):
    """The message with blanks behind it, which JSON allows."""
    return message + b" " * (size - len(message))


def opens(line, message=K):
    """What a book that line 1 opens answers to a snapshot for it."""
    return line + b"\n" + message + b"\n"


# name, input, output
CASES = [
    ("empty input", b"", b""),
    ("line 1 alone", b"K 10 A/B\n", b""),
    ("line 1 without a line end", b"K 10 A/B", b""),
    ("an empty line 1", b"\n" + K + b"\n", b"1 - -\n"),
    ("a snapshot for K", opens(b"K 10 A/B"), b"0 1 2\n"),
    ("a snapshot for M", opens(b"M 100 A-B", M), b"0 1 1\n"),
    ("two blanks", opens(b"K  10 A/B"), b"1 - -\n"),
    ("two blanks before the name", opens(b"K 10  A/B"), b"1 - -\n"),
    ("a tab", opens(b"K\t10 A/B"), b"1 - -\n"),
    ("a blank at the end", opens(b"K 10 A/B "), b"1 - -\n"),
    ("a blank in front", opens(b" K 10 A/B"), b"1 - -\n"),
    ("a byte 13 at the end", opens(b"K 10 A/B\r"), b"1 - -\n"),
    ("a leading zero", opens(b"K 010 A/B"), b"1 - -\n"),
    ("a sign", opens(b"K +10 A/B"), b"1 - -\n"),
    ("a point", opens(b"K 10.0 A/B"), b"1 - -\n"),
    ("a depth of 19 digits", opens(b"K 1000000000000000010 A/B"), b"1 - -\n"),
    ("a depth of 20 digits", opens(b"K 18446744073709551626 A/B"), b"1 - -\n"),
    ("lower case", opens(b"k 10 A/B"), b"1 - -\n"),
    ("another letter", opens(b"L 10 A/B"), b"1 - -\n"),
    ("two letters", opens(b"KM 10 A/B"), b"1 - -\n"),
    ("no dialect", opens(b"10 A/B"), b"1 - -\n"),
    ("no depth", opens(b"K A/B"), b"1 - -\n"),
    ("no name", opens(b"K 10"), b"1 - -\n"),
    ("an empty name", opens(b"K 10 "), b"1 - -\n"),
    ("a long name", opens(b"K 10 " + b"n" * 17), b"1 - -\n"),
    ("a line 1 of 100,000 bytes", opens(b"K 10 " + b"A/B" + b"n" * 100_000), b"1 - -\n"),
    ("K, depth 9", opens(b"K 9 A/B", k_snapshot(9, "A/B", [], [])), b"1 - -\n"),
    ("K, depth 10", opens(b"K 10 A/B", k_snapshot(10, "A/B", [], [])), b"0 0 0\n"),
    ("K, depth 100", opens(b"K 100 A/B", k_snapshot(100, "A/B", [], [])), b"0 0 0\n"),
    ("K, depth 101", opens(b"K 101 A/B", k_snapshot(101, "A/B", [], [])), b"1 - -\n"),
    ("M, depth 99", opens(b"M 99 A-B", M), b"1 - -\n"),
    ("M, depth 101", opens(b"M 101 A-B", M), b"1 - -\n"),
    ("empty lines", b"K 10 A/B\n\n\n" + K + b"\n\n", b"3 - -\n3 - -\n0 1 2\n3 - -\n"),
    ("empty lines, shut", b"\n\n\n", b"1 - -\n1 - -\n"),
    ("a last line without a line end", b"K 10 A/B\n" + K, b"0 1 2\n"),
    ("a last line of one byte", b"K 10 A/B\n" + K + b"\nx", b"0 1 2\n3 - -\n"),
    ("a byte 13 before a line end", b"K 10 A/B\n" + K + b"\r\n", b"0 1 2\n"),
    ("M1, which is M", opens(b"M1 100 A-B", M), b"0 1 1\n"),
    ("M2", opens(b"M2 100 A-B", M), b"0 1 1\n"),
    ("M3", opens(b"M3 100 A-B", M), b"1 - -\n"),
    ("M2, depth 25", opens(b"M2 25 A-B", M), b"1 - -\n"),
    ("M 2", opens(b"M 2 100 A-B", M), b"1 - -\n"),
    ("m2", opens(b"m2 100 A-B", M), b"1 - -\n"),
    ("an M2 update", b"M2 100 A-B\n" + M + b"\n" + m2_update([("9", "0")], "10:1", 8, 7) + b"\n" + m2_update([("9", "2")], "9:2:10:1", 9, 8) + b"\n",
     b"0 1 1\n0 0 1\n0 1 1\n"),
    ("an M2 update after a gap", b"M2 100 A-B\n" + M + b"\n" + m2_update([("9", "0")], "10:1", 9, 8) + b"\n", b"0 1 1\n11 - -\n"),
    ("an M update in M2", b"M2 100 A-B\n" + M + b"\n" + m_message("A-B", "update", [], [], zlib.crc32(b"9:2:10:1"), 8) + b"\n", b"0 1 1\n6 - -\n"),
    ("an M2 update in M1", b"M1 100 A-B\n" + M + b"\n" + m2_update([("9", "0")], "10:1", 9, 3) + b"\n", b"0 1 1\n0 0 1\n"),
    ("twelve decimals", opens(b"K 10 A/B", k_snapshot(10, "A/B", [("0.000000000001", "9999999999.999999999999")], [("0.000000000002", "1")])), b"0 1 1\n"),
    ("thirteen decimals in a price", opens(b"K 10 A/B", k_snapshot(10, "A/B", [("1.0000000000000", "1")], [])), b"8 - -\n"),
    ("thirteen decimals in a size", opens(b"K 10 A/B", k_snapshot(10, "A/B", [], [("1", "0.0000000000001")])), b"8 - -\n"),
    ("a crossed snapshot for K", opens(b"K 10 A/B", k_snapshot(10, "A/B", [("9", "2"), ("10.0", "1")], [("10", "1")])), b"16 - -\n"),
    ("a crossed snapshot for M", opens(b"M 100 A-B", m_message("A-B", "snapshot", [("9", "2")], [("9", "1")], zlib.crc32(b"9:2:9:1"), 7)), b"16 - -\n"),
    ("a crossed update", b"M 100 A-B\n" + M + b"\n" + m_message("A-B", "update", [("10", "2")], [], zlib.crc32(b"10:2:10:1:9:2"), 8) + b"\n",
     b"0 1 1\n16 - -\n"),
    ("an escaped slash in the pair", opens(b"K 10 A/B", K.replace(b"A/B", b"A\\/B")), b"0 1 2\n"),
    ("every byte of a name escaped", opens(b"K 10 A/B", K.replace(b"A/B", b"\\u0041\\u002f\\u0042").replace(b"as", b"\\u0061\\u0073")), b"0 1 2\n"),
    ("a pair that means another", b"K 10 A/B\n" + K + b"\n" + K.replace(b"A/B", b"A\\\\/B") + b"\n", b"0 1 2\n5 1 2\n"),
    ("a member twice by meaning", opens(b"K 10 A/B", K.replace(b'"as"', b'"\\u0061s":[],"as"')), b"6 - -\n"),
    ("a product with an escape", opens(b"M 100 A-B", M.replace(b"A-B", b"A\\u002DB")), b"0 1 1\n"),
    ("a byte 0 in a line", b"K 10 A/B\n" + K + b"\n\0\n", b"0 1 2\n3 - -\n"),
]
for size, answer in [(MAX_MESSAGE - 1, 0), (MAX_MESSAGE, 0), (MAX_MESSAGE + 1, 2), (100_000, 2), (1_000_000, 2)]:
    end = b"0 1 2\n" if answer == 0 else b"2 - -\n"
    text = b"K 10 A/B\n" + padded(K, size)
    CASES.append((f"a line of {size} bytes", text + b"\n" + K + b"\n", end + b"0 1 2\n"))
    CASES.append((f"a last line of {size} bytes", text, end))
    CASES.append((f"a line of {size} bytes, shut", b"x" + text + b"\n" + K + b"\n", b"1 - -\n1 - -\n"))
CASES.append(("a million empty lines", b"K 10 A/B\n" + b"\n" * 1_000_000, b"3 - -\n" * 1_000_000))
CASES.append(("snapshots over many blocks", b"K 10 A/B\n" + (K + b"\n") * 20_000, b"0 1 2\n" * 20_000))


def start():
    """The program, which is ended after LIMIT."""
    process = subprocess.Popen([PROGRAM], stdin=subprocess.PIPE, stdout=subprocess.PIPE)
    limit = threading.Timer(LIMIT, process.kill)
    limit.daemon = True
    limit.start()
    return process, limit


def written(text, size):
    """What the program writes where the text comes in pieces of a size; None if the program fails."""
    process, limit = start()

    def send():
        try:
            with process.stdin as pipe:
                for i in range(0, len(text), size):
                    pipe.write(text[i : i + size])
                    pipe.flush()
        except BrokenPipeError:
            pass

    sender = threading.Thread(target=send)
    sender.start()
    out = process.stdout.read()
    sender.join()
    status = process.wait()
    limit.cancel()
    return out if status == 0 else None


def is_answered_at_once():
    """Whether a reply comes before the next message is sent."""
    process, limit = start()
    answered = True
    try:
        process.stdin.write(b"K 10 A/B\n")
        for message, reply in [(K, b"0 1 2\n"), (b"", b"3 - -\n"), (K, b"0 1 2\n")]:
            process.stdin.write(message + b"\n")
            process.stdin.flush()
            answered = answered and process.stdout.readline() == reply
    except BrokenPipeError:
        answered = False
    rest, _ = process.communicate()
    limit.cancel()
    return answered and rest == b"" and process.returncode == 0


def is_met(name, text, expected):
    """Whether the text gives what is expected, whole and in pieces."""
    for size in (len(text) + 1, 1, 7, 4_096, 65_536) if len(text) < 2_000 else (len(text), 1_000, 32_769, 65_536):
        out = written(text, size)
        if out != expected:
            said = "the program fails" if out is None else f"{out[:60]!r}"
            print(f"{name}, in pieces of {size} bytes: {said} and not {expected[:60]!r}")
            return False
    return True


def main():
    if not os.access(PROGRAM, os.X_OK):
        sys.exit(f"{PROGRAM} is no program")
    begun = time.time()
    met = [is_met(*case) for case in CASES]
    met.append(is_answered_at_once())
    if not met[-1]:
        print("a reply is held back")
    print(f"{len(met)} cases, {met.count(False)} failed, {time.time() - begun:.1f} s")
    sys.exit(1 if False in met else 0)


if __name__ == "__main__":
    main()
