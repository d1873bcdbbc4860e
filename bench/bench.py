#!/usr/bin/env python3
"""Runs booklines and three peers on the same feeds and prints how many times as fast booklines is.

    bench/bench.py [--rounds N] [--messages N] [--seed N] [--feeds k10,m100] [--no-instructions] [NAME=]PROGRAM...

Without a PROGRAM: crates/booklines/out/booklines (rt run in crates/booklines, or rt ci). In a round every program runs once on the feed, in shuffled
order; a ratio is the median, over the rounds, of the ratio of CPU times (user and system) within a round, so that what
else the machine does falls on all alike. What the programs print is compared byte for byte: exit status 1 if it differs.
Instructions a message: callgrind's count for the first 5,000 messages less that for the first 1,000, by 4,000.
A peer that cannot be built is named and left out. Peers and feeds are put into target/bench.
"""
import argparse
import os
import random
import re
import shutil
import statistics
import subprocess
import sys

import feed

HERE = os.path.dirname(os.path.abspath(__file__))
ROOT = os.path.dirname(HERE)
TARGET = os.path.join(ROOT, "target", "bench")
REGISTRY = "/usr/share/cargo/registry"


def build(name, path, command, env=None):
    """The built peer's path, or nothing with a word why."""
    if not shutil.which(command[0]):
        print(f"left out: {name}, there is no {command[0]}", file=sys.stderr)
        return None
    done = subprocess.run(command, env={**os.environ, **(env or {})}, stderr=subprocess.PIPE, text=True)
    if done.returncode:
        wrong = [line for line in done.stderr.splitlines() if "error" in line] or [done.stderr]
        print(f"left out: {name}, {wrong[0].strip()}", file=sys.stderr)
        return None
    return path


def peers():
    cpp = os.path.join(TARGET, "rapidjson")
    cargo = os.path.join(TARGET, "cargo")
    debian = ["source.crates-io.replace-with='debian'", f"source.debian.directory='{REGISTRY}'"]
    built = {
        "rust": build(
            "rust (librust-serde-json-dev, librust-serde-derive-dev, librust-crc32fast-dev)",
            os.path.join(cargo, "release", "peer"),
            ["cargo", "build", "--release", "--offline", "--quiet", "--manifest-path", f"{HERE}/peers/rust/Cargo.toml"]
            + [word for setting in debian for word in ("--config", setting)],
            {"CARGO_TARGET_DIR": cargo},
        ),
        "rapidjson": build(
            "rapidjson (rapidjson-dev, zlib1g-dev)",
            cpp,
            ["g++", "-std=c++17", "-O3", "-o", cpp, f"{HERE}/peers/rapidjson.cpp", "-lz"],
        ),
        "python": os.path.join(HERE, "peers", "python.py"),
    }
    return {name: path for name, path in built.items() if path}


def cpu(program, path, out):
    """CPU seconds, exit status and what it prints."""
    with open(path, "rb") as stdin, open(out, "w+b") as stdout:
        process = subprocess.Popen([program], stdin=stdin, stdout=stdout)
        _, status, used = os.wait4(process.pid, 0)
        process.returncode = os.waitstatus_to_exitcode(status)
        stdout.seek(0)
        return used.ru_utime + used.ru_stime, process.returncode, stdout.read()


def rounds(name, path, programs, count, order):
    """CPU times of each program in each round, and whether all printed the same."""
    times, printed, good = {program: [] for program in programs}, None, True
    for _ in range(count):
        turn = list(programs)
        order.shuffle(turn)
        for program in turn:
            seconds, status, text = cpu(programs[program], path, os.path.join(TARGET, "out"))
            printed = text if printed is None else printed
            if status or text != printed:
                print(f"{name}: {program} prints something else or fails (status {status})", file=sys.stderr)
                good = False
            times[program].append(seconds)
    return times, good


def instructions(program, path):
    """Instructions a message by callgrind, or nothing for a script or where callgrind fails."""
    if program.endswith(".py"):
        return None
    with open(path, "rb") as file:
        lines = file.readlines()
    many = min(5_000, len(lines) - 1)
    few, counts = many // 5, []
    for length in (few, many):
        done = subprocess.run(
            ["valgrind", "--tool=callgrind", "--callgrind-out-file=/dev/null", program],
            input=b"".join(lines[: length + 1]), stdout=subprocess.DEVNULL, stderr=subprocess.PIPE,
        )
        found = re.search(rb"Collected : (\d+)", done.stderr)
        if done.returncode or not found:
            print(f"{program}: callgrind fails (status {done.returncode})", file=sys.stderr)
            return None
        counts.append(int(found.group(1)))
    return (counts[1] - counts[0]) / (many - few)


def row(cells):
    print("| " + " | ".join(cells) + " |", flush=True)


def options():
    parser = argparse.ArgumentParser(description=__doc__, formatter_class=argparse.RawDescriptionHelpFormatter)
    parser.add_argument("programs", nargs="*", metavar="[NAME=]PROGRAM")
    parser.add_argument("--rounds", type=int, default=9)
    parser.add_argument("--messages", type=int, default=100_000)
    parser.add_argument("--seed", type=int, default=1)
    parser.add_argument("--feeds", default=",".join(feed.FEEDS))
    parser.add_argument("--no-instructions", action="store_true")
    return parser.parse_args()


def main():
    wanted = options()
    os.makedirs(TARGET, exist_ok=True)
    programs = {}
    for word in wanted.programs or [os.path.join(ROOT, "crates", "booklines", "out", "booklines")]:
        name, _, path = word.rpartition("=")
        programs[name or os.path.basename(path)] = os.path.abspath(path)
    ours, order, good, counted = list(programs), random.Random(wanted.seed), True, {}
    programs.update(peers())
    if not shutil.which("valgrind"):
        print("left out: instructions, there is no valgrind", file=sys.stderr)
    against = [name for name in programs if name not in ours]
    print(f"Times as fast (CPU; median of {wanted.rounds} rounds, quartiles), seed {wanted.seed}, {wanted.messages} messages:\n")
    row(["feed", "program", *(f"against {name}" for name in against), "ns a message"])
    row(["---", "---"] + ["--:"] * (len(against) + 1))
    for name in wanted.feeds.split(","):
        path = os.path.join(TARGET, f"{name}-{wanted.messages}-{wanted.seed}.feed")
        if not os.path.exists(path) or os.path.getmtime(path) < os.path.getmtime(feed.__file__):
            feed.write(path, name, wanted.messages, wanted.seed)
        times, same = rounds(name, path, programs, wanted.rounds, order)
        good &= same
        for program in programs:
            cells = []
            for other in against:
                ratios = [theirs / mine for theirs, mine in zip(times[other], times[program])]
                low, middle, high = statistics.quantiles(ratios, n=4, method="inclusive") if len(ratios) > 1 else ratios * 3
                cells.append("1" if other == program else f"{middle:.2f} ({low:.2f}-{high:.2f})")
            row([name, program, *cells, f"{statistics.median(times[program]) / wanted.messages * 1e9:.0f}"])
        if not wanted.no_instructions and shutil.which("valgrind"):
            counted[name] = {program: instructions(programs[program], path) for program in programs}
    if counted:
        print("\nInstructions a message (callgrind):\n")
        row(["feed", *programs])
        row(["---"] + ["--:"] * len(programs))
        for name, counts in counted.items():
            row([name, *("-" if count is None else f"{count:.0f}" for count in counts.values())])
    print("\nall outputs are the same" if good else "\nOUTPUTS DIFFER")
    sys.exit(not good)


if __name__ == "__main__":
    main()
