#!/usr/bin/env python3
"""How much stack a call can take in the built code: frames summed along the deepest path of calls, from objdump.

    tests/stack/frames.py [LIBRARY [FUNCTION]]     target/staticlib/libreplay.a, huurqan_replay

A frame is counted from above: the return address, every push, and every constant taken from the stack pointer. A frame of
many pages is taken page by page in a loop, down to an address in r11: what that address is below counts. Calls of functions outside the library (memcpy and the like) count 512 bytes. `json_values::value_end` and
`container_end`, which call each other for a nested value and go no deeper than 16, count 17 and 16 times wherever one of them is called. Calls by address, a stack pointer moved by anything else than a
constant, or another function that calls itself end the count with exit status 1, as do more than 48 KB: the call lends no table to sum by.
"""
import re
import subprocess
import sys

OUTSIDE = 512
NESTED = {"json_values::value_end": 17, "json_values::container_end": 16}
MOST = 48 * 1024


def functions(library):
    """Frame, called functions and anything that cannot be counted, by name."""
    text = subprocess.run(["objdump", "-drw", "--no-show-raw-insn", library], stdout=subprocess.PIPE, text=True, check=True).stdout
    found, name, before = {}, None, ""
    for line in text.splitlines():
        if start := re.match(r"[0-9a-f]+ <(.+)>:$", line):
            name = start[1]
            found[name] = [8, set(), []]
        elif name and (call := re.search(r"\t(?:call|jmp|j\w+) .*R_X86_64_(?:PLT32|PC32)\s+(.+?)(?:[-+]0x[0-9a-f]+)?$", line)):
            found[name][1].add(call[1].removeprefix(".text."))
        elif name and (taken := re.search(r"\tsub +\$0x([0-9a-f]+),%rsp", line)):
            found[name][0] += int(taken[1], 16)
        elif name and before.endswith("%rsp,%r11") and (pages := re.search(r"\tsub +\$0x([0-9a-f]+),%r11", line)):
            found[name][0] += int(pages[1], 16)
        elif name and re.search(r"\tpush ", line):
            found[name][0] += 8
        elif name and (own := re.search(r"\tcall +[0-9a-f]+ <([^+>]+)>$", line)):
            found[name][1].add(own[1])
        elif name and re.search(r"\tcall +\*|\t(?:sub|and) +%?[^$]*,%rsp|\tadd +\$0xf{8}.*,%rsp", line):
            found[name][2].append(line.strip())
        before = line
    return found


def deepest(found, name, above=()):
    """Bytes and the path of the deepest calls."""
    if name in above:
        sys.exit(f"{name} calls itself: {' '.join(above)}")
    if name not in found:
        return OUTSIDE, [(name, OUTSIDE)]
    frame, calls, odd = found[name]
    if odd:
        sys.exit(f"{name}: {odd[0]}")
    if name in NESTED:
        ring = [n for n in NESTED if n in found]
        if odd := [line for n in ring for line in found[n][2]]:
            sys.exit(f"{name}: {odd[0]}")
        frame = sum(NESTED[n] * found[n][0] for n in ring)
        calls = set().union(*(found[n][1] for n in ring)) - set(NESTED)
    below = max((deepest(found, call, (*above, name)) for call in calls), default=(0, []))
    return frame + below[0], [(name, frame), *below[1]]


def main():
    library = sys.argv[1] if len(sys.argv) > 1 else "target/staticlib/libreplay.a"
    total, path = deepest(functions(library), sys.argv[2] if len(sys.argv) > 2 else "huurqan_replay")
    for name, frame in path:
        print(f"{frame:8} {name}")
    print(f"{total:8} bytes at most")
    sys.exit(total > MOST)


if __name__ == "__main__":
    main()
