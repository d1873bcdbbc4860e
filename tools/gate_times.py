#!/usr/bin/env python3
"""What the gate's time goes to: processor seconds by crate and by must-fail edit, dearest first, and the sum of both.

    tools/gate_times.py [COMMAND..]     runs `rt ci`, unless another is named, and watches it; prints the command's own lines before the tables

rt tells no times, so the checks that it starts are watched, twice a second: each counts for the crate that it names, or, in the copy of a crate that
an edit is tried in, for the edit whose text stands there. What an earlier run on this machine passed is not done again, and takes none: for the time
of the whole, `tools/gate_times.py rt ci --anew`.
"""
import collections
import os
import pathlib
import re
import subprocess
import sys
import time

TOP = pathlib.Path(__file__).resolve().parent.parent
TICKS = os.sysconf("SC_CLK_TCK")
EVERY = 0.5


def pairs_of(edit):
    """The changes of an edit: file, text before, text after."""
    file, old, found = "", "", []
    for line in edit.read_text(encoding="utf-8").splitlines():
        if line.startswith("file: "):
            file = line[6:].strip()
        elif line.startswith("old: "):
            old = line[5:]
        elif line.startswith("new:"):
            found.append((file, old, line[4:].removeprefix(" ")))
    return found


def edit_in(crate, folder):
    """The edit whose text stands in a copy of a crate; none: the copy that the edits begin with."""
    for edit in sorted((TOP / "crates" / crate / "must-fail").glob("*.edit")):
        texts = {file: (folder / file).read_text(encoding="utf-8") for file, _, _ in pairs_of(edit)}
        if all(new in texts[file] and (old in new or old not in texts[file]) for file, old, new in pairs_of(edit)):
            return f"{crate}/{edit.stem}"
    return f"{crate}/ (before any edit)"


def work_of(process):
    """What a process works at, if it is a check or a build of a crate: the crate, or the edit, and which of both."""
    words = (process / "cmdline").read_bytes().decode(errors="replace").split("\0")
    if os.path.basename(words[0]) != "rattle" or "--crate-name" not in words:
        return None
    crate, folder = words[words.index("--crate-name") + 1], pathlib.Path(os.readlink(process / "cwd"))
    if folder.name.startswith("rt-edit-"):
        return "edit", edit_in(crate, folder)
    return "crate", f"{crate}: its tests" if "--test" in words else crate


def status_of(process):
    """Parent, and seconds of the processor."""
    words = (process / "stat").read_text().rsplit(")", 1)[1].split()
    return int(words[1]), (int(words[11]) + int(words[12])) / TICKS


def watch(root, works, seconds):
    """Looks once at all processes that descend from one."""
    found = {}
    for process in pathlib.Path("/proc").iterdir():
        if process.name.isdigit():
            try:
                found[int(process.name)] = status_of(process)
            except (OSError, IndexError, ValueError):
                pass  # it has ended
    ours = {root}
    for _ in range(12):
        ours |= {number for number, (parent, _) in found.items() if parent in ours}
    for number in ours & found.keys():
        try:
            if works.get(number) is None:
                works[number] = work_of(pathlib.Path(f"/proc/{number}"))
            if works[number]:
                seconds[number, works[number]] = found[number][1]
        except OSError:
            pass


def table(title, rows):
    print(f"{title}: {len(rows)}, {sum(rows.values()):.0f} s")
    for name, seconds in sorted(rows.items(), key=lambda row: (-row[1], row[0])):
        print(f"{seconds:6.0f} {name}")
    print()


def main():
    if sys.argv[1:2] in (["-h"], ["--help"]):
        sys.exit(__doc__)
    works, seconds = {}, {}
    child = subprocess.Popen(sys.argv[1:] or ["rt", "ci"], cwd=TOP)
    while child.poll() is None:
        watch(child.pid, works, seconds)
        time.sleep(EVERY)
    by = {"crate": collections.Counter(), "edit": collections.Counter(), "edits of": collections.Counter()}
    for (_, (kind, name)), spent in seconds.items():
        by[kind][name] += spent
        if kind == "edit":
            by["edits of"][re.sub("/.*", "", name)] += spent
    table("crates", by["crate"])
    table("must-fail edits", by["edit"])
    table("edits by crate", by["edits of"])
    print(f"{sum(seconds.values()):6.0f} s in all")
    sys.exit(child.returncode)


if __name__ == "__main__":
    main()
