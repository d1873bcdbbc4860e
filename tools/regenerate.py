#!/usr/bin/env python3
"""Runs every generator of stored files again, in a folder of its own, and compares what it writes with what is stored.

    tools/regenerate.py

A generator is a program of tools/ that writes files when it is run at the top of the repository: *_vectors.py, crc32_tables.py
and example_feeds.py. Exit status 1 if a stored file differs, is missing, or a generator writes none.
"""
import pathlib
import shutil
import subprocess
import sys
import tempfile

TOP = pathlib.Path(__file__).resolve().parent.parent


def generators():
    tools = TOP / "tools"
    return [*sorted(tools.glob("*_vectors.py")), tools / "crc32_tables.py", tools / "example_feeds.py"]


def scratch(folder):
    """The tools, and the folders that files are written to."""
    shutil.copytree(TOP / "tools", folder / "tools", ignore=shutil.ignore_patterns("__pycache__"))
    for path in [TOP / "examples", *(TOP / "crates").iterdir()]:
        (folder / path.relative_to(TOP)).mkdir(parents=True)


def written(folder):
    return {path.relative_to(folder) for top in ("crates", "examples") for path in (folder / top).rglob("*") if path.is_file()}


def main():
    faults, count = [], 0
    for generator in generators():
        with tempfile.TemporaryDirectory() as name:
            folder = pathlib.Path(name)
            scratch(folder)
            subprocess.run([sys.executable, f"tools/{generator.name}"], cwd=folder, check=True, stdout=subprocess.DEVNULL)
            files = written(folder)
            count += len(files)
            if not files:
                faults.append(f"{generator.name} writes no file")
            for path in sorted(files):
                if not (TOP / path).is_file():
                    faults.append(f"{generator.name}: {path} is not stored")
                elif (TOP / path).read_bytes() != (folder / path).read_bytes():
                    faults.append(f"{generator.name}: {path} differs from what is stored")
    print(*faults, sep="\n", end="\n" if faults else "")
    print(f"{count} generated files compared, {len(faults)} differ")
    sys.exit(bool(faults))


if __name__ == "__main__":
    main()
