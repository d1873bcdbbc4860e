#!/usr/bin/env python3
"""Makes the static library that C, Rust and Python link: target/staticlib/libNAME.a, of the crate NAME_c.

    tools/static_library.py NAME              replay or bad_text, by `rt lib`, which proves what was not proved here
    tools/static_library.py --over-ci NAME    right after `rt ci`, over the libraries that it proved

`rt ci` proves a static library and builds none, and what it leaves of the libraries below has no stamp, so `rt lib` would prove them once more. With
--over-ci the compiler takes them as they are. One with a stamp is of an earlier `rt check` here, put back by `rt ci`; then, too, `rt lib` is run.
"""
import argparse
import os
import pathlib
import re
import shutil
import subprocess
import sys

TOP = pathlib.Path(__file__).resolve().parent.parent


def listed():
    """The crates that each crate names, as crates.txt has them."""
    rows = re.findall(r"^(\w+)(?: +[\w=+]+)*:([^#\n]*)", (TOP / "crates.txt").read_text(encoding="utf-8"), re.M)
    return {name: named.split() for name, named in rows}


def below(crate, named):
    """The libraries of this repository that a crate stands on."""
    return {dep for name in named[crate] if name in named for dep in {name, *below(name, named)}}


def rlib(crate):
    return TOP / "crates" / crate / "out" / "rlib" / f"{crate}.rlib"


def over_ci(crate):
    """Builds it over what rt ci left; whether that was done."""
    named = listed()
    libraries = sorted(below(crate, named))
    if not all(rlib(name).is_dir() and not (rlib(name).parent / "stamp").exists() for name in libraries):
        return False
    kit = pathlib.Path(subprocess.run(["rt", "doc"], stdout=subprocess.PIPE, text=True, check=True).stdout.strip()).parent
    words = [kit / "bin" / "rattle", "build", "--crate-name", crate, "src/lib.rt", "--crate-type", "staticlib", "--links", f"{crate}=", "--jobs", "2"]
    for name, path in [("std", kit / "rlibs" / "std.rlib"), *((name, rlib(name)) for name in named[crate])]:
        words += ["--extern", f"{name}={path}"]
    for folder in [kit / "rlibs", *(rlib(name).parent for name in libraries)]:
        words += ["-L", f"dependency={folder}"]
    words += ["--antt-project", kit / "rattle" / "logic" / "antt-project.json", "--logic-built", kit / "logic_built", "--toolchain", kit / "toolchain"]
    folder = TOP / "crates" / crate
    (folder / "out").mkdir(exist_ok=True)
    return not subprocess.run([*words, "--backend", "llvm", "-o", f"out/lib{crate}.a"], cwd=folder).returncode


def main():
    parser = argparse.ArgumentParser(description=__doc__, formatter_class=argparse.RawDescriptionHelpFormatter)
    parser.add_argument("--over-ci", action="store_true")
    parser.add_argument("name", choices=["replay", "bad_text"])
    wanted = parser.parse_args()
    crate = f"{wanted.name}_c"
    folder, made = TOP / "crates" / crate, TOP / "target" / "staticlib" / f"lib{wanted.name}.a"
    if not (wanted.over_ci and over_ci(crate)) and subprocess.run(["rt", "lib"], cwd=folder).returncode:
        sys.exit(f"{crate} is not built")
    made.parent.mkdir(parents=True, exist_ok=True)
    part = made.with_suffix(f".{os.getpid()}")
    shutil.copyfile(folder / "out" / f"lib{crate}.a", part)
    part.replace(made)
    print(f"made {made.relative_to(TOP)}")


if __name__ == "__main__":
    main()
