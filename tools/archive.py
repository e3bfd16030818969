#!/usr/bin/env python3
"""Makes target/staticlib/libcellang.a, the static library of the exported calls (crate cellang_c), and says where it is.

    archive.py [--built]

Without --built `rt lib` proves what is not proved yet of cellang_c and the crates below it. With --built the crates below are taken as `rt ci` has left
them (crates/NAME/out/rlib), and cellang_c alone is proved: for straight after an `rt ci`, which proves a static library and builds no archive.
"""
import os
import shutil
import subprocess
import sys

ROOT = os.path.dirname(os.path.dirname(os.path.abspath(__file__)))
CRATE = "cellang_c"
ARCHIVE = "target/staticlib/libcellang.a"


def dependencies(path):
    """The crates that each crate uses, as crates.txt has them."""
    uses = {}
    with open(path, encoding="utf-8") as file:
        for line in file:
            head, colon, below = line.partition("#")[0].partition(":")
            if colon:
                uses[head.split()[0]] = below.split()
    return uses


def below(uses, name):
    """The crates of this repository that a crate stands on, lowest first."""
    found = []
    for crate in uses[name]:
        if crate in uses:
            found += [it for it in [*below(uses, crate), crate] if it not in found]
    return found


def command(uses, kit):
    """What `rt lib` runs for the crate, over the libraries that are built."""
    library = lambda name: f"{ROOT}/crates/{name}/out/rlib/{name}.rlib" if name in uses else f"{kit}/rlibs/{name}.rlib"
    words = [f"{kit}/bin/rattle", "build", "--crate-name", CRATE, "src/lib.rt", "--extern", f"std={kit}/rlibs/std.rlib", "-L", f"dependency={kit}/rlibs"]
    for name in uses[CRATE]:
        words += ["--extern", f"{name}={library(name)}"]
    for name in below(uses, CRATE):
        if not os.path.exists(library(name)):
            sys.exit(f"crates/{name}/out/rlib is missing: run `rt ci` first, or this without --built")
        words += ["-L", f"dependency={os.path.dirname(library(name))}"]
    logic = ["--antt-project", f"{kit}/rattle/logic/antt-project.json", "--logic-built", f"{kit}/logic_built"]
    return [*words, *logic, "--links", f"{CRATE}=", "--crate-type", "staticlib", "--toolchain", f"{kit}/toolchain", "-o", f"out/lib{CRATE}.a"]


def main(arguments):
    if arguments not in ([], ["--built"]):
        sys.exit("usage: archive.py [--built]")
    words = ["rt", "lib"]
    if arguments:
        kit = os.path.dirname(os.path.dirname(os.path.realpath(shutil.which("rt") or sys.exit("rt is missing"))))
        words = command(dependencies(f"{ROOT}/crates.txt"), kit)
    crate = f"{ROOT}/crates/{CRATE}"
    os.makedirs(f"{crate}/out", exist_ok=True)
    made = subprocess.run(words, cwd=crate)
    if made.returncode:
        sys.exit(made.returncode)
    os.makedirs(f"{ROOT}/{os.path.dirname(ARCHIVE)}", exist_ok=True)
    shutil.copyfile(f"{crate}/out/lib{CRATE}.a", f"{ROOT}/{ARCHIVE}")
    print(ARCHIVE)


if __name__ == "__main__":
    main(sys.argv[1:])
