#!/usr/bin/env python3
"""Gives the static library of a crate: the one that `rt lib` made, or one that is built over the libraries as the gate left them.

    tools/archive.py CRATE FILE      CRATE is a crate of crates.txt or of bench/libraries, and FILE the library that is written

The crate alone is proved, as it is built. Where what it builds on wasn't made from its sources as they are, `rt lib` makes that first, which
proves it once more.
"""
import glob
import os
import re
import shutil
import subprocess
import sys
import tempfile

sys.dont_write_bytecode = True
from shared.crates import CRATES, PARTS, below, is_new, listed, rlib
from shared.files import TOP
from derive.command import derive
from lay_out import lay_out

BENCH = os.path.join(TOP, "bench", "libraries")


def every_crate():
    """The crates of crates.txt, and those of bench/libraries."""
    return {**listed(os.path.join(TOP, "crates.txt")), **listed(os.path.join(BENCH, "libraries.txt"))}


def is_for_measures(name):
    return os.path.isdir(os.path.join(BENCH, name))


def not_new(name, crates):
    """The libraries below a crate that weren't made from their sources as they are."""
    return [it for it in below(crates[name][1], crates) if not is_new(rlib(it), below([it], crates))]


def copied(name, folder):
    """Copies a crate into a folder, with what is derived of it, and returns its folder there."""
    crate = os.path.join(folder, "crates", name)
    if not is_for_measures(name):
        for part in PARTS:
            if os.path.isdir(os.path.join(CRATES, name, part)):
                shutil.copytree(os.path.join(CRATES, name, part), os.path.join(crate, part))
        return crate
    lay_out(folder, os.path.join(BENCH, name))
    for path in glob.glob(os.path.join(crate, "src", "**", "*.rt"), recursive=True):
        with open(path, encoding="utf-8") as file:
            is_declared = re.search(r"^mod derived;", file.read(), re.M)
        if is_declared:
            derive(crate, os.path.relpath(path, os.path.join(crate, "src")))
    return crate


def kit_folder():
    page = subprocess.run(["rt", "doc"], capture_output=True, text=True, check=True).stdout.strip()
    return os.path.dirname(page)


def words(name, crates, kit, root="src/lib.rt"):
    """What `rattle` is told of a crate, of its libraries and of the kit."""
    direct = crates[name][1]
    found = ["--crate-name", name, root, "-L", f"dependency={kit}/rlibs"]
    for it in ["std", *(it for it in direct if it not in crates)]:
        found += ["--extern", f"{it}={kit}/rlibs/{it}.rlib"]
    for it in below(direct, crates):
        found += ["-L", f"dependency={os.path.dirname(rlib(it))}"]
        if it in direct:
            found += ["--extern", f"{it}={rlib(it)}"]
    found += ["--antt-project", f"{kit}/rattle/logic/antt-project.json", "--logic-built", f"{kit}/logic_built"]
    return [*found, "--links", f"{name}=", "--jobs", "1"]


def rattle(verb, name, crates, kit, *more):
    """Has `rattle` check or build a copy of a crate, and says whether that went well."""
    command = [f"{kit}/bin/rattle", verb, *words(name, crates, kit), *more]
    with tempfile.TemporaryDirectory() as folder:
        made = subprocess.run(command, cwd=copied(name, folder), stdout=subprocess.PIPE, stderr=subprocess.STDOUT, text=True)
    if made.returncode:
        print(made.stdout)
    return made.returncode == 0


def main():
    name, file = sys.argv[1:]
    crates, kit = every_crate(), kit_folder()
    made = os.path.join(CRATES, name, "out", f"lib{name}.a")
    if not is_for_measures(name) and is_new(made, below([name], crates)):
        shutil.copy(made, file)
        return 0
    if not_new(name, crates):
        for it in below(crates[name][1], crates):
            subprocess.run(["rt", "lib"], cwd=os.path.join(CRATES, it), check=True)
    made_by = ["--crate-type", "staticlib", "--toolchain", f"{kit}/toolchain", "--backend", "llvm"]
    return 0 if rattle("build", name, crates, kit, *made_by, "-o", os.path.abspath(file)) else 1


if __name__ == "__main__":
    sys.exit(main())
