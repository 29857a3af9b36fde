#!/usr/bin/env python3
"""Makes FOLDER a repository of its own with a crate that the gate passes over: `tools/lay_out.py FOLDER CRATE`.

CRATE is a folder of tests/programs or of bench/libraries. It gets the libraries that libraries.txt beside it names for it, with those
below them, without proofs and what was built, and crates/NAME, whose sources are the crate's *.rs, as *.rt, and whose proofs are its *.proof,
as *.antt. So `rt try` runs a program, and tools/archive.py builds a library.
"""
import os
import shutil
import sys

sys.dont_write_bytecode = True
from shared.crates import below, listed
from shared.files import TOP

# Where files go in the crate that is laid out, by their endings, and how their names end there.
PLACES = {".rs": ("src", ".rt"), ".proof": ("", ".antt")}


def copy_sources(crate, to):
    """Copies the sources and proofs of a crate into a folder, and answers each file with its copy."""
    copies = {}
    for at, _, files in os.walk(crate):
        for name in files:
            stem, ending = os.path.splitext(os.path.relpath(os.path.join(at, name), crate))
            if ending in PLACES:
                part, other = PLACES[ending]
                copy = os.path.join(to, part, stem + other)
                os.makedirs(os.path.dirname(copy), exist_ok=True)
                copies[os.path.join(at, name)] = shutil.copy(os.path.join(at, name), copy)
    return copies


def lay_out(folder, crate):
    """Makes the repository."""
    place, name = os.path.split(os.path.abspath(crate))
    crates = listed(os.path.join(TOP, "crates.txt"))
    libraries = listed(os.path.join(place, "libraries.txt"))[name][1]
    lines = []
    for it in below(libraries, crates):
        for part in ("src", "specs"):
            source = os.path.join(TOP, "crates", it, part)
            if os.path.isdir(source):
                shutil.copytree(source, os.path.join(folder, "crates", it, part))
        lines.append(": ".join([crates[it][0], " ".join(crates[it][1])]))
    lines.append(": ".join([name, " ".join(libraries)]))
    copy_sources(crate, os.path.join(folder, "crates", name))
    shutil.copy(os.path.join(TOP, "HANDLES"), folder)
    with open(os.path.join(folder, "crates.txt"), "w", encoding="utf-8") as file:
        file.writelines(f"{line}\n" for line in lines)


if __name__ == "__main__":
    lay_out(*sys.argv[1:])
