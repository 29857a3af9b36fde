"""The crates of this repository, as crates.txt lists them, their sources and what is made of them, for the other tools."""
import os

from shared.files import TOP, files_below, read

CRATES = os.path.join(TOP, "crates")
PARTS = ["src", "specs", "proofs"]


def listed(path):
    """The lines of a list of crates: for each name what is before and after its colon."""
    parts = [line.partition("#")[0].partition(":") for line in read(os.path.abspath(path)).split("\n")]
    return {head.split()[0]: (head.strip(), libraries.split()) for head, _, libraries in parts if head.strip()}


def below(names, crates):
    """The crates of this repository that these build on, themselves among them, each after those that it builds on."""
    found = []
    for name in names:
        if name in crates:
            found += [*below(crates[name][1], crates), name]
    return list(dict.fromkeys(found))


def sources(name):
    """The files that a crate is proved and built from."""
    return [file for part in PARTS for file in files_below(CRATES, name, part)]


def is_new(made, names):
    """Whether this was made, and after the last change to the sources of these crates."""
    if not os.path.exists(made):
        return False
    return all(os.path.getmtime(file) <= os.path.getmtime(made) for name in names for file in sources(name))


def rlib(name):
    """The proved library of a crate, where `rt` leaves it."""
    return os.path.join(CRATES, name, "out", "rlib", f"{name}.rlib")
