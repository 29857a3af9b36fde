#!/usr/bin/env python3
"""Compares the public names of the Rust crate rmp-serde 1.3.1, tools/names.txt, with those of the crate rmp_serde here.

A line of the list is a path, or a path and a trait that the type there implements. Each is found under its path, or is in
docs/DIFFERENCES.md: in a row of its table of names, in backquotes, where `X::{a, b}` is X::a and X::b, and `X: A + B` two traits.
What is found and is there all the same is said too. The status is 0 where nothing is said.
"""
import re
import sys

sys.dont_write_bytecode = True
from shared.files import read
from testing.sources import Library, impl_parts, page_of

HEADING = "## Names that are missing or elsewhere"
# The modules whose names are compared.
MODULES = ("", "encode", "decode", "config")


def trait_named(trait):
    """A trait as the list names it: without its parameters, but for those of `From`, whose own go."""
    name, _, parameters = trait.partition("<")
    inner = re.sub(r"<.*", "", parameters.rstrip(">"))
    return f"From<{inner}>" if name == "From" else name.split("::")[-1]


def members_of(library, entry):
    """The members of an item, and the traits that it implements, as the list has them."""
    item, impls = entry.item, library.impls_of(entry)
    found = {f"::{it.name}" for it in item.members if it.kind in ("fn", "type") or item.kind == "enum"}
    found |= {f": {'std::error::Error' if it == 'Error' else it}" for it in item.derives}
    # The derive of thiserror writes the text too.
    found |= {": Display"} if "Error" in item.derives else set()
    for impl in impls:
        trait = impl_parts(impl.declared)[0]
        found |= {f": {trait_named(trait)}"} if trait else set()
        found |= {f"::{it.name}" for it in impl.members if it.public or trait}
    return found


def names_here():
    """The paths of rmp_serde's public names, as the list has them."""
    library = Library()
    found = set(MODULES) - {""}
    for entry in library.entries.values():
        for path in entry.paths:
            if page_of(path) in MODULES:
                found |= {path, *(path + it for it in members_of(library, entry))}
    return found


def spread(text):
    """The names that one piece in backquotes means."""
    group = re.fullmatch(r"([\w:]+)::\{(.*)\}", text)
    if group:
        return [f"{group[1]}::{it.strip()}" for it in group[2].split(",")]
    path, _, traits = text.partition(": ")
    return [f"{path}: {it}" for it in traits.split(" + ")] if traits else [path]


def documented():
    """The names in the first column of the table in docs/DIFFERENCES.md."""
    part = read("docs", "DIFFERENCES.md").partition(HEADING)[2].partition("\n## ")[0]
    cells = re.findall(r"^\| (`.*?) \|", part, re.M)
    return {it for cell in cells for text in re.findall(r"`([^`]+)`", cell) for it in spread(text)}


def main():
    wanted = set(read("tools", "names.txt").split("\n")) - {""}
    here, said = names_here(), documented()
    faults = [f"{it}: neither here nor in docs/DIFFERENCES.md" for it in sorted(wanted - here - said)]
    faults += [f"{it}: here, but docs/DIFFERENCES.md says otherwise: take it out there" for it in sorted(said & here)]
    faults += [f"{it}: in docs/DIFFERENCES.md, but no name of the list" for it in sorted(said - wanted)]
    print("\n".join(faults) or f"{len(wanted & here)} names under their paths, {len(wanted - here)} in docs/DIFFERENCES.md")
    return bool(faults)


if __name__ == "__main__":
    sys.exit(main())
