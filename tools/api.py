#!/usr/bin/env python3
"""Prints the public items of `rmp_serde`, each under its path and as it is declared, with the names of the clauses of its contract: what a caller
must show (`requires`), and what is promised (`ensures`). A clause that is alone may have no name.

`api.py --bare` prints the public items that have no doc comment.
"""
from __future__ import annotations

import sys
from collections.abc import Iterator

sys.dont_write_bytecode = True
from testing.sources import Entry, Item, Library, impl_parts


def parts(library: Library, entry: Entry) -> Iterator[tuple[str, Item]]:
    """An item, and the functions, the variants and the constants in it, each with its path."""
    yield entry.path(), entry.item
    inner = [it for impl in library.impls_of(entry) if not impl_parts(impl.declared)[0] for it in impl.members if it.public]
    if entry.item.kind in ("trait", "enum"):
        inner += [it for it in entry.item.members if it.kind in ("fn", "part")]
    yield from ((f"{entry.path()}::{it.name}", it) for it in inner)


def clauses(item: Item) -> Iterator[str]:
    """A line for what is asked, and one for what is promised."""
    for word in ("requires", "ensures"):
        names = dict.fromkeys(name or "(one clause)" for kind, name in item.clauses if kind == word)
        if names:
            yield f"    {word} {', '.join(names)}"


def main() -> None:
    library = Library()
    for entry in sorted([*library.entries.values(), *library.below()], key=Entry.path):
        for path, item in parts(library, entry):
            if sys.argv[1:] != ["--bare"]:
                print("\n".join([f"{path}: {item.declared}", *clauses(item)]))
            elif not item.doc:
                print(f"{entry.module.crate}: {path}")


if __name__ == "__main__":
    main()
