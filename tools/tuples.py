#!/usr/bin/env python3
"""Writes the code and the proofs that are there once for each number of elements: of tuples, and of the fields of structs.

    tools/tuples.py [FOLDER]      writes below this folder in place of the repository's top

`WRITTEN` says which file has what, and for how many elements. Run `rt fmt` in each crate afterwards.
"""
from __future__ import annotations

import dataclasses
import os
import sys
from collections.abc import Callable, Iterable, Iterator
from typing import Any

sys.dont_write_bytecode = True
from shared.files import TOP, write
from shared.lines import broken
from shared.terms import KINDS, MOST, Answers
from tuples import fields_then, laws, read
from tuples import write as writes


@dataclasses.dataclass(frozen=True)
class Written:
    """A file of a crate: how it begins, what comes for each of some numbers or groups, and the answers of that, by folders of `proofs/`."""

    crate: str
    path: str
    head: str
    item: Callable[[Any], str]
    each: Iterable
    answers: Callable[[Any], dict[str, Answers]] = lambda _: {}

    def texts(self) -> Iterator[tuple[str, str]]:
        """Each text, with its file's path in the crate."""
        yield self.path, self.head + "".join(map(self.item, self.each))
        for of in self.each:
            for folder, answers in self.answers(of).items():
                place = f"proofs/{self.path.removeprefix('src/').removesuffix('.rt')}/{folder}"
                yield f"{place}/Answers.antt", answers.text(f"Rattle.{self.crate}.{place.replace('/', '.')}")


WRITTEN = [
    Written("rmp_encode", "src/ser/tuples.rt", writes.TUPLES_HEAD, writes.tuples, range(1, MOST + 1)),
    Written("rmp_encode", "src/elements/kinds.rt", writes.ELEMENTS_HEAD, writes.elements, range(1, MOST + 1)),
    Written("rmp_decode", "src/de/tuples.rt", read.TUPLES_HEAD, read.tuples, range(1, len(KINDS) + 1), read.answers),
    Written("rmp_decode", "src/access/read_fields.rt", read.FIELDS_HEAD, read.read_fields, read.COUNTS),
    Written("rmp_decode", "specs/ReadFields.antt", read.FIELDS_SPECS, read.reads_fields, read.COUNTS),
    *(
        Written("rmp_decode", f"src/access/fields/{group.module}.rt", fields_then.head(group), fields_then.implementation, [group], fields_then.answers)
        for group in (fields_then.EIGHT, fields_then.SIXTEEN)
    ),
    Written("rmp_round_trip", "src/round_trip/tuples.rt", laws.ROUNDS_HEAD, laws.rounds, range(1, MOST + 1)),
    Written("rmp_ends", "src/ends_inside/tuples.rt", laws.ENDS_HEAD, laws.ends, range(1, len(KINDS) + 1)),
]

if __name__ == "__main__":
    for written in WRITTEN:
        for path, text in written.texts():
            write(broken(text, path.endswith(".antt")), os.path.abspath(sys.argv[1] if sys.argv[1:] else TOP), "crates", written.crate, path)
