"""The edits that the prover must refuse: tests/edits/CRATE/FUNCTION__WHAT.edit, which tools/refused.py tries, and
crates/CRATE/must-fail/FUNCTION__WHAT.edit, which the gate tries. The gate reads no other lines than 'file:', 'old:' and 'new:', so the rest of
an edit of must-fail/ has a '# ' in front.
"""
from __future__ import annotations

import os
from collections.abc import Iterator
from dataclasses import dataclass
from functools import cached_property

from shared.crates import CRATES
from shared.files import files_below, read


@dataclass(frozen=True)
class Edit:
    """An edit of a crate, by its file, or its twin, a body of the right meaning, whose texts are those that `twin:` has after `new:`."""

    crate: str
    path: str
    new: str = "new"

    @cached_property
    def lines(self) -> list[tuple[str, str]]:
        """Each line, as its word and what is after it."""
        parts = [line.removeprefix("# ").partition(":") for line in read(self.path).split("\n")]
        return [(word, rest.removeprefix(" ")) for word, _, rest in parts]

    def said(self, word: str) -> list[str]:
        return [rest.strip() for it, rest in self.lines if it == word]

    @property
    def name(self) -> str:
        return os.path.basename(self.path).removesuffix(".edit")

    @property
    def is_of_gate(self) -> bool:
        return os.path.basename(os.path.dirname(self.path)) == "must-fail"

    @cached_property
    def pairs(self) -> tuple[tuple[str, str, str], ...]:
        """The file, the text and its replacement, of each text that is replaced."""
        found, path, old = [], "", ""
        for word, rest in self.lines:
            if word == "file":
                path = rest.strip()
            elif word == "old":
                old = rest
            elif word == self.new:
                found.append((path, old, rest))
        return tuple(found)

    @property
    def twin(self) -> Edit:
        return Edit(self.crate, self.path, "twin")

    @property
    def tests(self) -> list[str]:
        """The names of the tests that fail with its body."""
        return self.said("test")

    @cached_property
    def refusals(self) -> dict[str, set[str]]:
        """Each function that it says to be refused, and the goals that are open there."""
        return {function: set(goals) for function, *goals in map(str.split, self.said("refused"))}

    def says_where(self) -> bool:
        return bool(self.refusals) and all(self.refusals.values())

    def misapplied(self) -> Iterator[str]:
        """Which of its texts aren't there exactly once, each in what the earlier pairs made."""
        texts: dict[str, str] = {}
        for path, old, new in self.pairs:
            whole = os.path.join(CRATES, self.crate, path)
            if path not in texts:
                texts[path] = read(whole) if os.path.isfile(whole) else ""
            found = texts[path].count(old)
            if found != 1:
                yield f"{path} has this {found} times: {old}"
            if old.split() == new.split():
                yield f"{path} has the same before and after: {old}"
            texts[path] = texts[path].replace(old, new)


def edits_of(crate: str) -> list[Edit]:
    """The edits of a crate: those that tools/refused.py tries, and then those that the gate does."""
    found = [*files_below("tests", "edits", crate, ending=".edit"), *files_below("crates", crate, "must-fail", ending=".edit")]
    return [Edit(crate, path) for path in found]
