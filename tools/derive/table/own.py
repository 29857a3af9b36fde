"""A type that a file declares, with what is derived for it and what its file names."""
from __future__ import annotations

from typing import TYPE_CHECKING

from .types import Declared

if TYPE_CHECKING:
    from ..reading.uses import Use


class Own:
    """A type that a file of the crate declares, with the modules of its laws, by the traits that have them, and what the file names.

    `declared` is the module of its declaration, and `uses` has the names that the file brings in, with where they come from.
    """

    def __init__(self, of: Declared, derived: set[str], by_hand: set[str], modules: dict[str, str], names: dict[str, Own], declared: str, uses: dict[str, Use]) -> None:
        self.of, self.derived, self.by_hand, self.modules, self.names = of, derived, by_hand, modules, names
        self.declared, self.uses = declared, uses
        # Of which traits it is known whether the type has them.
        self.known: dict[str, bool] = {}
        # The types of other files whose laws the implementations spell out, and the names of their fields' types.
        self.others: dict[str, Own] = {}
        self.brought: set[str] = set()

    def sees(self, other: Own, word: str) -> bool:
        """Whether a name means the same in this type's file as in that of another type."""
        here, there = self.names.get(word), other.names.get(word)
        if here or there:
            return bool(here and there) and here.declared == there.declared
        return word in self.uses and self.uses[word] == other.uses.get(word)
