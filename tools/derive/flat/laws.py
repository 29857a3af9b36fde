"""What the laws of types have in common that derive.py spells out: how the law of another type is named, and what it brings in.

The law of a type parameter is named through the parameter, that of a type of the crate without parameters by the module in which it
was proved, and that of any other type is spelled out from the lemmas of the libraries: of the types of std and of the wire, and of those
of the crate that have parameters, where the types of their fields are in scope, too.
"""
from __future__ import annotations

import dataclasses
import re
from collections.abc import Callable

from shared.terms import underscored

from ..table.kinds import PLAIN, PRELUDE, identifiers
from ..table.own import Own
from ..table.types import Declared, Shape
from .terms import Words

# What a law of another type takes before its own arguments: the reader's type with what its traits say, and where their methods
# are, which no law depends on.
READER = "R.row R.ReadSlice.own (given 0) R.Source (given 0)"
# What the laws of each trait of another type are called.
CALLED = {"RoundTrip": "rounds", "NeverNil": "other", "EndsInside": "ends"}
# What writes the implementation of each trait.
WRITERS: dict[str, Callable[[Own], list[str]]] = {}


class Unknown(Exception):
    """A type whose law can't be spelled out."""


def has(own: Own, trait: str) -> bool:
    """Whether a type has one of these traits."""
    if trait not in own.known:
        own.known[trait] = False
        own.known[trait] = trait in own.by_hand or trait in own.derived and is_written(own, trait)
    return own.known[trait]


def is_written(own: Own, trait: str) -> bool:
    """Whether one that is derived is written."""
    if own.of.leads_back():
        return trait != "EndsInside"
    try:
        return bool(WRITERS[trait](own))
    except Unknown:
        return False


class Laws:
    """The laws of types in terms, for the implementation of a trait for this type, where these types of the crate have laws."""

    # What a type has whose law is spelled out.
    trait = ""

    def __init__(self, own: Own) -> None:
        self.home, self.own, self.words, self.count = own, own.names, Words(own.of), 0
        # The laws that are named by their modules.
        self.named: dict[str, str] = {}
        # The types of other files whose laws are spelled out, and the names of their fields' types.
        self.others: dict[str, Own] = {}
        self.brought: set[str] = set()

    def fresh(self) -> tuple[str, str]:
        self.count += 1
        return f"x{self.count}", f"h{self.count}"

    def law(self, kind: str, trait: str, law: str) -> str:
        """The law of a type of the crate without parameters."""
        if kind not in self.own or self.own[kind].of.parameters or not has(self.own[kind], trait):
            raise Unknown(f"no {trait} of {kind} is known")
        laws = f"{underscored(kind)}_{CALLED[trait]}"
        self.named[laws] = f"{self.own[kind].modules[trait]}.{self.own[kind].of.name}{trait}"
        return f"{laws}.{law}-law" + f" {READER}" * (trait != "NeverNil")

    def instance(self, name: str, parts: list[str]) -> Declared:
        """A type of the crate at these parameters."""
        if name not in self.own or self.trait not in self.own[name].derived or self.trait == "RoundTrip" and not has(self.own[name], "RoundTrip"):
            raise Unknown(f"no {self.trait} of {name} is known")
        self.bring(self.own[name])
        of = self.own[name].of.lent_for("'de")
        parts = dict(zip((name for name, _ in of.parameters), (part for part in parts if part != "'de")))

        def at_parts(shape: Shape) -> Shape:
            kinds = [re.sub(r"\w+", lambda word: parts.get(word[0], word[0]), field.kind) for field in shape.fields]
            fields = [dataclasses.replace(field, kind=kind) for field, kind in zip(shape.fields, kinds)]
            return dataclasses.replace(shape, fields=fields)

        return Declared(of.name, [], of.shape and at_parts(of.shape), of.variants and [at_parts(shape) for shape in of.variants])

    def bring(self, other: Own) -> None:
        """Sees that the types of another file's type are in scope."""
        if other.names is self.own:
            return
        if other.of.constants():
            raise Unknown(f"a default of {other.of.name} is a constant of another file")
        words = {word for kind in other.of.kinds() for word in identifiers(kind)} - {name for name, _ in other.of.parameters}
        for word in sorted(words - PRELUDE - PLAIN):
            if not self.home.sees(other, word):
                raise Unknown(f"a field of {other.of.name} is of the type {word}, which no `use` brings in")
            self.brought.add(word)
        self.others[other.of.name] = other


def implementation(own: Own, laws: list[Laws], header: str, members: list[str]) -> list[str]:
    """An implementation, in lines, whose members these made."""
    named: dict[str, str] = {}
    for it in laws:
        named |= it.named
        own.others |= it.others
        own.brought |= it.brought
    lines = [f"    ghost use Rattle.{path}.TheImpl.Laws as {name};" for name, path in sorted(named.items())]
    lines += ["    ghost use mir.Syntax.{given};"] * any(READER in member for member in members)
    return [header, *lines, *[""] * bool(lines), *members, "}\n"]
