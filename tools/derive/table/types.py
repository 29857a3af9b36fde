"""What a declaration says of a type: its fields or its variants, their types, the names that are written, and their defaults."""
from __future__ import annotations

import dataclasses
import re
from typing import Optional

from shared.terms import KINDS

from .kinds import identifiers

# Words of proofs that are names in a declaration.
QUOTED = set("data record module package open unfoldable abbrev axiom unfold unfolding ruleset mutual infix infixl infixr elim Type".split())
QUOTED |= set("coe fcoe tcoe hcom com".split())
# How many fields a struct has at most, without names and with them, and how many a variant.
MOST_UNNAMED = 16
MOST_NAMED = 32
MOST_IN_VARIANT = 16
# How many are read as one tuple.
MOST_IN_TUPLE = len(KINDS)
# For how many fields with names rmp_decode has a call of its own.
LEAST_FLAT, MOST_FLAT = 2, 12


@dataclasses.dataclass
class Default:
    """A default: how it is made, what is so of a value that is the same, and the constants of the file that it names."""

    made: str
    fact: str
    constants: tuple[str, ...] = ()
    # why it is so of the default itself
    proof: str = "refl"
    # what it is in terms, where it is one number, character, truth value or constant
    term: Optional[str] = dataclasses.field(default=None, repr=False)
    # whether it is a copy of a text, which takes memory
    is_copy: bool = dataclasses.field(default=False, repr=False)
    # the enums of which it names variants
    enums: tuple[str, ...] = ()

    def __repr__(self) -> str:
        constant = self.constants[0] if len(self.constants) == 1 else self.constants or None
        return f"Default(made={self.made!r}, fact={self.fact!r}, constant={constant!r}, proof={self.proof!r})"

    def holds(self, value: str) -> str:
        return self.fact.format(v=value)


@dataclasses.dataclass(repr=False)
class Field:
    """A field: its name, or its place in a tuple, its type, the name that is written, and its default where it is missing."""

    name: str
    kind: str
    key: str = ""
    default: Optional[Default] = None
    # whether it is neither written nor read, and has its default after each read
    is_skipped: bool = False

    def __post_init__(self) -> None:
        self.key = self.key or self.name

    def __repr__(self) -> str:
        default = f", default={self.default!r}" if self.default else ""
        return f"Field(name={self.name!r}, kind={self.kind!r}, key={self.key!r}{default}{', skipped' * self.is_skipped})"

    def read_as(self) -> str:
        """The type that it is read as."""
        return f"Defaulted<{self.kind}>" if self.default else self.kind


@dataclasses.dataclass
class Shape:
    """What a struct or a variant holds. `kind` is unit, newtype, tuple or named, and `key` the name that is written. What is neither written nor
    read is apart."""

    name: str
    kind: str
    fields: list[Field]
    key: str = ""
    skipped: list[Field] = dataclasses.field(default_factory=list)

    def __post_init__(self) -> None:
        self.key = self.key or self.name

    def __repr__(self) -> str:
        skipped = f", skipped={self.skipped!r}" if self.skipped else ""
        return f"Shape(name={self.name!r}, kind={self.kind!r}, fields={self.fields!r}, key={self.key!r}{skipped})"

    def copies(self) -> list[Field]:
        """The fields whose default is a copy of a text, for which memory may be short."""
        return [field for field in self.fields if field.default and field.default.is_copy]


@dataclasses.dataclass
class Declared:
    """A struct, whose shape is `shape`, or an enum, whose variants are `variants`. `lifetime` is that of what it borrows, if it does."""

    name: str
    parameters: list[tuple[str, str]]
    shape: Optional[Shape] = None
    variants: Optional[list[Shape]] = None
    lifetime: Optional[str] = None
    # whether a note asks for `RoundTrip` though a half is written by hand
    asked: bool = dataclasses.field(default=False, repr=False)

    def lent_for(self, lifetime: str) -> Declared:
        """The type, where what it borrows is lent for this lifetime."""
        if self.lifetime is None:
            return self

        def lent(shape: Shape) -> Shape:
            fields = [dataclasses.replace(field, kind=re.sub(rf"{self.lifetime}\b", lifetime, field.kind)) for field in shape.fields]
            return dataclasses.replace(shape, fields=fields)

        shape, variants = self.shape and lent(self.shape), self.variants and [lent(variant) for variant in self.variants]
        return Declared(self.name, self.parameters, shape, variants, lifetime)

    def arguments(self, bounded: bool = False) -> str:
        """Its lifetime and its type parameters, in brackets, as they are named, or as they are declared, with their bounds."""
        names = [self.lifetime] * bool(self.lifetime)
        names += [f"{name}: {more}" if bounded and more else name for name, more in self.parameters]
        return f"<{', '.join(names)}>" if names else ""

    def shapes(self) -> list[Shape]:
        return self.variants if self.shape is None else [self.shape]

    def kinds(self) -> list[str]:
        return [field.kind for shape in self.shapes() for field in shape.fields]

    def leads_back(self) -> bool:
        """Whether a value of the type may contain another."""
        return any(self.name in identifiers(kind) for kind in self.kinds())

    def constants(self) -> set[str]:
        """The constants of the file that are defaults."""
        return {name for default in self.defaults() for name in default.constants}

    def enums(self) -> set[str]:
        """The enums of the file of which variants are defaults."""
        return {name for default in self.defaults() for name in default.enums}

    def defaults(self) -> list[Default]:
        return [field.default for shape in self.shapes() for field in [*shape.fields, *shape.skipped] if field.default]


def is_flat(shape: Shape) -> bool:
    """Whether a struct's fields are read by the call of rmp_decode for so many, whose contract says each field's part in one list."""
    return shape.kind == "named" and LEAST_FLAT <= len(shape.fields) <= MOST_FLAT


def is_long(shape: Shape) -> bool:
    """Whether its fields have no names and are more than one tuple holds: they are read as nested tuples."""
    return shape.kind == "tuple" and len(shape.fields) > MOST_IN_TUPLE


def quoted(name: str) -> str:
    """What a proof calls a field, except behind a dot."""
    return f"«{name}»" if name in QUOTED else name
