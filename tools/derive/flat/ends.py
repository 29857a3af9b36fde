"""Writes `EndsInside` for what derive.py derives: a read meets an end only inside of a message."""
from __future__ import annotations

from shared.brackets import split
from shared.terms import all_of, list_of

from ..table.kinds import parted
from ..table.own import Own
from ..table.plain import LAWS
from ..table.types import Declared, Shape, is_flat
from . import laws
from .laws import Laws, Unknown
from .terms import ANY_VALUE, header, refusal_of_fields

# Of types with one part: the lemma, and whether it takes what the part is read from.
PARTED = {"Option": ("option_inside", False), "Box": ("box_inside", True)}
PARTED |= {kind: ("each_inside", True) for kind in ("Vec", "VecDeque", "BTreeSet")}
# Why a type that contains itself has no `EndsInside`.
LEADS_BACK = "it leads back to itself"


class Ends(Laws):
    """The terms by which a read meets an end only inside of a message."""

    trait = "EndsInside"

    def read(self, kind: str) -> str:
        """What a type is read from, and how it is refused."""
        return f"{self.words.reads(kind, 'reads')} {self.words.reads(kind, 'refuses')}"

    def inside(self, kind: str) -> str:
        """The law of a type."""
        name, parts = parted(kind)
        if kind in self.words.names:
            return f"{kind}.ends_inside"
        if kind in LAWS:
            return LAWS[kind].ends
        if kind[0] == "[":
            part, count = (word.strip() for word in kind[1:-1].rsplit(";", 1))
            return f"(array_inside _ {count} {self.read(part)} {self.inside(part)})"
        if kind[0] == "(":
            return f"({self.tuple(split(kind[1:-1]))})"
        if name == "Defaulted":
            return self.inside(parts[0])
        if name in PARTED:
            lemma, is_read = PARTED[name]
            return f"({lemma} {self.read(parts[0]) if is_read else self.words.reads(parts[0], 'refuses')} {self.inside(parts[0])})"
        if name == "BTreeMap":
            words = [self.words.reads(part, word) for word in ("reads", "refuses") for part in parts]
            return f"(map_inside {' '.join(words)} {' '.join(self.inside(part) for part in parts)})"
        return f"({self.whole(self.instance(name, parts)) if parts else self.law(kind, 'EndsInside', 'ends_inside')})"

    def tuple(self, kinds: list[str]) -> str:
        parts = [f"part_of {self.read(kind)}" for kind in kinds]
        return f"tuple_inside ({list_of(parts)}) {all_of([self.inside(kind) for kind in kinds])}"

    def content(self, shape: Shape) -> str:
        """That of the fields of a struct, or of a variant that has some."""
        kinds = [field.read_as() for field in shape.fields]
        if shape.kind == "unit":
            return "nothing_inside"
        if shape.kind == "newtype":
            return self.inside(kinds[0])
        if shape.kind == "tuple":
            return self.tuple(kinds)
        law = f"fields_inside _ _ _ {all_of([self.inside(kind) for kind in kinds])}"
        if shape.copies():
            return f"box_inside {ANY_VALUE} ({refusal_of_fields(self.words, shape, is_flat(shape))}) ({law})"
        return law

    def whole(self, of: Declared) -> str:
        """That of a struct or an enum."""
        if of.shape:
            return self.content(of.shape)
        choices = [f"with_content_inside _ ({self.content(shape)})" if shape.fields else "no_content_inside" for shape in of.variants]
        return f"enum_inside _ _ {all_of(choices)}"


def implementation(own: Own) -> list[str]:
    """That of `EndsInside`, in lines; an `Unknown` says why it can't be had."""
    if own.of.leads_back():
        raise Unknown(LEADS_BACK)
    ends, of = Ends(own), own.of.lent_for("'de")
    law = ends.whole(of)
    return laws.implementation(own, [ends], header(of, "EndsInside<'de, R>"), [f"    ghost ends_inside = {{ {law} }};"])


laws.WRITERS["EndsInside"] = implementation
