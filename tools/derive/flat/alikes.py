"""The terms of rounds.py that values of the same content are written alike, and are equal in the order of their type."""
from __future__ import annotations

from typing import TYPE_CHECKING

from shared.brackets import split
from shared.terms import known, list_of

from ..table.kinds import parted
from ..table.plain import LAWS, LISTS
from ..table.types import Declared, Shape
from .terms import alias, by_cases, tree_of, values_of

if TYPE_CHECKING:
    from .rounds import Onlys


class Alikes:
    """The terms of what is written at a place between two values of the same content, for the type whose terms these are."""

    def __init__(self, onlys: Onlys) -> None:
        self.onlys, self.words = onlys, onlys.words

    def data(self, kind: str, value: str = "x") -> str:
        return f"{self.words.writes(kind, 'data_of')} {value} human"

    def each(self, kind: str) -> str:
        """For any two values of the type: how they are compared, what they are written as, and that they are written alike."""
        x, h = self.onlys.fresh()
        return f"{self.onlys.same(kind)} (λ x. {self.data(kind)}) (λ {x} y{x} {h} i. {self.at(kind, x, f'y{x}', h)})"

    def at(self, kind: str, v: str, w: str, h: str) -> str:
        """What is written between v and w, which have the same content by h."""
        name, parts = parted(kind)
        if kind in self.onlys.lent:
            return f"({kind}.alike human {v} {w} {h} i)"
        if kind in LAWS:
            return f"({LAWS[kind].alike.format(v=v, w=w, h=h)} i)" if LAWS[kind].alike else f"({self.data(kind, f'({h} i)')})"
        if kind[0] == "[":
            return f"(array_alike {self.each(kind[1:-1].rsplit(';', 1)[0].strip())} {v} {w} {h} i)"
        if kind[0] == "(":
            kinds = split(kind[1:-1])
            vs, ws = ([f"{of}.{at}" for at in range(len(kinds))] for of in (v, w))
            return f"(tuple_of ({list_of(self.parts(kinds, vs, ws, known(h, len(kinds))))}))"
        if name == "Box":
            return self.at(parts[0], f"{v}.value", f"{w}.value", h)
        if name == "Option":
            return f"(option_alike {self.each(parts[0])} {v} {w} {h} i)"
        if name in LISTS:
            row, items = LISTS[name]
            return f"({row}_alike {self.each(parts[0])} {v}{items} {w}{items} {h} i)"
        if name == "BTreeMap":
            return f"(mapping_alike {' '.join(self.each(part) for part in parts)} {v}.entries {w}.entries {h} i)"
        if not parts:
            return f"({self.onlys.law(kind, 'RoundTrip', 'alike')} human {v} {w} {h} i)"
        return self.instance(kind, self.onlys.instance(name, parts), v, w, h)

    def instance(self, kind: str, of: Declared, v: str, w: str, h: str) -> str:
        if of.shape:
            return f"({self.struct(of.shape, v, w, h)})"
        law = f"(x y : _) → {self.onlys.same(kind)} x y → {self.data(kind)} ≡ {self.data(kind, 'y')}"
        return f"(let law : {law} = {self.enum(kind, of)} in law {v} {w} {h} i)"

    def parts(self, kinds: list[str], vs: list[str], ws: list[str], facts: list[str]) -> list[str]:
        return [self.at(*it) for it in zip(kinds, vs, ws, facts)]

    def struct(self, shape: Shape, v: str, w: str, h: str) -> str:
        """The same of a struct."""
        kinds = [field.kind for field in shape.fields]
        return tree_of(shape, self.parts(kinds, values_of(shape, v), values_of(shape, w), known(h, len(kinds))))

    def enum(self, kind: str, of: Declared) -> str:
        """That of each variant."""
        return by_cases(of, [f"λ w h. {self.case(kind, of, shape)}" for shape in of.variants], "")

    def case(self, kind: str, of: Declared, shape: Shape) -> str:
        count = len(shape.fields)
        others = [f"h.{at}" for at in range(count)]
        made = " ".join([f"{alias(of)}.{shape.name}", *others])
        facts = [f"h.{count + 1 + at}" for at in range(count)]
        parts = self.parts([field.kind for field in shape.fields], values_of(shape, None), others, facts)
        is_made = f"h.{count}" if count else "h"
        made = f"({made})" if count else made
        return f"variant_alike (λ x. {self.data(kind)}) w {made} {is_made} (λ i. {tree_of(shape, parts, True)})"


def alike_of(onlys: Onlys, of: Declared) -> str:
    """The member of `RoundTrip` by which values of the same content are written alike."""
    alikes = Alikes(onlys)
    law = f"v w h i. {alikes.struct(of.shape, 'v', 'w', 'h')}" if of.shape else f". {alikes.enum(onlys.kind, of)}"
    return f"    ghost alike = {{ λ human {law} }};\n"
