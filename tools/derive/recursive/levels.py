"""What derive.py knows of recursive types: what they hold, how that is called in terms, and what their definitions and laws share."""
from __future__ import annotations

import dataclasses
import itertools
import re
from collections.abc import Iterator
from typing import Optional

from ..table.types import QUOTED, Declared, Field, Shape
from ..table.kinds import identifiers
from ..flat.proofs import SIGNED
from ..table.own import Own
from ..flat.terms import codes, underscored
from ..words import TABLES
from .forms import AGAIN, ALONE, BOX, MAPS, OPTION, ORDERS, Again, Keys
from .given import given_parts, homes_of, put_together
from .leaves import Part, leaf_of, put_in, terms_of
from .shapes import shape_of
from shared.terms import tuple_of
from shared.texts import Texts

TEXTS = Texts(__file__)


class Level:
    """A type that leads back to itself: its variants with what they hold, or its fields, and the names of what is written for it."""

    def __init__(self, of: Declared, crate: str, declared: str, types: Optional[dict[str, Own]] = None) -> None:
        self.of, self.crate, self.declared, self.types = of, crate, declared, types or {}
        # what it is called in code, and in terms, where another word may have its name
        self.kind, self.name = of.name, f"Own{of.name}" if is_taken(of.name) else of.name
        self.low = underscored(self.name)
        # the parts that are known by their traits alone, the ways to write them by which two values are written alike, and what the words of its
        # definitions and lemmas take of them
        self.bound, self.words = "", {}
        self.given: list[Part] = []
        self.given = given_parts((kind for kind in of.kinds() if not self.part_of(kind) and of.name not in identifiers(kind)), self.types)
        self.bound = " data_of alike_of" * bool(self.given)
        # the type that is read, in which function; and in terms the type of its values, and of what has their fields
        self.whole, self.reader = self, f"read_{self.low}"
        self.term, self.opened = self.name, f"{self.name}-F {self.name}"
        self.variants = [(shape, self.content_of(shape)) for shape in of.variants or []]
        self.fields = [(field, self.held_by(field)) for field in of.shape.fields] if of.shape else []

    @property
    def reads(self) -> str:
        """What the type is read from."""
        return f"Is{self.whole.name}"

    def brought(self, words: str) -> str:
        """Words of the type's declaration, which have its name for {name}, as they are called here."""
        if self.name == self.kind:
            return words.format(name=self.name)
        return " ".join(f"{word.format(name=self.kind)} as {word.format(name=self.name)}" for word in words.split())

    def own(self, value: str = "v") -> str:
        """What has a value's fields, in terms."""
        return f"(out-{self.name} {value})"

    def place(self, at: int, value: str) -> str:
        """The field at a place, of what has them."""
        return f"{value}.{self.fields[at][0].name}"

    def is_leaf(self) -> bool:
        """Whether each field is a leaf."""
        return all(part.is_leaf for _, part in self.fields)

    def said(self, word: str, reads: str) -> str:
        """A word on the fields, by what the type is read from, unless none holds it."""
        return self.name + word + f" {reads}" * (not self.is_leaf())

    def part_of(self, kind: str) -> Optional[Part]:
        """What is known of a value of this type, if it is one that such a type may hold."""
        leaf = leaf_of(kind, self.types)
        if leaf and any(it.declared and is_taken(it.kind) for it in leaf.within()):
            leaf = None
        known = leaf or next((again for again in (it.of(self) for it in [*AGAIN, *MAPS]) if again.kind == kind), None)
        known = known or (shape_of(self, kind) if self.kind in identifiers(kind) else None)
        return known or next((part for part in self.given if part.kind == kind), None)

    def alone(self) -> Again:
        """The type inside of others."""
        return ALONE.of(self)

    def held_by(self, field: Field) -> Optional[Part]:
        """What is known of a field's value, and of its default."""
        part, default = self.part_of(field.kind), field.default
        return dataclasses.replace(part, absent=f"(Some ({default.term}))", made_absent=f"Some({default.made})") if part and default else part

    def content_of(self, shape: Shape) -> Optional[Part]:
        """What a variant holds: nothing, a value, or the tuple of several."""
        held = [part for part in (self.held_by(field) for field in shape.fields) if part]
        if shape.kind == "named" and held:
            return Content(self, shape, held).part()
        return self.row_of(shape, held) if len(held) > 1 else (held or [None])[0]

    def row_of(self, shape: Shape, held: list[Part]) -> Part:
        """Several values, as a tuple, which are read from a list. If each is a leaf, the tuple is one, too."""
        kind, term, word = tuple_of([part.kind for part in held]), terms_of(held), f"{underscored(shape.name)}_values"
        reads = f"{self.name}Row{shape.name} {{reads}} {{k}} {{a}}"
        if all(part.is_leaf for part in held):
            return Part(kind, term, reads.replace(" {reads}", ""), "", "", is_lent=True, word=f"{self.low}_{word}", held=tuple(held))
        wider, counted = f"{self.low}_as_{shape.name} P Q f m a h", f"{self.low}_in_{shape.name} m a h"
        return Again(kind, term, reads, "", "", word=word, held=tuple(held), form="row", wider=wider, counted=counted)

    def rows(self) -> list[tuple[Shape, Part]]:
        """The variants that hold several values, with their tuples."""
        return [(shape, part) for shape, part in self.variants if part and part.held and not part.named]

    def contents(self) -> list[Content]:
        """What the variants hold that have fields with names."""
        return [part.named for _, part in self.variants if part and part.named]

    def contents_again(self) -> list[Content]:
        """Those that hold the type again."""
        return [of for of in self.contents() if not of.is_leaf()]

    def parts(self) -> list[Part]:
        """What it holds, with the values of a tuple that isn't a leaf."""
        return [part for _, of in [*self.variants, *self.fields] if of for part in all_in(of)]

    def made(self, shape: Shape, values: list[str]) -> str:
        """A level that is this variant, of these values."""
        return f"({' '.join([f'{self.name}-F.{shape.name}', *values])})" if values else f"{self.name}-F.{shape.name}"

    def names(self) -> str:
        return codes(shape.key for shape, _ in self.variants)

    def leaves(self) -> list[Part]:
        """What its leaves are, each once."""
        return list(dict.fromkeys(part for part in self.parts() if part.is_leaf))

    def own_leaves(self) -> list[Part]:
        """The types of the crate among its leaves, each once."""
        return list(dict.fromkeys(it for part in self.parts() for it in part.within() if it.declared))

    def holders(self) -> list[Again]:
        """What it is again in, each once. An option's value is in a box."""
        found = dict.fromkeys(part for part in self.parts() if isinstance(part, Again) and part.form != "alone")
        if OPTION.of(self) in found:
            found[BOX.of(self)] = None
        return list(found)


class Content(Level):
    """The content of a variant with named fields: a tuple of their values, which is read as the fields of a struct are."""

    def __init__(self, whole: Level, shape: Shape, held: list[Part]) -> None:
        self.whole, self.kind, self.shape, self.crate, self.declared = whole, whole.kind, shape, whole.crate, whole.declared
        self.name, self.low = whole.name + shape.name, f"{whole.low}_{underscored(shape.name)}"
        self.fields: list[tuple[Field, Part]] = list(zip(shape.fields, held))
        self.variants = []
        self.reader, self.term = f"read_{self.low}_fields", terms_of(held)
        self.opened = self.term

    def own(self, value: str = "v") -> str:
        return value

    def place(self, at: int, value: str) -> str:
        return f"{value}.{at}" if len(self.fields) > 1 else value

    def part(self) -> Part:
        """What is known of it, as of what a variant holds. If each field is a leaf, it is one, too."""
        held = tuple(part for _, part in self.fields)
        kind = tuple_of([part.kind for part in held]) if len(held) > 1 else held[0].kind
        reads, name, low = f"{self.said('Read', '{reads}')} {{k}} {{a}}", self.shape.name, self.whole.low
        if self.is_leaf():
            return Part(kind, self.term, reads, "", "", is_lent=True, word=f"{self.low}_fields", held=held, named=self)
        wider, counted = f"{low}_as_{name} P Q f m a h", f"{low}_in_{name} m a h"
        return Again(kind, self.term, reads, "", "", word=f"{underscored(name)}_fields", held=held, named=self, wider=wider, counted=counted)


def all_in(part: Part) -> list[Part]:
    """A part, and the parts that it is read by."""
    if not isinstance(part, Again):
        return [part]
    inner = [part.inner] * bool(part.inner) + [*part.held] + [part.keys] * bool(part.keys)
    return [part, *(of for one in inner for of in all_in(one))]


def peano(at: int) -> str:
    """A number as a pattern."""
    return "zero" if at == 0 else f"(suc {peano(at - 1)})"


def listed(names: str) -> list[str]:
    """The names of a table's row, each once, one that is called otherwise with what it is called."""
    return list(dict.fromkeys(re.findall(r"\S+ as \S+|\S+", names)))


def brought_in(text: str, table: dict[str, str]) -> str:
    """The lines that bring in the names of the table that a text has."""
    words, lines = set(re.findall(r"(?<![\w.-])[\w-]+", text)), []
    for module, names in table.items():
        here = [name for name in listed(names) if name.split()[-1] in words or not re.search(r"\w", name) and name.replace("◌", "") in text]
        if here:
            lines.append(f"use Rattle.{module}.{{{', '.join(here)}}}\n")
    lines += ["use Rattle.rmp_wire.specs.Msg as msg\n"] * ("msg." in text)
    return "".join(lines)


# ---- what holds of parts


def after_held(part: Part, value: str) -> str:
    """What a term begins with where a part's value was held, by a variant or a field: a number with a sign is the same then."""
    return f"rw (to_z-of_z {SIGNED[part.kind]} {value} (search rules)) " if part.kind in SIGNED else ""


def held_in(part: Optional[Part]) -> list[Part]:
    """The values of a variant."""
    return list(part.held or [part]) if part else []


def named_in(part: Optional[Part]) -> list[str]:
    """What the values of a variant are called in patterns."""
    count = len(held_in(part))
    return ["a"] if count == 1 else [f"a{at}" for at in range(count)]


def inside(part: Optional[Part], value: str = "a") -> list[str]:
    """The values of a variant, of its content."""
    count = len(held_in(part))
    return [value] if count == 1 else [f"{value}.{at}" for at in range(count)]


def called(of: str, name: str) -> str:
    """A term over the value a, with another name for it."""
    return put_in(of, {"a": name})


def product(terms: list[str], nothing: str) -> str:
    """What holds of each of some values."""
    return nothing if not terms else terms[0] if len(terms) == 1 else " × ".join(f"({term})" for term in terms)


def each(terms: list[str], nothing: str = "tt") -> str:
    """The proof that it does."""
    return nothing if not terms else terms[0] if len(terms) == 1 else f"({', '.join(terms)})"


def places_of(name: str, count: int) -> list[str]:
    """The parts of such a proof."""
    return [name] if count == 1 else [f"{name}.{at}" for at in range(count)]


def is_option(part: Part) -> bool:
    return isinstance(part, Again) and part.form == "option"


def term_at(level: Level, part: Part, kind: str) -> str:
    """The type of a part with this in place of the type again."""
    return re.sub(rf"\b{level.name}\b", kind, part.term)


def is_mapped(part: Part) -> bool:
    """Whether what it is written as is told by a path from what its mapped values are."""
    return isinstance(part, Again) and bool(part.mapped)


def is_map(part: Part) -> bool:
    return isinstance(part, Again) and part.keys is not None


def data_from(part: Part, value: str) -> str:
    """What a part is written as, over the type's own data."""
    return (part.own if isinstance(part, Again) else part.data).format(a=value)


def reading(level: Level, part: Part) -> str:
    """What a part is read from, by its value."""
    return f"(λ (k : Msg) (x : {part.term}). {part.reads.format(reads=f'Is{level.name}', k='k', a='x')})"


def same_of(part: Part) -> str:
    """That two values have the same content."""
    return f"(λ (x y : {part.term}). {part.same_as('x', 'y')})"


def wider(part: Part, value: str, by: tuple[str, str, str]) -> str:
    """What one reading of a part says by another: each message that the type is read from in one way is one in the other."""
    if not isinstance(part, Again):
        return "(λ m h. h)"
    return f"(λ m h. {put_in(part.wider, dict(zip('PQf', by), a=value))})"


# ---- definitions


def cases_of(part: Part, name: str) -> list[tuple[str, str, str]]:
    """How a value of this name is told apart where a level is mapped, with that P holds of its parts, and what is known of it on the way."""
    if isinstance(part, Again):
        return [tuple(called(term, name) for term in case) for case in part.patterns]
    return [(name, "", part.fits.format(a=name))]


def cases(part: Optional[Part]) -> Iterator[list[str]]:
    """How a variant's values are told apart where a level is mapped."""
    for case in itertools.product(*(cases_of(held, name) for held, name in zip(held_in(part), named_in(part)))):
        yield [value for value, *_ in case]


def is_apart(part: Optional[Part]) -> bool:
    """Whether what a variant is written as, by its values, is told by a lemma: that of an option, or a map."""
    return any(is_option(held) or is_mapped(held) for held in held_in(part))


def map_order(part: Again) -> Keys:
    """The order of a map's keys."""
    return ORDERS[part.keys.kind]


def has_map(part: Optional[Part]) -> bool:
    """Whether a variant holds a map, or what is written as one is."""
    return any(is_mapped(held) for held in held_in(part))


def at_value(level: Level, shape: Shape, part: Optional[Part], values: list[str]) -> str:
    """That a variant is written so, which holds a map."""
    return f"{level.low}_at_{shape.name} {' '.join(values)}" if has_map(part) else ""


def inductive(level: Level, kids: str, hold: str, through: str) -> list[tuple[str, str]]:
    """The same, by what its parts are and the lines of two lemmas on them."""
    return [("", TEXTS.fill("induction", level, kids=kids, hold=hold)), ("F", TEXTS.fill("through", level, through=through)), *known_of(level)]


def fits_of(level: Level, fits: str) -> tuple[str, str]:
    """What is known of a value, by these lines on each of its forms."""
    return "F", TEXTS.fill("fits_of", level, fits=fits)


def known_of(level: Level) -> list[tuple[str, str]]:
    """What is known of a value is known of its parts, and what it is written as is one level of it."""
    return [("F", TEXTS.fill("fits_is", level)), ("D", TEXTS.fill("data_is", level))]


def has_truth(of: Declared) -> bool:
    """Whether a default of the type is true or false."""
    return any(field.default and field.kind == "bool" for shape in of.shapes() for field in shape.fields)


# Where the words of the libraries come from.
LIBRARY = TABLES["recursive terms"]
# Words that proofs bring in beside those, or that have a meaning of their own.
MORE = set("Values Gathers StructRun Result Slot Msgs IsOpen IsMapOpen IsStructOpen TakesPlace ReadsPairs Collects Unit Prim".split()) | QUOTED


def is_taken(name: str) -> bool:
    """Whether a type's name is another word in its files."""
    return name in MORE or any(name in names.split() for names in LIBRARY.values())


def tables(level: Level) -> dict[str, str]:
    """Where the words of its files come from."""
    name, low, crate, declared = level.name, level.low, level.crate, level.declared
    levels = "names level data layer_fits fits made out variant read induction fits_out fits_in is is_at own is_own".split()
    words = [f"{name}Case", f"{name}In", f"Is{name}", f"{name}Parts", f"{name}Fits", f"{name}Fields", f"{name}Read"]
    words += [f"{of.name}From{at}" for of in (level, *level.contents()) for at in range(len(of.fields) + 1)]
    words += [word for of in level.contents() for word in (f"{of.name}Fields", f"{of.name}Read", f"{of.low}_names")]
    words += [f"{name}Row{shape.name}" for shape, _ in level.rows()]
    words += [f"{low}_at_{shape.name}" for shape, part in level.variants if is_apart(part)]
    return {
        **LIBRARY,
        "std.proofs.Common": LIBRARY["std.proofs.Common"] + " true false" * has_truth(level.of),
        declared: level.brought("{name} out-{name}"),
        f"{declared.rpartition('.')[0]}.TheConstants": " ".join(sorted(level.of.constants())),
        f"{declared}.TheFolds": level.brought("ind-{name} fold-{name} rec-{name} map-{name} rec-roll-{name} fold_out-{name}"),
        f"{declared}.TheOpen": level.brought("{name}-F"),
        f"{declared}.TheViews": level.brought("roll-{name} out-roll-{name} roll-out-{name}"),
        f"{crate}.specs.{name}Levels": " ".join([*words, *(f"{low}_{word}" for word in levels)]),
        **{f"{crate}.specs.{part.kind}Leaf": part.leaf_words() for part in level.own_leaves()},
        **{part.declared[1]: part.kind for part in level.own_leaves()},
        **homes_of(level.given, level.types),
    }


def file_of(level: Level, own: str, about: str, sections: list[tuple[str, str]], known: Optional[dict[str, str]] = None) -> str:
    """A file's text: what it is about, what it brings in, and its items, in sections; these are known from other files."""
    table = {module: names for module, names in tables(level).items() if module != f"{level.crate}.specs.{own}"}
    text = put_together(level, sections, known or {})
    return f"-- {about}\n{brought_in(text, table)}{text}"
