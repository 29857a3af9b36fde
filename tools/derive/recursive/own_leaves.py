"""The file that derive.py writes for a type of the crate that a recursive type holds: what it is read from and written as, and its laws.

Such a type is an enum whose variants hold nothing, or a struct whose fields have names.
"""
from __future__ import annotations

from ..table.types import Field
from ..flat.terms import Words, alias, by_cases, chained, codes, data_of, known_of
from .fields import pairs_of
from .leaves import Part, Values
from .levels import LIBRARY, brought_in, each, has_truth, places_of, product
from .rounds import both_fields, field_rows, only_parts, places_in, row_proofs, some_facts
from shared.texts import Texts

TEXTS = Texts(__file__)


def leaf_file(part: Part, crate: str, has_rounds: bool) -> str:
    """The text of specs/TLeaf.antt."""
    of, declared = part.declared
    text = (struct_definitions(part) + struct_laws(part) * has_rounds) if of.shape else enum_definitions(part) + enum_laws(part) * has_rounds
    variants = f"use Rattle.{declared}.TheVariants as {alias(of)}\n" * (not of.shape)
    return f"""-- What {of.name} is read from and written as, where a recursive type holds it. Written by tools/derive.py.
{brought_in(text, tables(part, crate))}{variants}{text}"""


def definitions(part: Part, keys: list[str], data: str, fits: str, reads: str) -> str:
    """What it is written as and read from."""
    name, low = part.kind, part.word
    return TEXTS.fill("definitions", low=low, codes=codes(keys), name=name, data=data, fits=fits, reads=reads)


# ---- an enum


def enum_definitions(part: Part) -> str:
    of, words = part.declared[0], Words(part.declared[0])
    data, fits = (by_cases(of, [term(words, shape) for shape in of.variants]) for term in (data_of, known_of))
    cases = [f"Case (λ c. (v ≡ {alias(of)}.{shape.name}) × Bare c)" for shape in of.variants]
    return definitions(part, [shape.key for shape in of.variants], data, fits, f"OfVariant {part.word}_names ({chained(cases, 'NoCase')})")


def enum_laws(part: Part) -> str:
    """It isn't refused and is never nil; and what it lowers to is read as it, and as nothing else."""
    of, name, low = part.declared[0], part.kind, part.word
    some = rows = onlys = others = ""
    for at, shape in enumerate(of.variants):
        value, key = f"{alias(of)}.{shape.name}", f"(codes \"{shape.key}\")"
        some += f"{low}_some {value} = refl\n"
        others += f"  {low}_other {value} = bare_other s {key}\n"
        rows += f"  {low}_row {value} fits = bare_row s {low}_names {key} {at} refl _ (refl, tt)\n"
        onlys += TEXTS.fill("variant_only", low=low, value=value, key=key, at=at, name=name)
    return TEXTS.fill("enum_laws", low=low, name=name, some=some, others=others, rows=rows, onlys=onlys)


# ---- a struct


def fields_of(part: Part, value: str = "v") -> list[tuple[Field, Part, str]]:
    """Its fields, with what is known of each, and what it is called."""
    return [(field, of, f"{value}.{field.name}") for field, of in zip(part.declared[0].shape.fields, part.made_of)]


def missing(field: Field, of: Part, place: str) -> str:
    """What holds of a field that isn't there."""
    return f"({field.default.holds(place) if field.default else f'Absent {of.absent} {place}'})"


def listed(fields: list[Field], data: list[str]) -> str:
    """The list of them with what they are written as."""
    return f"({pairs_of(fields, data)})"


def struct_definitions(part: Part) -> str:
    fields = fields_of(part)
    pairs = listed([field for field, _, _ in fields], [of.data.format(a=place) for _, of, place in fields])
    holds = [f"Field (λ j. {of.reads.format(k='j', a=place)}) {missing(field, of, place)}" for field, of, place in fields]
    fits = product([of.fits.format(a=place) for _, of, place in fields], "⊤")
    return definitions(part, [field.key for field, _, _ in fields], f"structure_of {pairs}", fits, f"OfFields {part.word}_names ({chained(holds, 'NoField')})")


def alike_law(part: Part) -> str:
    """Values of the same content are written alike."""
    name, low, fields = part.kind, part.word, fields_of(part)
    same = product([of.same_as(place, f"w.{field.name}") for field, of, place in fields], "⊤")
    data = [f"({of.alike_by(place, f'w.{field.name}', e)}) t" for (field, of, place), e in zip(fields, places_of("e", len(fields)))]
    return TEXTS.fill("alike_law", name=name, same=same, low=low, listed=listed([field for field, _, _ in fields], data))


def struct_laws(part: Part) -> str:
    """It isn't refused and is never nil; and what it lowers to is read as it, and as nothing else."""
    name, low, fields = part.kind, part.word, fields_of(part)
    own, parts, values = zip(*fields)
    pairs = listed(own, [of.data.format(a=place) for of, place in zip(parts, values)])
    some = some_facts(parts, values)
    reads = [f"(λ j. {of.reads.format(k='j', a=place)})" for of, place in zip(parts, values)]
    rows = field_rows(own, reads, [missing(*it) for it in fields], row_proofs(parts, values))
    facts = [f"{Values(of).reads} {Values(of).same}" for of in parts]
    told, proofs = only_parts(facts, parts, values)
    onlys = field_rows(own, told, ["⊥"] * len(own), proofs)
    both = both_fields(facts, values, [f"w.{field.name}" for field in own])
    return TEXTS.fill(
        "struct_laws", low=low, name=name, pairs=pairs, some=some, alike_law=alike_law(part), rows=rows,
        chained=chained([f'Field {it} ⊥' for it in told], 'NoField'), onlys=onlys, both=both, each=each(places_in('x', len(own))),
    )


def tables(part: Part, crate: str) -> dict[str, str]:
    """Where the file's words come from."""
    of, declared = part.declared
    own = [it for it in part.within() if it.declared and it is not part]
    return {
        **LIBRARY,
        "std.proofs.Common": LIBRARY["std.proofs.Common"] + " true false" * has_truth(of),
        declared: of.name,
        f"{declared.rpartition('.')[0]}.TheConstants": " ".join(sorted(of.constants())),
        **{f"{crate}.specs.{it.kind}Leaf": it.leaf_words() for it in own},
        **{it.declared[1]: it.kind for it in own},
    }
