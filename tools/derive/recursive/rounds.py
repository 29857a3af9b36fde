"""The laws that derive.py writes for a recursive enum: its values are read as they were written, and as nothing else."""
from __future__ import annotations

from collections.abc import Iterable, Sequence
from typing import Optional

from ..table.types import Field, Shape
from ..flat.terms import chained
from .enums import content_data, row_reads, sections
from .fields import pairs_of
from .given import SETTINGS, bound_kinds, words_of
from .leaves import Part, put_in
from .forms import Again
from .levels import Level, at_value, cases, data_from, each, file_of, held_in, inside, is_apart, named_in, places_of, reading, same_of
from shared.terms import bracketed
from shared.texts import Texts

TEXTS = Texts(__file__)


def rounds_file(level: Level) -> str:
    about = f"Each {level.name} is read as it was written, and as nothing else. Written by tools/derive.py."
    return file_of(level, f"{level.name}Rounds", about, back_of(level) + only_of(level), words_of(level, sections(level)))


def known_parts(held: Sequence[Part]) -> list[dict[str, str]]:
    """What is known of the parts of each of some values, in place of h."""
    places = iter(places_of("h", sum(isinstance(of, Again) for of in held)))
    return [{"h": next(places)} if isinstance(of, Again) else {} for of in held]


def some_facts(held: Sequence[Part], values: list[str]) -> str:
    """That none of these values is refused."""
    return "".join(f"({put_in(of.is_some.format(a=value), h)}, " for of, value, h in zip(held, values, known_parts(held))) + "tt" + ")" * len(held)


def row_proofs(held: Sequence[Part], values: list[str]) -> list[str]:
    """That each of these values is read as it was written."""
    known = zip(held, values, places_of("fit", len(held)), known_parts(held))
    return [put_in(of.row.format(a=value, fit=fit), h) for of, value, fit, h in known]


def rows(terms: list[str]) -> str:
    """The rows of several values."""
    return chained([f"rows_cons s _ _ {term}" for term in terms], "(rows_none s)")


def field_rows(fields: Iterable[Field], reads: list[str], absent: list[str], proofs: list[str]) -> str:
    """Those of fields, which are read from these messages."""
    return chained([f'fields_cons s (codes "{field.key}") _ _ _ {read} {gone} _ ({proof})' for field, read, gone, proof in zip(fields, reads, absent, proofs)], "(fields_none s)")


def back_variant(level: Level, at: int, shape: Shape, part: Optional[Part]) -> tuple[str, str, str]:
    """The same of one variant: the equations of each law."""
    name, low = level.name, level.low
    other = f"  {low}_level_other {level.made(shape, named_in(part))} e = {never_nil(shape, part)} e\n"
    some = rounds = ""
    for values in cases(part):
        made, is_ = level.made(shape, values), at_value(level, shape, part, values)
        some += f"{low}_level_some {made} h = {carried('IsSome', is_, back_some(shape, part, values))}\n"
        holds = f"(λ d. LowersTo s d (λ m. OfVariant {low}_names ({name}Case Is{name} v) m))"
        rounds += f"  {low}_level_round v {made} e h fit = {carried(holds, is_, back_row(level, at, shape, part, values))}\n"
    return some, rounds, other


def carried(holds: str, is_: str, term: str) -> str:
    """That this holds of what a variant is written as, where that is told by a lemma."""
    return f"subst {holds} (sym ({is_}))\n      ({term})" if is_ else term


def word_of(shape: Shape, part: Optional[Part]) -> str:
    """What the lemmas on a variant are called."""
    if part is None:
        return "bare"
    return "struct_variant" if part.named else "tuple_variant" if part.held else "newtype_variant"


def terms_of(shape: Shape, part: Optional[Part], data: list[str]) -> str:
    """What a variant is written as, as the arguments of a lemma: its name, and what its values are."""
    of = f"(codes \"{shape.key}\")"
    if part is None:
        return of
    if part.named:
        return f"{of} ({pairs_of(shape.fields, data)})"
    return f"{of} {bracketed(data) if part.held else f'({data[0]})'}"


def never_nil(shape: Shape, part: Optional[Part]) -> str:
    """That a variant isn't written as nil."""
    data = [held.data.format(a=value) for held, value in zip(held_in(part), named_in(part))]
    return f"{word_of(shape, part)}_other s {terms_of(shape, part, data)}"


def back_some(shape: Shape, part: Optional[Part], values: list[str]) -> str:
    """That a variant of these values isn't refused."""
    if part is None:
        return "refl"
    terms = terms_of(shape, part, [data_from(one, value) for one, value in zip(held_in(part), values)])
    if part.held:
        return f"{word_of(shape, part)}_all {terms} {some_facts(part.held, values)}"
    return f"newtype_variant_some {terms} {part.is_some.format(a=values[0])}"


def back_row(level: Level, at: int, shape: Shape, part: Optional[Part], values: list[str]) -> str:
    """That a variant of these values is read as it was written."""
    name, low, held = level.name, level.low, held_in(part)
    place = f"s {low}_names (codes \"{shape.key}\") {at} refl ({name}Case Is{name} v)"
    if not held:
        return f"bare_row {place} (e, tt)"
    proofs = row_proofs(held, values)
    whole = each(values)
    if part.named:
        of = part.named
        reads = [f"(λ k. {one.reads.format(reads=level.reads, k='k', a=value)})" for one, value in zip(held, values)]
        absent = [f"(Absent {one.absent} {value})" for one, value in zip(held, values)]
        fields = f"{of.low}_names _ (λ fs. {of.said('Fields', level.reads)} fs {whole}) refl"
        return f"struct_variant_row {place} {fields} (λ m p. ({whole}, e, p))\n      ({field_rows(shape.fields, reads, absent, proofs)})"
    reads = [one.reads.format(reads=f"Is{name}", k="m", a=value) for one, value in zip(held, values)]
    if len(held) == 1:
        return f"newtype_variant_row {place}\n      ({data_from(held[0], values[0])}) (λ m. {reads[0]}) (λ m p. ({values[0]}, e, p)) ({proofs[0]})"
    terms = [f"(λ m. {term}) _ ({proof})" for term, proof in zip(reads, proofs)]
    return f"tuple_variant_row {place} _ _ (λ m p. ({whole}, e, p))\n      ({rows(terms)})"


def back_of(level: Level) -> list[tuple[str, str]]:
    """No value is refused; what it lowers to is read as it; and it is never nil."""
    laws = zip(*(back_variant(level, at, shape, part) for at, (shape, part) in enumerate(level.variants)))
    some, rounds, other = ("".join(lines) for lines in laws)
    return [
        ("DS", TEXTS.fill("some", level, some=some)),
        ("sD", TEXTS.fill("never_nil", level, other=other)),
        ("sRDFB", TEXTS.fill("round", level, settings=SETTINGS * bool(level.given), rounds=rounds)),
    ]


def only_of(level: Level) -> list[tuple[str, str]]:
    """Nothing else is read of what a value lowers to."""
    lines = "".join(only_variant(level, at, shape, part, values) for at, (shape, part) in enumerate(level.variants) for values in cases(part))
    only = TEXTS.fill("only", level, kinds=bound_kinds(level), lines=lines, bound=level.bound)
    return [same_law(level), ("D", TEXTS.fill("by", level)), ("sRDFQO", only)]


def same_law(level: Level) -> tuple[str, str]:
    """What values of the same content are: they are written alike."""
    return "Q", TEXTS.fill("same", level, bound=bound_kinds(level))


def only_variant(level: Level, at: int, shape: Shape, part: Optional[Part], values: list[str]) -> str:
    """The same of one variant."""
    name, low = level.name, level.low
    made, of = level.made(shape, values), f"(codes \"{shape.key}\")"
    if part is None:
        holds = f"(AtPlace {at} AnyContent)"
        return TEXTS.fill("bare_only", level, made=made, of=of, holds=holds, at=at, bound=level.bound)
    others, is_ = inside(part, "j.0"), at_value(level, shape, part, values)
    data = content_data(shape, [data_from(held, value) for held, value in zip(held_in(part), values)])
    row, same = (only_fields if part.named else only_row if part.held else only_value)(level, at, shape, part, values)
    back = f" ∙ sym ({low}_at_{shape.name} {' '.join(others)})" * is_apart(part)
    term = TEXTS.fill(
        "variant_only", level, data=data, made=made, row=row, at=at, bound=level.bound, is_=f'{is_} ∙ ' * bool(is_), same=same, back=back,
        other=level.made(shape, others),
    )
    holds = f"(λ d. LowersTo s d ({name}LevelOnly {made}))"
    return f"  {low}_level_only {made} h fit =\n      {carried(holds, is_, term)}\n"


def facts_of(level: Level, held: Sequence[Part]) -> list[str]:
    """What each of some values is read from, and by what two of its type are alike."""
    return [f"{reading(level, of)} {same_of(of)}" for of in held]


def only_parts(facts: list[str], held: Sequence[Part], values: list[str]) -> tuple[list[str], list[str]]:
    """What only each of these values is read from, and that it is."""
    known = zip(held, values, places_of("fit", len(values)), known_parts(held))
    return [f"(λ k. Only {fact} k {value})" for fact, value in zip(facts, values)], [put_in(of.only.format(a=value, fit=fit), h) for of, value, fit, h in known]


def only_value(level: Level, at: int, shape: Shape, part: Part, values: list[str]) -> tuple[str, str]:
    """What a variant's only value is read from, and that all that is read from it is written alike."""
    of, data = f"(codes \"{shape.key}\")", data_from(part, values[0])
    [fact] = facts_of(level, [part])
    [reads], [proof] = only_parts([fact], [part], values)
    row = f"newtype_variant_row s {level.low}_names {of} {at} refl (AtPlace {at} (Content {reads})) ({data})\n      {reads} (λ m p. (refl, p)) ({proof})"
    same = part.alike_by(values[0], "j.0", f"(content_only {fact} {values[0]} j.0 c i j.2)", "fit")
    return row, f"ap (λ d. newtype_variant_of {of} d) ({same})"


def only_row(level: Level, at: int, shape: Shape, part: Part, values: list[str]) -> tuple[str, str]:
    """The same of several values."""
    start, others = f"s {level.low}_names (codes \"{shape.key}\") {at} refl", inside(part, "j.0")
    facts = facts_of(level, part.held)
    reads, proofs = only_parts(facts, part.held, values)
    row = f"tuple_variant_row {start} (AtPlace {at} (Content (OfRow ({row_reads(reads)})))) _ _ (λ m p. (refl, p))"
    row += f"\n      ({rows([f'{read} _ ({proof})' for read, proof in zip(reads, proofs)])})"
    items = [f"{fact} {value} {other}" for fact, value, other in zip(facts, values, others)]
    both = chained([f"item_only {it} _ _ _" for it in items[:-1]], f"(last_only {items[-1]})")
    same = f"let x = content_row _ _ _ c i j.2 (λ ks q r. ({both}) ks q r) in\n      {alike_data(level, shape, part, values, others)}"
    return row, same


def only_fields(level: Level, at: int, shape: Shape, part: Part, values: list[str]) -> tuple[str, str]:
    """The same of fields with names."""
    names, others = f"{part.named.low}_names", inside(part, "j.0")
    facts = facts_of(level, part.held)
    reads, proofs = only_parts(facts, part.held, values)
    holds = chained([f"Field {read} ⊥" for read in reads], "NoField")
    row = f"struct_variant_row s {level.low}_names (codes \"{shape.key}\") {at} refl (AtPlace {at} (Content (OfFields {names} ({holds})))) {names} _ _ refl"
    row += f" (λ m p. (refl, p))\n      ({field_rows(shape.fields, reads, ['⊥'] * len(reads), proofs)})"
    same = f"let x = content_fields {names} _ _ _ c i j.2 (λ fs q r. {both_fields(facts, values, others)} fs q r) in\n      {alike_data(level, shape, part, values, others)}"
    return row, same


def both_fields(facts: list[str], values: list[str], others: list[str]) -> str:
    """What two readings of the same fields say of each: it has the same content."""
    items = [f"{fact} {value} {other} _" for fact, value, other in zip(facts, values, others)]
    return chained([f"field_only {item} _ _ _" for item in items[:-1]], f"(last_field {items[-1]})")


def alike_data(level: Level, shape: Shape, part: Part, values: list[str], others: list[str]) -> str:
    """That the variant of such values is written alike, by what x says of each."""
    told = zip(part.held, values, others, places_in("x", len(values)), places_of("fit", len(values)))
    terms = [f"({one.alike_by(*it)}) t" for one, *it in told]
    data, other = (content_data(shape, [data_from(held, value) for held, value in zip(part.held, them)]) for them in (values, others))
    return f"let same : {data} ≡ {other} = λ t. {content_data(shape, terms)} in same"


def places_in(name: str, count: int) -> list[str]:
    """The parts of a fact and those after it, each a pair with the rest."""
    return [f"{name}{'.1' * at}{'.0' * (at < count - 1)}" for at in range(count)]
