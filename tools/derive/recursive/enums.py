"""The definitions that derive.py writes for a recursive enum: what its values are read from and written as, level by level."""
from __future__ import annotations

import itertools
from collections.abc import Iterable

from ..table.types import Shape
from ..flat.terms import chained
from .fields import counted_lines, from_lines, names_lines, pairs_of, wider_lines
from .given import in_order
from .leaves import Part
from .shapes import HERE
from .forms import Again
from .levels import Content, Level, called, cases, cases_of, data_from, each, file_of, fits_of, has_map, held_in, inductive, inside
from .levels import is_apart, is_mapped, named_in, peano, product, wider
from shared.terms import bracketed
from shared.texts import Texts

TEXTS = Texts(__file__)


def shape_of(level: Level) -> str:
    """What it is read from, by steps."""
    name = level.name
    cases = "NoCase"
    for shape, part in reversed(level.variants):
        made = level.made(shape, inside(part)).strip("()")
        if part is None:
            head = f"λ c. (out-{name} v ≡ {made}) × Bare c"
        else:
            reads = part.reads.format(reads="reads", k="k", a="a")
            head = f"λ c. (a : {part.term}) × (out-{name} v ≡ {made}) × Content (λ k. {reads}) c"
        cases = f"Case ({head})\n    {cases}" if cases == "NoCase" else f"Case ({head})\n    ({cases})"
    return TEXTS.fill(
        "shape_of", level, names=level.names(),
        contents=''.join([*(row_shape(level, shape, part) for shape, part in level.rows()), *(fields_shape(of) for of in level.contents())]),
        cases=cases,
    )


def row_reads(reads: Iterable[str]) -> str:
    """A list of items of which these hold."""
    return chained([f"AndThen {term}" for term in reads], "NoMore")


def row_shape(level: Level, shape: Shape, part: Part) -> str:
    """What several values of a variant are read from."""
    word, again = f"{level.name}Row{shape.name}", not part.is_leaf
    reads = [f"(λ j. {of.reads.format(reads='reads', k='j', a=value)})" for of, value in zip(part.held, inside(part))]
    return TEXTS.fill(
        "row_shape", variant=shape.name, word=word, by=f'(Msg → {level.name} → Type 0) → ' * again, term=part.term, reads='reads ' * again,
        row_reads=row_reads(reads),
    )


def fields_shape(of: Content) -> str:
    """What the named fields of a variant are read from."""
    return TEXTS.fill(
        "fields_shape", of, variant=of.shape.name, names=names_lines(of)[1:], fields=from_lines(of),
        by=f'(Msg → {of.whole.name} → Type 0) → ' * (not of.is_leaf()), term=of.term, read=of.said('Read', 'reads'),
        its_fields=of.said('Fields', 'reads'),
    )


def content_data(shape: Shape, data: list[str]) -> str:
    """What a variant is written as, of what its values are."""
    of = f"(codes \"{shape.key}\")"
    if shape.kind == "named":
        return f"struct_variant_of {of} ({pairs_of(shape.fields, data)})"
    if len(data) > 1:
        return f"tuple_variant_of {of} {bracketed(data)}"
    return f"newtype_variant_of {of} ({data[0]})" if data else f"Some (unit_variant {of})"


def written_of(level: Level) -> list[tuple[str, str]]:
    """What it is written as, level by level, and what is known of it."""
    name, low = level.name, level.low
    datas, fits = "", ""
    for shape, part in level.variants:
        held, names = held_in(part), named_in(part)
        made = level.made(shape, names)
        datas += f"{low}_level {made} = {content_data(shape, [of.data.format(a=name) for of, name in zip(held, names)])}\n"
        fits += f"{low}_layer_fits X at fits {made} = {product([of.fits.format(a=name, fits='fits').replace(HERE, 'X') for of, name in zip(held, names)], '⊤')}\n"
    return [("D", TEXTS.fill("data_of", level, datas=datas)), fits_of(level, fits)]


def steps_of(level: Level) -> str:
    """One step of its reading by what its parts are read from."""
    name, low = level.name, level.low
    wider, counted = "", ""
    for at, (shape, part) in enumerate(level.variants):
        place = peano(at)
        if not isinstance(part, Again):
            wider += f"{low}_as P Q f v {place} c h = h\n"
            counted += f"{low}_in v {place} c h = (zero, h)\n"
            continue
        wider += f"{low}_as P Q f v {place} None (a, e, h) = absurd h\n{low}_as P Q f v {place} (Some m) (a, e, h) = (a, e, {part.wider})\n"
        counted += f"{low}_in v {place} None (a, e, h) = absurd h\n{low}_in v {place} (Some m) (a, e, h) = let i = {part.counted} in (i.0, (a, e, i.1))\n"
    end = last_place(len(level.variants))
    wider += f"{low}_as P Q f v {end} c h = absurd h\n"
    counted += f"{low}_in v {end} c h = absurd h\n"
    case = f"{name}Case"
    rows, contents = [(shape, part) for shape, part in level.rows() if isinstance(part, Again)], level.contents_again()
    return TEXTS.fill(
        "steps_of", level, wider_contents=''.join([*(row_wider(level, shape, part) for shape, part in rows), *(fields_wider(of) for of in contents)]),
        case=case, wider=wider,
        counted_contents=''.join([*(row_counted(level, shape, part) for shape, part in rows), *(fields_counted(of) for of in contents)]), counted=counted,
    )


def items_wider(part: Part, by: tuple[str, str, str], start: int = 0) -> str:
    """What one reading of the values from a place on says by another."""
    values = list(zip(part.held, inside(part)))[start:]
    return chained([f"then_as _ _ _ _ {wider(of, value, by)}" for of, value in values], "(λ ms h. h)")


def row_wider(level: Level, shape: Shape, part: Again) -> str:
    """What one reading of several values says by another."""
    word = f'{level.name}Row{shape.name}'
    return TEXTS.fill("row_wider", level, variant=shape.name, term=part.term, word=word, items=items_wider(part, ('P', 'Q', 'f')))


def row_counted(level: Level, shape: Shape, part: Again) -> str:
    """The number of steps in which several values are read."""
    name, low, word = level.name, level.low, f"{level.name}Row{shape.name}"
    by = (f"({name}In i)", f"({name}In (suc i))", f"({low}_up i)")
    steps = []
    for at, (of, value) in enumerate(zip(part.held, inside(part))):
        into = f"(λ m h. {called(of.counted, value)})" if isinstance(of, Again) else "(λ m h. (zero, h))"
        steps.append(f"then_in _ _ _ _ (λ i. {wider(of, value, by)}) (λ i. {items_wider(part, by, at + 1)}) {into}")
    return TEXTS.fill("row_counted", level, variant=shape.name, term=part.term, word=word, steps=chained(steps, '(λ ms h. (zero, h))'))


def fields_wider(of: Content) -> str:
    """What one reading of a variant's named fields says by another."""
    name, at = of.whole.name, f"{of.whole.low}_as_{of.shape.name}"
    fields = [f"(λ fs. {of.name}Fields {reads} fs a)" for reads in "PQ"]
    return TEXTS.fill("fields_wider", of, lines=wider_lines(of), at=at, whole=name, term=of.term, fields=' '.join(fields))


def fields_counted(of: Content) -> str:
    """The number of steps in which they are read."""
    steps, at = f"{of.whole.name}In", f"{of.whole.low}_in_{of.shape.name}"
    fields = f"(λ fs. {of.name}Fields {of.reads} fs a) (λ n fs. {of.name}Fields ({steps} n) fs a)"
    return TEXTS.fill("fields_counted", of, lines=counted_lines(of), at=at, term=of.term, reads=of.reads, steps=steps, fields=fields)


def last_place(count: int) -> str:
    """A pattern of each place after so many."""
    return "k" if count == 0 else f"(suc {last_place(count - 1)})"


def induction_of(level: Level) -> list[tuple[str, str]]:
    """What holds of a value where it holds of its parts holds of each value, and what is known of a value is known of its parts."""
    name, low = level.name, level.low
    kids, hold, through = "", "", ""
    for shape, part in level.variants:
        held, names = held_in(part), named_in(part)
        kids += f"{name}Parts P {level.made(shape, names)} = {product([of.parts.format(a=x) for of, x in zip(held, names) if isinstance(of, Again)], '⊤')}\n"
        for cases in itertools.product(*(cases_of(of, x) for of, x in zip(held, names))):
            made = level.made(shape, [value for value, *_ in cases])
            hold += f"{low}_parts_hold P first h {made} = {each([holds for _, holds, _ in cases if holds])}\n"
            known = product([known for *_, known in cases], "⊤")
            through += f"{low}_through X at k {made} = {f'λ i. {known}' if isinstance(part, Again) else 'refl'}\n"
    return inductive(level, kids, hold, through)


def written_apart(level: Level, shape: Shape, part: Part) -> str:
    """What a variant is written as that holds an option, or a map."""
    name, low = level.name, level.low
    mapped = f"map-{name} {name} (Option Data) {low}_data"
    held, names = held_in(part), named_in(part)
    lines = ""
    for values in cases(part):
        data = [of.mapped.format(a=value) if is_mapped(of) else data_from(of, value) for of, value in zip(held, values)]
        lines += f"{low}_at_{shape.name} {' '.join(values)} = {f'λ i. {content_data(shape, data)}' if has_map(part) else 'refl'}\n"
    bound = " ".join(f"({value} : {of.term})" for value, of in zip(names, held))
    is_ = f"{low}_level ({mapped} {level.made(shape, names)}) ≡ {content_data(shape, [data_from(of, value) for of, value in zip(held, names)])}"
    return f"\npub {low}_at_{shape.name} : {bound} → {is_}\n{lines}"


def sections(level: Level) -> list[tuple[str, str]]:
    """The definitions, by what they depend on."""
    apart = "".join(written_apart(level, shape, part) for shape, part in level.variants if is_apart(part))
    return [*in_order(level, shape_of(level), written_of(level), steps_of(level)), *induction_of(level), ("D", apart)]


def levels_file(level: Level) -> str:
    about = f"What the recursive type {level.name} is read from and written as, level by level. Written by tools/derive.py."
    return file_of(level, f"{level.name}Levels", about, sections(level))
