"""The definitions that derive.py writes for a recursive struct: what its values are read from and written as, level by level."""
from __future__ import annotations

from ..table.types import Field, quoted
from .fields import counted_lines, from_lines, names_lines, pairs_of, wider_lines
from .given import in_order
from .leaves import Part
from .shapes import HERE
from .forms import Again
from .levels import Level, called, data_from, file_of, fits_of, inductive, is_mapped, is_option, term_at
from shared.texts import Texts

TEXTS = Texts(__file__)


def shape_of(level: Level) -> str:
    """What it is read from, by steps."""
    return TEXTS.fill("shape_of", level, names=names_lines(level), fields=from_lines(level))


def with_option(field: Field) -> str:
    """A level that has the option `o` in this field, and else is `y`."""
    return f"(record y {{ {quoted(field.name)} = o; }})"


def own_fields(level: Level, data: list[str]) -> str:
    """The fields with what they are written as."""
    return pairs_of([field for field, _ in level.fields], data)


def written_of(level: Level) -> list[tuple[str, str]]:
    """What it is written as, level by level, and what is known of it."""
    data = [part.data.format(a=f"v.{field.name}") for field, part in level.fields]
    fits = [f"({part.fits.format(a=f'v.{field.name}', fits='fits').replace(HERE, 'X')})" for field, part in level.fields]
    return [("D", TEXTS.fill("data_of", level, data=own_fields(level, data))), fits_of(level, f"{level.low}_layer_fits X at fits v = {' × '.join(fits)}\n")]


def steps_of(level: Level) -> str:
    """One step of its reading by what its parts are read from."""
    name = level.name
    fields = f"{name}Fields"
    return TEXTS.fill("steps_of", level, wider=wider_lines(level), fields=fields, counted=counted_lines(level))


def again_of(level: Level) -> list[tuple[Field, Again]]:
    """The fields that hold the type again."""
    return [(field, part) for field, part in level.fields if isinstance(part, Again)]


def option_lines(level: Level) -> str:
    """That P holds of what an option has, and what is known of it, by its cases."""
    lines = ''
    for field, part in again_of(level):
        if is_of_options(part):
            lines += through_options(level, field, part)
        if not is_option(part):
            continue
        of = field.name
        made = with_option(field)
        if part.inner:
            lines += composed_lines(level, field, part)
            continue
        lines += TEXTS.fill("option_holds", level, field=of, made=made)
    return lines


def is_of_options(part: Part) -> bool:
    """Whether it is a list of options, whose cases no term tells apart where a level is mapped."""
    return isinstance(part, Again) and part.form == "list" and bool(part.inner) and part.inner.form == "option"


def known_at(level: Level, part: Again, value: str, mapped: str) -> tuple[str, str]:
    """What is known of a value of a level, and of what it is mapped to."""
    return part.fits.format(a=value, fits="(λ (p : X). k (at p))").replace(HERE, "X"), part.fits.format(a=mapped, fits="k").replace(HERE, level.name)


def through_options(level: Level, field: Field, part: Again) -> str:
    """What is known of each option of a list, where a level is mapped."""
    name, of, at = level.name, field.name, f"{level.low}_through_{field.name}"
    known = known_at(level, part, f"y.{of}", f"(map-{name} X {name} at y).{of}")
    return TEXTS.fill(
        "through_options", level, at=at, known=known[0], mapped=known[1], through=called(part.patterns[0][2], f'y.{of}').removesuffix(' i'),
    )


def mapped_options(level: Level, field: Field, part: Again) -> str:
    """What each option of a list is written as."""
    name, low, of, at = level.name, level.low, field.name, f"{level.low}_mapped_{field.name}"
    word, _, path = part.mapped.format(a=f"y.{of}").removesuffix(" i)").partition(" (")
    return TEXTS.fill(
        "mapped_options", level, at=at, data=part.data.format(a=f'(map-{name} {name} (Option Data) {low}_data y).{of}'),
        own=part.own.format(a=f'y.{of}'), word=word, path=path,
    )


def composed_lines(level: Level, field: Field, part: Again) -> str:
    """The same of an option of what has the type inside."""
    name, low, of, made = level.name, level.low, field.name, with_option(field)
    head, through = f"{low}_hold_{of} : {{B : Type 0}} (P : {name} → Type 0) (first : B → {name}) → ((b : B) → P (first b))", f"{low}_through_{of}"
    lines = f"""
{head} → (y : {name}-F B) (o : {term_at(level, part, 'B')}) → {part.parts.format(a=f'(map-{name} B {name} first {made}).{of}')}
"""
    lines += "".join(f"{low}_hold_{of} P first h y {pattern} = {hold}\n" for pattern, hold, _ in part.patterns)
    known = known_at(level, part, "o", f"(map-{name} X {name} at {made}).{of}")
    lines += f"\n{through} : (X : Type 0) (at : X → {name}) (k : {name} → Type 0) (y : {name}-F X) (o : {term_at(level, part, 'X')}) → {known[0]} ≡ {known[1]}\n"
    return lines + "".join(f"{through} X at k y {pattern} = λ i. {term}\n" for pattern, _, term in part.patterns)


def induction_of(level: Level) -> list[tuple[str, str]]:
    """What holds of a value where it holds of its parts holds of each value."""
    name, low = level.name, level.low
    again = again_of(level)
    kids = " × ".join(f"({part.parts.format(a=f'x.{field.name}')})" for field, part in again)
    holds = [f"{low}_hold_{field.name} P first h y y.{field.name}" if is_option(part) else called(part.patterns[0][1], f"y.{field.name}") for field, part in again]
    through = []
    for field, part in level.fields:
        if not isinstance(part, Again):
            through.append(f"({part.fits.format(a=f'x.{field.name}')})")
        elif is_of_options(part):
            through.append(f"({low}_through_{field.name} X at k x i)")
        elif is_option(part):
            through.append(f"({low}_through_{field.name} X at k x x.{field.name} i)")
        else:
            through.append(f"({called(part.patterns[0][2], f'x.{field.name}')})")
    hold = holds[0] if len(holds) == 1 else f"({', '.join(holds)})"
    return [("", option_lines(level)), *inductive(
        level, f"{name}Parts P x = {kids}\n", f"{low}_parts_hold P first h y = {hold}\n", f"{low}_through X at k x = λ i. {' × '.join(through)}\n"
    )]


def own_pairs(level: Level, of: str) -> str:
    return f"({own_fields(level, [data_from(part, f'{of}.{field.name}') for field, part in level.fields])})"


def own_of(level: Level) -> str:
    """What it is written as, by what its parts are."""
    name, low, own = level.name, level.low, level.own()
    mapped = f"map-{name} {name} (Option Data) {low}_data"
    lines, data = "", []
    for field, part in level.fields:
        data.append(data_from(part, f"{own}.{field.name}"))
        if is_option(part):
            at = f"{low}_at_{field.name}"
            lines += TEXTS.fill(
                "option_data", level, at=at, term=part.term, mapped=part.data.format(a=f'({mapped} {with_option(field)}).{field.name}'),
                data=data_from(part, 'o'),
            )
            data[-1] = f"{at} {own} {own}.{field.name} i"
        elif is_of_options(part):
            lines += mapped_options(level, field, part)
            data[-1] = f"{low}_mapped_{field.name} {own} i"
        elif is_mapped(part):
            data[-1] = part.mapped.format(a=f"{own}.{field.name}")
    is_ = f"{low}_is v ∙ (λ i. structure_of ({own_fields(level, data)}))" if lines or any(is_mapped(part) for _, part in level.fields) else f"{low}_is v"
    return TEXTS.fill("own_of", level, lines=lines, pairs=own_pairs(level, 'x'), own=own, is_=is_)


def sections(level: Level) -> list[tuple[str, str]]:
    """The definitions, by what they depend on."""
    return [*in_order(level, shape_of(level), written_of(level), steps_of(level)), *induction_of(level), ("D", own_of(level))]


def levels_file(level: Level) -> str:
    about = f"What the recursive type {level.name} is read from and written as, level by level. Written by tools/derive.py."
    return file_of(level, f"{level.name}Levels", about, sections(level))
