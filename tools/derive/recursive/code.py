"""The code that derive.py writes for a recursive enum or struct."""
from __future__ import annotations

from typing import Optional

from ..table.types import Shape
from . import holders as recursive_holders
from .holders import made_of, read_by, values_in
from .leaves import Part
from .levels import Content, Level, held_in
from shared.terms import texts, tuple_of

# ---- reading


def variant_arm(level: Level, at: int, shape: Shape, part: Optional[Part]) -> list[str]:
    """How a variant is read whose name was."""
    place = "_" if at == len(level.variants) - 1 else str(at)
    if part is None:
        return [f"Ok(({place}, variant)) => match variant.unit_variant() {{", f"Ok(()) => Ok({made_of(level, shape, [])}),", "Err(e) => Err(e),", "},"]
    first, *others = read_by(level, part)
    names = values_in(part)
    given = tuple_of(names) if len(names) > 1 else names[0]
    return [
        f"Ok(({place}, variant)) => match variant.newtype_variant_with({first}", *others, ") {", f"Ok({given}) => Ok({made_of(level, shape, names)}),",
        "Err(e) => Err(e),", "},",
    ]


def enum_body(level: Level) -> list[str]:
    """How an enum is read."""
    arms = [line for at, (shape, part) in enumerate(level.variants) for line in variant_arm(level, at, shape, part)]
    return [f"match de.deserialize_enum_by::<P>({texts(shape.key for shape, _ in level.variants)}) {{", *arms, "Err(e) => Err(e),", "}"]


def field_arm(level: Level, at: int) -> list[str]:
    """How the field at a place is read."""
    place = "_" if at == len(level.fields) - 1 else str(at)
    first, *others = read_by(level.whole, level.fields[at][1])
    return [f"Ok(Some({place})) => match fields.next_value_with({first}", *others, ") {", f"Ok(value) => slot{at} = Some(value),", "Err(e) => return Err(e),", "},"]


def fields_body(level: Level) -> list[str]:
    """How the fields of a struct or of a variant are read: in any order, and then the value of each."""
    names = texts(field.key for field, _ in level.fields)
    of = level.shape.name if isinstance(level, Content) else level.kind
    lines = [f'let mut fields = match de.deserialize_struct("{of}", {names}) {{', "Ok(fields) => fields,", "Err(e) => return Err(e),", "};"]
    lines += [f"let mut slot{at}: Option<{part.kind}> = None;" for at, (_, part) in enumerate(level.fields)]
    arms = [line for at in range(len(level.fields)) for line in field_arm(level, at)]
    lines += ["loop {", "match fields.next_field_by::<P>() {", *arms, "Ok(None) => break,", "Err(e) => return Err(e),", "}", "}"]
    for at, (field, part) in enumerate(level.fields):
        given = f'"{field.key}", slot{at}, {part.made_absent}'
        lines += [f"let value{at} = match fields.given_or({given}) {{", "Ok(value) => value,", "Err(e) => return Err(e),", "};"]
    return [*lines, "match fields.end() {", f"Ok(()) => Ok({value_of(level)}),", "Err(e) => Err(e),", "}"]


def value_of(level: Level) -> str:
    """What is made of the values of its fields."""
    values = [f"value{at}" for at in range(len(level.fields))]
    if isinstance(level, Content):
        return tuple_of(values) if len(values) > 1 else values[0]
    return f"{level.kind} {{ {', '.join(f'{field.name}: {value}' for (field, _), value in zip(level.fields, values))} }}"


def readers(level: Level) -> list[str]:
    """The functions that read the type and what it is again in."""
    bounds = ["ReadContent<R>"] * (not level.fields) + ["ReadPlaces<R>"] * bool(level.fields or level.contents_again())
    return recursive_holders.readers(level, " + ".join(bounds), fields_body(level) if level.fields else enum_body(level), fields_body)


# ---- writing


def written(level: Level, at: int, shape: Shape, part: Optional[Part]) -> list[str]:
    """How a variant is written."""
    start, names = f'("{level.kind}", {at}, "{shape.key}"', values_in(part) if part else []
    made = made_of(level, shape, names)
    if part is None:
        return [f"{made} => se.serialize_unit_variant{start}),"]
    if not part.held:
        return [f"{made} => se.serialize_newtype_variant{start}, {names[0]}),"]
    if part.named:
        opened = f"let mut fields = se.serialize_struct_variant{start}, {len(names)})?;"
        each = [f'fields.serialize_field("{field.key}", {value})?;' for field, value in zip(shape.fields, names)]
        return [f"{made} => {{", opened, *each, "fields.end()", "}"]
    opened = f"let mut parts = se.serialize_tuple_variant{start}, {len(names)})?;"
    return [f"{made} => {{", opened, *[f"parts.serialize_element({value})?;" for value in names], "parts.end()", "}"]


def any_of(level: Level, shape: Shape, part: Optional[Part]) -> str:
    """A pattern of a variant, whatever its values are."""
    return f"{level.kind}::{shape.name} {{ .. }}" if shape.kind == "named" else made_of(level, shape, ["_" for _ in held_in(part)])


def writing(level: Level) -> list[str]:
    """The implementation of `Serialize`."""
    if level.fields:
        fields = [f'fields.serialize_field("{field.key}", &self.{field.name})?;' for field, _ in level.fields]
        return recursive_holders.writing(level, [f'let mut fields = se.serialize_struct("{level.kind}", {len(fields)})?;', *fields, "fields.end()"], ["None"])
    arms = [line for at, (shape, part) in enumerate(level.variants) for line in written(level, at, shape, part)]
    no_byte = [f"{any_of(level, shape, part)} => None," for shape, part in level.variants]
    lower = any(part is None for _, part in level.variants)
    return recursive_holders.writing(level, ["match self {", *arms, "}"], ["match self {", *no_byte, "}"], lower)
