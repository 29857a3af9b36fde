"""The terms of what derive.py writes: what a value is, and which trees it is read from."""
from __future__ import annotations

import dataclasses
from collections.abc import Iterable
from typing import Optional

from ..table.types import Declared, Field, Shape, is_flat, is_long
from ..table.kinds import identifiers
from shared.halves import FIELDS
from shared.terms import chained, list_of, underscored, variants_as

# Names of the functions' own values.
TAKEN = "se de e parts others variant".split()
# How many fields are in one tuple where there are as many left.
GROUP = 4
# How many are read as nested tuples at most, and what the first ones of more are read as, by how many they are.
MOST_IN_TUPLES = 16
THEN = {16: "SixteenThen", 8: "EightThen"}


def then_of(count: int) -> int:
    """How many of so many values one struct holds beside the others, if one does. Of 17 to 24 it is eight: beside sixteen, the tuples that the others
    are read as reach the prover's limit of steps."""
    return 16 if count == 16 or count > 24 else 8 if count >= 8 else 0


def then_kinds(words: list[str], rest: str) -> str:
    """The type of so many fields and the others."""
    return f"{THEN[len(words)]}<{', '.join([*words, rest])}>"


def then_bound(words: list[str], rest: str) -> str:
    """A pattern of them."""
    return f"{THEN[len(words)]} {{ {', '.join(f'{place}: {word}' for place, word in zip(FIELDS, words))}, rest: {rest} }}"


def then_values(words: list[str], rest: str) -> str:
    """Their values, in a term."""
    return f"record {{ {''.join(f'{place} = {word}; ' for place, word in zip(FIELDS, words))}rest = {rest} }}"


def nested(words, end="()", then=then_kinds):
    """Tuples of the first four and the others, and then pairs of the first and the others, which end in (). Of more than are read as
    tuples, first structs of sixteen or eight and the others."""
    if len(words) > MOST_IN_TUPLES:
        return in_structs(words, end, then)
    if not words:
        return end
    n = GROUP if len(words) >= GROUP else 1
    return f"({', '.join(words[:n])}, {nested(words[n:], end)})"


def in_structs(words, end, then):
    size = then_of(len(words))
    return then(words[:size], in_structs(words[size:], end, then)) if size else nested(words, end)


def place_of(at: int, count: int) -> str:
    """Where the value at a place is in what so many values are nested as."""
    if count > MOST_IN_TUPLES:
        return place_in_structs(at, count)
    whole = count // GROUP
    if at < whole * GROUP:
        return ".4" * (at // GROUP) + f".{at % GROUP}"
    return ".4" * whole + ".1" * (at - whole * GROUP) + ".0"


def place_in_structs(at: int, count: int) -> str:
    size = then_of(count)
    if at < size:
        return f".{FIELDS[at]}"
    return ".rest" + place_in_structs(at - size, count - size) if size else place_of(at, count)


def elements_of(of: Declared, shape: Shape) -> Declared:
    """The struct that the elements of a variant are read as, where they are more than one tuple holds. Its parameters are those that they name."""
    fields = [dataclasses.replace(field, name=name) for field, name in zip(shape.fields, FIELDS)]
    name, words = f"{of.name}{shape.name}Elements", {word for field in fields for word in identifiers(field.kind)}
    is_lent = of.lifetime and any(of.lifetime in field.kind for field in fields)
    parameters = [it for it in of.parameters if it[0] in words]
    return Declared(name, parameters, Shape(name, "tuple", fields), lifetime=of.lifetime if is_lent else None)


def all_elements(of: Declared) -> list[Declared]:
    """That of each such variant."""
    return [elements_of(of, shape) for shape in of.variants or [] if is_long(shape)]


def codes(names: Iterable[str]) -> str:
    return list_of([f'codes "{name}"' for name in names])


def bound_name(field: Field) -> str:
    """What patterns call a field that has a name."""
    return f"{field.name}_" if field.name in TAKEN else field.name


class Words:
    """What the ghost members of a field's type are called where a type with these parameters is implemented."""

    def __init__(self, of: Declared) -> None:
        self.names = [name for name, _ in of.parameters]

    def writes(self, kind: str, word: str) -> str:
        return f"{kind}.{word}" if kind in self.names else f"⟦<{kind} as Serialize>⟧.{word}"

    def reads(self, kind: str, word: str) -> str:
        return f"{kind}.{word}" if kind in self.names else f"⟦<{kind} as Deserialize<'de, R>>⟧.{word}"

    def rounds(self, kind, word):
        return f"{kind}.{word}" if kind in self.names else f"⟦<{kind} as RoundTrip<'de, R>>⟧.{word}"


def header(of: Declared, trait: str, bounds: Optional[dict[str, str]] = None) -> str:
    """The beginning of an implementation. A type parameter has these bounds, or else the trait itself."""
    words = ["'de", "R: ReadSlice<'de>"] if trait.endswith("R>") else [of.lifetime] * bool(of.lifetime)
    words += [f"{name}: {(bounds or {}).get(name, trait)}" + f" + {more}" * bool(more) for name, more in of.parameters]
    return f"impl{'<' + ', '.join(words) + '>' if words else ''} {trait} for {of.name}{of.arguments()} {{"


def values_of(shape: Shape, value: Optional[str]) -> list[str]:
    """What the fields are called: of a struct, its projections; of a variant, the names that a case gives them."""
    if value:
        return [f"{value}.{field.name}" for field in shape.fields]
    return [f"a{at}" for at in range(1, len(shape.fields) + 1)]


def data_of(words: Words, shape: Shape, value: Optional[str] = None, values: Optional[list[str]] = None, human: str = "human") -> str:
    """What the value is, of a struct, or of a variant where there is no value that has the fields, which may be called otherwise."""
    values = values or values_of(shape, value)
    data = [f"{words.writes(field.kind, 'data_of')} {of} {human}" for field, of in zip(shape.fields, values)]
    return tree_of(shape, [f"({data[0]})"] if shape.kind == "newtype" else data, not value)


def tree_of(shape: Shape, parts: list[str], is_variant: bool = False) -> str:
    """What a struct or a variant of these parts is."""
    name = f'(codes "{shape.key}") ' if is_variant else ""
    if shape.kind == "unit":
        return f"Some (unit_variant {name.strip()})" if is_variant else "Some unit_struct"
    if shape.kind == "newtype":
        return f"{'newtype_variant_of' if is_variant else 'wrapped_of'} {name}{parts[0]}"
    if shape.kind == "tuple":
        return f"{'tuple_variant_of' if is_variant else 'sequence_of'} {name}({list_of(parts)})"
    pairs = [f'(codes "{field.key}", {part})' for field, part in zip(shape.fields, parts)]
    return f"{'struct_variant_of' if is_variant else 'structure_of'} {name}({list_of(pairs)})"


def known_of(words: Words, shape: Shape, value: Optional[str] = None) -> str:
    """What is known of the value."""
    known = [f"{words.writes(field.kind, 'is_value')} {of}" for field, of in zip(shape.fields, values_of(shape, value))]
    return " × ".join(known) or "⊤"


def memory_of(words: Words, shape: Shape, settings: str = "s") -> str:
    """Whether writing the value may take memory."""
    flags = [f"{words.writes(field.kind, 'takes_memory')} {settings}" for field in shape.fields]
    if shape.kind == "newtype":
        return flags[0]
    return f"one_of ({list_of(flags)})" if flags else "false"


def refused_of(words: Words, shape: Shape, value: Optional[str] = None, values: Optional[list[str]] = None) -> str:
    """What is known of the error that writing the value answers."""
    values = values or values_of(shape, value)
    parts = [f"{words.writes(field.kind, 'refuses')} {of}" for field, of in zip(shape.fields, values)]
    if shape.kind == "unit":
        return "OfSink"
    return parts[0] if value and shape.kind == "newtype" else f"OfParts ⊥ ({list_of(parts)})"


def reading_of(words: Words, shape: Shape, tree: str, value: Optional[str] = None) -> str:
    """What holds of a tree that is read as the value."""
    values = values_of(shape, value)
    if shape.kind == "unit":
        return f"IsNothing {tree}"
    if shape.kind == "newtype":
        return f"{words.reads(shape.fields[0].kind, 'reads')} human lends {tree} {values[0]}"
    reads = [f"λ j. {words.reads(field.kind, 'reads')} human lends j {of}" for field, of in zip(shape.fields, values)]
    if shape.kind == "tuple":
        return f"OfRow ({chained([f'AndThen ({term})' for term in reads], 'NoMore')}) {tree}"
    absent = [absent_of(words, field, of) for field, of in zip(shape.fields, values)]
    fields = chained([f"Field ({there}) ({missing})" for there, missing in zip(reads, absent)], "NoField")
    whole = f"OfFields ({codes(field.key for field in shape.fields)}) ({fields}) {tree}"
    skipped = [f"({field.default.holds(f'{value}.{field.name}')})" for field in shape.skipped]
    return " × ".join([f"({whole})", *skipped]) if skipped else whole


def absent_of(words: Words, field: Field, value: str) -> str:
    """What holds of the value of a field that isn't there."""
    return field.default.holds(value) if field.default else f"Absent {words.reads(field.kind, 'absent')} {value}"


def apart(of: Declared, shape: Shape) -> str:
    """The name of the function that writes the fields of a type that borrows."""
    return f"put_{underscored(of.name)}" + ("" if of.shape else f"_{underscored(shape.name)}")


def alias(of: Declared) -> str:
    """What an enum's variants are called by in terms."""
    return variants_as(of.name)


def by_cases(of: Declared, terms: list[str], value: Optional[str] = "v") -> str:
    cases = [f"{' '.join([f'{alias(of)}.{shape.name}', *values_of(shape, None)])} ↦ {term}" for shape, term in zip(of.variants, terms)]
    return f"elim {value}{' ' * bool(value)}[ {' | '.join(cases)} ]"


def refusal_of(words: Words, shape: Shape, flat: bool = False) -> str:
    """Which error says that the fields of a struct, or of a variant that has some, aren't there."""
    kinds = [field.read_as() for field in shape.fields]
    if shape.kind == "unit":
        return "λ s. RefusesExactly s.strict (not_nothing s.room)"
    if shape.kind == "newtype":
        return words.reads(kinds[0], "refuses")
    if shape.kind == "tuple":
        parts = [f"part_of {words.reads(kind, 'reads')} {words.reads(kind, 'refuses')}" for kind in kinds]
        return f"RefusesTuple ({list_of(parts)})"
    refusal = refusal_of_fields(words, shape, flat)
    # where a default is a copy of a text, memory may run out after the message
    return f"RefusesBoxed {ANY_VALUE} ({refusal})" if shape.copies() else refusal


# What a message is read as, where only that there is one matters.
ANY_VALUE = "{V = Unit {0}} (λ human lends m v. Unit {0})"


def refusal_of_fields(words: Words, shape: Shape, flat: bool) -> str:
    """Which error says that fields with names aren't there."""
    kinds = [field.read_as() for field in shape.fields]
    if flat or len(kinds) > MOST_IN_TUPLES:
        return refusal_in_a_list(words, shape, kinds)
    fields = f"⟦<{nested(kinds)} as ReadFields<'de, R>>⟧"
    return f"RefusesFields ({codes(field.key for field in shape.fields)}) {fields}.needed\n        {fields}.parts"


def refusal_in_a_list(words: Words, shape: Shape, kinds: list[str]) -> str:
    """The same with each field's part in one list, as what is known of all of them costs more to compare."""
    line = "\n            " if len(kinds) > MOST_IN_TUPLES else ""
    needed = [f"{line}is_none {words.reads(kind, 'absent')}" for kind in kinds]
    parts = [f"{line}part_of {words.reads(kind, 'reads')} {words.reads(kind, 'refuses')}" for kind in kinds]
    return f"RefusesFields ({codes(field.key for field in shape.fields)})\n        ({list_of(needed)})\n        ({list_of(parts)})"


def member_of_refusing(of: Declared, words: Words) -> str:
    """The term of `refuses`."""
    if of.shape:
        return refusal_of(words, of.shape, is_flat(of.shape))
    choices = [f"with_content ({refusal_of(words, shape)})" if shape.fields else "no_content" for shape in of.variants]
    return f"RefusesEnum ({codes(shape.key for shape in of.variants)}) ({list_of(choices)})"


def members_of_writing(of: Declared, words: Words) -> tuple[str, str, str, str]:
    """The terms of data_of, is_value, takes_memory and refuses."""
    if of.shape:
        return data_of(words, of.shape, "v"), known_of(words, of.shape, "v"), memory_of(words, of.shape), refused_of(words, of.shape, "v")
    data = by_cases(of, [data_of(words, shape) for shape in of.variants])
    known = by_cases(of, [known_of(words, shape) for shape in of.variants])
    flags = [memory_of(words, shape) for shape in of.variants]
    errors = [refused_of(words, shape) for shape in of.variants]
    refused = "OfSink" if set(errors) == {"OfSink"} else by_cases(of, errors)
    # one flag says it of the only variant, and of several where none takes memory
    takes = flags[0] if len(flags) == 1 or set(flags) == {"false"} else f"one_of ({list_of(flags)})"
    return data, known, takes, refused


def member_of_reading(of: Declared, words: Words) -> str:
    """The term of `reads`."""
    if of.shape:
        return reading_of(words, of.shape, "m", "v")
    cases = []
    for shape in of.variants:
        values = values_of(shape, None)
        value = " ".join([f"{alias(of)}.{shape.name}", *values])
        holds = f"Content (λ k. {reading_of(words, shape, 'k')}) c" if values else "Bare c"
        cases.append(f"Case (λ c. {''.join(f'({name} : _) × ' for name in values)}(v ≡ {value}) × {holds})")
    return f"OfVariant ({codes(shape.key for shape in of.variants)}) ({chained(cases, 'NoCase')}) m"
