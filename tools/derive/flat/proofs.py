"""The proofs of what derive.py writes."""
from __future__ import annotations

import re
from collections.abc import Iterable, Iterator
from typing import TYPE_CHECKING

from ..table.types import Declared, Field, Shape, is_long
from ..words import TABLES
from .terms import all_elements, apart, bound_name, codes, nested, place_of, then_values
from shared.halves import FIELDS
from shared.imports import imports
from shared.terms import around, numbered, tuple_of, variants_as

if TYPE_CHECKING:
    from ..reading.modules import Module
from shared.texts import Texts

TEXTS = Texts(__file__)

def answer(goal: str, term: str, given: str = "g c") -> str:
    return f"\npub {goal} : goal.{goal}\n{goal} {given} = {term}\n"


def values_of(words: list[str]) -> str:
    """One value, or a tuple of several."""
    return words[0] if len(words) == 1 else tuple_of(words)


# The widths of the numbers with a sign.
SIGNED = {"i8": "w8", "i16": "w16", "i32": "w32", "i64": "w64", "i128": "w128", "isize": "w64"}


def part_of(shape: Shape, at: int, is_variant: bool) -> str:
    """The name of a part that was read: of the only one, of a tuple's, of nested tuples' or of a struct's."""
    if shape.kind == "newtype":
        return "first"
    if is_long(shape) and is_variant:
        return f"parts.{FIELDS[at]}"
    return "parts" + (place_of(at, len(shape.fields)) if shape.kind == "named" or is_long(shape) else f".{at}")


def held(shape: Shape, arm: str, term: str, others: frozenset[str] = frozenset(), is_variant: bool = False) -> str:
    """The term, where each number with a sign that was read in this arm is the same after a field held it."""
    for at, field in enumerate(shape.fields):
        if field.kind in SIGNED:
            read = f"{filled(field, arm, others)}.result" if field.default else f"{arm}.{part_of(shape, at, is_variant)}"
            term = f"rw (to_z-of_z {SIGNED[field.kind]} {read} (search rules)) ({term})"
    return term


def filled(field: Field, arm: str, others: frozenset[str]) -> str:
    """The call that puts a default in the place of a missing field's value. Its arm is in its name where a variant before has a default for
    a field of the same name, which is one of these others."""
    name = bound_name(field)
    return f"c.unwrap_or-{name}" + (f"-{arm.partition('.')[2]}" if name in others else "")


def has_defaults(shape: Shape) -> bool:
    return any(field.default for field in shape.fields)


# Of a struct of which a field has a text as its default.
TEXT_FIELD = TEXTS.fill("text_field")


def copied(shape: Shape, field: Field) -> str:
    """The arm after the call that fills in a text, or a copy of one."""
    place = shape.copies().index(field)
    return f"c.in-Ok-{numbered('text_or', place)}"


def defaulted_read(shape: Shape, fields: list[str], reading: str, arm: str = "c.in-Ok", others: frozenset[str] = frozenset()) -> tuple[str, str]:
    """What a law is made of where a field has a default: from what was read to the value, and from the value, which has these fields and this
    reading, to what is read."""
    back, needed, values, place = "(λ fs h. h)", "none_needed", [], "x.0"
    for field, value in zip(shape.fields, fields):
        values.append(f"given {place}.0" if field.default else value)
        place += ".1" * bool(field.default)
    for field, value in reversed(list(zip(shape.fields, fields))):
        if field.default:
            fact = f"(λ v. {field.default.holds('v')})"
            if field.default.is_copy:
                back = f"(text_field _ _ {back} _ {fact} _ _ {copied(shape, field)}.ensures)"
            else:
                back = f"(given_field _ _ {back} _ {fact} _ _ _ {field.default.proof} {filled(field, arm, others)}.ensures)"
            needed = f"(given_needed _ _ {needed} _ _ {value})"
        else:
            back = f"(plain_field _ _ {back} _ _)"
            needed = f"(plain_needed _ _ {needed} _ _)"
    names = f"({codes(field.key for field in shape.fields)})"
    forth = f"let x = fields_needed {names} _ _ {needed} m {reading} in ({nested(values, 'tt', then_values)}, x.1)"
    return f"fields_given {names} _ _ {back} m r", forth


def named_read(shape: Shape) -> tuple[str, str]:
    """From what was read of a struct with names to the value, and from the value to what is read."""
    fields, reading = [f"r.0.{field.name}" for field in shape.fields], "r.1.0" if shape.skipped else "r.1"
    back, forth = "r", f"({nested(fields, 'tt', then_values)}, {reading})"
    if has_defaults(shape):
        back, forth = defaulted_read(shape, fields, reading)
    if shape.skipped:
        back = f"({', '.join([back, *(field.default.proof for field in shape.skipped)])})"
    return f"λ m r. {back}", f"λ m r. {forth}"


def struct_read(shape: Shape) -> str:
    """The answers of a struct that is read by one call."""
    back, forth, refused = "λ m r. r", "λ m r. r", "refused"
    if shape.kind == "unit":
        forth, refused = "λ m r. (tt, r.1)", "exact"
    elif shape.kind == "newtype":
        back, forth, refused = "λ m r. r.1", "λ m r. (r.0.0, ((λ e. cc), r.1))", "refused (λ e. cc)"
    elif is_long(shape):
        values = nested([f"r.0.{field.name}" for field in shape.fields], "tt")
        back = f"row_as _ _ {around(len(shape.fields), 'each_field _ _ _ _', 'no_field')}"
        forth = f"λ m r. ({values}, row_as _ _ {around(len(shape.fields), 'field_each _ _ _ _', 'field_none')} m r.1)"
    elif shape.kind == "tuple":
        forth = f"λ m r. ({values_of([f'r.0.{field.name}' for field in shape.fields])}, r.1)"
    else:
        back, forth = named_read(shape)
    text = TEXT_FIELD * bool(shape.copies())
    text += answer("returns-in-Ok-clause-law", held(shape, "c.in-Ok", f"lawful_ok _ _ _ _ _ _ _ ({back}) c.in-Ok.ensures.law"))
    text += answer("returns-in-Err-clause-law", f"lawful_err _ _ _ _ _ _ ({forth}) c.in-Err.ensures.law")
    refusal = f"c.in-Err.ensures.{refused}"
    return text + answer("returns-in-Err-clause-refused", f"λ ready. inl ({refusal} ready)" if shape.copies() else refusal)


CALLS = {"unit": "unit_variant", "newtype": "newtype_variant", "tuple": "newtype_variant", "named": "fields_variant"}


# What the lemmas on a variant's refusal take first: the source, whether the format is for people, and the readers that the variant's
# call and the read leave, which their laws speak of. The rest they find by themselves.
REFUSED = "g.R.Source g.C.SerializerConfig.human _ _ _ _ (left_by ({call})) (left_by ({law})) _ (search rules)"
LEFT_BY = TEXTS.fill("left_by")


def variant_content(shape: Shape, arm: str, others: frozenset[str]) -> tuple[str, str]:
    """From what was read of a variant's content to the value, and from the value to what is read."""
    n = len(shape.fields)
    values = [f"h.{i}" for i in range(n)]
    if has_defaults(shape):
        given, needed = (f"(λ m r. {term})" for term in defaulted_read(shape, values, "r", arm, others))
        return f"λ k h. ({'_, ' * n}refl, content_as _ _ {given} k h)", f"λ v k h. content_as _ _ {needed} k h.{n + 1}"
    value = nested(values, "tt", then_values) if shape.kind == "named" else values_of(values) if n else ""
    if is_long(shape):
        value = f"(record {{ {' '.join(f'{name} = {of};' for name, of in zip(FIELDS, values))} }})"
    return f"λ k h. ({'_, ' * n}refl, h)", f"λ v k h. readable _ k {value} h.{n + 1}" if n else "λ v k h. h.1"


def variant_read(call: str, at: int, shape: Shape, of: Declared) -> str:
    """The three answers of a variant."""
    n, count = len(shape.fields), len(of.variants)
    last = at == count - 1
    others = frozenset(bound_name(field) for variant in of.variants[:at] for field in variant.fields if field.default)
    if last:
        test = "k.field-0-0-test, " if count > 1 else ""
        start = f"\n    let k = c.in-Ok in\n    let at : k.field-0-0 ≡ {at} = omega (arith, {test}k.ensures.below) in\n    "
        opened = "(rw at at k.ensures.opened)"
    else:
        start = "\n    "
        opened = f"(rw c.in-Ok-eq{at}-default.field-0-0-test at c.in-Ok-eq{at}-default.ensures.opened)"
    done, back = variant_content(shape, f"c.in-Ok-{call}", others)
    ok = f"variant_ok _ _ _ _ _ _ (search rules) _ {at} _ _ ({done})\n    (c.in-Ok-{call}.ensures.ok _ {at} _ {opened})"
    ok = start + held(shape, f"c.in-Ok-{call}", ok, others, is_variant=True)
    err = f"{start}variant_err _ _ _ _ _ _ (search rules) _ {at} _ ({back})\n    (c.in-Err-{call}.ensures.err _ {at} _ {opened})"
    clauses, lemma = f"c.in-Err-{call}.ensures", "content_wrong" if n else "unit_wrong"
    given = f"(λ q. q) {clauses}.bare {clauses}.refused" if n else f"{clauses}.bare {clauses}.exact"
    refused = REFUSED.format(call=f"{clauses}.err _ {at} _ {opened}", law=f"returns-in-Err-{call}-clause-law g c")
    wrong = f"{start}{lemma} {refused} {at} _ {opened}\n    {given}"
    return "".join(answer(f"returns-in-{arm}", term) for arm, term in (
        (f"Ok-{call}-clause-law", ok), (f"Err-{call}-clause-law", err), (f"Err-{call}-clause-refused", wrong)))


def calls_of(of: Declared) -> Iterator[str]:
    """The name of each variant's call, with its number."""
    seen = {}
    for shape in of.variants:
        call = CALLS[shape.kind]
        yield numbered(call, seen.get(call, 0))
        seen[call] = seen.get(call, 0) + 1


# Of an enum of which a variant's field has a default.
CONTENT_AS = TEXTS.fill("content_as")


def enum_read(of: Declared) -> str:
    text = "".join(variant_read(call, at, shape, of) for at, (call, shape) in enumerate(zip(calls_of(of), of.variants)))
    unopened = "(rw c.in-Err.is at c.deserialize_enum.follows.holds-at-none)"
    text += answer("returns-in-Err-clause-law", f"\n    variant_unopened _ _ _ _ _ _ (search rules) _ {unopened}")
    refused = REFUSED.format(call="f", law="returns-in-Err-clause-law g c").replace("left_by (f)", "unopened_by f")
    start = LEFT_BY + CONTENT_AS * any(has_defaults(shape) for shape in of.variants)
    return start + text + answer("returns-in-Err-clause-refused", f"\n    let f = {unopened[1:-1]} in\n    enum_unopened {refused} f")


NO_BYTE = {"newtype": "newtype_no_byte", "tuple": "tuple_variant_no_byte", "named": "struct_variant_no_byte"}


def has_content(of: Declared) -> bool:
    """Whether it is an enum of which a variant has content."""
    return any(shape.fields for shape in of.variants or [])


def enum_no_byte(of: Declared) -> str:
    """An answer for each variant with content: it is no byte."""
    given = "g c" if of.parameters else "c"
    # the only variant is no arm of its own
    arms = [(f"-in-{shape.name}" if len(of.variants) > 1 else "", shape) for shape in of.variants if shape.fields]
    return "".join(answer(f"returns{arm}-clause-byte", f"search (rules, {NO_BYTE[shape.kind]})", given) for arm, shape in arms)


# The calls by which variants with several fields are written.
WRITTEN_BY = {"tuple": "serialize_tuple_variant_of", "named": "serialize_struct_variant_of"}
# Types of fields of which no search finds, beside other fields, what is known of them and of their refusals.
LISTED = re.compile(r"\b(Vec|VecDeque|BTreeMap|BTreeSet)<")
# Of how many fields at most a search finds what is written of a variant.
MOST_FOUND = 6


def writes_of(of: Declared) -> Iterator[tuple[Shape, str]]:
    """The name of the call that writes each variant with several fields. The arm is in it where a variant before is written by the same call."""
    seen = set()
    for shape in of.variants:
        if shape.kind in WRITTEN_BY:
            call = apart(of, shape) if of.lifetime else WRITTEN_BY[shape.kind]
            yield shape, call + f"-in-{shape.name}" * (call in seen)
            seen.add(call)


def enum_values(of: Declared) -> str:
    """Answers for each variant with a list beside other fields: what is known of its fields, and of their refusals, is so of the value. Of many
    fields, also that what is written is, where memory may be taken if it may be for any variant."""
    if len(of.variants) < 2:
        return ""
    text = ""
    for shape, call in writes_of(of):
        is_wide, known = len(shape.fields) > MOST_FOUND, f"c.{call}.ensures"
        facts = {"value": f"{known}.value", "error": f"{known}.error"}
        if is_wide:
            facts["writes"] = f"(part_takes g.W.Sink _ (λ h. grind rules) {known}.writes)"
        if is_wide or any(LISTED.match(field.kind) for field in shape.fields):
            text += "".join(answer(f"returns-in-{shape.name}-clause-{clause}", f"rw c.in-{shape.name}.is {fact}") for clause, fact in facts.items())
    return text


def answers(of: Declared, traits: set[str], module: Module) -> Iterator[tuple[str, str, str, str]]:
    """The type, the trait, the method, and the text of each proof."""
    if "Serialize" in traits and has_content(of):
        yield of.name, "Serialize", "as_u8", with_imports(enum_no_byte(of), module, f"{of.name}Serialize.as_u8")
        values = enum_values(of)
        if values:
            yield of.name, "Serialize", "serialize", with_imports(values, module, f"{of.name}Serialize.serialize")
    if "Deserialize" in traits:
        text = struct_read(of.shape) if of.shape else enum_read(of)
        yield of.name, "Deserialize", "deserialize", with_imports(text, module, f"{of.name}Deserialize.deserialize", of.constants(), of.enums())
        for elements in all_elements(of):
            text = struct_read(elements.shape)
            yield elements.name, "Deserialize", "deserialize", with_imports(text, module, f"{elements.name}Deserialize.deserialize")


def with_imports(text: str, module: Module, goals: str, constants: Iterable[str] = (), enums: Iterable[str] = ()) -> str:
    table = TABLES["proofs"] | {f"{module.name}.specs.declared.{module.below('TheConstants')}": " ".join(sorted(constants))}
    lines = imports(text, table, lambda of, names: f"use Rattle.{of}.{{{', '.join(names)}}}\n")
    lines += [f"use Rattle.{module.name}.specs.declared.{module.below(name)}.TheVariants as {variants_as(name)}\n" for name in sorted(enums)]
    return "".join(lines) + f"use Rattle.{module.name}.proofs.{module.below('derived', goals)}.Goals as goal\n" + text
