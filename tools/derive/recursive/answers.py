"""The proofs of the code that derive.py writes for a recursive enum."""
from __future__ import annotations

import dataclasses
from typing import Optional

from ..table.types import Shape
from .holder_answers import answer, answers_file, held_answers, left_under, measures_file
from .holders import values_in
from .leaves import Part, put_in
from .forms import Again
from .levels import Level, after_held, brought_in, called, has_map, held_in, inside, is_apart, is_map, named_in
from .struct_answers import TAKES, fields_measures, struct_answers
from .struct_proofs import fields_proofs, proof_tables
from .enums import sections
from .given import put_together, words_of
from shared.terms import numbered
from shared.texts import Texts

TEXTS = Texts(__file__)


def no_byte(part: Optional[Part]) -> str:
    """That a variant isn't written as a byte."""
    if part is None:
        return "refl"
    return f"{'struct_variant' if part.named else 'tuple_variant' if part.held else 'newtype'}_no_byte _ _"


def proof_sections(level: Level) -> list[tuple[str, str]]:
    """The lemmas, by what they depend on."""
    lines = "".join(f"level_no_byte {level.made(shape, named_in(part))} = {no_byte(part)}\n" for shape, part in level.variants)
    text = TEXTS.fill("proof_sections", level, lines=lines)
    slots = [f"\n-- ---- what was read so far of the fields of {of.shape.name}\n{fields_proofs(of)}" for of in level.contents_again()]
    return [("D", text), ("R", "".join(slots))]


def proofs_file(level: Level) -> str:
    """That no value is a byte, and what the slots of its variants say."""
    about = f"No {level.name} is written as a byte" + ", and what is read of the fields of its variants" * bool(level.contents_again())
    text = put_together(level, proof_sections(level), words_of(level, sections(level)))
    table = proof_tables(level) | {"rmp_encode.proofs.Variants": "newtype_no_byte tuple_variant_no_byte struct_variant_no_byte"}
    return f"-- {about}. Written by tools/derive.py.\n{brought_in(text, table)}{text}"


# One rewriting after another: as two, where what is written of the parts is found by the first.
THEN = (" ∙ ", ", ")
# The calls that write a variant of several values, without names and with them: what opens it, what writes each, and what the open one is called.
ROW_CALLS = [("serialize_tuple_variant", "serialize_element", "parts"), ("serialize_struct_variant", "serialize_field", "fields")]


def writing_answers(level: Level, place: str) -> str:
    """That what is written is known to be a value, and of several values that they are written one after another."""
    text, calls = "", {}
    for shape, part in level.variants:
        if part and part.held:
            call = "serialize_struct_variant" if part.named else "serialize_tuple_variant"
            text += row_writing(level, shape, part, call in calls, "end" in calls)
            calls |= {call: True, "end": True}
            continue
        word = "serialize_newtype_variant" if part else "serialize_unit_variant"
        text += value_answer(level, shape, part, f"c.{word}" if word not in calls else f"c.{word}-in-{shape.name}")
        calls[word] = True
    return answers_file(level, place, text)


def byte_answers(level: Level, place: str) -> str:
    """That no variant with content is written as a byte, where what its parts are written as is given."""
    low, text = level.low, ""
    for shape, part in level.variants:
        goal = f"returns-in-{shape.name}-clause-byte"
        if part:
            text += f"\npub {goal} : goal.{goal}\n{goal} c = sym ({low}_no_byte _ c.args.self.now)\n"
    table = {"std.proofs.Common": "sym", f"{level.crate}.proofs.{level.name}Levels": f"{low}_no_byte"}
    return brought_in(text, table) + f"use Rattle.{level.crate}.proofs.{place}.Goals as goal\n" + text


def value_answer(level: Level, shape: Shape, part: Optional[Part], call: str) -> str:
    """That a variant that is written is known to be a value: one of nothing, or of one value."""
    name, low = level.name, level.low
    goal, made = f"returns-in-{shape.name}-clause-value", level.made(shape, inside(part)).strip("()")
    if part is None:
        is_ = f"ap out-{name} (c.in-{shape.name}.is ∙ sym rolls-{shape.name}) ∙ out-roll-{name} {made}"
        term = f"let is = {is_} in\n    ok_holds {call}.result _ ({low}_fits_in c.args.self.now {made} is tt)"
    else:
        fits = part.known if isinstance(part, Again) else "h"
        term = (f"let a = c.in-{shape.name}.value in\n    let is = ap out-{name} (c.in-{shape.name}.is ∙ sym (rolls-{shape.name} a)) ∙ out-roll-{name} ({made}) in\n"
                f"    on_ok {call}.result _ _ (λ h. {low}_fits_in c.args.self.now ({made}) is ({fits})) {call}.ensures.value")
    return f"\npub {goal} : goal.{goal}\n{goal} g t c =\n    {term}\n" + (map_writing(level, shape, part, made, call) if has_map(part) else "")


def map_writing(level: Level, shape: Shape, part: Part, made: str, call: str) -> str:
    """That a variant that holds a map is written as one level of it."""
    goal = f'returns-in-{shape.name}-clause-writes'
    writes = f"{call}.ensures.writes" if is_map(part) else f"({TAKES} {call}.ensures.writes)"
    return TEXTS.fill("map_writing", level, goal=goal, variant=shape.name, made=made, then=THEN[bool(level.given)], writes=writes)


def row_writing(level: Level, shape: Shape, part: Part, opened_before: bool, ended_before: bool) -> str:
    """That several values are written one after another, and are known to be values. The calls of a later variant have its name in goals."""
    name, low, count = level.name, level.low, len(part.held)
    values = [f"c.in-{shape.name}.{value}" for value in values_in(part)]
    opening, one, parts = ROW_CALLS[bool(part.named)]
    calls = [numbered(f"{one}-in-{shape.name}", at) for at in range(count)]
    start = f"in_err-{parts}-in-{shape.name}"

    opening, later = opening + f"-in-{shape.name}" * opened_before, f"-in-{shape.name}" * ended_before
    made = level.made(shape, values)
    is_ = f"(ap out-{name} (c.in-{shape.name}.is ∙ sym (rolls-{shape.name} {' '.join(values)})) ∙ out-roll-{name} {made})"
    data = f"{low}_is_at c.args.self.now {made} {is_}" + f"{THEN[bool(level.given)]}{low}_at_{shape.name} {' '.join(values)}" * is_apart(part)

    def refused(fact: str) -> str:
        error = f"c.from_residual{fact}"
        return f"let p = err_from_is_err_and {error}.result {error}.ensures.1 in\n    rw (p.1, p.2, {data}) "

    written = f"(c.in_ok-{parts}-in-{shape.name}.ensures.opened _ refl)"
    unopened = f"unopened g.W.Sink _ _ _ _ c.args.se.now _ _ _ _ c.{start}.was c.{opening}.follows.holds-at-none refl"
    terms = {f"returns-{start}-clause-writes": refused(f"-{start}" * ended_before) + f"({TAKES} ({unopened}))"}
    for call in calls:
        rests = f"rests_at g.W.Sink (search rules)\n    (c.in_err-{call}.ensures.writes c.args.se.now _ _ {written})"
        terms[f"returns-in_err-{call}-clause-writes"] = refused(f"-in_err-{call}") + f"({TAKES} ({rests}))"
        written = f"(c.in_ok-{call}.ensures.writes c.args.se.now _ _ {written})"
    end, last = f"c.end{later}", f"returns-in_ok-{calls[-1]}-clause"
    terms[f"{last}-writes"] = f"rw ({data}) ({TAKES} (rests_at g.W.Sink (search rules) ({end}.ensures.writes c.args.se.now _\n    {written})))"
    fits = [
        called(put_in(held.known, {"h": f"c.in_ok-{call}.ensures.value"}), value) if isinstance(held, Again) else f"c.in_ok-{call}.ensures.value"
        for held, call, value in zip(part.held, calls, values)
    ]
    fits = fits[0] if count == 1 else f"({', '.join(fits)})"
    terms[f"{last}-value"] = f"ok_holds {end}.result _ ({low}_fits_in c.args.self.now {made} {is_}\n    {fits})"
    return "".join(f"\npub {goal} : goal.{goal}\n{goal} g t c =\n    {term}\n" for goal, term in terms.items())


@dataclasses.dataclass
class Arm:
    """A variant's arm, as its answers name it: its call, what opened it, and how a level is made of it."""

    level: Level
    at: int
    shape: Shape
    part: Optional[Part]
    call: str

    def is_last(self) -> bool:
        return self.at == len(self.level.variants) - 1

    def fact(self) -> str:
        """The names of the arm's facts."""
        return "c.in-Ok" if self.is_last() else f"c.in-Ok-eq{self.at}-default"

    def start(self) -> str:
        """What the answers begin with, which `opened` names."""
        start = f"let k = {self.fact()} in\n"
        if not self.is_last():
            return start
        test = "k.field-0-0-test, " if self.at else ""
        return f"{start}    let at : k.field-0-0 ≡ {self.at} = omega (arith, {test}k.ensures.below) in\n"

    def opened(self) -> str:
        return "(rw at at k.ensures.opened)" if self.is_last() else "(rw k.field-0-0-test at k.ensures.opened)"

    def left(self) -> str:
        """That the deserializer is left as the content's reader has it."""
        return left_under(["k.ensures.same_reference"])

    def rolls(self) -> str:
        """That the value made of it is that level."""
        rolls = f"(rolls-{self.shape.name}{' _' * len(held_in(self.part))})" if self.part else f"rolls-{self.shape.name}"
        return f"ap out-{self.level.name} (sym {rolls}) ∙ out-roll-{self.level.name} _"


def room_answer(arm: Arm) -> str:
    """The content has less room than the whole."""
    goal = f"read_{arm.level.low}-newtype_variant_with-requires"
    # the first call's goal doesn't name its arm
    if arm.call != "newtype_variant_with":
        goal += "-in-Ok" + f"-eq{arm.at}-default" * (not arm.is_last())
    return answer(goal, TEXTS.fill("room_answer", fact=arm.fact()))


def content_of(arm: Arm) -> tuple[str, str, str, str, str]:
    """Of an arm the terms for its content, what is made of it, what it is read from, and that it was read or refused."""
    level, part, call, at = arm.level, arm.part, arm.call, arm.at
    if part is None:
        given = f"(c.in-Ok-{call}.ensures.ok _ {at} _ {arm.opened()})"
        return "(λ (u : Unit {0}) c. Bare c)", f"(λ k h. ({arm.rolls()}, h))", "(λ v k h. h.1)", given, f"(c.in-Err-{call}.ensures.err _ {at} _ {arm.opened()})"
    words = part.reads.format(reads=f"Is{level.name}", k="k", a="a")
    typed = f"(λ k (a : {part.term}). {words})"
    law = f"(λ rest gave s. lent_law g.R.Source _ _ {typed} (λ p q r h. h) _ rest gave s)"

    def by(lemma: str, answered: str) -> str:
        facts = f"c.in-{answered}-{call}.ensures"
        return f"({lemma} g.R.Source _ _ {typed} {level.low}_names {at} _ _ {arm.opened()} _ _\n          {law} _ {facts}.bare {facts}.part refl)"

    content = f"(λ (a : {part.term}) c. Content (λ k. {words}) c)"
    return content, f"(λ k h. (_, {arm.rolls()}, h))", "(λ v k h. readable _ k h.0 h.2)", by("given_read", "Ok"), by("given_refused", "Err")


def variant_answers(arm: Arm) -> str:
    """How a variant is read."""
    level, part = arm.level, arm.part
    name, low = level.name, level.low
    content, done, back, given, refused = content_of(arm)
    parts = zip(values_in(part), held_in(part)) if part else []
    held = "".join(after_held(of, f"c.in-Ok-{arm.call}.{value}") for value, of in parts)
    ok = f"""variant_done g.R.Source {low}_names ({name}Case Is{name}) Is{name} _ _ _ {content} {arm.at} _ _ ({low}_made _)
          {done}
          {given} {arm.left()}"""
    err = f"""lawful_err _ (λ m v. OfVariant {low}_names ({name}Case Is{name} v) m) _ _ _ _ {low}_variant
          (variant_err _ _ ({name}Case Is{name}) _ _ _ {arm.left()} _ {arm.at} _ {back}
          {refused})"""
    return (
        (room_answer(arm) if part and not part.is_leaf else "")
        + answer(f"read_{low}-returns-in-Ok-{arm.call}", f"\n    {arm.start()}    {held}(record {{\n      law = {ok};\n    }})")
        + answer(f"read_{low}-returns-in-Err-{arm.call}", f"\n    {arm.start()}    record {{\n      law = {err};\n    }}")
    )


def enum_answers(level: Level) -> str:
    """How the type is read."""
    low = level.low
    text, calls = "", {}
    for at, (shape, part) in enumerate(level.variants):
        word = "newtype_variant_with" if part else "unit_variant"
        text += variant_answers(Arm(level, at, shape, part, numbered(word, calls.get(word, 0))))
        calls[word] = calls.get(word, 0) + 1
    return text + answer(f"read_{low}-returns-in-Err", TEXTS.fill("enum_answers", level))


def reading_answers(level: Level, place: str) -> str:
    """How the type, and what it is again in, is read."""
    fields = "".join(struct_answers(of) for of in level.contents_again())
    return answers_file(level, place, (struct_answers if level.fields else enum_answers)(level) + held_answers(level) + fields)


def reading_measures(level: Level, place: str) -> str:
    """That each read ends."""
    about, call = "The content of a variant nests below it, and an element no deeper than its list.", "newtype_variant_with"
    if level.fields:
        about, call = "Fields nest below their struct, and so does an element of a list, unless it is a number out of bytes.", "next_value_with"
    calls = [part for _, part in [*level.variants, *level.fields] if part and (part.is_lent or not part.is_leaf)]
    return measures_file(level, place, about, call, calls, "".join(fields_measures(of) for of in ([level] if level.fields else level.contents_again())))
