"""The proofs of the code that derive.py writes for a recursive struct."""
from __future__ import annotations

from ..table.types import quoted
from ..flat.terms import nested, place_of
from .given import answered
from .holder_answers import answer, goals_of, left_under, loop_measures
from .leaves import put_in
from .forms import Again
from .levels import Content, Level, after_held, brought_in, each, tables
from .struct_proofs import slots_of
from shared.terms import numbered
from shared.texts import Texts

TEXTS = Texts(__file__)

# What an answer begins with where the next field's place is known, or none is left.
RUN = "let r = c.loop-fields.invariant in\n    "
MET = """let k = c.in-Ok-None.ensures in
    let d = struct_met g.R.Source {low}_names {name}Held0 c.in-Ok.fields c.loop-fields.fields c.next_field_by.new.self {slots} r
    (rw c.in-Ok-None.field-0-is at (k.none r.still)) k.same k.same_reference in
    """
# The same write, which takes memory where a part's does.
TAKES = "part_takes g.W.Sink _ (λ h. grind rules)"
OPENED = "c.in-Ok.fields c.in-Ok.ensures.opened _ _"


def slots(level: Level) -> str:
    """What was read so far, as an answer names it."""
    return slots_of([f"c.loop-fields.slot{at}" for at in range(len(level.fields))])


def start(level: Level, lemma: str) -> str:
    return f"{lemma} g.R.Source {level.low}_names {level.name}Held0"


def left_as(level: Level, steps: list[str]) -> str:
    """That the deserializer is left as the access has it, by these steps after the loop."""
    return left_under([*steps, f"{start(level, 'run_reference')} _ _ _ r", "c.in-Ok.ensures.same_reference"])


def refused(level: Level, fact: str) -> str:
    """The law of a read that is refused, by that of the fields."""
    if not isinstance(level, Content):
        fact = f"lawful_err _ {level.name}Read _ _ _ _ {level.low}_read\n          ({fact})"
    return f"record {{\n      law = {fact};\n    }}"


def read_law(level: Level, lemma: str) -> str:
    return f"{start(level, lemma)} ({level.name}Fields {level.reads}) _ {OPENED}"


class Place:
    """The field at a place, as its answers name what its arm knows."""

    def __init__(self, level: Level, at: int) -> None:
        self.level, self.at, self.part = level, at, level.fields[at][1]
        last = at == len(level.fields) - 1
        self.arm = "c.in-Ok-Some" if last else f"c.in-Ok-Some-eq{at}"
        self.is_last, self.call = last, numbered("next_value_with", at)
        self.new = "c.next_value_with.new.self" if at == 0 else f"c.next_value_with-in-Ok-Some{'' if last else f'-eq{at}'}.new.self"
        self.law = f"(λ d rest gave l y. lent_law g.R.Source _ _ {level.name}Slot{at} (λ a b n h. h) d rest gave y)"

    def found(self) -> str:
        """That its place was answered."""
        place = "subst (TakesPlace g.R.Source c.loop-fields.fields c.next_field_by.new.self)"
        begin = f"{RUN}let k = {self.arm}.ensures in\n    let x = rw {self.arm}.field-0-is at (k.some r.still) in\n    "
        if not self.is_last:
            return f"{begin}let p = {place} {self.arm}.field-0-0-test x in\n    "
        count = len(self.level.fields)
        names = "(ap (λ z. bytes_of z.now) r.same.names ∙ r.names_same)"
        test = f"{self.arm}.field-0-0-test, " if self.at else ""
        return (f"{begin}let below : {self.arm}.field-0-0 < {count} = subst (λ z. {self.arm}.field-0-0 < length z) {names} x.below in\n    "
                f"let p = {place} (omega (arith, {test}below)) x in\n    ")

    def preserved(self) -> str:
        level, at = self.level, self.at
        value = f"c.in-Ok-{self.call}.value"
        after = slots_of([f"(Some {value})" if other == at else f"c.loop-fields.slot{other}" for other in range(len(level.fields))])
        return TEXTS.fill(
            "preserved", found=self.found(), call=self.call, new=self.new, name=level.name, at=at, law=self.law, value=value,
            after_held=after_held(self.part, value), start=start(level, 'struct_step'), slots=slots(level), after=after, low=level.low,
        )

    def fails(self) -> str:
        level, at = self.level, self.at
        fact = (f"{read_law(level, 'struct_value')} c.loop-fields.fields r c.next_field_by.new.self\n          {self.new} {at} {level.name}Slot{at} _ p k.same k.same_reference"
                f" failed\n          {left_as(level, ['q.same_reference', 'k.same_reference'])}\n          (λ fs v m h e. ({level.place(at, level.own())}, {level.low}_tree{at} fs v m h e))")
        return TEXTS.fill(
            "fails", found=self.found(), call=self.call, new=self.new, name=level.name, at=at, law=self.law, refused=refused(level, fact),
        )

    def requires(self) -> str:
        """The value nests below the struct."""
        e, facts = "e : steps_at p.now ≡ steps_at d = ap steps_at q", "h, e, c.decreases"
        if isinstance(self.level, Content):
            e, facts = "e = ap (λ (z : _). max 1 z.room) q", "h, at_most c.args.de.now.kept, e, c.decreases"
        return TEXTS.fill("requires", arm=self.arm, low=self.level.low, e=e, facts=facts)

    def answers(self) -> str:
        fn = self.level.reader
        kept = "loop-fields-preserved" + ("" if self.is_last else f"-in-Ok-{self.call}")
        text = answer(f"{fn}-{kept}", f"\n    {self.preserved()}") + answer(f"{fn}-returns-in-Err-{self.call}", f"\n    {self.fails()}")
        if isinstance(self.part, Again):
            where = "" if self.at == 0 else "-in-Ok-Some" if self.is_last else f"-in-Ok-Some-eq{self.at}"
            text += answer(f"{fn}-next_value_with-requires{where}-clause-part", f" {self.requires()}")
        return text


def given(at: int) -> str:
    """The answer of the call that gives a field's value."""
    return f"c.in-Ok-{numbered('given_or', at)}.ensures.ok"


def same_until(at: int) -> str:
    """That the access is the same after so many of these calls."""
    return " ∙ ".join([f"{given(place)}.1" for place in range(at - 1, -1, -1)]) or "refl"


def missing_answer(level: Level, at: int) -> str:
    """A field is missing."""
    call = numbered("given_or", at)
    before = f"c.{numbered('given_or', at - 1)}.new.self" if at else "c.next_field_by.new.self"
    all_slots = slots(level)
    lacks = f"{level.low}_lacks{at} {all_slots} e.0 fs v h q"
    if level.fields[at][1].absent != "None":
        lacks = "not_missing (e.2 (ap (λ a. a.is_map) same ∙ d.run.same.is_map ∙ m))"
    left = left_as(level, [f"c.in-Err-{call}.ensures.same_reference", "ap (λ a. a.de.ghost_name) same", "k.same_reference"])
    fact = (f"{read_law(level, 'struct_missing')} c.next_field_by.new.self d _\n          (via c.{call}.new.self.de.now {left}\n          (ap (λ a. a.de.now) e.3 ∙ ap (λ a. a.de.now) same))"
            f"\n          ({level.low}_gap{at} {all_slots} e.0) (λ m fs v h q. {lacks})")
    return answer(f"{level.reader}-returns-in-Err-{call}", TEXTS.fill(
        "missing_answer", RUN=RUN, met=MET.format(low=level.low, name=level.name, slots=all_slots), before=before, same_until=same_until(at),
        call=call, refused=refused(level, fact),
    ))


def whole_of(level: Level) -> str:
    """That each field of the value that was made was read, or has a default."""
    values = [f"c.in-Ok-{numbered('given_or', at)}.value" for at in range(len(level.fields))]
    choices = " ".join(f"{given(at)}.0" for at in range(len(level.fields)))
    if isinstance(level, Content):
        return f"({level.low}_whole {slots(level)} {each(values)} {choices})"
    name, made = level.name, " ".join(f"{quoted(field.name)} = {value};" for (field, _), value in zip(level.fields, values))
    return f"(λ fs h. subst (λ z. {name}From0 Is{name} z fs) (sym (out-roll-{name} _)) ({level.low}_whole {slots(level)} (record {{ {made} }}) {choices} fs h))"


def end_answers(level: Level) -> str:
    """All fields were read."""
    name, low, count = level.name, level.low, len(level.fields)
    begin = f"{RUN}{MET.format(low=low, name=name, slots=slots(level))}let last = {same_until(count)} in\n    "
    signs = "".join(after_held(part, f"c.in-Ok-{numbered('given_or', at)}.value") for at, (_, part) in enumerate(level.fields))
    left = left_as(level, ["ap (λ a. a.de.ghost_name) last", "k.same_reference"])
    over = (f"{read_law(level, 'struct_over')} c.next_field_by.new.self d _\n          (subst (λ a. 0 < a.left) last e.0)"
            f"\n          (via c.end.new.self.0 {left} (e.1 ∙ ap (λ a. a.de.now) last))")
    law = f"""{read_law(level, 'struct_done')} c.next_field_by.new.self d _ {whole_of(level)}
          (ap (λ a. a.left) (sym last) ∙ e.0)
          (via c.end.new.self.0 {left} (e.1 ∙ ap (λ a. record a.de.now {{ failed = false }}) last))"""
    if not isinstance(level, Content):
        law = f"lawful_ok _ {name}Read {level.reads} _ _ _ _ ({low}_made _)\n          ({law})"
    done = f"{signs}(record {{\n      law = {law};\n    }})"
    return (
        answer(f"{level.reader}-returns-in-Ok-end", f"\n    {begin}let e = c.in-Ok-end.ensures.ok (subst IsStructOpen (sym last) d.run.still) in\n    {done}")
        + answer(f"{level.reader}-returns-in-Err-end", f"\n    {begin}let e = c.in-Err-end.ensures.err (subst IsStructOpen (sym last) d.run.still) in\n    {refused(level, over)}")
    )


def struct_answers(level: Level) -> str:
    """How the type is read."""
    name, low = level.name, level.low
    fn, nothing = level.reader, slots_of(["None"] * len(level.fields))
    proof = "(refl, " * len(level.fields) + "tt" + ")" * len(level.fields)
    unopened = f"fields_unopened g.R.Source {low}_names ({name}Fields {level.reads}) _ _ _ (rw c.in-Err.is at c.deserialize_struct.follows.holds-at-none)"
    left = left_as(level, ["c.in-Err-next_field_by.ensures.same_reference"])
    place = f"{read_law(level, 'struct_place')} c.loop-fields.fields r _ _ c.next_field_by.new.self _\n          (c.in-Err-next_field_by.ensures.err r.still) {left}"
    text = answer(f"{fn}-returns-in-Err", f" {refused(level, unopened)}")
    text += answer(f"{fn}-loop-fields-init", f" {start(level, 'struct_start')} _ c.in-Ok.fields {nothing} c.in-Ok.ensures.opened {proof}")
    text += "".join(Place(level, at).answers() for at in range(len(level.fields)))
    text += answer(f"{fn}-returns-in-Err-next_field_by", f"\n    {RUN}{refused(level, place)}")
    return text + "".join(missing_answer(level, at) for at in range(len(level.fields))) + end_answers(level)


def leaf_answers(of: Content, place: str) -> str:
    """How the fields of a variant are read of which each is a leaf: as nested pairs."""
    count = len(of.fields)
    parts = nested([of.place(at, "r.0") for at in range(count)], "tt")
    signs = "".join(after_held(part, f"c.in-Ok.parts{place_of(at, count)}") for at, (_, part) in enumerate(of.fields))
    text = TEXTS.fill("leaf_answers", signs=signs, parts=parts)
    table = {"std.proofs.Common": "rules", "std.proofs.lemmas.Int": "to_z-of_z", "std.specs.Int": "w8 w16 w32 w64 w128", "rmp_decode.proofs.Laws": "lawful_ok lawful_err"}
    return brought_in(text, table) + goals_of(of, place) + text


def fields_measures(level: Level) -> str:
    """What holds while fields are read, and what falls."""
    run = f"StructRun g.R.Source {level.low}_names {level.name}Held0 l.initial.fields l.fields {slots_of([f'l.slot{at}' for at in range(len(level.fields))])}"
    return loop_measures(f"{level.reader}-loop-fields", run, "l.fields.left")


def known(level: Level, at: int) -> str:
    """What is known of a field from that it was written."""
    field, part = level.fields[at]
    fact = f"c.in_ok-{numbered('serialize_field', at)}.ensures.value"
    if not isinstance(part, Again) or part.known == "h":
        return fact
    return f"({put_in(part.known, {'a': f'(out-{level.name} c.args.self.now).{field.name}', 'h': fact})})"


def stops(level: Level) -> tuple[str, str]:
    """The answers for what is refused as it is written, and what is known of what isn't."""
    text = ''
    run, names = "c.in_ok-fields.ensures.opened _ refl", ["c.in_ok-fields.ensures.same_reference"]
    fails = [("fields", "unopened g.W.Sink _ _ _ _ c.args.se.now _ _ _ _ c.in_err-fields.was c.serialize_struct.follows.holds-at-none refl", "")]
    for at in range(len(level.fields)):
        call = numbered("serialize_field", at)
        left = left_under([f"c.in_err-{call}.ensures.same_reference", *names])
        fails.append((call, f"rests_at g.W.Sink {left}\n    (c.in_err-{call}.ensures.writes c.args.se.now _ _ ({run}))", f"-in_err-{call}"))
        run, names = f"c.in_ok-{call}.ensures.writes c.args.se.now _ _ ({run})", [f"c.in_ok-{call}.ensures.same_reference", *names]
    for call, fact, at in fails:
        goal = f"returns-in_err-{call}-clause-writes"
        text += TEXTS.fill("stops", level, goal=goal, at=at, TAKES=TAKES, fact=fact)
    return text, f"rests_at g.W.Sink {left_under(names)} (c.end.ensures.writes c.args.se.now _ ({run}))"


def writing_answers(level: Level, place: str) -> str:
    """What is written is the value's data, and is known to be a value."""
    low = level.low
    text, written = stops(level)
    facts = [known(level, at) for at in range(len(level.fields))]
    fits = facts[0] if len(facts) == 1 else f"({', '.join(facts)})"
    text += TEXTS.fill("writing_answers", level, TAKES=TAKES, written=written, fits=fits)
    words = tables(level)
    table = {
        "std.proofs.Common": words["std.proofs.Common"] + " arith rules",
        "std.proofs.lemmas.Result": "err_from_is_err_and",
        "rmp_recursive.proofs.Parts": "ok_holds",
        "rmp_recursive.specs.Parts": "all_by",
        "rmp_encode.proofs.Going": "unopened",
        "rmp_encode.proofs.Parts": "rests_at part_takes",
        f"{level.crate}.specs.{level.name}Levels": f"{low}_is_own {low}_fits_in",
        level.declared: level.brought("{name} out-{name}"),
        "rmp_recursive.specs.Shapes": words["rmp_recursive.specs.Shapes"],
    }
    for home, names in words.items():
        if not home.startswith("rmp_"):
            table.setdefault(home, names)
    text = answered(level, text)
    return brought_in(text, table) + goals_of(level, place) + text
