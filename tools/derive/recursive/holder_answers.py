"""The proofs of the code that derive.py writes for recursive enums and structs alike: recursive_holders.py has that code."""
from __future__ import annotations


from ..words import TABLES, filled, joined
from .given import answered
from .holders import holder
from .leaves import Part
from .forms import Again
from .levels import Level, brought_in, is_map, tables
from .map_answers import map_answers, map_measures
from .row_answers import row_answers
from shared.texts import Texts

TEXTS = Texts(__file__)


def goals_of(level: Level, place: str) -> str:
    return f"use Rattle.{level.crate}.proofs.{place}.Goals as goal\n"


def fields_words(level: Level) -> list[str]:
    """The words of what is known of fields."""
    name, low = level.name, level.low
    words = [word for at in range(len(level.fields)) for word in (f"{name}Slot{at}", f"{low}_tree{at}", f"{low}_step{at}", f"{low}_gap{at}", f"{low}_lacks{at}")]
    return [f"{name}Held0", f"{low}_whole", *words]


def answers_file(level: Level, place: str, text: str) -> str:
    rolls, fields = [f"rolls-{shape.name}" for shape, _ in level.variants], [word for of in (level, *level.contents_again()) for word in fields_words(of)]
    words = {"declared": level.declared, "crate": level.crate, "name": level.name, "rolls": " ".join(rolls), "fields": " ".join(fields)}
    table = joined(tables(level), filled(TABLES["recursive answers"], **words))
    if level.fields:
        table[f"{level.declared}.TheViews"] = level.brought("out-roll-{name}")
    text = answered(level, text)
    return brought_in(text, table) + goals_of(level, place) + text


def answer(goal: str, term: str) -> str:
    return f"\npub {goal} : goal.{goal}\n{goal} g t c ={term}\n"


def left_under(names: list[str]) -> str:
    """That a value is left as the last access to it has it, whose reference is by these steps the one that was borrowed.

    What is left under that reference is found. Without these steps all that is known of each field and of each function of the cycle would be
    gone through, and a search breaks off."""
    steps = " ∙ ".join(names)
    return f"(grind (arith, sym {steps if len(names) == 1 else f'({steps})'}))"


def room_of(level: Level, run: str) -> str:
    """That an element has no more room than its list, and, of a struct, fewer steps."""
    if level.fields:
        rest = f"part_steps {run} in\n    let e : steps_at p.now ≡ steps_at d = ap steps_at q in\n"
    else:
        rest = f"part_room {run} in\n    let e = ap (λ (z : _). max 1 z.room) q in\n"
    return f"    let h = {rest}    (omega (arith, h, e, c.decreases), ((λ a m. m), ((λ a m. m), (λ a m. m))))"


def unkept(name: str, row: str, lets: str, opened: str) -> str:
    """That there was no memory for an element. What the call left is found before anything else is known: what a search would go through beside it
    breaks it off in a type of many parts."""
    now = "c.next_element_with.new.self"
    facts = " ∙ ".join(f"sym {it}.same_reference" for it in ["c.in_ok-seq.ensures", "c.loop-items.invariant.run", "c.in_ok-item.ensures"])
    return TEXTS.fill("unkept", now=now, facts=facts, lets=lets, name=name, row=row, opened=opened)


def list_answers(level: Level, part: Again) -> str:
    """How a list of the type, or a queue, is read."""
    fn, name = holder(level, part), read_in(level, part)
    kind, push = ("queue", "push_back") if part.form == "queue" else ("vec", "push")
    row = f"({kind}_row {name})"
    start = f"let p = err_from_is_err_and c.from_residual{{at}}.result c.from_residual{{at}}.ensures.1 in\n"
    run = "let r = c.loop-items.invariant in\n    let e = c.in_{}-item.ensures in\n"
    taken = TEXTS.fill("list_taken", reads=name)
    step = f"values_step g.R.Source {name} c.in_ok-seq.seq c.loop-items.seq c.next_element_with.new.self c.loop-items.items.items c.in-Some.item r k e.same_reference"
    over = TEXTS.fill("list_over")
    opened = "c.in_ok-seq.ensures.opened"

    def refused(fact: str) -> str:
        return f"record {{\n      law = lawful_err _ (Row {name}) _ _ _ _ {row}\n          ({fact});\n    }}"

    terms = {
        "returns-in_err-seq": start.format(at="") + "    rw (p.1, p.2) ("
        + refused(f"row_unopened g.R.Source {name} _ _ _ (rw c.in_err-seq.was at c.deserialize_seq.follows.holds-at-none)") + ")",
        "loop-items-init": f"rw c.new-items.ensures.items (values_start g.R.Source {name} c.in_ok-seq.seq {opened}.opened)",
        "next_element_with-requires": "λ s some d l p q.\n" + room_of(level, f"g.R.Source c.args.de.now c.in_ok-seq.seq c.loop-items.seq _ {opened} c.loop-items.invariant.run d l"),
        "returns-in_err-item": start.format(at="-in_err-item") + "    " + run.format("err") + TEXTS.fill("list_refused", reads=name)
        + refused(f"row_refused g.R.Source {name} _ c.in_ok-seq.seq c.loop-items.seq c.loop-items.items.items {opened} r _\n"
                  "          c.next_element_with.new.self _ f (e.marked r.run.still.marked) (search rules)") + ")",
        "loop-items-preserved": run.format("ok") + "    " + taken + f"    rw c.in_ok-{push}.ensures.items ({step})",
        "returns": run.format("ok") + "    " + over + TEXTS.fill("list_done", kind=kind, reads=name, opened=opened),
        f"returns-in_err-{push}": start.format(at=f"-in_err-{push}") + unkept(name, row, f"{run.format('ok')}    {taken}    let v = {step} in\n", opened),
        "returns-in_err-end": run.format("ok") + "    " + over + "    let d = (c.in_err-end.ensures.err (subst IsOpen (sym n) r.run.still)).0 in\n"
        "    absurd (omega (arith, z, d, ap (λ s. s.left) n))",
    }
    return "".join(f"\npub {fn}-{goal} : goal.{fn}-{goal}\n{fn}-{goal} g t c =\n    {term}\n" for goal, term in terms.items())


def box_answers(level: Level, part: Again) -> str:
    fn = holder(level, part)
    goal = f"{fn}-returns-in-Err"
    return f"\npub {goal} : goal.{goal}\n{goal} g t c = record {{\n  law = lawful_err _ _ _ _ _ _ (λ m r. (r.0.value, r.1)) c.in-Err.ensures.law;\n}}\n"


def read_in(level: Level, part: Again) -> str:
    """What a message is read from in a list or an option."""
    if not part.inner:
        return f"Is{level.name}"
    return f"(λ (j : Msg) (q : {part.inner.term}). {part.inner.reads.format(reads=f'Is{level.name}', k='j', a='q')})"


def option_answers(level: Level, part: Again) -> str:
    """How an option is read, whose value isn't nil."""
    fn = holder(level, part)
    reads = read_in(level, part) if part.inner else f"(Boxed Is{level.name})"
    room = "let h = s.stays.room in\n    let e = ap (λ (z : _). max 1 z.room) q in"
    if level.fields:
        room = "let h = other_steps g.R.Source c.args.de.now d s in\n    let e : steps_at p.now ≡ steps_at d = ap steps_at q in"
    return answer(f"{fn}-returns", f""" record {{
  law = option_law g.R.Source {reads} _ _ _ _ (λ p q r h. h) _ c.deserialize_option_with.ensures;
}}""") + answer(f"{fn}-deserialize_option_with-requires", f""" λ f d s p q.
    {room}
    (omega (arith, h, e, c.decreases), ((λ a m. m), ((λ a m. m), (λ a m. m))))""")


def held_answers(level: Level) -> str:
    """How the type again is read, in all that it is in."""
    answers = {"list": list_answers, "queue": list_answers, "box": box_answers, "option": option_answers, "map": map_answers, "row": row_answers}
    return "".join(answers[part.form](level, part) for part in level.holders() if not part.named)


# ---- that the reads end


def loop_measures(loop: str, invariant: str, left: str) -> str:
    """What holds in a loop, and what falls."""
    return TEXTS.fill("loop_measures", loop=loop, invariant=invariant, left=left)


# The call of what reads a part again in another, by the form of the other.
CLOSURES = {"list": "next_element_with", "queue": "next_element_with", "option": "deserialize_option_with", "map": "next_value_with"}


def rank(part: Part) -> int:
    """How many functions and closures are called one after another, at most, to read a part in which the type is again, and the type: what reads a
    row calls what reads each value."""
    if not isinstance(part, Again) or part.form == "alone":
        return 0
    if part.named or part.held:
        return max(6, *(rank(of) + 2 for of in part.held))
    return rank(part.inner) + 2 if part.inner else 4 if part.form == "option" else 2


def closures(call: str, parts: list[Part], least: int) -> dict[str, int]:
    """The closures of a call that read these parts and call the type's functions, each with what it takes beyond the room."""
    return {call + f"+{at + 1}" * (at > 0): least for at, part in enumerate(parts) if not part.is_leaf}


def measures_file(level: Level, place: str, about: str, call: str, parts: list[Part], text: str = "") -> str:
    """What falls from each read to the next: the room, or, of a struct, the steps, and then one after another of what reads the same message.

    The closures of `call` read these parts, and `text` says what holds in loops."""
    name, fn = level.name, f"read_{level.low}"
    each = max(4, *(rank(part) for part in level.holders()), 4) + 2
    more = {fn: 0} | closures(f"{fn}-{call}", parts, each - 1)
    for part in level.holders():
        read, least = holder(level, part), rank(part)
        more[read] = least
        if part.held:
            call_in = "next_value_with" if part.named else "next_element_with"
            more |= closures(f"{read}-{call_in}", [held for held in part.held if held.is_lent or not held.is_leaf], least - 1)
        elif part.form in CLOSURES:
            more[f"{read}-{CLOSURES[part.form]}"] = least - 1
        if is_map(part):
            text += loop_measures(f"{read}-loop-entries", *map_measures(level, part))
        if part.form in ("list", "queue"):
            text += loop_measures(f"{read}-loop-items", f"Values g.R.Source {read_in(level, part)} l.initial.seq l.seq l.items.items", "l.seq.left")
    whole = "steps_at l.de.now" if level.fields else "max 1 l.de.now.room"
    lines = "".join(f"\nabbrev pub decreases-{of} : goal.decreases-{of}\ndecreases-{of} g l = {each} * {whole}{f' + {n}' * (n > 0)}\n" for of, n in more.items())
    text = f"\n-- {about}{lines}{answered(level, text)}"
    table = {
        **{home: words for home, words in tables(level).items() if home.startswith(("std", "rmp_decode", "rmp_wire")) or ".declared." in home},
        "std.proofs.Common": f"◌+◌ ◌*◌ max {tables(level)['std.proofs.Common']}",
        "rmp_decode.proofs.Maps": "Gathers",
        "rmp_decode.proofs.Seqs": "Values",
        "rmp_decode.proofs.StructRuns": "StructRun",
        f"{level.crate}.specs.{name}Levels": " ".join([f"Is{name}", *(f"{of.low}_names" for of in (level, *level.contents_again()))]),
        f"{level.crate}.proofs.{name}Levels": " ".join(f"{of.name}Held0" for of in (level, *level.contents_again())),
        "rmp_recursive.proofs.Parts": "steps_at",
        "rmp_recursive.specs.Parts": tables(level)["rmp_recursive.specs.Parts"],
    }
    return brought_in(text, table) + f"use Rattle.{level.crate}.proofs.{place}.Given as goal\n" + text
