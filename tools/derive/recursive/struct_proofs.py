"""The lemmas that derive.py writes for the read of a recursive struct: what its slots hold, and what follows for its fields."""
from __future__ import annotations

from ..words import TABLES, joined
from .fields import missing, there
from .given import put_together, words_of
from .levels import Level, brought_in, tables
from .structs import sections
from shared.texts import Texts

TEXTS = Texts(__file__)


def slot(at: int, of: str = "s") -> str:
    """What was read so far of the field at a place, of all slots."""
    return of + ".1" * at + ".0"


def later(at: int, of: str = "s") -> str:
    """The slots after it."""
    return of + ".1" * (at + 1)


def slots_type(level: Level, at: int = 0) -> str:
    if at == len(level.fields):
        return "Unit {0}"
    return f"(Option ({level.fields[at][1].term}) × {slots_type(level, at + 1)})"


def slots_of(values: list[str]) -> str:
    """The slots of these values."""
    return "".join(f"({value}, " for value in values) + "tt" + ")" * len(values)


def held_lines(level: Level) -> str:
    """What was read so far of the fields from each place on."""
    name, count = level.name, len(level.fields)
    lines = f"\nabbrev pub {name}Held{count} : List (Option Msg) → Unit {{0}} → Type 0\n{name}Held{count} fs s = NoField fs\n"
    for at in range(count - 1, -1, -1):
        part = level.fields[at][1]
        lines += TEXTS.fill(
            "held_lines", level, at=at, term=part.term, reads=part.reads.format(reads=level.reads, k='m', a='a'), slots_type=slots_type(level, at),
            next=at + 1,
        )
    return lines


def tree_line(level: Level, at: int) -> str:
    """The tree of a field is one that it is read from."""
    name, own, reads = level.name, level.own(), level.reads
    holds = f"({name}Slot{at} m {level.place(at, own)})"

    def term(level_at: int, fs: str, h: str, e: str) -> str:
        start = f"{there(level, level_at, reads, own)} {missing(level, level_at, own)} ({name}From{level_at + 1} {reads} {own})"
        if level_at == at:
            return f"first_tree {start} {fs} m {h} {e}"
        new = f"g{level_at} h{level_at} e{level_at}"
        return f"later_tree {start} {holds} {at - level_at - 1} {fs} m {h} {e} (λ {new}. {term(level_at + 1, *new.split())})"

    of = f"{level.low}_tree{at}"
    return f"\npub {of} : (fs : List (Option Msg)) (v : {level.term}) (m : Msg) → {name}Fields {reads} fs v → at {at} fs ≡ Some m → {holds}\n{of} fs v m h e = {term(0, 'fs', 'h', 'e')}\n"


def step_line(level: Level, at: int) -> str:
    """Its value is put into its slot."""
    name, count = level.name, len(level.fields)
    after = slots_of([f"Some x" if place == at else slot(place) for place in range(count)])

    def tail(place: int) -> str:
        return slots_of([f"Some x" if other == at else slot(other) for other in range(place, count)])

    def term(place: int, fs: str, h: str, e: str) -> str:
        start = f"{name}Slot{place} {name}Held{place + 1}"
        if place == at:
            return f"slot_first {start} {slot(place)} {later(place)} x {fs} m {h} {e} r"
        new = f"g{place} h{place} e{place}"
        return f"slot_later {start} {at - place - 1} {slot(place)} {later(place)} {tail(place + 1)} {fs} m {h} {e} (λ {new}. {term(place + 1, *new.split())})"

    of = f"{level.low}_step{at}"
    return TEXTS.fill(
        "step_line", level, lemma=of, slots=slots_type(level), kind=level.fields[at][1].term, at=at, after=after, proof=term(0, 'fs', 'h', 'e'),
    )


def gap_line(level: Level, at: int) -> str:
    """It wasn't read, so that not all were given."""
    name = level.name

    def term(place: int, ms: str, h: str) -> str:
        start = f"{name}Slot{place} {name}Held{place + 1}"
        if place == at:
            return f"slot_gap {start} {later(place)} {ms} (subst (λ z. {name}Held{at} (given_all {ms}) (z, {later(place)})) e {h})"
        return f"slot_gap_later {start} {slot(place)} {later(place)} (λ m{place} h{place}. {term(place + 1, f'm{place}', f'h{place}')}) {ms} {h}"

    of = f"{level.low}_gap{at}"
    return f"\npub {of} : (s : {slots_type(level)}) → {slot(at)} ≡ None → (ms : Msgs) → {name}Held0 (given_all ms) s → ⊥\n{of} s e ms h = {term(0, 'ms', 'h')}\n"


def lacks_line(level: Level, at: int) -> str:
    """And it has no default."""
    name, own, reads = level.name, level.own(), level.reads

    def term(place: int, fs: str, h: str, q: str) -> str:
        start = f"{name}Slot{place} {name}Held{place + 1}"
        rest = f"({name}From{place + 1} {reads} {own})"
        if place == at:
            held = f"(subst (λ z. {name}Held{at} {fs} (z, {later(place)})) e {h})"
            return f"slot_lacks {start} None {rest} {later(place)} {level.place(at, own)} {fs} refl {held} {q}"
        new = f"g{place} h{place} q{place}"
        where = f"{there(level, place, reads, own)} {missing(level, place, own)} {rest}"
        return f"later_lacks {start} {where} {slot(place)} {later(place)} {fs} {h} {q} (λ {new}. {term(place + 1, *new.split())})"

    of = f"{level.low}_lacks{at}"
    facts = f"{slot(at)} ≡ None → (fs : List (Option Msg)) (v : {level.term}) → {name}Held0 fs s → {name}Fields {reads} fs v"
    return f"\npub {of} : (s : {slots_type(level)}) → {facts} → ⊥\n{of} s e fs v h q = {term(0, 'fs', 'h', 'q')}\n"


def whole_line(level: Level) -> str:
    """Each was read, or has a default."""
    name, count, given = level.name, len(level.fields), []
    for at, (_, part) in enumerate(level.fields):
        value = level.place(at, "x")
        given.append(f"({slot(at)} ≡ Some {value}) ⊎ (({slot(at)} ≡ None) × ({part.absent} ≡ Some {value}))")

    def term(place: int, fs: str, h: str) -> str:
        if place == count:
            return h
        rest = f"({name}From{place + 1} {level.reads} x)"
        start = f"{name}Slot{place} {name}Held{place + 1} {level.fields[place][1].absent} {rest} {slot(place)} {later(place)} {level.place(place, 'x')}"
        return f"slot_field {start} {fs} {h} c{place} (λ g{place} h{place}. {term(place + 1, f'g{place}', f'h{place}')})"

    of = f"{level.low}_whole"
    facts = "".join(f"\n    → ({fact})" for fact in given)
    names = " ".join(f"c{at}" for at in range(count))
    whole = f"(fs : List (Option Msg)) → {name}Held0 fs s → {name}From0 {level.reads} x fs"
    return f"\npub {of} : (s : {slots_type(level)}) (x : {level.opened}){facts}\n    → {whole}\n{of} s x {names} fs h = {term(0, 'fs', 'h')}\n"


def fields_proofs(level: Level) -> str:
    """What was read so far of the fields, and what follows."""
    text = held_lines(level)
    for at, (_, part) in enumerate(level.fields):
        text += tree_line(level, at) + step_line(level, at) + gap_line(level, at) + lacks_line(level, at) * (part.absent == "None")
    return text + whole_line(level)


def proof_sections(level: Level) -> list[tuple[str, str]]:
    """The lemmas, by what they depend on."""
    return [("D", TEXTS.fill("proof_sections", level)), ("R", f"""
-- ---- what was read so far
{fields_proofs(level)}""")]


def proofs_file(level: Level) -> str:
    """That no value is a byte, and what its slots say."""
    name = level.name
    text = put_together(level, proof_sections(level), words_of(level, sections(level)))
    return f"-- No {name} is written as a byte, and what is read of its fields. Written by tools/derive.py.\n{brought_in(text, proof_tables(level))}{text}"


def proof_tables(level: Level) -> dict[str, str]:
    return joined(tables(level), TABLES["recursive slots"])
