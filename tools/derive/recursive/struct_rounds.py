"""The laws that derive.py writes for a recursive struct: its values are read as they were written, and as nothing else."""
from __future__ import annotations

from ..flat.terms import chained
from .fields import missing, there
from .levels import Level, file_of, places_of
from .rounds import both_fields, facts_of, field_rows, only_parts, places_in, row_proofs, same_law, some_facts
from .given import SETTINGS, words_of
from .structs import own_fields, own_pairs, sections
from shared.texts import Texts

TEXTS = Texts(__file__)


def rounds_file(level: Level) -> str:
    about = f"Each {level.name} is read as it was written, and as nothing else. Written by tools/derive.py."
    return file_of(level, f"{level.name}Rounds", about, back_of(level) + only_of(level), words_of(level, sections(level)))


def values_of(level: Level, of: str) -> list[str]:
    """The fields of a value, which has them in this term."""
    return [f"{of}.{field.name}" for field, _ in level.fields]


def back_of(level: Level) -> list[tuple[str, str]]:
    """No value is refused; what it lowers to is read as it; and it is never nil."""
    name, own = level.name, level.own()
    fields, parts = zip(*level.fields)
    reads, absent = zip(*((there(level, at, f"Is{name}", own), missing(level, at, own)) for at in range(len(fields))))
    rows = field_rows(fields, reads, absent, row_proofs(parts, values_of(level, own)))
    pairs = own_pairs(level, own)
    return [
        ("DS", TEXTS.fill("some", level, pairs=pairs, facts=some_facts(parts, values_of(level, own)))),
        ("sD", TEXTS.fill("never_nil", level, pairs=pairs)),
        ("sRDFB", TEXTS.fill("round", level, settings=SETTINGS * bool(level.given), own=own, pairs=pairs, rows=rows)),
    ]


def only_of(level: Level) -> list[tuple[str, str]]:
    """Nothing else is read of what a value lowers to."""
    name, own = level.name, level.own()
    fields, parts = zip(*level.fields)
    values, others = (values_of(level, f"(out-{name} {of})") for of in "vw")
    facts = facts_of(level, parts)
    told, proofs = only_parts(facts, parts, values)
    alike = [f"({part.alike_by(*it)}) i" for part, *it in zip(parts, values, others, [f"({it})" for it in places_in("x", len(parts))], places_of("fit", len(parts)))]
    both = f"(λ fs i j. let x = {both_fields(facts, values, others)} fs i j in (λ i. structure_of ({own_fields(level, alike)})))"
    only = TEXTS.fill(
        "only", level, own=own, pairs=own_pairs(level, own), reads=chained([f"Field {it} ⊥" for it in told], "NoField"),
        rows=field_rows(fields, told, ["⊥"] * len(fields), proofs), bound=level.bound, both=both,
    )
    return [same_law(level), ("sRDFQO", only)]
