"""The laws of tuples: `RoundTrip`, `NeverNil`, `ContentOrd` and `EndsInside`, for tuples.py."""
from __future__ import annotations

from shared.terms import KINDS, all_of, any_of, both_of, bounded, in_a_row, known, lent, linked, list_of, tuple_of
from shared.texts import Texts

TEXTS = Texts(__file__)

ROUNDS_HEAD = TEXTS.fill("rounds_head")


def rows(facts: list[tuple[str, str]]) -> str:
    """What is read of the items, by what is read of each and why."""
    return linked("rows_cons s _ _", [f"{reads} _ {why}" for reads, why in facts], "(rows_none s)")


def rounds(count: int) -> str:
    kinds = KINDS[:count]
    borrows = [f"{kind}.borrows" for kind in kinds]
    places = list(zip(kinds, range(count), known("fits", count), lent(borrows, "lent")))
    same = " × ".join(f"{kind}.same v.{i} w.{i}" for kind, i, *_ in places)
    stated = linked("parts_cons _ _", [f"({kind}.has_data human v.{i})" for kind, i, *_ in places], "parts_none")
    read = rows([(f"(λ m. {kind}.reads s.human R.lends m v.{i})", f"({kind}.round {proof} s v.{i} {fits})") for kind, i, fits, proof in places])
    alone = rows([(f"(λ m. Only ({kind}.reads s.human R.lends) {kind}.same m v.{i})", f"({kind}.only s v.{i} {fits})") for kind, i, fits, _ in places])
    both = both_of([(f"({kind}.reads s.human R.lends)", f"{kind}.same", f"v.{i}", f"w.{i}") for kind, i, *_ in places],
                   "row_both _ _ _ m q r", "item_only", "last_only")
    same_parts = list(zip(kinds, range(count), known("h", count)))
    alike = in_a_row(f"{kind}.alike human v.{i} w.{i} {h} i" for kind, i, h in same_parts)
    equal = ""
    for kind, i, h in same_parts:
        one = f"({kind}.equal v.{i} w.{i} {h})"
        equal = f"(then_tied _ _ {equal} {one})" if equal else one
    of = tuple_of(kinds)
    only = f"(λ m. (w : _) → ⟦<{of} as Deserialize<'de, R>>⟧.reads s.human R.lends m w → {same})"
    return TEXTS.fill(
        "rounds", bounds=bounded(kinds, "RoundTrip<'de, R>"), of=of, any_of=any_of(borrows), stated=stated, read=read, same=same, alike=alike,
        only=only, alone=alone, both=both, written_bounds=bounded(kinds, 'Serialize'),
        in_a_row=in_a_row((f'{kind}.data_of v.{i} s.human' for kind, i, *_ in places)), bounded_3=bounded(kinds, "ContentOrd<'de, R>"), equal=equal,
    )


ENDS_HEAD = TEXTS.fill("ends_head")


def ends(count: int) -> str:
    kinds = KINDS[:count]
    parts = list_of([f"part_of {kind}.reads {kind}.refuses" for kind in kinds])
    return TEXTS.fill(
        "ends", bounded=bounded(kinds, "EndsInside<'de, R>"), tuple_of=tuple_of(kinds), parts=parts,
        all_of=all_of([f'{kind}.ends_inside' for kind in kinds]),
    )
