"""How tuples and fields are read: `Deserialize` for tuples, which are read as the fields of a struct that is a list, and `read_fields_2` to
`read_fields_12`, for tuples.py.

The contract of each of the last says what each field is read from, in one list, and names no type of more fields: so a struct that calls it is
proved without what is said of nested tuples.
"""
from __future__ import annotations

from derive.flat.terms import nested, place_of
from derive.table.types import LEAST_FLAT, MOST_FLAT
from shared.terms import KINDS, Answers, around, bounded, chained, in_a_row, list_of, tuple_of
from shared.texts import Texts

TEXTS = Texts(__file__)

TUPLES_HEAD = TEXTS.fill("tuples_head")
USES = {
    "std.proofs.Common": "◌||◌",
    "rmp_decode.proofs.Laws": "lawful_ok lawful_err",
    "rmp_decode.proofs.Tuples": "row_as each_field no_field field_each field_none or_last",
}


def fields_of(parts: list[str], end: str = "()") -> str:
    """The elements as the fields of a struct: a pair of the first one and the others, and of more than four a tuple of the first four and the others.

    The last four are nested pairs, unlike those of a derived struct: so reads of small tuples take fewer instructions.
    """
    if len(parts) > 4:
        return f"({', '.join(parts[:4])}, {fields_of(parts[4:], end)})"
    return f"({parts[0]}, {fields_of(parts[1:], end)})" if parts else end


def one_of(flags: list[str]) -> str:
    """Whether one of them is so."""
    first, *rest = flags
    return f"{first} || ({one_of(rest)})" if len(rest) > 1 else " || ".join(flags)


def tuples(count: int) -> str:
    kinds = KINDS[:count]
    names = [kind.lower() for kind in kinds]
    of = tuple_of(kinds)
    reads = chained([f"AndThen (λ k. {kind}.reads human lends k v.{i})" for i, kind in enumerate(kinds)], "NoMore")
    return TEXTS.fill(
        "tuples", bounded=bounded(kinds, "Deserialize<'de, R>"), of=of, reads=reads,
        in_a_row=in_a_row((f'part_of {kind}.reads {kind}.refuses' for kind in kinds)),
        one_of=one_of([f'{kind}.takes_memory lends' for kind in kinds]), count=count, fields_of=fields_of(names), tuple_of=tuple_of(names),
    )


def no_memory(kinds: str) -> str:
    """None of them takes memory, and so the fields don't, of which there are no more after the last."""
    *front, last = [f"g.{kind}.Deserialize.takes_memory y" for kind in kinds]
    return f"or_last (λ z. {one_of([*front, 'z'])}) ({last})"


def answers(count: int) -> dict[str, Answers]:
    fields = fields_of([f"r.0.{i}" for i in range(count)], "tt")
    back = around(count, "field_each _ _ _ _", "field_none")
    terms = {
        "returns-in-Ok-clause-law": "lawful_ok g.R.Source _ _ _ _ _ _"
            f" (row_as _ _ {around(count, 'each_field _ _ _ _', 'no_field')}) c.in-Ok.ensures.law",
        "returns-in-Err-clause-law": f"\n    lawful_err g.R.Source _ _ _ _ _ (λ m r. ({fields}, row_as _ _ {back} m r.1)) c.in-Err.ensures.law",
        "returns-in-Err-clause-memory": f"λ n. let y = g.R.ReadSlice.lends in c.in-Err.ensures.memory ({no_memory(KINDS[:count])} n)",
    }
    return {f"Tuple{count}Deserialize/deserialize": Answers(USES, terms)}


COUNTS = range(LEAST_FLAT, MOST_FLAT + 1)


def uses_of_fields() -> str:
    names = [f"reads_{count}" for count in COUNTS]
    return "".join(f"ghost use Rattle.rmp_decode.specs.ReadFields.{{{', '.join(names[at : at + 8])}}};\n" for at in range(0, len(names), 8))


FIELDS_HEAD = TEXTS.fill("fields_head", uses_of_fields=uses_of_fields())
FIELDS_SPECS = TEXTS.fill("fields_specs")


def value(kinds: list[str]) -> str:
    """The type of the values: tuples of four and the others, and pairs for the last ones."""
    if not kinds:
        return "Unit {0}"
    size = 4 if len(kinds) >= 4 else 1
    return f"({' × '.join(kinds[:size])} × {value(kinds[size:])})"


def reads_fields(count: int) -> str:
    """The definition that the contract of so many fields names."""
    places = range(count)
    kinds = [f"A{at}" for at in places]
    given = " → ".join(f"(Bool → Bool → Msg → {kind} → Type 0) → Option {kind}" for kind in kinds)
    words = " ".join(f"r{at} a{at}" for at in places)
    fields = chained([f"Field (λ j. r{at} human lends j v{place_of(at, count)}) (Absent a{at} v{place_of(at, count)})" for at in places], "NoField")
    return TEXTS.fill("reads_fields", count=count, kinds=' '.join(kinds), given=given, value=value(kinds), words=words, fields=fields)


def read_fields(count: int) -> str:
    kinds = [f"P{at}" for at in range(count)]
    given = " ".join(f"{kind}.reads {kind}.absent" for kind in kinds)
    parts = list_of([f"part_of {kind}.reads {kind}.refuses" for kind in kinds])
    needed = list_of([f"is_none {kind}.absent" for kind in kinds])
    return TEXTS.fill(
        "read_fields", count=count, bounded=bounded(kinds, "Deserialize<'de, R>"), nested=nested(kinds), given=given, needed=needed, parts=parts,
    )
