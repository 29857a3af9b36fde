"""The definitions that derive.py writes for fields with names, of a recursive struct or of a variant: what they are read from, and by steps."""
from __future__ import annotations

from collections.abc import Iterable

from ..table.types import Field
from ..flat.terms import codes
from .leaves import put_in
from .forms import Again
from .levels import Level, wider
from shared.terms import list_of
from shared.texts import Texts

TEXTS = Texts(__file__)


def there(level: Level, at: int, reads: str, value: str) -> str:
    """What the field at a place is read from where it is there."""
    return f"(λ k. {level.fields[at][1].reads.format(reads=reads, k='k', a=level.place(at, value))})"


def missing(level: Level, at: int, value: str) -> str:
    """What holds where it isn't."""
    return f"(Absent {level.fields[at][1].absent} {level.place(at, value)})"


def pairs_of(fields: Iterable[Field], data: Iterable[str]) -> str:
    """Fields with what they are written as."""
    return list_of([f'(codes "{field.key}", {term})' for field, term in zip(fields, data)])


def names_lines(level: Level) -> str:
    """Their names."""
    return f"\nabbrev pub {level.low}_names : List (List ℕ)\n{level.low}_names = {codes(field.key for field, _ in level.fields)}\n"


def from_lines(level: Level) -> str:
    """What the fields from each place on are read from."""
    count, by = len(level.fields), f"(Msg → {level.whole.name} → Type 0) → " * (not level.is_leaf())
    fields = []
    for at in range(count, -1, -1):
        rest = f"({level.said(f'From{at + 1}', 'reads')} x)"
        holds = f"Field {there(level, at, 'reads', 'x')} {missing(level, at, 'x')} {rest}" if at < count else "NoField"
        kind = f"{by}{level.opened} → List (Option Msg) → Type 0"
        fields.append(f"abbrev pub {level.name}From{at} : {kind}\n{level.said(f'From{at}', 'reads')} x fs = {holds} fs\n")
    return "\n".join(fields) + TEXTS.fill(
        "from_lines", level, by=by, term=level.term, its_fields=level.said('Fields', 'reads'), first=level.said('From0', 'reads'), own=level.own(),
    )


def wider_lines(level: Level) -> str:
    """One reading of the fields from each place on by another."""
    name, low, own, whole = level.name, level.low, level.own(), level.whole.name
    count, lines = len(level.fields), ""
    for at in range(count, -1, -1):
        head = f"{low}_as{at}"
        given = f"(P Q : Msg → {whole} → Type 0) → ((m : Msg) (v : {whole}) → P m v → Q m v) → (v : {level.term}) (fs : List (Option Msg))"
        lines += f"{head} : {given} → {name}From{at} P {own} fs → {name}From{at} Q {own} fs\n"
        if at == count:
            lines += f"{head} P Q f v fs h = h\n\n"
            continue
        step = wider(level.fields[at][1], level.place(at, own), ("P", "Q", "f"))
        read = f"{there(level, at, 'P', own)} {there(level, at, 'Q', own)} {missing(level, at, own)}"
        others = f"({name}From{at + 1} P {own}) ({name}From{at + 1} Q {own})"
        lines += f"{head} P Q f v = field_as {read} {others} {step} ({low}_as{at + 1} P Q f v)\n\n"
    return lines


def counted_lines(level: Level) -> str:
    """The number of steps in which the fields from each place on are read."""
    name, low, own, reads = level.name, level.low, level.own(), level.reads
    steps, up = f"{level.whole.name}In", f"{level.whole.low}_up"
    count, lines = len(level.fields), ""
    for at in range(count, -1, -1):
        head = f"{low}_in{at}"
        lines += f"{head} : (v : {level.term}) (fs : List (Option Msg)) → {name}From{at} {reads} {own} fs → (n : ℕ) × {name}From{at} ({steps} n) {own} fs\n"
        if at == count:
            lines += f"{head} v fs h = (zero, h)\n\n"
            continue
        part = level.fields[at][1]
        value, by = level.place(at, own), (f"({steps} i)", f"({steps} (suc i))", f"({up} i)")
        more = f"(λ i. {wider(part, value, by)})"
        into = f"(λ m h. {put_in(part.counted, dict(a=value))})" if isinstance(part, Again) else "(λ m h. (zero, h))"
        rest = f"({name}From{at + 1} {reads} {own}) (λ i. {name}From{at + 1} ({steps} i) {own})"
        ups = f"(λ i. {low}_as{at + 1} ({steps} i) ({steps} (suc i)) ({up} i) v)"
        here = f"{there(level, at, reads, own)} (λ i. {there(level, at, f'({steps} i)', own)})"
        lines += f"{head} v = field_in {missing(level, at, own)} {here} {rest} {more} {ups} {into} ({low}_in{at + 1} v)\n\n"
    return lines
