"""Elements that are written by two calls, the first ones and the others: their type and its proofs, for tuples.py and derive.py."""
from __future__ import annotations

from shared.terms import Answers, bounded, bracketed, in_a_row
from shared.texts import Texts

TEXTS = Texts(__file__)

FIELDS = ("first second third fourth fifth sixth seventh eighth"
          " ninth tenth eleventh twelfth thirteenth fourteenth fifteenth sixteenth"
          " seventeenth eighteenth nineteenth twentieth twenty_first twenty_second twenty_third twenty_fourth"
          " twenty_fifth twenty_sixth twenty_seventh twenty_eighth twenty_ninth thirtieth thirty_first thirty_second").split()
# What struct holds so many.
NAMES = "One Both Three Four Five Six Seven Eight".split()
# What holds more than one of those, in the crate of a type that has so many fields.
MORE = ("NineParts TenParts ElevenParts TwelveParts ThirteenParts FourteenParts FifteenParts SixteenParts"
        " SeventeenParts EighteenParts NineteenParts TwentyParts TwentyOneParts TwentyTwoParts TwentyThreeParts TwentyFourParts"
        " TwentyFiveParts TwentySixParts TwentySevenParts TwentyEightParts TwentyNineParts ThirtyParts ThirtyOneParts ThirtyTwoParts").split()


# What proofs of writes may name.
USES = {
    "std.proofs.Common": "arith refl length take drop ◌-◌ ◌∷◌ []",
    "std.proofs.lemmas.Result": "err_from_is_err_and",
    "rmp_encode.specs.Going": "IsWriting",
    "rmp_encode.specs.Ser": "sink_of settings_of",
    "rmp_encode.proofs.Fields": "named_halves",
    "rmp_encode.proofs.Going": "going_more keeps_then",
    "rmp_encode.proofs.Parts": "front_or back_or part_takes",
    "rmp_encode.proofs.Refusals": "long_rest long_take of_front on_back on_parts_weaker parts_weaker",
    "rmp_encode.specs.Refusals": "lengths AnyLong",
    "rmp_encode.proofs.Markers": "pieces_as pieces_halves pieces_stop pieces_then",
    "rmp_encode.specs.Markers": "pieces_by value_of",
}
# The settings that a call begins with.
SETTINGS = "(settings_of c.args.se.now)"


def kinds(n: int) -> list[str]:
    return [f"E{i + 1}" for i in range(n)]


def holder(n: int, path: str = "") -> str:
    """The struct that holds so many."""
    return f"{path}{NAMES[n - 1]}" if n <= len(NAMES) else MORE[n - len(NAMES) - 1]


def some(start: int, end: int, path: str = "") -> str:
    """The elements from one place to another, as a value."""
    fields = " ".join(f"{FIELDS[i - start]}: self.{FIELDS[i]}," for i in range(start, end))
    return f"{holder(end - start, path)} {{ {fields} }}"


def bodies(n: int, k: int, path: str = "") -> tuple[str, str]:
    """How so many elements are written, the first k before the others: without names and with them."""
    parts = f"""        let front = {some(0, k, path)};
        let back = {some(k, n, path)};
"""
    elements = f"""{parts}        front.write(se)?;
        back.write(se)"""
    named = f"""{parts}        front.write_fields(&names[..{k}], se)?;
        back.write_fields(&names[{k}..], se)"""
    return elements, named


def implementation(name: str, n: int, elements: str, named: str, path: str = "") -> str:
    """`Elements` of the struct with this name, by these bodies."""
    names = kinds(n)
    fields = list(zip(names, FIELDS))
    pieces = in_a_row(f"\n        value_of s ({kind}.data_of v.{field}.now s.human) ({kind}.marks v.{field}.now s)" for kind, field in fields)
    return TEXTS.fill(
        "implementation", bounds=bounded(names, 'Serialize'), name=name, kinds=', '.join(names), n=n,
        parts=in_a_row((f'{kind}.data_of v.{field}.now human' for kind, field in fields)),
        known=' × '.join((f'{kind}.is_value v.{field}.now' for kind, field in fields)),
        refusals=in_a_row((f'{kind}.refuses v.{field}.now' for kind, field in fields)),
        memory=bracketed([f'{kind}.takes_memory s' for kind in names]), pieces=pieces, path=path, elements=elements, named=named,
    )


def returned(residual: str, term: str) -> str:
    """The answer where a `?` returns: its error is that of the call."""
    return f"\n    let p = err_from_is_err_and {residual}.result {residual}.ensures.1 in\n    rw (p.1, p.2) {term}"


def memory(start: int, end: int) -> str:
    """Whether each of these elements may take memory."""
    return bracketed([f"g.E{i + 1}.Serialize.takes_memory (settings_of old)" for i in range(start, end)])


def data(start: int, end: int) -> list[str]:
    """What each of them is written as."""
    return [f"g.E{i + 1}.Serialize.data_of c.args.self.now.{FIELDS[i]}.now (settings_of old).human" for i in range(start, end)]


def refusals(start: int, end: int) -> str:
    """How each of them is refused."""
    return bracketed([f"g.E{i + 1}.Serialize.refuses c.args.self.now.{FIELDS[i]}.now" for i in range(start, end)])


def piece(i: int, settings: str) -> str:
    """One of them, as it is written under these settings."""
    of = f"g.E{i + 1}.Serialize"
    value = f"c.args.self.now.{FIELDS[i]}.now"
    return f"value_of {settings} ({of}.data_of {value} {settings}.human) ({of}.marks {value} {settings})"


def pieces(start: int, end: int, settings: str = SETTINGS) -> str:
    """Each of them."""
    return bracketed([piece(i, settings) for i in range(start, end)])


def by_halves(n: int, k: int, word: str) -> Answers:
    """The answers of one of these bodies, `write` or `write_fields`."""
    long, first = "⊥", "h"
    order, rest, back = "", pieces(k, n), pieces(k, n, "s")
    front_error, back_error = f"c.in_err-{word}.ensures.error", f"c.{word}-2.ensures.error"
    if word == "write_fields":
        names = "c.args.names.now"
        long = f"(AnyLong (lengths {names}))"
        first = f"(named_halves g.W.Sink {names} {k} {bracketed(data(0, k))} {bracketed(data(k, n))} rest refl (omega (arith, c.requires)) h)"
        front_error = f"(parts_weaker (long_take {k} {names}) {refusals(0, k)} _ {front_error})"
        back_error = f"(on_parts_weaker (long_rest {k} _ {names}) {refusals(k, n)} c.{word}-2.result {back_error})"
        later = f"(take (length {names} - {k}) (drop {k} {names}))"
        order = f"pieces_halves g.W.Sink {SETTINGS}.named {names} {k}\n    {pieces(0, k)}\n    {rest} refl (omega (arith, c.requires))\n    "
        rest, back = f"(pieces_by {SETTINGS}.named {later}\n    {rest})", f"pieces_by s.named {later} {back}"
    halves = f"_or g.W.Sink.takes_memory {memory(0, k)} {memory(k, n)}"
    return Answers(USES, {
        f"returns-in_err-{word}-clause-writes": returned("c.from_residual", f"(λ old t rest h. part_takes g.W.Sink _ (front{halves})\n"
            f"    (c.in_err-{word}.ensures.writes old t _ {first}))"),
        "returns-clause-writes": f"λ old t rest h. going_more g.W.Sink (IsWriting g.W.Sink old t rest c.{word}-2.new.se) t (sink_of old)\n"
            f"    (sink_of c.{word}-2.new.se) c.{word}-2.result (back{halves})\n"
            f"    (c.{word}-2.ensures.writes old t rest (c.in_ok-{word}.ensures.writes old t _ {first}))",
        "returns-clause-keeps": f"keeps_then g.W.Sink c.{word}.ensures.keeps c.{word}-2.ensures.keeps",
        f"returns-in_err-{word}-clause-marker": returned("c.from_residual", f"({order}(pieces_stop g.W.Sink {rest} c.in_err-{word}.ensures.marker))"),
        "returns-clause-marker": f"{order}(pieces_then g.W.Sink c.{word}-2.result c.in_ok-{word}.ensures.marker\n"
            f"    (pieces_as g.W.Sink (λ s. {back}) c.{word}.ensures.keeps.settings c.{word}-2.ensures.marker))",
        f"returns-in_err-{word}-clause-error": returned("c.from_residual", f"(of_front {long} {refusals(0, k)} {refusals(k, n)} _ {front_error})"),
        "returns-clause-error": f"on_back {long} {refusals(0, k)} {refusals(k, n)} c.{word}-2.result {back_error}",
    })


def answers(n: int, k: int, word: str, goals: str) -> str:
    """The text of these answers, whose goals are in this module."""
    return by_halves(n, k, word).text(goals)
