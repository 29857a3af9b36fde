"""What derive.py knows of the types that a recursive type holds beside itself: how they are called in terms, and what is known of them."""
from __future__ import annotations

import dataclasses
import re
from collections.abc import Iterable, Iterator
from typing import TYPE_CHECKING, Optional

from ..table.types import Declared
from ..table.kinds import parted
from ..table.plain import LAWS as ROUNDS
from ..table.own import Own
from ..flat.terms import chained, underscored
from shared.brackets import split
from shared.terms import list_of, tuple_of

if TYPE_CHECKING:
    from .levels import Content


def put_in(term: str, words: dict[str, str]) -> str:
    """The term with these in place of names."""
    return re.sub(r"(?<![\w.-])(\w+)(?![\w-])", lambda word: words.get(word[0], word[0]), term)


@dataclasses.dataclass(frozen=True)
class Part:
    """What a variant holds: how its values are called in terms, which are templates over the value {a}."""

    # the type, in the language and in terms
    kind: str
    term: str
    # what it is read from, {k}, by what the type is read from, {reads}
    reads: str
    # what it is written as, over the data {data} of the type's own values
    data: str
    # what is known of it, by what is known of the type's own values, {fits}
    fits: str
    # that it is read as it was written, by {fit}, and that nothing else is
    row: str = ""
    only: str = ""
    # by what two values have the same content, and what a value of that content is written as
    key: str = "{a}"
    of_key: str = ""
    # whether only a source that lends reads it
    is_lent: bool = False
    # what it is called in the name of the function that reads it
    word: str = ""
    # the values of a variant that holds several, or fields with names, of which this is the tuple, and those fields
    held: tuple[Part, ...] = ()
    named: Optional[Content] = dataclasses.field(default=None, compare=False)
    # that what it is written as isn't refused, and isn't nil
    is_some: str = "refl"
    other: str = ""
    # the value of a field that isn't there, where that is one, in terms and in the language
    absent: str = dataclasses.field(default="None", compare=False)
    made_absent: str = dataclasses.field(default="None", compare=False)
    # the types that it is made of, and what it is declared as, if it is of the crate, with the module of its declaration
    made_of: tuple[Part, ...] = dataclasses.field(default=(), compare=False)
    declared: Optional[tuple[Declared, str]] = dataclasses.field(default=None, compare=False)
    # by what the values x and y have the same content, where no key says so, and that {v} and {w} are written alike then, by {e}
    same: str = ""
    alike: str = ""
    # its place among the parts that are known by their traits alone, if it is one: see recursive_given.py
    place: Optional[str] = dataclasses.field(default=None, compare=False)

    @property
    def is_leaf(self) -> bool:
        return True

    @property
    def is_given(self) -> bool:
        return self.place is not None

    def call(self) -> str:
        """The function that reads a leaf."""
        return f"read_{self.word or self.kind.lower()}"

    def within(self) -> Iterator[Part]:
        """It, and the types in it."""
        yield self
        for part in self.made_of:
            yield from part.within()

    def leaf_words(self) -> str:
        """What the file of a type of the crate defines."""
        return f"Is{self.kind} Same{self.kind} " + " ".join(f"{self.word}_{it}" for it in "names data fits some alike row only other".split())

    def same_as(self, x: str, y: str) -> str:
        """That two values have the same content."""
        return put_in(self.same, {"x": x, "y": y}) if self.same else f"{self.key.format(a=x)} ≡ {self.key.format(a=y)}"

    def alike_by(self, value: str, other: str, fact: str, fit: str = "") -> str:
        """That two values of the same content are written alike."""
        return self.alike.format(v=value, w=other, e=fact, fit=fit) if self.alike else f"ap (λ n. {self.of_key.format(a='n')}) {fact}"


def unsigned(bits: int) -> Part:
    most = 2**bits - 1
    data = "Some (byte {a})" if bits == 8 else "Some (whole (pos {a}))"
    row = "byte_row s {a} {fit}" if bits == 8 else f"unsigned_row_{bits} s {{a}} {{fit}}"
    only = "byte_only s {a}" if bits == 8 else f"unsigned_only s {most} {{a}}"
    return Part(f"u{bits}", "ℕ", f"IsUnsigned {most} {{k}} {{a}}", data, f"{{a}} < 2 ^ {bits}", row, only, of_key=data)


def signed(bits: int) -> Part:
    ends = f"(negsuc {2 ** (bits - 1) - 1}) (pos {2 ** (bits - 1) - 1})"
    return Part(
        f"i{bits}", "ℤ", f"IsSigned {ends} {{k}} {{a}}", "Some (whole {a})", f"FitsSigned w{bits} {{a}}",
        f"signed_row_{bits} s {{a}} {{fit}}", f"signed_only s {ends} {{a}}", of_key="Some (whole {a})",
    )


def wide(kind: str, term: str, reads: str, word: str, fits: str) -> Part:
    """A number of 128 bits."""
    return Part(kind, term, f"{reads} {{k}} {{a}}", f"Some ({word} {{a}})", fits, f"{word}_row s {{a}} {{fit}}", f"{word}_only s {{a}} {{fit}}", of_key=f"Some ({word} {{a}})")


def bits(size: int) -> Part:
    """The bits of a float."""
    word, kind = f"float{size}", f"F{size}Bits"
    data = f"Some ({word} {{a}}.0)"
    return Part(
        kind, kind, f"{{k}} ≡ msg.{word} {{a}}.0", data, f"{{a}}.0 < 2 ^ {size}", f"{word}_row s {{a}}.0", f"{word}_only s (λ (w : {kind}). w.0) {{a}}.0", "{a}.0",
        data.replace(".0", ""), is_lent=True,
    )


def content(kind: str, term: str, of: str, reads: str, data: str, fits: str, row: str) -> Part:
    """A text, or bytes."""
    value = f"({of} {{a}})"
    only = f"{row}_only s (λ (w : {term}). {of} w) {value}"
    return Part(kind, term, f"{reads} {{k}} {value}", f"Some ({data} {value})", fits, f"{row}_row s {value}", only, f"{of} {{a}}", f"Some ({data} {{a}})", is_lent=True)


LEAVES = {part.kind: dataclasses.replace(part, other=ROUNDS[part.kind][1].replace("{v}", "{a}")) for part in [
    *(unsigned(size) for size in (8, 16, 32, 64)), *(signed(size) for size in (8, 16, 32, 64)),
    dataclasses.replace(unsigned(64), kind="usize", is_lent=True), dataclasses.replace(signed(64), kind="isize", is_lent=True),
    wide("u128", "ℕ", "IsUnsigned128", "unsigned128", "{a} < 2 ^ 128"), wide("i128", "ℤ", "IsSigned128", "signed128", "FitsSigned w128 {a}"),
    Part("bool", "Bool", "{k} ≡ msg.truth {a}", "Some (truth {a})", "⊤", "truth_row s {a}", "truth_only s {a}", of_key="Some (truth {a})"),
    Part("char", "ℕ", "IsChar {k} {a}", "Some (char {a})", "IsScalar {a}", "char_row s {a} {fit}", "char_only s {a} {fit}", of_key="Some (char {a})", is_lent=True),
    bits(32), bits(64),
    content("String", "String Global", "string_bytes", "IsRaw", "text", "IsUtf8 (string_bytes {a})", "string"),
    content("ByteBuf", "ByteBuf", "buffer_bytes", "IsBuffer", "bytes", "⊤", "buffer"),
]}


class Values:
    """What is known of each value of a type, as functions of the value."""

    def __init__(self, of: Part) -> None:
        self.data = f"(λ (q : {of.term}). {of.data.format(a='q')})"
        # what it is read from, with the types of a message and of the value, and without
        self.reads = f"(λ (j : Msg) (q : {of.term}). {of.reads.format(k='j', a='q')})"
        self.plain = f"(λ j q. {of.reads.format(k='j', a='q')})"
        self.fits = f"(λ (q : {of.term}). {of.fits.format(a='q')})"
        self.same = f"(λ (q r : {of.term}). {of.same_as('q', 'r')})"
        self.row = f"(λ q u. {of.row.format(a='q', fit='u')})"
        self.only = f"(λ q u. {of.only.format(a='q', fit='u')})"
        self.some = f"(λ (q : {of.term}). {of.is_some.format(a='q')})"
        self.other = f"(λ (q : {of.term}). {of.other.format(a='q')})"
        self.alike = f"(λ q r e. {of.alike_by('q', 'r', 'e', 'u')})"
        self.told = f"(Only {self.reads} {self.same})"


def list_of_leaves(of: Part) -> Part:
    """A `Vec` of leaves."""
    it = Values(of)
    data, items = f"(map {it.data} {{a}}.items)", f"(λ (w : Vec ({of.term}) Global). w.items)"
    each = f"(each_row s {it.data} {it.fits} {it.told} {it.only} {{a}}.items {{fit}})"
    return Part(
        f"Vec<{of.kind}>", f"Vec ({of.term}) Global", f"Row {it.plain} {{k}} {{a}}.items", f"slice_of {data}", f"All {it.fits} {{a}}.items",
        f"slice_row s {data} (λ ms. ReadsEach {it.reads} ms {{a}}.items) (each_row s {it.data} {it.fits} {it.reads} {it.row} {{a}}.items {{fit}})",
        f"list_only s (slice_of {data}) {items} {it.reads} {it.same} {{a}}.items\n      (slice_row s {data} (λ ms. ReadsEach {it.told} ms {{a}}.items) {each})",
        is_lent=True, word=f"list_{of.word or of.kind.lower()}", made_of=(of,), is_some=f"(slice_some {data} (each_some {it.data} {it.some} {{a}}.items))", other="slice_other s _",
        same=f"Alike {it.same} x.items y.items", alike=f"ap slice_of (maps_alike_by {it.data} {it.same} {it.alike} {{v}}.items {{w}}.items {{e}})",
    )


def option_of_leaf(of: Part) -> Part:
    """An `Option` of a leaf."""
    it = Values(of)
    row = f"(option_row s {it.data} {it.fits} {it.told} {it.other} {it.only} {{a}} {{fit}})"
    return Part(
        f"Option<{of.kind}>", f"Option ({of.term})", f"IsOption {it.plain} {{k}} {{a}}", f"option_of {it.data} {{a}}", f"IfSome {{a}} {it.fits}",
        f"option_row s {it.data} {it.fits} {it.reads} {it.other} {it.row} {{a}} {{fit}}",
        f"option_only s (option_of {it.data} {{a}}) {it.reads} {it.same} {{a}}\n      {row}",
        is_lent=True, word=f"option_{of.word or of.kind.lower()}", made_of=(of,), is_some=f"(option_some {it.data} {it.some} {{a}})", absent="(Some None)", made_absent="Some(None)",
        same=f"AlikeOption {it.same} x y", alike=f"option_alike_by {it.data} {it.same} {it.alike} {{v}} {{w}} {{e}}",
    )


def terms_of(parts: Iterable[Part]) -> str:
    """The type of their tuple, in terms."""
    return " × ".join(f"({part.term})" if part.kind[0] == "(" else part.term for part in parts)


def tuple_of_leaves(of: list[Part]) -> Part:
    """A tuple of leaves."""
    places = [(it, f"{{a}}.{at}") for at, it in enumerate(of)]
    data = list_of([it.data.format(a=value) for it, value in places])
    reads = [f"(λ k. {it.reads.format(k='k', a=value)})" for it, value in places]
    facts = [(f"{Values(it).reads} {Values(it).same}", value, f"w.{at}") for at, (it, value) in enumerate(places)]
    fits = [f"{{fit}}.{at}" for at in range(len(of))]
    rows = chained([f"rows_cons s _ _ {read} _ ({it.row.format(a=value, fit=fit)})" for read, (it, value), fit in zip(reads, places, fits)], "(rows_none s)")
    told = [f"(λ k. Only {fact} k {value})" for fact, value, _ in facts]
    onlys = chained([f"rows_cons s _ _ {read} _ ({it.only.format(a=value, fit=fit)})" for read, (it, value), fit in zip(told, places, fits)], "(rows_none s)")
    both = chained([f"item_only {fact} {value} {other} _ _ _" for fact, value, other in facts[:-1]], f"(last_only {' '.join(facts[-1])})")
    row = f"OfRow ({chained([f'AndThen {read}' for read in reads], 'NoMore')})"
    same = " × ".join(f"({it.same_as(f'x.{at}', f'y.{at}')})" for at, it in enumerate(of))
    term = terms_of(of)
    found = [f"x{'.1' * at}{'.0' * (at < len(of) - 1)}" for at in range(len(of))]
    alike = list_of([f"({it.alike_by(f'{{v}}.{at}', f'{{w}}.{at}', f'{{e}}.{at}')}) t" for at, it in enumerate(of)])
    ends = [f"tuple_of ({list_of([it.data.format(a=f'{{{word}}}.{at}') for at, it in enumerate(of)])})" for word in "vw"]
    return Part(
        tuple_of([it.kind for it in of]), term, f"{row} {{k}}", f"tuple_of ({data})", " × ".join(f"({it.fits.format(a=value)})" for it, value in places),
        f"tuple_row s _ _ ({rows})",
        f"""lowers_then s _ _ (λ m. (w : {term}) → {row.replace('{a}', 'w')} m → {put_in(same, {'x': '{a}', 'y': 'w'})})
      (tuple_row s _ ({chained([f'AndThen {read}' for read in told], 'NoMore')}) ({onlys}))
      (λ m o w r. row_both _ _ _ m o r (λ ks i j. let x = ({both}) ks i j in ({', '.join(found)})))""",
        is_lent=True, word="_".join(["tuple", *(it.word or it.kind.lower() for it in of)]), made_of=tuple(of),
        is_some=f"(tuple_all ({data}) {''.join(f'({it.is_some.format(a=value)}, ' for it, value in places)}tt{')' * len(of)})", other="tuple_other s _",
        same=same, alike=f"let p : {ends[0]} ≡ {ends[1]} = λ t. tuple_of ({alike}) in p",
    )


def own_leaf(own: Own) -> Optional[Part]:
    """A type of the crate: an enum whose variants hold nothing, or a struct whose fields are leaves with names. Its words are those of a file
    of its own, which recursive_own_leaves.py writes."""
    of, low = own.of, underscored(own.of.name)
    if of.parameters or of.lifetime or of.leads_back() or not {"Serialize", "Deserialize"} <= own.derived:
        return None
    known = Part(
        of.name, of.name, f"Is{of.name} {{k}} {{a}}", f"{low}_data {{a}}", f"{low}_fits {{a}}", f"{low}_row s {{a}} {{fit}}",
        is_lent=True, word=low, is_some=f"({low}_some {{a}})", other=f"{low}_other s {{a}}", declared=(of, own.declared),
    )
    if of.variants:
        is_bare = not any(shape.fields for shape in of.variants)
        return dataclasses.replace(known, only=f"{low}_only s {{a}}", of_key=f"{low}_data {{a}}") if is_bare else None
    held = [leaf_of(field.kind, own.names) for field in of.shape.fields]
    if of.shape.kind != "named" or not held or None in held:
        return None
    alike = f"{low}_alike {{v}} {{w}} {{e}}"
    return dataclasses.replace(known, only=f"{low}_only s {{a}} {{fit}}", made_of=tuple(held), same=f"Same{of.name} x y", alike=alike)


def leaf_of(kind: str, types: dict[str, Own]) -> Optional[Part]:
    """What is known of a type, where these are the crate's own: one of LEAVES, a type of the crate, or a list, an option or a tuple of such."""
    if kind in LEAVES:
        return LEAVES[kind]
    name, parts = parted(kind)
    if kind in types:
        return own_leaf(types[kind])
    of = [leaf_of(part, types) for part in (parts or (split(kind[1:-1]) if kind[0] == "(" else []))]
    if not of or None in of:
        return None
    if name in ("Vec", "Option") and len(of) == 1:
        return list_of_leaves(of[0]) if name == "Vec" else option_of_leaf(of[0]) if of[0].other else None
    return tuple_of_leaves(of) if kind[0] == "(" and 2 <= len(of) <= 8 else None
