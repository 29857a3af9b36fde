"""What derive.py knows of a type again inside of others: in an option of a list, in a list of tuples, and so on.

`Vec<T>`, `VecDeque<T>`, `Box<T>`, `Option<Box<T>>` and maps are in recursive_levels.py. What is here is put together from what is inside, and its
words are those of one type.
"""
from __future__ import annotations

import re
from typing import TYPE_CHECKING, Optional

from ..table.kinds import parted
from ..flat.terms import chained
from .forms import Again
from .leaves import Part, put_in, terms_of
from shared.brackets import split
from shared.terms import list_of, tuple_of

if TYPE_CHECKING:
    from .levels import Level

# What is in place of the type in what is known of a value: what is known of it by the values of a level, X, and of those of the type.
HERE = "◇"

# The lists, each with the word of its data and lemmas.
LISTS = {"Vec": "slice", "VecDeque": "sequence"}


def shape_of(level: Level, kind: str) -> Optional[Again]:
    """What is known of a type that has this one inside, if it is such a shape."""
    name, inner = parted(kind)
    if kind[0] == "(":
        held = [inside(level, part) for part in split(kind[1:-1])]
        return tuple_of_parts(level, held) if 2 <= len(held) <= 8 and all(map(is_plain, held)) else None
    of = inside(level, inner[0]) if len(inner) == 1 else None
    if not of or of.is_leaf:
        return None
    if name in LISTS and (of.form == "row" or of.form == "option" and not of.inner and level.of.shape):
        return list_of_parts(level, of, name)
    return None if not is_plain(of) else option_of_part(level, of) if name == "Option" and of.form in ("list", "deque", "row") else None


def inside(level: Level, kind: str) -> Optional[Part]:
    """A part that another holds: the type alone, or one that such a type may hold."""
    return level.alone() if kind == level.kind else level.part_of(kind)


def is_plain(part: Optional[Part]) -> bool:
    """Whether its values aren't told apart."""
    return bool(part) and (part.is_leaf or len(part.patterns) == 1)


class Inside:
    """A part inside of another, as functions of its value q: what is known of it where g says so of the type's own values in it."""

    def __init__(self, level: Level, part: Part) -> None:
        self.level, self.part, self.name = level, part, level.name
        self.own = self.of(own_of(part, "q"))
        self.same = f"(λ (q r : {part.term}). {part.same_as('q', 'r')})"

    def of(self, text: str, kind: str = "") -> str:
        return f"(λ (q : {kind or self.part.term}). {text})"

    def reads(self, reads: str) -> str:
        return f"(λ (j : Msg) (q : {self.part.term}). {self.part.reads.format(reads=reads, k='j', a='q')})"

    def plain(self, reads: str) -> str:
        """The same without the types."""
        return f"(λ j q. {self.part.reads.format(reads=reads, k='j', a='q')})"

    def mapped_by(self, function: str, kind: str) -> str:
        """A value where each of the type's own values in it is mapped, from values that have this in place of them."""
        values = [f"q.{at}" if of.is_leaf else f"({function} q.{at})" for at, of in enumerate(self.part.held)]
        known = values and all(of.is_leaf or of.form == "alone" for of in self.part.held)
        return f"(λ (q : {self.at(kind)}). ({', '.join(values)}))" if known else "_"

    def at(self, kind: str) -> str:
        """The type with this in place of the type again."""
        return re.sub(rf"\b{self.name}\b", kind, self.part.term)

    def fits(self, fits: str, kind: str = "") -> str:
        """What is known of it, where this is of values of the type, or of what is in place of it."""
        return f"(λ (q : {self.at(kind) if kind else self.part.term}). {self.part.fits.format(fits=fits, a='q')})"

    def data(self) -> str:
        """What it is written as, where the type's own values are data."""
        return f"(λ (q : {self.at('(Option Data)')}). {self.part.data.format(a='q')})"

    def said(self, text: str) -> str:
        """A text on the value a and what is known of it, h, as one on q and g."""
        return put_in(text, {"a": "q", "h": "g", "m": "n"})

    def back(self, text: str) -> str:
        """That what is known of the parts, g, and of the value, u, gives this."""
        return f"(λ q g u. {put_in(text.format(a='q', fit='u'), {'h': 'g'})})"


def by_cases(part: Again, terms: list[str]) -> str:
    """A function of a value, by the cases in which its values are told apart."""
    if len(part.patterns) == 1:
        return f"(λ z. {put_in(terms[0], {'a': 'z'})})"
    told = [put_in(f"{pattern.strip('()')} ↦ {term}", {"a": "z"}) for (pattern, *_), term in zip(part.patterns, terms)]
    return f"(elim [ {' | '.join(told)} ])"


def own_of(part: Part, value: str) -> str:
    return (part.own or part.data if not part.is_leaf else part.data).format(a=value)


# ---- tuples


class Row:
    """A tuple of leaves and of the type again: each of them with its place, and what is known of them."""

    def __init__(self, level: Level, held: list[Part]) -> None:
        self.level, self.held, self.count = level, held, len(held)
        self.values = [(part, f"{{a}}.{at}") for at, part in enumerate(held)]
        again = [part for part in held if not part.is_leaf]
        self.hs = {id(part): "h" if len(again) == 1 else f"h.{at}" for at, part in enumerate(again)}
        self.reads = [f"(λ j. {part.reads.replace('{k}', 'j').replace('{a}', value)})" for part, value in self.values]
        self.facts = [f"{Inside(level, part).reads(f'Is{level.name}')} {Inside(level, part).same}" for part in held]
        self.row = f"OfRow ({chained([f'AndThen {read}' for read in self.reads], 'NoMore')})"

    def own(self, of: str = "{a}") -> str:
        """What it is written as."""
        return f"tuple_of ({list_of([own_of(part, f'{of}.{at}') for at, part in enumerate(self.held)])})"

    def known(self, part: Part, text: str, at: int) -> str:
        """A text on a part and what is known of it, h, as one on the tuple."""
        return put_in(text.format(a=f"{{a}}.{at}", fit=f"{{fit}}.{at}"), {"h": self.hs.get(id(part), "h")})

    def rows(self, reads: list[str], word: str) -> str:
        terms = [f"rows_cons s _ _ {read} _ ({self.known(part, getattr(part, word), at)})" for at, (read, part) in enumerate(zip(reads, self.held))]
        return chained(terms, "(rows_none s)")

    def only(self, same: str) -> str:
        """That nothing else is read of what it lowers to."""
        told = [f"(λ k. Only {fact} k {value})" for fact, (_, value) in zip(self.facts, self.values)]
        last = self.count - 1
        both = chained([f"item_only {fact} {{a}}.{at} w.{at} _ _ _" for at, fact in enumerate(self.facts[:-1])], f"(last_only {self.facts[-1]} {{a}}.{last} w.{last})")
        found = [f"x{'.1' * at}{'.0' * (at < last)}" for at in range(self.count)]
        row = self.row.replace("{a}", "w").replace("{reads}", f"Is{self.level.name}")
        return f"""lowers_then s _ _ (λ m. (w : {terms_of(self.held)}) → {row} m → {put_in(same, {'x': '{a}', 'y': 'w'})})
      (tuple_row s _ ({chained([f'AndThen {it}' for it in told], 'NoMore')}) ({self.rows(told, 'only')}))
      (λ m o w r. row_both _ _ _ m o r (λ ks i j. let x = ({both}) ks i j in ({', '.join(found)})))"""

    def counted(self) -> str:
        """The number of steps in which its values are read."""
        steps = []
        for at, (part, value) in enumerate(self.values):
            up = chained([f"then_as _ _ _ _ {up_of(self.level, of, place)}" for of, place in self.values[at + 1 :]], "(λ ms h. h)")
            steps.append(f"then_in _ _ _ _ (λ i. {up_of(self.level, part, value)}) (λ i. {up}) {step(part, 'counted', value)}")
        return chained(steps, "(λ ms h. (zero, h))").replace("{a}", "a")

    def pattern(self) -> tuple[str, str, str]:
        """That P holds of its parts where a level is mapped, and what is known of it on the way."""
        values = [(part, value.format(a="a")) for part, value in self.values]
        hold = each([put_in(part.patterns[0][1], {"a": value}) for part, value in values if not part.is_leaf])
        through = [part.fits.format(a=value) if part.is_leaf else put_in(part.patterns[0][2], {"a": value}) for part, value in values]
        return "a", hold, " × ".join(f"({term})" for term in through)

    def alike(self) -> str:
        """That tuples of the same content are written alike."""
        terms = list_of([f"({part.alike_by(f'{{v}}.{at}', f'{{w}}.{at}', f'{{e}}.{at}')}) t" for at, part in enumerate(self.held)])
        return f"let p : {self.own('{v}')} ≡ {self.own('{w}')} = λ t. tuple_of ({terms}) in p"


def each(terms: list[str]) -> str:
    return terms[0] if len(terms) == 1 else f"({', '.join(terms)})"


def tuple_of_parts(level: Level, held: list[Part]) -> Again:
    """A tuple of leaves and of the type again."""
    of, again = Row(level, held), [(part, value) for part, value in zip(held, (value for _, value in Row(level, held).values)) if not part.is_leaf]
    same = " × ".join(f"({part.same_as(f'x.{at}', f'y.{at}')})" for at, part in enumerate(held))
    wider = chained([f"then_as _ _ _ _ {step(part, 'wider', value)}" for part, value in of.values], "(λ ms h. h)").replace("{a}", "a")
    known = [f"h.{at}" if part.is_leaf else put_in(part.known, {"h": f"h.{at}", "a": f"a.{at}"}) for at, part in enumerate(held)]
    some = "".join(f"({of.known(part, part.is_some, at)}, " for at, part in enumerate(held))
    return Again(
        tuple_of([part.kind for part in held]), terms_of(held), f"{of.row} {{k}}", f"tuple_of ({list_of([part.data.format(a=value) for part, value in of.values])})",
        " × ".join(f"({part.fits.replace('{a}', value)})" for part, value in of.values),
        row=f"tuple_row s _ _ ({of.rows([read.replace('{reads}', f'Is{level.name}') for read in of.reads], 'row')})", only=of.only(same),
        word="_".join(["tuple", *(part.word or part.kind.lower() for part in held)]), held=tuple(held), form="row", patterns=(of.pattern(),),
        wider=f"of_row_as _ _ ({wider}) m h", counted=f"of_row_in _ _ ({of.counted()}) m h",
        parts=" × ".join(f"({part.parts.replace('{a}', value)})" for part, value in again), known="h" if all(part.is_leaf or part.known == "h" for part in held) else each(known), own=of.own(),
        is_some=f"({of.own().replace('tuple_of', 'tuple_all', 1)} {some}tt{')' * of.count})", other="tuple_other s _", same=same, alike=of.alike(), told="{e}",
    )


def step(part: Part, of: str, value: str) -> str:
    """What one reading of a value says by another, or the number of its steps."""
    if part.is_leaf:
        return "(λ m h. h)" if of == "wider" else "(λ m h. (zero, h))"
    return f"(λ m h. {put_in(getattr(part, of), {'a': value})})"


def up_of(level: Level, part: Part, value: str) -> str:
    """What a reading in i steps says by one in one step more."""
    by = {"P": f"({level.name}In i)", "Q": f"({level.name}In (suc i))", "f": f"({level.low}_up i)", "a": value}
    return "(λ m h. h)" if part.is_leaf else f"(λ m h. {put_in(part.wider, by)})"


# ---- lists and options


def wider_of(of: Inside) -> str:
    return f"(λ n q g. {of.said(of.part.wider)})"


def counted_of(of: Inside) -> tuple[str, str, str]:
    """What is read in so many steps, that it is in one more, and that what is read is so in some number of steps."""
    low, name = of.level.low, of.name
    up = put_in(of.said(of.part.wider), {"P": f"({name}In i)", "Q": f"({name}In (suc i))", "f": f"({low}_up i)"})
    return f"(λ i. {of.reads(f'({name}In i)')})", f"(λ i n q g. {up})", f"(λ n q g. {of.said(of.part.counted)})"


def list_of_parts(level: Level, part: Again, kind: str) -> Again:
    """A list of tuples."""
    of, name, word = Inside(level, part), level.name, LISTS[kind]
    reads, items = of.reads(f"Is{name}"), f"(λ (us : {kind} ({part.term}) Global). us.items)"
    back, only = (of.of(f"LowersTo s ({own_of(part, 'q')}) (λ m. {it} m q)") for it in (reads, f"Only {reads} {of.same}"))
    parts, fits = (lambda claim: f"(λ (q : {part.term}). {put_in(part.parts.format(a='q'), {'P': claim})})"), of.fits(f"{level.low}_fits")
    steps, up, counted = counted_of(of)
    hold = by_cases(part, [term for _, term, _ in part.patterns])
    through = by_cases(part, [f"(λ i. {term})" if re.search(r"\bi\b", term) else "refl" for *_, term in part.patterns])
    known = [of.fits("(λ (p : X). k (at p))", "X"), of.fits("k")]
    data = f"(map {of.own} {{a}}.items)"
    round_of, only_of = (f"(λ (v : {name}). {level.low}_fits v → {name}{it} v)" for it in ("Back", "Only"))
    return Again(
        f"{kind}<{part.kind}>", f"{kind} ({part.term}) Global", f"Row {of.plain('{reads}')} {{k}} {{a}}.items",
        f"{word}_of (map {of.data()} {{a}}.items)", f"AllByRecursion {of.fits('{fits}', HERE)} {{a}}.items",
        row=f"""{word}_row s {data} (λ ms. ReadsEach {reads} ms {{a}}.items) (each_row s {of.own} {back} {reads} (λ q u. u) {{a}}.items
      (each_both {parts(round_of)} {fits} {back} {of.back(part.row)} {{a}}.items h {{fit}}))""",
        only=f"""list_only s ({word}_of {data}) {items} {reads} {of.same} {{a}}.items
      ({word}_row s {data} (λ ms. ReadsEach (Only {reads} {of.same}) ms {{a}}.items) (each_row s {of.own} {only} (Only {reads} {of.same}) (λ q u. u)
      {{a}}.items (each_both {parts(only_of)} {fits} {only} {of.back(part.only)} {{a}}.items h {{fit}})))""",
        word=f"{part.word}_list", form="list", inner=part,
        patterns=((
            "a", f"each_holds {parts('P')} _ {hold} a.items",
            f"each_through {' '.join(known)} {of.mapped_by('at', 'X')} {through} a.items i",
        ),),
        mapped=f"{word}_of (each_mapped {of.data()} {of.own} {of.mapped_by(f'{level.low}_data', name)} {by_cases(part, ['refl'] * len(part.patterns))} {{a}}.items i)",
        wider=f"row_as {of.reads('P')} {of.reads('Q')} {wider_of(of)} m a.items h",
        counted=f"row_in {steps} {up} m a.items (row_as {reads} (InSteps {steps}) {counted} m a.items h)",
        parts=f"All (λ (q : {part.term}). {part.parts.format(a='q')}) {{a}}.items",
        known="all_by _ a.items h" if part.known == "h" else f"all_known _ _ (λ (q : {part.term}) g. {of.said(part.known)}) a.items h",
        own=f"{word}_of {data}",
        is_some=f"({word}_some {data} (each_data {of.own} {{a}}.items (each_as _ _ (λ (q : {part.term}) g. {put_in(part.is_some.format(a='q'), {'h': 'g'})}) {{a}}.items h)))",
        other=f"{word}_other s _", same=f"Alike {of.same} x.items y.items",
        alike=f"ap {word}_of (maps_alike_by {of.own} {of.same} (λ q r e. {part.alike_by('q', 'r', 'e')}) {{v}}.items {{w}}.items {{e}})", told="{e}",
    )


def option_of_part(level: Level, part: Again) -> Again:
    """An option of a list or of a tuple, which is never nil."""
    of, name = Inside(level, part), level.name
    reads = of.reads(f"Is{name}")
    back, only = (of.of(f"LowersTo s ({own_of(part, 'q')}) (λ m. {it} m q)") for it in (reads, f"Only {reads} {of.same}"))
    parts, fits = (lambda claim: f"(λ (q : {part.term}). {put_in(part.parts.format(a='q'), {'P': claim})})"), of.fits(f"{level.low}_fits")
    steps, up, counted = counted_of(of)
    other = f"(λ q. {part.other.format(a='q')})"
    round_of, only_of = (f"(λ (v : {name}). {level.low}_fits v → {name}{it} v)" for it in ("Back", "Only"))
    return Again(
        f"Option<{part.kind}>", f"Option ({part.term})", f"IsOption {of.plain('{reads}')} {{k}} {{a}}", f"option_of {of.data()} {{a}}",
        f"IfSome {{a}} {of.fits('{fits}', HERE)}",
        row=f"option_row s {of.own} {back} {reads} {other} (λ q u. u) {{a}} (option_both {parts(round_of)} {fits} {back} {of.back(part.row)} {{a}} h {{fit}})",
        only=f"""option_only s (option_of {of.own} {{a}}) {reads} {of.same} {{a}}
      (option_row s {of.own} {only} (Only {reads} {of.same}) {other} (λ q u. u) {{a}} (option_both {parts(only_of)} {fits} {only} {of.back(part.only)} {{a}} h {{fit}}))""",
        word=f"{part.word}_option", form="option", inner=part,
        patterns=(("None", "tt", "⊤"), ("(Some a)", part.patterns[0][1], part.patterns[0][2])),
        wider=f"option_as {of.reads('P')} {of.reads('Q')} {wider_of(of)} m a h",
        counted=f"option_in {steps} m a (option_as {reads} (InSteps {steps}) {counted} m a h)",
        parts=f"IfSome {{a}} (λ q. {part.parts.format(a='q')})", known=f"option_known _ _ (λ (q : {part.term}) g. {of.said(part.known)}) a h",
        own=f"option_of {of.own} {{a}}", is_some=f"(option_data {of.own} {{a}} (option_known _ _ (λ (q : {part.term}) g. {put_in(part.is_some.format(a='q'), {'h': 'g'})}) {{a}} h))",
        absent="(Some None)", made_absent="Some(None)", same=f"AlikeOption {of.same} x y",
        alike=f"option_alike_by {of.own} {of.same} (λ q r e. {part.alike_by('q', 'r', 'e')}) {{v}} {{w}} {{e}}", told="{e}",
    )
