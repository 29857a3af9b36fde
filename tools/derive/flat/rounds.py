"""Writes `RoundTrip` and `NeverNil` for what derive.py derives: values are read as they were written."""
from __future__ import annotations

from typing import Optional

from shared.brackets import split
from shared.terms import all_of, any_of, both_of, chained, known, lent, linked, list_of, listed_in

from ..table.kinds import parted
from ..table.own import Own
from ..table.plain import LAWS, LISTS, ORDERS, TIED
from ..table.types import Declared, Shape
from . import laws
from .alikes import alike_of
from .laws import Laws, Unknown, has
from .terms import absent_of, alias, by_cases, codes, data_of, header, values_of

class Rounds(Laws):
    """The terms by which values are read as they were written, none is refused, and none is written as nil."""

    trait = "RoundTrip"

    def __init__(self, own: Own) -> None:
        super().__init__(own)
        names = [name for name, _ in own.of.parameters]
        flags = [f"{name}.borrows" for name in names]
        if own.of.lifetime:
            self.borrows, proofs = "true", ["(λ _. lent refl)"] * len(names)
        else:
            self.borrows, proofs = any_of(flags) if flags else None, lent(flags, "lent") if flags else []
        self.lent = dict(zip(names, proofs))
        # The parameters of which it is asked that no value is nil, and that values of the same content are equal in their order.
        self.asked: set[str] = set()
        self.ordered: set[str] = set()

    def data(self, kind: str, human: str) -> str:
        return f"(λ x. {self.words.writes(kind, 'data_of')} x {human})"

    def reads(self, kind: str, value: Optional[str] = None) -> str:
        if value is None:
            return f"({self.words.reads(kind, 'reads')} s.human R.lends)"
        return f"(λ j. {self.words.reads(kind, 'reads')} s.human R.lends j {value})"

    def missing(self, field, v):
        """What has to hold where the field isn't there."""
        return f"({absent_of(self.words, field, v)})"

    def each(self, kind):
        """For any value of the type, what the lemmas on parts ask."""
        x, h = self.fresh()
        start = self.data(kind, "s.human"), self.words.writes(kind, "is_value"), self.reads(kind)
        return start, f"(λ {x} {h}. {self.round(kind, x, h)})"

    def order(self, kind: str) -> str:
        """That the order of keys is total."""
        if kind in self.lent:
            return f"{kind}.total"
        if kind not in ORDERS:
            raise Unknown(f"the order of {kind} isn't known to be total")
        return ORDERS[kind]

    def ordered_by(self, kind: str) -> tuple[str, str, str]:
        """The order of keys, that it is total, and that keys of the same content are equal in it."""
        if kind in self.lent:
            self.ordered.add(kind)
            return f"{{cmp = {kind}.cmp}}", f"{kind}.total", f"{kind}.equal"
        return f"{{cmp = ⟦<{kind} as Ord>⟧.cmp}}", self.order(kind), TIED[kind]

    # ---- values are read as they were written

    def round(self, kind: str, v: str, fits: str) -> str:
        name, parts = parted(kind)
        if kind in self.lent:
            return f"({kind}.round {self.lent[kind]} s {v} {fits})"
        if kind in LAWS:
            return f"({LAWS[kind].row.format(v=v, fits=fits)})"
        if kind[0] == "[":
            return self.array_round(kind, v, fits)
        if kind[0] == "(":
            kinds = split(kind[1:-1])
            values = [f"{v}.{at}" for at in range(len(kinds))]
            return f"(tuple_row s _ _ {self.row(kinds, values, known(fits, len(kinds)))})"
        if name == "Box":
            return self.round(parts[0], f"{v}.value", fits)
        if name == "Option":
            start, rounds = self.each(parts[0])
            x, _ = self.fresh()
            return f"(option_row s {' '.join(start)} (λ {x}. {self.other(parts[0], x)}) {rounds} {v} {fits})"
        if name == "BTreeSet":
            start, rounds = self.each(parts[0])
            order = f"{parts[0]}.cmp" if parts[0] in self.lent else f"⟦<{parts[0]} as Ord>⟧.cmp"
            return f"(set_row s {' '.join(start)} {rounds} {order} {v}.keys {fits}.1 {fits}.0)"
        if name in LISTS:
            row, items = LISTS[name]
            return f"({row}_row s _ {self.items(parts[0], v + items, fits)})"
        if name == "BTreeMap":
            return self.map_round(parts, v, fits)
        if not parts:
            return f"({self.law(kind, 'RoundTrip', 'round')} (λ e. cc) s {v} {fits})"
        return self.instance_round(kind, self.instance(name, parts), v, fits)

    def items(self, kind: str, items: str, fits: str) -> str:
        """The items of a list, each of which is read."""
        start, rounds = self.each(kind)
        return f"(λ ms. ReadsEach {self.reads(kind)} ms {items}) (each_row s {' '.join(start)} {rounds} {items} {fits})"

    def map_round(self, parts: list[str], v: str, fits: str) -> str:
        starts, rounds = zip(*(self.each(part) for part in parts))
        data, known_of, reads = (" ".join(words) for words in zip(*starts))
        return f"(map_row s {data} {known_of} {reads} {' '.join(rounds)} {self.order(parts[0])} {v}.entries {fits}.1 {fits}.0)"

    def array_round(self, kind: str, v: str, fits: str) -> str:
        part, count = (word.strip() for word in kind[1:-1].rsplit(";", 1))
        start, rounds = self.each(part)
        row = f"(each_row s {' '.join(start)} {rounds} {v} {fits}.1)"
        return f"(tuple_row s _ (Exactly {count} {self.reads(part)} {v}) (rows_map s _ _ _ (λ ms each. ({fits}.0, each)) {row}))"

    def instance_round(self, kind: str, of: Declared, v: str, fits: str) -> str:
        if of.shape:
            return f"({self.struct_round(of.shape, v, fits)})"
        data, reads = f"{self.words.writes(kind, 'data_of')} x s.human", f"{self.words.reads(kind, 'reads')} s.human R.lends m x"
        law = f"(x : _) → {self.words.writes(kind, 'is_value')} x → LowersTo s ({data}) (λ m. {reads})"
        return f"(let law : {law} = {self.enum_round(of)} in law {v} {fits})"

    def row(self, kinds: list[str], values: list[str], facts: list[str]) -> str:
        """The values, as a row of a list."""
        terms = [f"{self.reads(kind, v)} _ {self.round(kind, v, fits)}" for kind, v, fits in zip(kinds, values, facts)]
        return linked("rows_cons s _ _", terms, "(rows_none s)")

    def content(self, shape: Shape, values: list[str], fits: str) -> str:
        """What a struct's or a variant's fields lower to."""
        kinds, facts = [field.kind for field in shape.fields], known(fits, len(values))
        if shape.kind == "newtype":
            return self.round(kinds[0], values[0], facts[0])
        if shape.kind == "tuple":
            return self.row(kinds, values, facts)
        terms = []
        for field, v, fact in zip(shape.fields, values, facts):
            absent = self.missing(field, v)
            terms.append(f'(codes "{field.key}") _ _ _ {self.reads(field.kind, v)} {absent} _ {self.round(field.kind, v, fact)}')
        return linked("fields_cons s", terms, "(fields_none s)")

    def struct_round(self, shape: Shape, v: str, fits: str) -> str:
        if shape.kind == "unit":
            return "nothing_row s"
        content = self.content(shape, values_of(shape, v), fits)
        if shape.kind == "named":
            return f"structure_row s ({self.names(shape)}) _ _ refl {content}"
        if shape.kind == "tuple":
            return f"sequence_row s _ _ {content}"
        kind = shape.fields[0].kind
        return f"newtype_row s ({self.words.writes(kind, 'data_of')} {v}.0 s.human) {self.reads(kind, f'{v}.0')} {content}"

    def names(self, shape: Shape) -> str:
        return codes(field.key for field in shape.fields)

    def enum_round(self, of: Declared) -> str:
        """That of each variant. What the names are is said once, so that the text grows as the variants do."""
        names = codes(variant.key for variant in of.variants)
        return f"let names = {names} in {by_cases(of, [f'λ fits. {self.case(of, at, shape)}' for at, shape in enumerate(of.variants)], '')}"

    def case(self, of: Declared, at: int, shape: Shape) -> str:
        """A variant at its place."""
        start = f'names (codes "{shape.key}") {at} refl _'
        if shape.kind == "unit":
            return f"bare_row s {start} (refl, tt)"
        values = values_of(shape, None)
        back = f"(λ m h. ({', '.join([*values, 'refl', 'h'])}))"
        content = self.content(shape, values, "fits")
        if shape.kind == "newtype":
            return f"newtype_variant_row s {start} _ {self.reads(shape.fields[0].kind, values[0])} {back} {content}"
        if shape.kind == "tuple":
            return f"tuple_variant_row s {start} _ _ {back} {content}"
        return f"struct_variant_row s {start} ({self.names(shape)}) _ _ refl {back} {content}"

    # ---- no value is refused

    def some(self, kind: str, v: str) -> str:
        name, parts = parted(kind)
        if kind in self.lent:
            return f"({kind}.has_data human {v})"
        if kind in LAWS:
            return "refl"
        if kind[0] == "(":
            return f"({self.tuple_some(split(kind[1:-1]), v)})"
        if name == "Box":
            return self.some(parts[0], f"{v}.value")
        x, _ = self.fresh()
        if kind[0] == "[":
            part = kind[1:-1].rsplit(";", 1)[0].strip()
            return f"(tuple_some _ (each_some {self.data(part, 'human')} (λ {x}. {self.some(part, x)}) {v}))"
        if name == "Option":
            return f"(option_some {self.data(parts[0], 'human')} (λ {x}. {self.some(parts[0], x)}) {v})"
        if name in LISTS:
            row, items = LISTS[name]
            return f"({row}_some _ (each_some {self.data(parts[0], 'human')} (λ {x}. {self.some(parts[0], x)}) {v}{items}))"
        if name == "BTreeMap":
            data = " ".join(self.data(part, "human") for part in parts)
            return f"(mapping_some {data} {' '.join(f'(λ {x}. {self.some(part, x)})' for part in parts)} {v}.entries)"
        if not parts:
            return f"({self.law(kind, 'RoundTrip', 'has_data')} human {v})"
        of = self.instance(name, parts)
        if of.shape:
            return f"({self.shape_some(of.shape, v)})"
        law = f"(x : _) → IsSome ({self.words.writes(kind, 'data_of')} x human)"
        return f"(let law : {law} = {self.enum_some(of)} in law {v})"

    def tuple_some(self, kinds: list[str], v: str) -> str:
        values = [f"{v}.{at}" for at in range(len(kinds))]
        data = [f"{self.words.writes(kind, 'data_of')} {of} human" for kind, of in zip(kinds, values)]
        return f"tuple_all ({list_of(data)}) {all_of([self.some(kind, of) for kind, of in zip(kinds, values)])}"

    def shape_some(self, shape: Shape, v: Optional[str]) -> str:
        values = values_of(shape, v)
        some = [self.some(field.kind, of) for field, of in zip(shape.fields, values)]
        data = [f"{self.words.writes(field.kind, 'data_of')} {of} human" for field, of in zip(shape.fields, values)]
        name = "" if v else f'(codes "{shape.key}") '
        if shape.kind == "unit":
            return "refl"
        if shape.kind == "newtype":
            return f"{'newtype_some' if v else 'newtype_variant_some'} {name}({data[0]}) {some[0]}"
        if shape.kind == "tuple":
            return f"{'sequence_all' if v else 'tuple_variant_all'} {name}({list_of(data)}) {all_of(some)}"
        pairs = [f'(codes "{field.key}", {term})' for field, term in zip(shape.fields, data)]
        return f"{'structure_all' if v else 'struct_variant_all'} {name}({list_of(pairs)}) {all_of(some)}"

    def enum_some(self, of: Declared) -> str:
        return by_cases(of, [self.shape_some(shape, None) for shape in of.variants], "")

    # ---- no value is written as nil

    def other(self, kind: str, v: str) -> str:
        name, parts = parted(kind)
        if kind in self.lent:
            self.asked.add(kind)
            return f"{kind}.never_nil s {v}"
        if kind in LAWS and LAWS[kind].other:
            return LAWS[kind].other.format(v=v)
        if name == "Box":
            return self.other(parts[0], f"{v}.value")
        if name in LISTS:
            return f"{LISTS[name][0]}_other s _"
        if kind[0] == "[" or kind[0] == "(" and kind != "()":
            return "tuple_other s _"
        if name == "BTreeMap":
            return "map_other s _"
        if kind in LAWS or name == "Option":
            raise Unknown(f"{kind} may be nil")
        if not parts:
            return f"{self.law(kind, 'NeverNil', 'never_nil')} s {v}"
        of = self.instance(name, parts)
        if of.shape:
            return self.shape_other(of.shape, v)
        law = f"(x : _) → tree_of s ({self.words.writes(kind, 'data_of')} x s.human) ≢ Some nil"
        return f"(let law : {law} = {self.enum_other(of)} in law {v})"

    def shape_other(self, shape: Shape, v: Optional[str]) -> str:
        name = "" if v else f' (codes "{shape.key}")'
        if shape.kind == "unit":
            return "nothing_other s" if v else f"bare_other s{name}"
        if shape.kind == "newtype" and v:
            kind = shape.fields[0].kind
            return f"newtype_other s ({self.words.writes(kind, 'data_of')} {v}.0 s.human) ({self.other(kind, f'{v}.0')})"
        lemma = {"tuple": "sequence_other", "named": "structure_other"}.get(shape.kind)
        kind = "struct" if shape.kind == "named" else shape.kind
        return f"{lemma if v else f'{kind}_variant_other'} s{name} _"

    def enum_other(self, of: Declared) -> str:
        return by_cases(of, [self.shape_other(shape, None) for shape in of.variants], "")


class Onlys(Rounds):
    """The terms by which nothing else is read: those of `Rounds` with `Only` in place of each reading, and what follows of two readings."""

    def __init__(self, own):
        super().__init__(own)
        of = own.of.lent_for("'de")
        # The type at hand: the implementation's own, or one whose law is spelled out.
        self.kind = of.name + of.arguments().replace(of.lifetime or "'de", "'de")

    def same(self, kind):
        return self.words.rounds(kind, "same")

    def reads(self, kind, value=None):
        only = f"Only {super().reads(kind)} {self.same(kind)}"
        return f"({only})" if value is None else f"(λ j. {only} j {value})"

    def missing(self, field, v):
        return "⊥"

    def fact(self, kind, v, w):
        """The reading of a part, its sameness, its value and the other."""
        return [Rounds.reads(self, kind), self.same(kind), v, w]

    def stated(self, kind, v):
        """The reading of a part, its sameness and its value."""
        return " ".join(self.fact(kind, v, "")).strip()

    def facts(self, shape, vs, ws):
        return [self.fact(field.kind, v, w) for field, v, w in zip(shape.fields, vs, ws)]

    def round(self, kind, v, fits):
        name, parts = parted(kind)
        if kind in self.lent:
            return f"({kind}.only s {v} {fits})"
        if kind in LAWS:
            return f"({LAWS[kind].only.format(v=v, fits=fits)})"
        if kind[0] == "[":
            part, count = (word.strip() for word in kind[1:-1].rsplit(";", 1))
            return f"(array_only s _ {count} {self.stated(part, v)} (tuple_row s _ {self.items(part, v, f'{fits}.1')}))"
        if kind[0] == "(":
            kinds = split(kind[1:-1])
            facts = [self.fact(part, f"{v}.{at}", f"w.{at}") for at, part in enumerate(kinds)]
            both = both_of(facts, "row_both _ _ _ m q r", "item_only", "last_only")
            return f"(lowers_then s _ _ {self.reads(kind, v)} {super().round(kind, v, fits)} (λ m q w r. {both}))"
        if name == "Box":
            inside = f"{v}.value"
            term = self.round(parts[0], inside, fits)
            data = f"({self.words.writes(parts[0], 'data_of')} {inside} s.human)"
            return f"(lowers_then s {data} {self.reads(parts[0], inside)} {self.reads(kind, v)} {term} (λ m q w r. q w.value r))"
        if name == "Option":
            return f"(option_only s _ {self.stated(parts[0], v)} {super().round(kind, v, fits)})"
        if name == "BTreeSet":
            cmp, total, equal = self.ordered_by(parts[0])
            keys = f"(sequence_row s _ {self.items(parts[0], f'{v}.keys', f'{fits}.0')})"
            part = f"{Rounds.reads(self, parts[0])} {self.same(parts[0])}"
            return f"(set_only s _ (λ w. w.keys) {cmp} {total} {part} {equal} {v}.keys {fits}.1 {keys})"
        if name in LISTS:
            row, items = LISTS[name]
            return f"(list_only s _ (λ w. w{items}) {self.stated(parts[0], v + items)} ({row}_row s _ {self.items(parts[0], v + items, fits)}))"
        if name == "BTreeMap":
            return self.map_round(parts, v, fits)
        if not parts:
            return f"({self.law(kind, 'RoundTrip', 'only')} s {v} {fits})"
        return self.instance_round(kind, self.instance(name, parts), v, fits)

    def map_round(self, parts, v, fits):
        starts, rounds = zip(*(self.each(part) for part in parts))
        data, known_of, reads = (" ".join(words) for words in zip(*starts))
        cmp, total, equal = self.ordered_by(parts[0])
        plain = " ".join([*(Rounds.reads(self, part) for part in parts), *(self.same(part) for part in parts)])
        row = f"(pairs_row s {data} {known_of} {reads} {' '.join(rounds)} {v}.entries {fits}.0)"
        return f"(entries_only {plain} s _ (λ w. w.entries) {cmp} {total} {equal} {v}.entries {fits}.1 {row})"

    def instance_round(self, kind, of, v, fits):
        outer, self.kind = self.kind, kind
        term = self.instance_only(kind, of, v, fits)
        self.kind = outer
        return term

    def instance_only(self, kind, of, v, fits):
        if of.shape:
            return f"({self.struct_round(of.shape, v, fits)})"
        data, reads = f"{self.words.writes(kind, 'data_of')} x s.human", f"(Only {Rounds.reads(self, kind)} {self.same(kind)})"
        law = f"(x : _) → {self.words.writes(kind, 'is_value')} x → LowersTo s ({data}) (λ m. {reads} m x)"
        return f"(let law : {law} = {self.enum_round(of)} in law {v} {fits})"

    def struct_round(self, shape, v, fits):
        if shape.kind == "newtype":
            inside, same = self.reads(shape.fields[0].kind, f"{v}.0"), self.nothing_else(self.same_parts(shape, v, "w"))
            data = f"({data_of(self.words, shape, v, human='s.human')})"
            return f"lowers_then s {data} {inside} {same} ({super().struct_round(shape, v, fits)}) (λ m q w r. q w.0 r)"
        if shape.kind == "unit":
            return f"lowers_then s (Some unit_struct) IsNothing {self.nothing_else('⊤')} (nothing_row s) (λ m q w r. tt)"
        facts = self.facts(shape, values_of(shape, v), values_of(shape, "w"))
        if shape.kind == "named":
            both = both_of(facts, f"fields_both ({self.names(shape)}) _ _ _ m q r", "field_only", "last_field", " _")
        else:
            both = both_of(facts, "row_both _ _ _ m q r", "item_only", "last_only")
        return f"lowers_then s _ _ {self.nothing_else(self.same_parts(shape, v, 'w'))} ({super().struct_round(shape, v, fits)}) (λ m q w r. {both})"

    def case(self, of, at, shape):
        values, count = values_of(shape, None), len(shape.fields)
        others = [f"b.{place}" for place in range(count)]
        facts, content = self.facts(shape, values, others), f"b.{count + 1}"
        start = f'names (codes "{shape.key}") {at} refl (AtPlace {at} {self.holds(shape, values)})'
        back, known_values = "(λ m h. (refl, h))", [f"b.{place}" for place in range(count + 1)]
        what = "_ _"
        if shape.kind == "unit":
            row, both = f"bare_row s {start} (refl, tt)", "b.0"
            what = f'(Some (unit_variant (codes "{shape.key}"))) (OfVariant names (AtPlace {at} AnyContent))'
        elif shape.kind == "newtype":
            row = f"newtype_variant_row s {start} _ {self.reads(shape.fields[0].kind, values[0])} {back} {self.content(shape, values, 'fits')}"
            both = listed_in([*known_values, f"content_only {' '.join(facts[0])} c a {content}"])
        elif shape.kind == "tuple":
            row = f"tuple_variant_row s {start} _ _ {back} {self.content(shape, values, 'fits')}"
            both = both_of(facts, f"content_row _ _ _ c a {content}", "item_only", "last_only", "", known_values)
        else:
            row = f"struct_variant_row s {start} ({self.names(shape)}) _ _ refl {back} {self.content(shape, values, 'fits')}"
            both = both_of(facts, f"content_fields ({self.names(shape)}) _ _ _ c a {content}", "field_only", "last_field", " _", known_values)
        holds = "AnyContent" if shape.kind == "unit" else "_"
        both = f"variant_both names {at} {holds} _ _ m q r (λ c a b. {both})"
        return f"lowers_then s {what} {self.nothing_else(self.same_case(of, shape))} ({row}) (λ m q w r. {both})"

    def holds(self, shape, values):
        """What holds of a variant's content."""
        if shape.kind == "unit":
            return "AnyContent"
        reads = [self.reads(field.kind, v) for field, v in zip(shape.fields, values)]
        if shape.kind == "newtype":
            return f"(Content {reads[0]})"
        if shape.kind == "tuple":
            return f"(Content (OfRow ({chained([f'AndThen {term}' for term in reads], 'NoMore')})))"
        return f"(Content (OfFields ({self.names(shape)}) ({chained([f'Field {term} ⊥' for term in reads], 'NoField')})))"

    # ---- values of the same content

    def sames(self, of):
        return self.same_parts(of.shape, "v", "w") if of.shape else by_cases(of, [self.same_case(of, shape) for shape in of.variants])

    def same_parts(self, shape, v, w):
        return self.same_values(shape, values_of(shape, v), values_of(shape, w)) or "⊤"

    def same_case(self, of, shape):
        values = values_of(shape, None)
        others = [f"b{at}" for at in range(1, len(values) + 1)]
        same = self.same_values(shape, values, others)
        bound = "".join(f"({name} : _) × " for name in others)
        return f"{bound}(w ≡ {' '.join([f'{alias(of)}.{shape.name}', *others])}){' × ' * bool(same)}{same}"

    def same_values(self, shape, vs, ws):
        return " × ".join(f"{self.same(field.kind)} {v} {w}" for field, v, w in zip(shape.fields, vs, ws))

    def nothing_else(self, same):
        """What is read of the tree that a value of the type at hand lowers to."""
        return f"(λ m. (w : _) → {Rounds.reads(self, self.kind)} m w → {same})"


# ---- implementations


def round_trip(own: Own) -> list[str]:
    """The implementation of `RoundTrip`, in lines."""
    skipped = next((field.name for shape in own.of.shapes() for field in shape.skipped), None)
    if skipped:
        raise Unknown(f"{skipped} is skipped, so what is read may be another value")
    rounds, onlys, of = Rounds(own), Onlys(own), own.of.lent_for("'de")
    some = f"v. {rounds.shape_some(of.shape, 'v')}" if of.shape else f". {rounds.enum_some(of)}"
    row, only = (f" v fits. {it.struct_round(of.shape, 'v', 'fits')}" if of.shape else f". {it.enum_round(of)}" for it in (rounds, onlys))
    members = [
        *[f"    ghost borrows = {{ {rounds.borrows} }};\n"] * bool(rounds.borrows),
        f"    ghost has_data = {{ λ human {some} }};\n",
        f"    ghost round = {{ λ lent s{row} }};\n",
        f"    ghost same = {{ λ v w. {onlys.sames(of)} }};\n",
        alike_of(onlys, of),
        f"    ghost only = {{ λ s{only} }};",
    ]
    bounds = {name: f"{'ContentOrd' if name in onlys.ordered else 'RoundTrip'}<'de, R>{' + NeverNil' * (name in rounds.asked)}" for name in rounds.lent}
    return laws.implementation(own, [rounds, onlys], header(of, "RoundTrip<'de, R>", bounds), members)


def never_nil(own: Own) -> list[str]:
    """The implementation of `NeverNil`, in lines."""
    rounds, of = Rounds(own), own.of.lent_for("'de")
    other = f"v. {rounds.shape_other(of.shape, 'v')}" if of.shape else f". {rounds.enum_other(of)}"
    bounds = {name: "NeverNil" if name in rounds.asked else "Serialize" for name in rounds.lent}
    return laws.implementation(own, [rounds], header(of, "NeverNil", bounds), [f"    ghost never_nil = {{ λ s {other} }};"])


laws.WRITERS |= {"RoundTrip": round_trip, "NeverNil": never_nil}


def implementations(own: Own) -> list[str]:
    """`RoundTrip`, and `NeverNil` where no value is nil, in lines; an `Unknown` says why the first can't be had."""
    lines = round_trip(own) if "RoundTrip" in own.derived else []
    return lines + (never_nil(own) if "NeverNil" in own.derived and has(own, "NeverNil") else [])
