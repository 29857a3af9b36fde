"""`EightThen` and `SixteenThen`, the structs that so many fields and the others are read as, and their proofs, for tuples.py.

Each hands on to what it groups: eight fields to two tuples of four, sixteen to two `EightThen`.
"""
from __future__ import annotations

import dataclasses

from shared.halves import FIELDS
from shared.terms import Answers, bounded
from shared.texts import Texts

TEXTS = Texts(__file__)

# The types of the fields: `C` is that of the settings, `R` that of the source, `F` that of the other fields and `S` that of their slots.
KINDS = "A B D E G H I J K L M N O P Q T".split()


@dataclasses.dataclass(frozen=True)
class Group:
    """A struct of so many fields and the others, what it hands on to, and how that is made of such fields."""

    count: int
    word: str
    about: str

    @property
    def name(self) -> str:
        return f"{self.word}Then"

    @property
    def module(self) -> str:
        return self.word.lower()

    def kinds(self) -> list[str]:
        return KINDS[: self.count]

    def of(self, rest: str = "F") -> str:
        """Its type."""
        return f"{self.name}<{', '.join([*self.kinds(), rest])}>"

    def slots(self, rest: str = "F::Slots") -> str:
        return f"{self.word}Slots<{', '.join([*self.kinds(), rest])}>"

    def is_eight(self) -> bool:
        return self.count == 8

    def inner(self) -> str:
        """The type that it hands on to."""
        if self.is_eight():
            return "(A, B, D, E, (G, H, I, J, F))"
        return f"EightThen<{', '.join(KINDS[:8])}, EightThen<{', '.join(KINDS[8:16])}, F>>"

    def inner_slots(self) -> str:
        if self.is_eight():
            return "".join(f"(Option<{kind}>, " for kind in KINDS[:8]) + "S" + ")" * 8
        return f"EightSlots<{', '.join(KINDS[:8])}, EightSlots<{', '.join(KINDS[8:16])}, S>>"

    def fields(self) -> list[str]:
        return FIELDS[: self.count]

    def value(self, of: str) -> str:
        """The value of the inner type, by the fields of this one."""
        fields = [f"{of}.{field}" for field in self.fields()]
        if self.is_eight():
            return f"({', '.join(fields[:4])}, ({', '.join(fields[4:])}, {of}.rest))"
        first, second = eight_record(fields[:8]), eight_record(fields[8:])
        return f"({first.replace('REST', second.replace('REST', f'{of}.rest'))})"

    def back(self, of: str) -> str:
        """The value of this type, by the fields of the inner one."""
        if self.is_eight():
            places = [f"{of}.{at}" for at in range(4)] + [f"{of}.4.{at}" for at in range(5)]
        else:
            places = [f"{of}.{field}" for field in FIELDS[:8]] + [f"{of}.rest.{field}" for field in [*FIELDS[:8], "rest"]]
        return f"record {{ {' '.join(f'{field} = {place};' for field, place in zip([*self.fields(), 'rest'], places))} }}"


def eight_record(values: list[str]) -> str:
    return f"record {{ {' '.join(f'{field} = {value};' for field, value in zip(FIELDS, values))} rest = REST; }}"


EIGHT = Group(8, "Eight", "The eight are read and proved as two tuples of four.")
SIXTEEN = Group(16, "Sixteen", "The sixteen are read and proved as two structs of eight.")


def types(group: Group) -> str:
    """The struct and its slots."""
    fields = "\n".join(f"    pub {field}: {kind}," for field, kind in zip([*group.fields(), "rest"], [*group.kinds(), "F"]))
    return TEXTS.fill("types", module=group.module, of=group.of(), fields=fields, slots=group.slots('S'), inner_slots=group.inner_slots())


def ghosts(group: Group) -> str:
    """What is said of them."""
    on = f"⟦<{group.inner()} as Fields<'de, R>>⟧"
    value = group.value("v")
    by_value = {"reads": "human lends fs", "taken": "human lends fs", "given": "s fs", "counted": "human lends fs"}
    terms = {word: f"λ {words} v. {on}.{word} {words} {value}" for word, words in by_value.items()}
    terms |= {word: f"{on}.{word}" for word in ("count", "takes", "parts", "needed", "takes_memory", "many")}
    terms |= {"holds": f"λ human lends fs s. {on}.holds human lends fs s.read", "held": f"λ s fs t. {on}.held s fs t.read"}
    terms["full"] = f"λ human lends ms t h. let w = {on}.full human lends ms t.read h in ({group.back('w.0')}, w.1)"
    words = "count reads holds takes taken parts needed takes_memory many held given counted full".split()
    lines = [f"type Slots = {group.slots()};\n", *(f"ghost {word} = {{ {terms[word]} }};\n" for word in words)]
    return "\n".join(f"    {line}" for line in lines)


def made(group: Group, ok: str, err: str) -> str:
    """The arms that make the value of what the inner type's call answered."""
    names = group.fields()
    whole = f"{ok}({group.name} {{ {', '.join([*names, 'rest'])} }})"
    if group.is_eight():
        return f"{ok}(({', '.join(names[:4])}, ({', '.join(names[4:])}, rest))) => {whole},\n{err},"
    first = ", ".join([*names[:8], "rest: others"])
    second = ", ".join([*(f"{field}: {name}" for field, name in zip(FIELDS, names[8:])), "rest"])
    return f"{ok}(parts) => {{\nlet EightThen {{ {first} }} = parts;\nlet EightThen {{ {second} }} = others;\n{whole}\n}}\n{err},"


def code(group: Group) -> str:
    """What is done with them."""
    on = f"<{group.inner()} as Fields<'de, R>>"
    slots = f"slots: &mut {group.slots()}, refusal: &mut Option<Error>"
    settings = "C: SerializerConfig"
    return TEXTS.fill(
        "code", slots=group.slots(), word=group.word, on=on, settings=settings, given=slots, of=group.of(),
        some=made(group, 'Some', 'None => None'), ok=made(group, 'Ok', 'Err(why) => Err(why)'),
    )


def head(group: Group) -> str:
    """What its module begins with."""
    eight = "" if group.is_eight() else "use super::eight::{EightSlots, EightThen};\n"
    return TEXTS.fill("head", word=group.word, eight=eight)


def implementation(group: Group) -> str:
    return TEXTS.fill(
        "implementation", types=types(group), about=group.about, bounded=bounded(group.kinds(), "Deserialize<'de, R>"), of=group.of(),
        ghosts=ghosts(group), code=code(group),
    )


def answers(group: Group) -> dict[str, Answers]:
    """Those of each function."""
    methods = {
        "fill": Answers({"rmp_decode.proofs.Fields": "if_some or_left or_right"}, {
            "returns-clause-ok": "λ t. let f = c.fill.ensures.ok t in record { took = f.took; filled = f.filled }",
            "returns-clause-err": "λ n. if_some c.fill.new.refusal (λ e. or_right (λ f. record { full = f.full; same = f.same })) (c.fill.ensures.err n)",
            "returns-clause-refused": "λ n. if_some c.fill.new.refusal (λ e. or_left (λ p. (p.0, record { full = p.1.full; same = p.1.same })))\n"
                "    (c.fill.ensures.refused n)",
        }),
        "row": Answers({"rmp_decode.proofs.Fields": "if_some", "rmp_decode.proofs.FieldRows": "row_fails_as"}, {
            "returns-clause-err": f"λ n. if_some c.row.new.refusal (λ e. row_fails_as (λ ms r. ({group.value('r.0')}, r.1))) (c.row.ensures.err n)",
        }),
        "finish": Answers({}, {
            "returns-in-None-clause-all": f"λ human lends fs h v. c.in-None.ensures.all human lends fs h {group.value('v')}",
            "returns-in-None-clause-first": "c.in-None.ensures.first",
        }),
        "listed": Answers({"rmp_decode.proofs.Tuples": "parts_fail_as"}, {
            "returns-in-Err-clause-err": f"parts_fail_as (λ ms r. ({group.value('r.0')}, r.1)) c.in-Err.ensures.err",
        }),
    }
    return {f"{group.name}Fields/{method}": of for method, of in methods.items()}
