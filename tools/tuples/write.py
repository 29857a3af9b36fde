"""How tuples are written: the elements that one call writes, `One` to `Eight`, and `Serialize` for tuples, for tuples.py."""
from __future__ import annotations

from shared import halves
from shared.halves import FIELDS, NAMES, kinds
from shared.terms import bounded, bracketed, in_a_row, tuple_of
from shared.texts import Texts

TEXTS = Texts(__file__)

LETTERS = "abcdefgh"


def rule(count: int) -> str:
    """The rule of `row!` for so many."""
    given = ", ".join(f"${letter}:expr" for letter in LETTERS[:count])
    fields = ", ".join(f"{field}: ${letter}" for field, letter in zip(FIELDS, LETTERS[:count]))
    return f"    ({given}) => {{\n        {NAMES[count - 1]} {{ {fields} }}\n    }};\n"


RULES = "".join(rule(n + 1) for n in range(len(NAMES) - 1))
ELEMENTS_HEAD = TEXTS.fill("elements_head", RULES=RULES)
WORDS = ["One element", "Two elements", "Three elements", "Four elements", "Five elements", "Six elements", "Seven elements", "Eight elements"]


def bodies(count: int) -> tuple[str, str, str]:
    """How so many elements are written: without names, with them, and as those of a tuple. The first is written before the others."""
    if count == 1:
        return "self.first.serialize(se)", "se.put_field(names[0], self.first)", "tup.serialize_element(self.first)"
    rest = f"let rest = row!({', '.join(f'self.{field}' for field in FIELDS[1:count])});\n"
    return tuple(rest + f"{call}(self.first, &rest, {given})" for call, given in (
        ("write_then", "se"), ("write_fields_then", "names, se"), ("add_then", "tup")))


def elements(count: int) -> str:
    name, names = NAMES[count - 1], kinds(count)
    fields = "\n".join(f"    pub {field}: &'r {kind}," for field, kind in zip(FIELDS, names))
    written, named, added = bodies(count)
    return TEXTS.fill(
        "elements", words=WORDS[count - 1], name=name, kinds=', '.join(names), fields=fields,
        implementation=halves.implementation(name, count, written, named), bounds=bounded(names, 'Serialize'), added=added,
    )


TUPLES_HEAD = TEXTS.fill("tuples_head")


def tuples(count: int) -> str:
    names = kinds(count)
    return TEXTS.fill(
        "tuples", bounds=bounded(names, 'Serialize'), tuple_of=tuple_of(names),
        in_a_row=in_a_row((f'{k}.data_of v.{i} human' for i, k in enumerate(names))),
        known=' × '.join((f'{k}.is_value v.{i}' for i, k in enumerate(names))), memory=bracketed([f'{k}.takes_memory s' for k in names]),
        refused=bracketed([f'{k}.refuses v.{i}' for i, k in enumerate(names)]), holder=NAMES[count - 1],
        refs=', '.join((f'{field}: &self.{i}' for i, field in enumerate(FIELDS[:count]))), count=count,
    )
