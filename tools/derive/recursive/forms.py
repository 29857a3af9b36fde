"""The forms in which a recursive type is again in others, each with what is known of a value: the texts of forms.txt."""
from __future__ import annotations

import dataclasses
import re
from typing import TYPE_CHECKING, Optional

from shared.texts import Texts

from .leaves import LEAVES, Part, Values

if TYPE_CHECKING:
    from .levels import Level

TEXTS = Texts(__file__)
# A word of a form, and its text, which goes on in lines that begin with a space.
WORD = re.compile(r"^(\w+): (.*(?:\n .*)*)$", re.M)


@dataclasses.dataclass(frozen=True)
class Again(Part):
    """The type {name} again, in a list, a box or an option, whose functions begin with {low}."""

    # how its values are told apart where a level is mapped, and for each that P holds of its parts, and what is known of it at a place i
    # between a level's parts and theirs
    patterns: tuple[tuple[str, str, str], ...] = ()
    # one step of its reading by another, and the number of its steps with what is read in them
    wider: str = ""
    counted: str = ""
    # that P holds of its parts
    parts: str = ""
    # what is known of it from that it was written
    known: str = "h"
    # what it is written as, over the type's data, and that this isn't refused
    own: str = ""
    is_some: str = "h"
    # the keys of a map of it, and what it is written as, at i between what its mapped values are written as and what its values are
    keys: Optional[Part] = None
    mapped: str = ""
    # its form: the type alone, a list, a queue, a box, an option, a map or a row of values; and what is in it that isn't the type alone
    form: str = ""
    inner: Optional[Again] = None
    # that what has the same content, {e}, is written alike in one way of writing the parts that are given
    told: str = ""

    @property
    def is_leaf(self) -> bool:
        return False

    def alike_by(self, value: str, other: str, fact: str, fit: str = "") -> str:
        return super().alike_by(value, other, self.told.format(v=value, w=other, e=fact), fit)

    def of(self, level: Level) -> Again:
        """The same of a type."""
        def told(it: object) -> object:
            if isinstance(it, tuple):
                return tuple(told(one) for one in it)
            if not isinstance(it, str):
                return it
            return it.replace("{name}", level.name).replace("{low}", level.low).replace("{kind}", level.kind).replace("{bound}", level.bound)

        words = {field.name: told(getattr(self, field.name)) for field in dataclasses.fields(self)}
        return Again(**words | ({} if level.given else {"told": "{e}"}))


def form(name: str, **words: str) -> Again:
    """The form of this name, with these words in its places."""
    found = WORD.findall(TEXTS.fill(name, None, **words))
    patterns = tuple(tuple(text.split(" | ")) for word, text in found if word == "pattern")
    return Again(**{word: text for word, text in found if word != "pattern"}, patterns=patterns)


LIST, ALONE, BOX, OPTION = map(form, ("list", "alone", "box", "option"))
QUEUE = dataclasses.replace(
    LIST, kind="VecDeque<{kind}>", term="VecDeque {name} Global", word="queue", form="queue",
    **{word: getattr(LIST, word).replace("slice_", "sequence_") for word in ("data", "row", "only", "own", "is_some", "alike", "other")},
)


@dataclasses.dataclass(frozen=True)
class Keys:
    """The order of a map's keys: by the content of two keys, by the keys, that it is total, and that keys are equal that it doesn't tell apart."""

    contents: str
    order: str
    total: str
    exact: str

    def map_of(self, key: Part) -> Again:
        """The type in a map with keys of this order."""
        words = vars(Values(key)) | dataclasses.asdict(self)
        known = {"key": key.key.format(a="q"), "of_key": key.of_key.format(a="q")}
        return dataclasses.replace(form("map", kind=key.kind, term=key.term, low=key.kind.lower(), **words, **known), keys=key)


UNSIGNED = Keys("nat_cmp", "nat_cmp", "nat_cmp_total", "exact_unsigned")
ORDERS = {
    "String": Keys("slice_cmp nat_cmp", "string_cmp", "string_cmp_total", "exact_bytes"),
    **dict.fromkeys(("u8", "u16", "u32", "u64", "usize", "u128", "char"), UNSIGNED),
    "bool": Keys("bool_cmp", "bool_cmp", "bool_cmp_total", "exact_truth"),
}
MAPS = tuple(order.map_of(LEAVES[kind]) for kind, order in ORDERS.items())

AGAIN = (LIST, QUEUE, BOX, OPTION)
