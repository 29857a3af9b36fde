"""The types of fields, as derive.py reads them: how they are laid out, which are derived, and what is written in place of others."""
from __future__ import annotations

import dataclasses
import re
from collections.abc import Iterator
from typing import TYPE_CHECKING, Optional

from shared.brackets import depth_at, split
from shared.terms import MOST

from .instead import instead
from ..table.kinds import PLAIN, PRELUDE, Refused, closing

if TYPE_CHECKING:
    from .declarations import Source

# Types that are written and read, and that a `use` brings in: from where it does.
BROUGHT = {
    **dict.fromkeys(("VecDeque", "BTreeMap", "BTreeSet"), "std::collections"),
    **dict.fromkeys(("ByteBuf", "Bytes", "Ext", "F32Bits", "F64Bits"), "rmp_wire"),
    **dict.fromkeys(("Float64", "Timestamp", "Raw", "RawRef", "Value"), "rmp_serde"),
}
# Types that can't be a field's, and what is written in their place: of Rust, and of std and of crates that many use, where the crate has none of
# the name.
INSTEAD, INSTEAD_OF_STD = instead("types"), instead("types of std")
INSTEAD_OF_STD |= {f"NonZero{kind.capitalize()}": kind for kind in sorted(PLAIN) if re.fullmatch(r"[iu](\d+|size)", kind)}
INSTEAD_OF_STD |= {f"Atomic{kind.capitalize()}": kind for kind in PLAIN if re.fullmatch(r"bool|[iu]([1-6]\d?|8|size)", kind)}
# How many aliases a type is written with at most.
MOST_ALIASES = 100


def laid_out(kind: str) -> str:
    """A type as `rt fmt` lays it out."""
    kind = re.sub(r"\b(dyn|impl|const|mut)\s+|&\s*('\w+)\s+", lambda it: f"{it[1]}|" if it[1] else f"&{it[2]}|", kind)
    kind = re.sub(r"\s+", "", kind).replace("|", " ").replace("->", " -> ")
    kind = re.sub(r"([,;])(?=[^,)>\]])", r"\1 ", kind)
    return without_last_commas(kind)


def without_last_commas(kind: str) -> str:
    """The type without the comma behind the last part of a list, but with that of a tuple of one."""
    for found in reversed(list(re.finditer(r",(?=[)>\]])", kind))):
        opens = next(at for at in range(found.start(), -1, -1) if closing_at(kind, at) == found.end())
        if kind[opens] != "(" or len(split(kind[opens + 1 : found.start()])) > 1:
            kind = kind[: found.start()] + kind[found.end() :]
    return kind


def closing_at(kind: str, at: int) -> int:
    """The place of the bracket that closes the one at this place, if there is one."""
    try:
        return closing(kind, at) - 1 if depth_at(kind, at) == 1 else -1
    except Refused:
        return -1


# ---- names that mean another type


@dataclasses.dataclass(frozen=True)
class Alias:
    """A type that a file names: its parameters, and the type."""

    parameters: list[str]
    kind: str

    def at(self, arguments: list[str], written: str) -> str:
        """The type at these arguments, which are written so. Without parameters of its own it is another name, to which they belong."""
        given = dict(zip(self.parameters, arguments))
        made = re.sub(r"'?\b[A-Za-z_]\w*", lambda word: given.get(word[0], word[0]), self.kind)
        return made if self.parameters else made + written


ALIAS = re.compile(r"^(?:pub(?:\([^)]*\))? )?type (\w+)(?:<([^=]*)>)?\s*=\s*([^;]*);", re.M)


def aliases_of(text: str) -> Iterator[tuple[str, Alias]]:
    """Each `type` of a file."""
    for name, parameters, kind in ALIAS.findall(text):
        yield name, Alias(split(parameters), laid_out(kind))


def with_aliases(kind: str, aliases: dict[str, Alias]) -> str:
    """The type with each alias written out."""
    for _ in range(MOST_ALIASES):
        found = next((it for it in re.finditer(r"(?<!['\w])[A-Za-z_]\w*", kind) if it[0] in aliases), None)
        if not found:
            return kind
        end = closing(kind, found.end()) if kind.startswith("<", found.end()) else found.end()
        made = aliases[found[0]].at(split(kind[found.end() + 1 : end - 1]), kind[found.end() : end])
        kind = kind[: found.start()] + made + kind[end:]
    raise Refused(f"{kind} is a `type` of too many others: write the type itself")


# ---- what is refused


@dataclasses.dataclass
class Scope:
    """What the declaration of a type may name: its own name, its lifetime and its parameters, and what its file declares and brings in."""

    name: str
    lifetime: Optional[str]
    parameters: list[str]
    source: Source

    def itself(self) -> str:
        """The type that is declared."""
        arguments = [self.lifetime] * bool(self.lifetime) + self.parameters
        return f"{self.name}<{', '.join(arguments)}>" if arguments else self.name

    def check(self, kind: str) -> None:
        """Refuses a type that has no implementation to name."""
        if kind.startswith("&"):
            self.check_borrowed(kind)
        elif kind.startswith("'"):
            if kind != self.lifetime:
                raise Refused(f"{kind} isn't declared by the type: {f'write {self.lifetime}' if self.lifetime else f'declare {self.name}<{kind}>'}")
        elif kind.startswith("(") and kind.endswith(")"):
            self.check_tuple(kind)
        elif kind.startswith("[") and kind.endswith("]"):
            self.check_array(kind)
        else:
            self.check_named(kind)

    def check_tuple(self, kind: str) -> None:
        parts = split(kind[1:-1])
        if len(parts) > MOST:
            why = f"a tuple has up to {MOST} elements, and {kind} has {len(parts)}"
            raise Refused(f"{why}: declare a struct of as many fields without names, which has the same bytes")
        for part in filter(None, parts):
            self.check(part)

    def check_borrowed(self, kind: str) -> None:
        """Refuses a reference, but to a text that is lent for the type's own lifetime."""
        if re.fullmatch(r"&('\w+ )?\[u8\]", kind):
            lifetime = self.lifetime or "'a"
            raise Refused(f"in place of {kind} write Bytes<{lifetime}>: a slice is written as a list of numbers, and isn't read from one")
        if not re.fullmatch(r"&('\w+ )?str", kind):
            raise Refused(f"{kind} can't be read: what is lent are texts and bytes, as &'a str and Bytes<'a>")
        if self.lifetime is None or not kind.startswith(f"&{self.lifetime} "):
            raise Refused(f"{kind} is lent for a lifetime of the type: declare it, and write it, as &'a str")

    def check_array(self, kind: str) -> None:
        item, _, count = kind[1:-1].rpartition(";")
        if not item:
            raise Refused(f"{kind} has no length: write a Vec")
        if "::" in count:
            raise Refused(f"bring {count.strip()} in by a `use`, and name it alone")
        if not count.strip().isdigit():
            raise Refused(f"the length {count.strip()} isn't known: write a number, or a constant of this file or one that a `use` brings in, as"
                          " `const N: usize = 4;`")
        self.check(item.strip())

    def check_named(self, kind: str) -> None:
        found = re.fullmatch(r"([A-Za-z_][\w:]*)(?:<(.*)>)?", kind)
        if kind.startswith(("fn(", "dyn ", "impl ", "*", "!")):
            raise Refused(f"{kind} can't be written as a message: leave it out of the type")
        if not found:
            raise Refused(f"{kind} is no type that can be derived: write one of std or of the library that is written and read, or one of your own")
        name, inner = found.groups()
        if name.partition("::")[0] in self.parameters and "::" in name:
            raise Refused(f"{name} is a type of a parameter: make it a parameter of its own")
        if "::" in name:
            raise Refused(f"bring {name} in by a `use`, and name it alone")
        self.check_name(name)
        for part in split(inner) if inner else []:
            self.check(part)

    def check_name(self, name: str) -> None:
        """Refuses a name of no type that is written and read."""
        if name in self.source.own or name in self.parameters or name in PRELUDE | PLAIN - {"str"}:
            return
        use = self.source.uses.get(name)
        why = use and self.source.refusal(use)
        if use and not why:
            return
        instead = INSTEAD.get(name) or INSTEAD_OF_STD.get(use.name if use else name)
        if instead:
            raise Refused(f"in place of {name} write {instead}")
        if why:
            raise Refused(f"{name} isn't written and read: {why}")
        if name in BROUGHT:
            raise Refused(f"no `use` names {name}: write `use {self.source.place_of(name)}::{name};`")
        raise Refused(f"{name} isn't written and read: declare it in this file, or bring it in by a `use`")
