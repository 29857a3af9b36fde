"""The names that derived code has from its file, and those that it has for something else, which no type may have."""
from __future__ import annotations

from typing import Iterator

from shared import halves

from .flat.terms import all_elements
from .reading.declarations import declared_at, lines
from .reading.modules import Module
from .reading.uses import STD
from .recursive import derived as recursive
from .table.kinds import PLAIN, PRELUDE, Refused, identifiers
from .table.own import Own
from .table.types import Declared
from .words import joined

# What the code names besides what it brings in: its type parameters, what is there without a `use`, and what holds the fields of a type.
NAMES = {*"C R W Result Option Vec String Box Some None Ok Err".split(), *halves.MORE}


def named_types(types: list[Declared]) -> list[str]:
    """The types that are brought in from the file, its own and others."""
    words = {word for of in types for kind in of.kinds() for word in identifiers(kind)}
    skipped = [field for of in types for shape in of.shapes() for field in shape.skipped]
    words |= {word for field in skipped for word in identifiers(field.kind) if word in identifiers(field.default.made)}
    own = {name for of in types for name, _ in of.parameters}
    capital = {word for word in words if word[0].isupper()}
    return sorted(capital.union({of.name for of in types}, *(of.constants() for of in types)) - PRELUDE - PLAIN - own)


def names_of_code(wanted: list[Own]) -> set[str]:
    """The names that the code has for what isn't of the file."""
    brought = {word for words in joined(*recursive.code_tables(wanted)).values() for word in words.split()}
    return NAMES | brought | recursive.names_of_code(wanted) | {it.name for own in wanted for it in all_elements(own.of)}


def names_in(own: Own) -> Iterator[tuple[str, str]]:
    """Each name that the code has from the file for a type, and how it is given another."""
    of = own.of
    yield of.name, f"call the type Own{of.name}, which changes no bytes"
    yield from ((name, "give the parameter another name, as T") for name, _ in of.parameters)
    yield from ((name, f"call the constant OWN_{name}") for name in of.constants())
    words = {*named_types([of]), *(PRELUDE & {word for kind in of.kinds() for word in identifiers(kind)})}
    for name in sorted(words & set(own.uses)):
        use = own.uses[name]
        if use.path[:1] not in [(it,) for it in STD] and not use.is_known():
            yield name, f"write `use {'::'.join([*use.path, use.name])} as Own{name};`, and Own{name}"


def check_names(module: Module, wanted: list[Own]) -> None:
    """Refuses a type of which a name is one that the code has for something else."""
    taken = names_of_code(wanted)
    for own in wanted:
        with lines(declared_at(module.source(), own.of.name), own.of.name):
            for name, instead in names_in(own):
                if name in taken:
                    raise Refused(f"the code that is written names something else {name}: {instead}")
