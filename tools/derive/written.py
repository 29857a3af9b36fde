"""What is written for the types of a file: src/../derived.rt and the proofs, and the files that recursive types have beside them."""
from __future__ import annotations

import re
import sys
from typing import Callable, Iterator

from shared import halves
from shared.imports import imports

from .flat import code, ends, rounds
from .flat.laws import Unknown
from .flat.proofs import answers
from .flat.terms import alias, all_elements
from .names import check_names, named_types
from .reading.modules import Files, Module, sums_lines
from .recursive import derived as recursive
from .table.own import Own
from .words import TABLES, joined


def ghost_line(module: str, names: list[str]) -> str:
    return f"ghost use Rattle.{module}.{{{', '.join(names)}}};\n"


def code_line(module: str, names: list[str]) -> str:
    return f"use {module}::{names[0]};\n" if len(names) == 1 else f"use {module}::{{{', '.join(names)}}};\n"


def through(module: Module, table: dict[str, str]) -> dict[str, str]:
    """The same names, those of rmp_round_trip, rmp_ends and rmp_types through the library that re-exports them, if there is one."""
    found: dict[str, str] = {}
    libraries = {name: module.by(name) or name for name in ("rmp_round_trip", "rmp_ends", "rmp_types")}
    for path, names in table.items():
        path = re.sub(r"^\w+", lambda name: libraries.get(name[0], name[0]), path)
        found[path] = f"{found.get(path, '')} {names}"
    return found


def laws(module: Module, own: Own, trait: str, write: Callable[[Own], list[str]], why: str = "") -> list[str]:
    """The implementation of a trait, where the type has it; else it is told why it doesn't, which may be known."""
    lines = []
    try:
        lines = write(own)
    except Unknown as unknown:
        why = str(unknown)
    if why:
        print(f"derive: {module.path}: {own.of.name} has no {trait}: {why}", file=sys.stderr)
    return lines


def items(module: Module, wanted: list[Own]) -> Iterator[str]:
    """The implementations, in lines."""
    yield from recursive.items(module, wanted)
    for own in wanted:
        if not own.of.leads_back():
            yield from code.writing(own.of) if "Serialize" in own.derived else []
            if "Deserialize" in own.derived:
                yield from code.reading(own.of)
                yield from (line for elements in all_elements(own.of) for line in code.elements_struct(elements))
            yield from laws(module, own, "RoundTrip", rounds.implementations, module.unasked(own))
        if "EndsInside" in own.derived:
            yield from laws(module, own, "EndsInside", ends.implementation)
    for count in code.more_parts(wanted):
        yield from code.handing_over(count)
    if any(shape.copies() for own in wanted for shape in own.of.shapes()):
        yield code.TEXT_OR


def ghosts(module: Module, wanted: list[Own], text: str) -> list[str]:
    """The lines that bring in what is said of types in this text."""
    lines = imports(text, through(module, joined(TABLES["ghost"], *recursive.ghost_tables(module, wanted))), ghost_line)
    others = {other.declared: other for own in wanted for other in own.others.values()}
    for own in [*wanted, *others.values()]:
        if own.of.variants and f"{alias(own.of)}." in text:
            lines.append(f"ghost use Rattle.{own.declared}.TheVariants as {alias(own.of)};\n")
    lines += [ghost_line(home, names) for home, names in recursive.ghost_words(module, wanted).items()]
    constants = sorted(set().union(*(own.of.constants() for own in wanted)))
    lines += [ghost_line(f"{module.name}.specs.declared.{module.below('TheConstants')}", constants)] * bool(constants)
    return sorted(lines)


def implementations(module: Module, wanted: list[Own]) -> str:
    """The text of src/../derived.rt."""
    check_names(module, wanted)
    text = "\n".join(items(module, wanted))
    said = ghosts(module, wanted, text)
    brought = set().union(*(own.brought for own in wanted), named_types([own.of for own in wanted]))
    here = sorted(map(module.named_here, brought))
    uses = [code_line("super", here), *imports(text, through(module, joined(*recursive.code_tables(wanted))), code_line)]
    about = f"//! How the types of {module.path} are written and read. Written by tools/derive.py.\n//!\n{sums_lines(wanted)}"
    return f"{about}{''.join(said)}\n{''.join(uses)}\n{text}"


def proofs(module: Module, wanted: list[Own]) -> Iterator[tuple[str, ...]]:
    """Each proof's text, and then its path below the module's."""
    for own in wanted:
        if not own.of.leads_back():
            for name, trait, method, text in answers(own.of, own.derived, module):
                yield text, f"{name}{trait}", method
    for count in code.more_parts(wanted):
        name = f"{halves.holder(count)}Elements"
        for method in ("write", "write_fields"):
            goals = f"Rattle.{module.name}.proofs.{module.below('derived', name, method)}"
            yield halves.answers(count, code.front_of(count), method, goals), name, method


def made(module: Module, wanted: list[Own]) -> Files:
    """The implementations and the proofs of these types of a file."""
    files = Files(module)
    files.add(implementations(module, wanted), "src", f"{module.at}derived.rt")
    for text, *words in proofs(module, wanted):
        files.add(text, "proofs", f"{module.at}derived", *words, "Answers.antt")
    for text, *words in recursive.files(module, wanted):
        files.add(text, *words)
    return files
