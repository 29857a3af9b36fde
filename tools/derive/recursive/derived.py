"""What derive.py writes for a recursive type.

Such a type has no parameters. An enum's variants hold nothing, or values with names or without, and a struct's fields have names. Each value is
a leaf (leaves.py), or the type again, in a `Vec`, a `Box`, an `Option<Box<_>>` or a map; in a struct it isn't in a `Box` alone. What is
known of the type is said level by level, so it gets a file of definitions and laws, specs/TLevels.antt, and one of its round trip,
specs/TRounds.antt. Each type of the crate that is a leaf has a file, specs/TLeaf.antt. What all such types share is the library rmp_recursive.
"""
from __future__ import annotations

import contextlib
import dataclasses
import os
import re
from typing import TYPE_CHECKING, Iterator, Optional

from shared.files import read, write

from ..table.types import Declared, Field, Shape
from ..table.kinds import Refused, identifiers
from ..reading.declarations import declared_at, lines
from ..reading.modules import ROOT, Module, derived_files
from ..words import TABLES
from . import answers, code, enums, given, rounds, struct_answers, struct_proofs, struct_rounds, structs
from .holders import by_parts, leaf_readers, lent, reading
from .holders import rounds as round_trip
from .leaves import Part
from .forms import AGAIN, BOX, MAPS, ORDERS
from .levels import Level
from .own_leaves import leaf_file

if TYPE_CHECKING:
    from ..table.own import Own

# What the head of each file has that this tool writes.
WRITTEN = "Written by tools/derive.py."
# How many fields a struct has at most; a variant has no more, either.
MOST_FIELDS = 16


def levels_of(module: Module, wanted: list[Own]) -> list[Level]:
    """The types that lead back to themselves."""
    levels = [Level(own.of, module.name, f"{module.name}.specs.declared.{module.below(own.of.name)}", own.names) for own in wanted if own.of.leads_back()]
    for level in levels:
        definitions, lemmas = (structs, struct_proofs) if level.fields else (enums, answers)
        level.words = given.words_of(level, [*definitions.sections(level), *lemmas.proof_sections(level)])
    return levels


def files_of(module: Module, own: Own) -> Iterator[tuple[str, str]]:
    """The names of the files that such a type has in specs/ and proofs/, each with the module of the type that it is of."""
    level = Level(own.of, module.name, own.declared, own.names)
    yield from ((f"{level.name}{word}", own.declared) for word in ("Levels", "Rounds"))
    yield from ((f"{part.kind}Leaf", part.declared[1]) for part in level.own_leaves())


def others_files(module: Module) -> Iterator[tuple[str, str, str]]:
    """The same of the crate's other files, each with the file's path."""
    for path in derived_files(module.crate):
        other = Module(module.crate, path)
        with contextlib.suppress(Refused):
            wanted = other.wanted() if path != module.path else []
            yield from ((*it, path) for own in wanted if own.of.leads_back() for it in files_of(other, own))


def check_files(module: Module, own: Own, others: list[tuple[str, str, str]]) -> None:
    """Refuses a type whose files have the names of these others, or of what is written by hand."""
    for name, declared in files_of(module, own):
        path = next((path for other, of, path in others if other == name and of != declared), None)
        kind = declared.rpartition(".")[2]
        if path:
            raise Refused(f"{kind}: specs/{name}.antt is of a type of {path}, too: give one of the two another name, which changes no bytes")
        for place in (os.path.join(folder, f"{name}.antt") for folder in ("specs", "proofs")):
            if os.path.isfile(os.path.join(module.crate, place)):
                if WRITTEN not in read(os.path.abspath(module.crate), place).partition("\n")[0]:
                    raise Refused(f"{kind}: {place} is written by hand: give the type another name, which changes no bytes, or move the file")


def check(module: Module, wanted: list[Own]) -> None:
    """Refuses a type that leads back to itself in another way than is derived, and any such type of a crate that doesn't name the library, nor
    rmp_serde, which re-exports it."""
    unnamed = not {"rmp_recursive", ROOT} & {*module.libraries()} and module.unnamed(ROOT)
    others = list(others_files(module)) if any(own.of.leads_back() for own in wanted) else []
    for own in filter(lambda own: own.of.leads_back(), wanted):
        with lines(declared_at(module.source(), own.of.name)):
            why = refusal(own) or unnamed
            if why:
                raise Refused(f"{own.of.name}: it leads back to itself, and {why}")
            check_files(module, own, others)
            others += [(*it, module.path) for it in files_of(module, own)]


def refusal(own: Own) -> Optional[str]:
    """Why such a type isn't derived, if it isn't, and what to do."""
    of = own.of
    if own.by_hand & {"Serialize", "Deserialize"}:
        return "both halves of such a type are derived, or neither: take the `impl` out, or write the other by hand, too"
    if of.lifetime:
        return f"such a type is derived where it borrows nothing: write String in place of &{of.lifetime} str"
    if of.parameters:
        return f"such a type is derived without parameters: write a type in place of {of.parameters[0][0]}"
    if of.shape and of.shape.kind != "named":
        return "such a struct is derived where its fields have names: name them"
    for shape in of.shapes():
        why = next(filter(None, (refusal_of_field(own, shape, field) for field in shape.fields)), None)
        if why:
            return why
        if of.variants and any(field.default for field in shape.fields) and all(part_of(own, field).is_leaf for field in shape.fields):
            return f"a field of {shape.name} has a default, which is for a variant that holds {of.name}: hold a struct there, of which a field has it"
    if of.shape and len(of.shape.fields) > MOST_FIELDS:
        return f"it has more than {MOST_FIELDS} fields: group some in a type of their own"
    maps = [kind for kind in (it.kind.replace("{kind}", of.name) for it in MAPS) if any(field.kind == kind for shape in of.shapes() for field in shape.fields)]
    if len(maps) > 1:
        return f"{maps[0]} and {maps[1]} have keys of two kinds: write keys of one kind, as {maps[0]} for both"
    if len(of.variants or []) == 1:
        return "it has one variant: write a struct"
    return None


def part_of(own: Own, field: Field) -> Optional[Part]:
    """What is known of a field of such a type."""
    return Level(own.of, "own", "own", own.names).part_of(field.kind)


def refusal_of_field(own: Own, shape: Shape, field: Field) -> Optional[str]:
    """Why a type with this field, or with this value of a variant, isn't derived."""
    of, part = own.of, part_of(own, field)
    name = field.name if of.shape else f"{field.name} of {shape.name}"
    if field.default and not (part and part.is_leaf and not part.is_given and field.default.term):
        return f"{name} has a default that takes memory: in such a type it is a number, a character, true, false or a constant"
    if part and not (of.shape and part.word == "box"):
        return None
    holds = f"{name} is a {field.kind}" if shape.kind == "named" else f"{shape.name} holds a {field.kind}"
    if of.name not in identifiers(field.kind):
        return f"{holds}, which isn't known here: write a struct that holds it"
    return f"{holds}: write {alike(own, field) or forms(of)}"


# What is written in place of a type that holds this one, {name}: the same content, where it isn't held so.
ALIKE = (
    (r"\[(.*); \d+\]", r"Vec<\1>"), (r"BTreeSet<(.*)>", r"Vec<\1>"), (r"Box<(?!{name}>)(.*)>", r"\1"), (r"Option<(Option<.*>)>", r"\1"),
    (r"(.*)\bOption<{name}>(.*)", r"\1Option<Box<{name}>>\2"), (r"(Vec|VecDeque)<Box<{name}>>", r"\1<{name}>"),
)


def alike(own: Own, field: Field) -> str:
    """The type that such a type may hold in place of this field's, where there is one of the same content."""
    kind, of = field.kind, own.of
    for form, instead in ALIKE:
        kind = re.sub(f"^{form.format(name=of.name)}$", instead.format(name=of.name), kind)
    part = part_of(own, dataclasses.replace(field, kind=kind))
    return kind if part and kind != field.kind and not (of.shape and part.word == "box") else ""


def forms(of: Declared) -> str:
    """The types in which such a type may be again."""
    again = [it.kind.replace("{kind}", of.name) for it in AGAIN if it is not BOX or of.variants]
    again += [f"Option<Vec<{of.name}>>", f"Vec<(String, {of.name})>", *[f"Vec<Option<Box<{of.name}>>>"] * bool(of.shape)]
    keys = f"{', '.join([*ORDERS][:-1])} or {[*ORDERS][-1]}"
    return f"{', '.join(again)} or BTreeMap<K, {of.name}>, where K is {keys}"


def items(module: Module, wanted: list[Own]) -> list[str]:
    """The code for the types that lead back to themselves, in lines."""
    check(module, wanted)
    levels = levels_of(module, wanted)
    lines = leaf_readers(levels)
    for level, own in zip(levels, filter(lambda own: own.of.leads_back(), wanted)):
        lines += [*code.writing(level), *code.readers(level), *reading(level), *(round_trip(level, own) if module.rounds() else [])]
    return lines


def ghost_tables(module: Module, wanted: list[Own]) -> list[dict[str, str]]:
    """The tables of where ghost words of these types come from."""
    more: dict[str, str] = {}
    for level in levels_of(module, wanted):
        name, low = level.name, level.low
        rows = " ".join([*(f"{name}Row{shape.name}" for shape, _ in level.rows()), *(f"{of.name}Read" for of in level.contents())])
        more[f"{module.name}.specs.{name}Levels"] = f"Is{name} {low}_data {low}_fits {rows}"
        more |= {f"{module.name}.specs.{part.kind}Leaf": f"Is{part.kind}" for part in level.own_leaves()}
        more[f"{module.name}.specs.{name}Rounds"] = f"Same{name} {low}_some {low}_round {low}_only {low}_other"
    return [TABLES["recursive"], more] if more else []


def ghost_words(module: Module, wanted: list[Own]) -> dict[str, list[str]]:
    """What the types of given parts bring into the code."""
    found: dict[str, list[str]] = {}
    for level in levels_of(module, wanted):
        for home, names in given.ghost_words(level.given, level.types).items():
            found[home] = sorted({*found.get(home, []), *names})
    return {home: names for home, names in found.items() if names} if any(level.given for level in levels_of(module, wanted)) else {}


def code_tables(wanted: list[Own]) -> list[dict[str, str]]:
    """The tables of where words of the code come from."""
    return [TABLES["code"], *[TABLES["recursive code"]] * any(own.of.leads_back() for own in wanted)]


def names_of_code(wanted: list[Own]) -> set[str]:
    """What the code for these types names besides: a type parameter, and what reads their leaves and parts."""
    again = [own.of.name for own in wanted if own.of.leads_back()]
    return {"P", "ReadLeaves", *(f"{name}Parts" for name in again)} if again else set()


def through(module: Module, text: str) -> str:
    """The text, where it names rmp_round_trip through the library that the crate names."""
    return text.replace("Rattle.rmp_round_trip.", f"Rattle.{module.rounds()}.") if module.rounds() else text


def files(module: Module, wanted: list[Own]) -> Iterator[tuple[str, ...]]:
    """Each text that such types have beside their code, and then its path."""
    levels = levels_of(module, wanted)
    for part in dict.fromkeys(it for level in levels for it in level.own_leaves()):
        yield through(module, leaf_file(part, module.name, bool(module.rounds()))), "specs", f"{part.kind}Leaf.antt"
    below = ("proofs", f"{module.at}derived")
    readers = [("ReadLeaves", part) for part in lent(levels)] + [(f"{level.name}Parts", part) for level in levels for part in by_parts(level)]
    for trait, part in readers:
        if part.named:
            path = (f"Slices{trait}", part.call())
            yield struct_answers.leaf_answers(part.named, module.below("derived", *path)), *below, *path, "Answers.antt"
    for level in levels:
        yield (structs if level.fields else enums).levels_file(level), "specs", f"{level.name}Levels.antt"
        yield (struct_proofs if level.fields else answers).proofs_file(level), "proofs", f"{level.name}Levels.antt"
        if module.rounds():
            yield through(module, (struct_rounds if level.fields else rounds).rounds_file(level)), "specs", f"{level.name}Rounds.antt"
        cycle = (f"{level.kind}Serialize", f"+{level.low}_writing")
        yield (struct_answers if level.fields else answers).writing_answers(level, module.below("derived", *cycle)), *below, *cycle, "Answers.antt"
        if level.given and not level.fields:
            path = (f"{level.kind}Serialize", "as_u8")
            yield answers.byte_answers(level, module.below("derived", *path)), *below, *path, "Answers.antt"
        cycle = (f"+{level.low}_reading",)
        yield answers.reading_answers(level, module.below("derived", *cycle)), *below, *cycle, "Answers.antt"
        yield answers.reading_measures(level, module.below("derived", *cycle)), *below, *cycle, "Invariants.antt"


def name_files(module: Module, wanted: list[Own]) -> None:
    """Names the files in the lists of the crate's definitions and lemmas, where they aren't yet."""
    wanted_in: dict[str, list[str]] = {}
    for _, folder, *path in files(module, wanted):
        if len(path) == 1:
            wanted_in.setdefault(folder, []).append(path[0].removesuffix(".antt"))
    for folder, names in wanted_in.items():
        place = os.path.join(os.path.abspath(module.crate), folder, "Lib.antt")
        found = read(place).splitlines() if os.path.isfile(place) else []
        found += [f"pub mod {name}" for name in names if f"pub mod {name}" not in found and f"mod {name}" not in found]
        write("\n".join(found) + "\n", place)
