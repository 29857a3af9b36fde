"""The files that derive.py reads and writes: a module of a crate with its types, the sums of what was derived, and what is laid out."""
from __future__ import annotations

import os
import re
import shutil
import subprocess
import tempfile
import zlib
from collections.abc import Sequence
from typing import Optional

from shared.crates import listed
from shared.files import files_below, read, write
from shared.lines import broken

from ..table.kinds import PLAIN, PRELUDE, Refused, identifiers
from ..table.own import Own
from .declarations import ITEM, types_of
from .field_types import Alias, aliases_of
from .uses import DECLARED, LIBRARIES as LIBRARY, STD, Use, constants_of, number_of, uses_of

TRAITS = {"Serialize", "Deserialize", "RoundTrip", "NeverNil", "EndsInside"}
# The libraries that derived types name, the last one those alone which contain themselves, and what rmp_serde, which re-exports them, calls their
# code, and their definitions and lemmas.
ROOT = "rmp_serde"
LIBRARIES = {
    "rmp_encode": ("encode", "Encoding"),
    "rmp_decode": ("decode", "Decoding"),
    "rmp_wire": ("wire", "Wire"),
    "rmp_recursive": ("", "Recursion"),
}
DERIVED = re.compile(r"^mod derived;", re.M)
# The sums of the declarations in a derived file's head, and how many of them a line has.
SUM = re.compile(r"^//! Sum of (\w+): ([0-9a-f]{8})\.$", re.M)


def implemented(text: str, name: str) -> set[str]:
    """The traits that the file itself implements for a type."""
    return set(re.findall(rf"^impl\b[^{{]*?\b(\w+)(?:<[^<>{{]*>)?\s+for\s+{name}\b", text, re.M)) & TRAITS


def by_hand(crate: str, name: str) -> bool:
    """Whether a file of a crate implements `Serialize` for a type itself."""
    files = files_below(os.path.abspath(crate), "src", ending=".rt")
    return any("Serialize" in implemented(read(it), name) for it in files if os.path.basename(it) != "derived.rt")


def instead_of_none(text: str) -> str:
    """What to write in a file that declares no type to derive."""
    if re.search(r"^(?:pub(?:\([^)]*\))? )?union \w+", text, re.M):
        return "write an enum in place of a union"
    if re.search(r"^\w+!", text, re.M):
        return "write each declaration itself, as those of macros aren't seen"
    return "declare a struct or an enum, or take out `mod derived;`"


def derived_files(crate: str) -> list[str]:
    """The files of a crate whose types are derived, by their paths below src/."""
    sources = os.path.join(os.path.abspath(crate), "src")
    found = [(it, read(it)) for it in files_below(sources, ending=".rt")]
    return sorted(os.path.relpath(it, sources) for it, text in found if DERIVED.search(text) and ITEM.search(text))


class Module:
    """A file of a crate, by its path below src/."""

    def __init__(self, crate: str, path: str) -> None:
        self.crate, self.path = crate, path
        self.name = os.path.basename(os.path.abspath(crate))
        stem = re.sub(r"\.rt$", "", path)
        self.at = "" if stem in ("lib", "main") else stem + "/"

    def below(self, *words: str) -> str:
        """The name of a module below the crate, where this file's module is in it."""
        return ".".join(word for word in (self.at.rstrip("/").replace("/", "."), *words) if word)

    def libraries(self) -> list[str]:
        """The libraries that crates.txt lists for the crate."""
        place = os.path.join(self.crate, "..", "..", "crates.txt")
        if not os.path.isfile(place):
            raise Refused(f"{self.crate} is no folder of a crate: there is no crates.txt two folders above")
        crates = listed(place)
        if self.name not in crates:
            raise Refused(f"crates.txt doesn't list {self.name}: add the line {self.name}: {ROOT}")
        return crates[self.name][1]

    def unnamed(self, library: str) -> str:
        """That crates.txt doesn't name a library for the crate, and what to write there."""
        return f"crates.txt doesn't name {library} for {self.name}: write {self.name}: {' '.join([*self.libraries(), library])}"

    def through_root(self, text: str) -> str:
        """A derived text, with the names that rmp_serde has for what is of libraries that crates.txt doesn't name for the crate. What an attribute
        names is in one file there."""
        libraries = self.libraries()
        for name, (code, module) in LIBRARIES.items():
            if name not in libraries:
                text = re.sub(rf"\b{name}::(specs|proofs)::\w+::", rf"{ROOT}::\1::Attributes::", text)
                text = re.sub(rf"\b{name}::", f"{ROOT}::{code}::", text)
                text = re.sub(rf"\bRattle\.{name}\.(specs|proofs)\.", rf"Rattle.{ROOT}.\1.{module}.", text)
        return text

    def by(self, library: str) -> Optional[str]:
        """The library through which the crate names what is of this one, which rmp_serde re-exports, if it has any."""
        return next((name for name in (ROOT, library) if name in self.libraries()), None)

    def rounds(self) -> Optional[str]:
        """The library through which it names `RoundTrip`."""
        return self.by("rmp_round_trip")

    def source(self) -> str:
        if self.path.startswith("src/"):
            raise Refused(f"a file is named by its path below src/: write {self.path[4:]}")
        place = os.path.join(self.crate, "src", self.path)
        if not os.path.isfile(place):
            raise Refused(f"there is no file {place}")
        return read(os.path.abspath(place))

    def wanted(self) -> list[Own]:
        """The types of the file for which there is a trait to derive."""
        source = self.source()
        if ROOT not in self.libraries() and not {*LIBRARIES} - {"rmp_recursive"} <= {*self.libraries()}:
            raise Refused(self.unnamed(ROOT))
        if not DERIVED.search(source):
            raise Refused("it has no line `mod derived;`: write it above the types")
        types = self.types()
        wanted = [own for own in types.values() if own.names is types and own.derived]
        if not wanted:
            raise Refused(f"it declares no type that has an implementation to derive: {instead_of_none(source)}")
        return wanted

    def traits(self, by_hand: set[str], asked: bool) -> set[str]:
        """The traits to derive, where these are implemented by hand: `NeverNil` goes by the form of `Serialize`, and `RoundTrip` by those of
        both, unless it is asked for."""
        traits = {"Serialize", "Deserialize"} - by_hand
        if not self.rounds():
            if asked:
                raise Refused(f"`round_trip` wants {ROOT}: {self.unnamed(ROOT)}")
            return traits
        more = {"NeverNil"} if asked or "Serialize" in traits else set()
        return traits | (more | {"RoundTrip"} if asked or len(traits) == 2 else more) - by_hand

    def unasked(self, own: Own) -> str:
        """Why a type isn't asked for `RoundTrip`, if it isn't."""
        by_hand = sorted({"Serialize", "Deserialize"} & own.by_hand)
        if not by_hand or not self.rounds() or "RoundTrip" in own.derived | own.by_hand:
            return ""
        return f"its {by_hand[0]} is written by hand, and no line `// derive: round_trip` above it says that the law holds"

    def key(self) -> tuple[str, str]:
        """What tells it from other files of this crate and of others."""
        return self.name, self.path

    def other(self, path: Sequence[str]) -> Optional[Module]:
        """The file of a module that a `use` names, where it is one of the crate, or of a library beside it."""
        crate, words = self.crate, self.below().split(".") if self.at else []
        if not path:
            return None
        if path[0] in self.libraries():
            crate, words = os.path.join(os.path.dirname(os.path.abspath(crate)), path[0]), []
        elif path[0] == "crate":
            words = []
        elif path[0] == "super":
            words = words[:-1]
        elif path[0] != "self":
            words = [*words, path[0]]
        words += path[1:]
        found = Module(crate, "/".join(words) + ".rt" if words else "lib.rt")
        return found if os.path.exists(os.path.join(crate, "src", found.path)) else None

    # ---- what it brings in

    def uses(self, text: str) -> dict[str, Use]:
        """What its text brings in, by the names that it has here, those of a * among them where it is of a file of the repository."""
        found = {}
        for name, use in uses_of(text):
            if use.name != "*":
                found[name] = use
                continue
            other = self.other(use.path)
            names = DECLARED.findall(other.source()) if other else []
            found |= {it: Use(use.path, it) for it in names if it not in found}
        return found

    def named_here(self, name: str) -> str:
        """How a type is brought in from this file, which may have another name for it."""
        uses = self.uses(self.source())
        other = next((local for local, use in uses.items() if use.name == name != local and use.is_known()), None)
        return f"{other} as {name}" if other and name not in uses else name

    def declares(self, use: Use) -> Optional[Module]:
        """The file that declares what a `use` brings in, where it is one of the crate, or of a library beside it."""
        other, seen = self.other(use.path), []
        while other and other.key() not in seen:
            text = other.source()
            if use.name in DECLARED.findall(text):
                return other
            seen.append(other.key())
            use = other.uses(text).get(use.name, Use((), ""))
            other = other.other(use.path)
        return None

    def alias(self, name: str, use: Use) -> dict[str, Alias]:
        """The type of which a `use` brings in another name, where it is said without a `use` of its own."""
        other = self.declares(use)
        alias = dict(aliases_of(other.source())).get(use.name) if other else None
        is_plain = alias and set(identifiers(alias.kind)) <= PLAIN | PRELUDE | set(alias.parameters)
        return {name: alias} if is_plain else {}

    def number(self, use: Use) -> Optional[int]:
        """The number that a constant is which a `use` brings in."""
        other = self.declares(use)
        if not other:
            return None
        constants, uses = constants_of(other.source()), other.uses(other.source())

        def value(name: str) -> Optional[int]:
            if name in constants:
                return number_of(constants[name].value, value)
            return other.number(uses[name]) if name in uses else None

        return value(use.name)

    def refusal(self, use: Use) -> str:
        """Why what a `use` brings in is no type that is written and read, or nothing."""
        first = use.path[0] if use.path else use.name
        if use.is_known():
            return "" if first in STD or first in self.libraries() else self.unnamed(first)
        if first in STD or first in LIBRARY:
            return "it has no Serialize and Deserialize: hold a type of your own in its place"
        at = os.path.join(os.path.dirname(os.path.abspath(self.crate)), first) if first in self.libraries() else self.crate
        if by_hand(at, use.name):
            return ""
        path, other = "::".join(use.path), self.declares(use)
        if not self.other(use.path):
            missing = f"there is no file of {path}: name the one that declares it, as crate::pets for src/pets.rt"
            return missing if first in ("crate", "self", "super") else self.unnamed(first)
        if not other:
            return f"{path} has no type of this name: declare it there, or name the file that does"
        return "" if DERIVED.search(other.source()) else f"{other.path} has no line `mod derived;`: write it there, and derive that file"

    def types(self, seen: tuple[tuple[str, str], ...] = ()) -> dict[str, Own]:
        """The types of the crate that the file names, its own first, by their names."""
        source, names = self.source(), {}
        has_derived, uses = DERIVED.search(source), self.uses(source)
        for name, of in types_of(source, self).items():
            by_hand = implemented(source, name)
            derived = self.traits(by_hand, of.asked) if has_derived else set()
            derived |= {"EndsInside"} - by_hand if self.by("rmp_ends") and "Deserialize" in derived else set()
            modules = {trait: f"{self.name}.specs.contracts.{self.below(*['derived'] * (trait in derived))}" for trait in TRAITS}
            declared = f"{self.name}.specs.declared.{self.below(name)}"
            names[name] = Own(of, derived, by_hand, modules, names, declared, uses)
        for name, use in uses.items():
            own = self.brought(use, seen)
            if own:
                names[name] = own
        return names

    def brought(self, use: Use, seen: tuple[tuple[str, str], ...]) -> Optional[Own]:
        """The type that a `use` of this file brings in, where it can be read."""
        other, seen = self.other(use.path), (self.key(), *seen)
        if not other or other.key() in seen:
            return None
        try:
            return other.named(use.name, seen)
        except Refused:
            return None

    def named(self, name: str, seen: tuple[tuple[str, str], ...]) -> Optional[Own]:
        """The type of this name. Of another crate, it is one whose file has derived types."""
        source = self.source()
        if name not in types_of(source, self):
            use = self.uses(source).get(name)
            return self.brought(use, seen) if use else None
        if self.name != seen[-1][0] and not DERIVED.search(source):
            return None
        return self.types(seen)[name]


# ---- sums


def sum_of(own: Own) -> str:
    """The sum of a type's declaration, of the traits that are derived, and of the types with parameters that it names."""
    seen, todo = {}, [own]
    while todo:
        it = todo.pop()
        if it.declared not in seen:
            seen[it.declared] = f"{it.of!r} {sorted(it.derived) if it is own else ''}"
            words = {word for kind in it.of.kinds() for word in identifiers(kind)}
            todo += [it.names[word] for word in words if word in it.names and it.names[word].of.parameters]
    return f"{zlib.crc32(repr(sorted(seen.items())).encode()):08x}"


def sums_lines(wanted: list[Own]) -> str:
    """The lines of a derived file's head that have the sums."""
    return "".join(f"//! Sum of {own.of.name}: {sum_of(own)}.\n" for own in wanted)


def stale(module: Module, wanted: list[Own]) -> str:
    """What has changed since the implementations were written, if anything."""
    place = os.path.join(module.crate, "src", f"{module.at}derived.rt")
    if not os.path.isfile(place):
        return "nothing is derived yet"
    written = dict(SUM.findall(read(os.path.abspath(place))))
    sums = {own.of.name: sum_of(own) for own in wanted}
    changed = [name for name in {**sums, **written} if sums.get(name) != written.get(name)]
    return f"{', '.join(changed)} changed since {'it was' if len(changed) == 1 else 'they were'} derived" if changed else ""


# ---- what is written


class Files:
    """The files of a module's crate that are written together, laid out as `rt fmt` does."""

    def __init__(self, module: Module) -> None:
        self.module = module
        self.texts: dict[str, str] = {}

    def add(self, text: str, *path: str) -> None:
        place = os.path.join(*path)
        self.texts[place] = broken(self.module.through_root(text), place.endswith(".antt"))

    def write(self, crate: str, replaced: str) -> None:
        """Writes them below a crate, in place of all that a folder of it has."""
        with tempfile.TemporaryDirectory() as folder:
            for place, text in self.texts.items():
                write(text, folder, place)
            try:
                subprocess.run(["rt", "fmt"], cwd=folder, check=True, stdout=subprocess.DEVNULL)
            except FileNotFoundError as why:
                raise Refused("the command rt isn't there, which lays the files out") from why
            except subprocess.CalledProcessError as why:
                raise Refused("rt fmt can't lay out what was written") from why
            shutil.rmtree(os.path.join(crate, replaced), ignore_errors=True)
            for place in self.texts:
                write(read(folder, place), os.path.abspath(crate), place)
