"""Reads the items of a crate's sources: how each is declared, its doc comment, the names of its clauses, and its members.

The sources are in rt fmt's layout: an item begins at the margin, a member of it four columns in, and each ends at its own margin.
"""
from __future__ import annotations

import os
import re
from dataclasses import dataclass, field

from shared.brackets import close_of, depth_at, split
from shared.crates import below, listed
from shared.files import TOP, read

STEP = " " * 4
BEGINS = re.compile(r"(pub(?:\([^)]*\))? )?(?:const (?=fn)|unsafe )?(fn|struct|enum|trait|const|type|mod|use|impl)\b ?(\w*)")
CLAUSE = re.compile(r"(requires|ensures)\*? ?(\w*) ?\{")
# The crate that users see.
ROOT = "rmp_serde"
# The modules of `rmp_serde` by which an item is named, the first that gives it on.
RANK = ("encode", "decode", "config", "", "laws", "wire")
CONTRACT = ("requires", "ensures", "ghost ", "invariant", "decreases", "//")


@dataclass
class Item:
    """A function, a type, a trait, an `impl`, or a part of one. `clauses` are pairs of `requires` or `ensures` and a name, or no name."""

    kind: str
    name: str
    public: bool
    declared: str
    doc: list[str] = field(default_factory=list)
    derives: list[str] = field(default_factory=list)
    clauses: list[tuple[str, str]] = field(default_factory=list)
    members: list[Item] = field(default_factory=list)


@dataclass
class Module:
    """A module: its items, the names that it gives on by `pub use`, each with its path, and the modules in it."""

    crate: str
    items: dict[str, Item] = field(default_factory=dict)
    impls: list[Item] = field(default_factory=list)
    uses: dict[str, list[str]] = field(default_factory=dict)
    modules: dict[str, Module] = field(default_factory=dict)
    public: set[str] = field(default_factory=set)
    parent: Module | None = None


def on_one_line(lines: list[str]) -> str:
    """A declaration on one line."""
    text = " ".join(line.strip() for line in lines).strip()
    text = re.sub(r"([(<\[]) ", r"\1", text)
    return re.sub(r",? ([)>\]])(?!=)", r"\1", text).replace("- >", "->")


def end_of(lines: list[str], at: int, margin: str) -> tuple[int, int]:
    """Where the head of the item that begins at this line ends, and where the item does."""
    for place in range(at, len(lines)):
        bare = lines[place].strip()
        in_contract = bare.startswith(CONTRACT)
        if bare.endswith((";", "{}")) or (place == at and bare.endswith("}")):
            return place, place
        if lines[place] == margin + "{" or (bare.endswith("{") and not in_contract):
            return place, next(it for it in range(place, len(lines)) if re.fullmatch(margin + r"[})]+;?", lines[it]))
    return len(lines) - 1, len(lines) - 1


def declaration(lines: list[str]) -> str:
    """The head of an item without its contract, on one line."""
    kept = []
    for line in lines:
        if line.strip().startswith(CONTRACT) or line.strip() in ("{", "{}"):
            break
        kept.append(line)
    return re.sub(r" ?(\{\}?|;)$", "", on_one_line(kept)).rstrip(",")


def clauses_of(lines: list[str]) -> list[tuple[str, str]]:
    found = (CLAUSE.match(line.strip()) for line in lines)
    return [(it[1], it[2]) for it in found if it]


def variants_of(lines: list[str]) -> list[Item]:
    """The variants of an enum, or the public fields of a struct."""
    found: list[Item] = []
    doc: list[str] = []
    for line in lines:
        bare = line.removeprefix(STEP)
        if bare.startswith("///"):
            doc.append(bare[3:].removeprefix(" "))
        elif re.match(r"(pub )?\w+[,:({ ]", bare) and not bare.startswith("ghost "):
            name = re.sub(r"^pub ", "", bare)
            found.append(Item("part", re.match(r"\w+", name)[0], True, bare.rstrip(",{ "), doc))
            doc = []
        elif not bare.startswith(("#", " ")):
            doc = []
    return found


def items_of(lines: list[str], margin: str = "") -> list[Item]:
    """The items that begin at this margin."""
    found, at = [], 0
    doc: list[str] = []
    derives: list[str] = []
    while at < len(lines):
        line = lines[at]
        bare = line.removeprefix(margin)
        begins = BEGINS.match(bare) if line.startswith(margin) else None
        if begins and not bare.startswith("ghost"):
            head, end = end_of(lines, at, margin)
            inner = [it.removeprefix(margin) for it in lines[head + 1 : end]]
            public, kind, name = bool(begins[1]) and "(" not in begins[1], begins[2], begins[3]
            item = Item(kind, name, public, declaration(lines[at : head + 1]), doc, derives)
            if kind == "fn":
                item.clauses = clauses_of(lines[at : head + 1])
            elif kind in ("trait", "impl"):
                item.members = items_of(inner, STEP)
            elif kind in ("enum", "struct"):
                item.members = variants_of(inner)
            found.append(item)
            doc, derives, at = [], [], end + 1
            continue
        if bare.startswith("///"):
            doc.append(bare[3:].removeprefix(" "))
        elif bare.startswith("#[derive("):
            derives += re.findall(r"\w+", bare[9:])
        elif not bare.startswith(("#", "//", " ", ")]")):
            doc, derives = [], []
        at += 1
    return found


def uses_of(text: str) -> dict[str, list[str]]:
    """What a file gives on by `pub use`: of each name its path."""
    found = {}
    for use in re.findall(r"^pub use ([^;]+);", text, re.M):
        path, _, names = re.sub(r"\s+", " ", use).partition("::{")
        for name in split(names.rstrip(" }")):
            whole, _, renamed = (f"{path}::{name}" if name else path).partition(" as ")
            found[renamed or whole.split("::")[-1]] = whole.split("::")
    return found


def module_at(crate: str, path: list[str], parent: Module | None = None) -> Module:
    """The module of this path in a crate, with those in it."""
    text = read("crates", crate, "src", *path[:-1], f"{path[-1]}.rt" if path else "lib.rt")
    module = Module(crate, uses=uses_of(text), parent=parent)
    for item in items_of(text.split("\n")):
        if item.kind == "mod":
            module.modules[item.name] = module_at(crate, [*path, item.name], module)
            module.public |= {item.name} if item.public else set()
        elif item.kind == "impl":
            module.impls.append(item)
        elif item.kind != "use":
            module.items[item.name] = item
    return module


def all_modules(module: Module) -> list[Module]:
    return [module, *(it for inner in module.modules.values() for it in all_modules(inner))]


def impl_parts(declared: str) -> tuple[str, str]:
    """The trait that an `impl` is of, or nothing, and the type."""
    text = declared.removeprefix("impl").strip()
    if text.startswith("<"):
        text = text[close_of(text, 0) :].strip()
    text = re.split(r"\bwhere\b", text)[0].strip()
    depth = 0
    for at in range(len(text)):
        depth += depth_at(text, at)
        if not depth and text.startswith(" for ", at):
            return text[:at], text[at + 5 :]
    return "", text


@dataclass
class Entry:
    """A public item, the module that has it, and the paths that lead to it."""

    module: Module
    item: Item
    paths: list[str] = field(default_factory=list)

    def path(self) -> str:
        return min(self.paths, key=lambda it: (rank(page_of(it)), len(it), it))


def page_of(path: str) -> str:
    return path.rpartition("::")[0]


def rank(page: str) -> int:
    return RANK.index(page) if page in RANK else len(RANK)


class Library:
    """The crates, and what is public in them."""

    def __init__(self) -> None:
        self.crates = {name: module_at(name, []) for name in below([ROOT], listed(os.path.join(TOP, "crates.txt")))}
        self.modules = [it for crate in self.crates.values() for it in all_modules(crate)]
        self.entries: dict[int, Entry] = {}
        self.walk(self.crates[ROOT], "")

    def resolve(self, module: Module, path: list[str]) -> Module | tuple[Module, Item] | None:
        """The module or the item of a path, as a module names it."""
        at, rest = self.first(module, path)
        for place, name in enumerate(rest):
            if name in at.modules:
                at = at.modules[name]
            elif name in at.items:
                return at, at.items[name]
            elif name in at.uses:
                return self.resolve(at, [*at.uses[name], *rest[place + 1 :]])
            else:
                return None
        return at

    def first(self, module: Module, path: list[str]) -> tuple[Module, list[str]]:
        if path[0] == "crate":
            return self.crates[module.crate], path[1:]
        if path[0] == "super" and module.parent:
            return module.parent, path[1:]
        if path[0] in self.crates:
            return self.crates[path[0]], path[1:]
        return module, path

    def walk(self, module: Module, prefix: str) -> None:
        """Puts down what is public in a module, and in those that it gives on."""
        found = {name: self.resolve(module, path) for name, path in module.uses.items()}
        found |= {name: module.modules[name] for name in module.public}
        found |= {name: (module, item) for name, item in module.items.items() if item.public}
        for name, it in found.items():
            if isinstance(it, Module):
                self.walk(it, f"{prefix}{name}::")
            elif it:
                entry = self.entries.setdefault(id(it[1]), Entry(it[0], it[1]))
                entry.paths.append(prefix + name)

    def below(self) -> list[Entry]:
        """What is public in the crates below and has no path in `rmp_serde`: derived code uses it."""
        found = []
        for crate, root in self.crates.items():
            for name in root.uses:
                it = self.resolve(root, root.uses[name])
                if isinstance(it, tuple) and id(it[1]) not in self.entries:
                    found.append(Entry(it[0], it[1], [f"{crate}::{name}"]))
        return found

    def impls_of(self, entry: Entry) -> list[Item]:
        """The `impl` blocks of a type, those beside its declaration first."""
        near = sorted(self.modules, key=lambda it: it is not entry.module)
        return [impl for module in near for impl in module.impls if self.owner(module, impl) is entry.item]

    def owner(self, module: Module, impl: Item) -> Item | None:
        """The type of the crates that an `impl` is of: one of its own crate first."""
        name = re.sub(r"<.*", "", impl_parts(impl.declared)[1])
        near = sorted(self.modules, key=lambda it: it.crate != module.crate)
        return next((it.items[name] for it in near if name in it.items), None)
