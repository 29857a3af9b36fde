"""Reads the structs and enums that a Rattle file declares, for derive.py.

What can't be derived is refused by a `Refused` that says why, with the type's name and the line.
"""
from __future__ import annotations

import contextlib
import dataclasses
import re
from typing import TYPE_CHECKING, Iterator, Optional

from shared.brackets import depth_at, split
from shared.terms import variants_as

from ..table.kinds import Refused, closing, identifiers
from ..table.types import MOST_IN_VARIANT, MOST_NAMED, MOST_UNNAMED, Declared, Field, Shape, is_flat
from . import renaming
from .defaults import Known, default_of
from .field_types import BROUGHT, Alias, Scope, aliases_of, laid_out, with_aliases
from .uses import Use, constants_of, number_of, uses_of

if TYPE_CHECKING:
    from .modules import Module

# Names that no field, variant or type may have: a word of declarations, and two that a proof would take for tactics.
WORDS = {"deriving", "ground", "assumption"}
ITEM = re.compile(r"((?:^[ \t]*#\[[^\]]*\]\s*)*)^([ \t]*)(?:pub(?:\([^)]*\))? )?(struct|enum) (\w+)", re.M)
# What the text of a file is made of where a comment may begin: texts, characters, and comments.
TOKEN = re.compile(r'"(?:\\.|[^"\\])*"|\'(?:\\[^\']*|[^\\\'])\'|//[^\n]*|/\*', re.S)
NOTE = re.compile(r"//\s*derive:\s*(.*)")

# ---- the text of a file


class Source:
    """A file's text without its comments, and the notes that `// derive:` lines have, by their places. `around` is the module that the file
    is, where what it brings in is known."""

    def __init__(self, text: str, around: Optional[Module] = None) -> None:
        self.around = around
        self.notes: dict[int, str] = {}
        self.used: set[int] = set()
        self.blocks: list[int] = []
        self.text = self.without_comments(text)
        # the names of the file's own types
        self.own = set(re.findall(r"\b(?:struct|enum) (\w+)", self.text))
        self.constants = constants_of(self.text)
        self.uses = around.uses(self.text) if around else dict(uses_of(self.text))
        self.aliases = self.all_aliases()

    def all_aliases(self) -> dict[str, Alias]:
        """Each name of another type: by a `type`, or by a `use` that gives a type of std or of the library a name of its own."""
        found = dict(aliases_of(self.text))
        for name, use in list(self.uses.items()):
            if name != use.name and use.is_known():
                found[name] = Alias([], use.name)
                self.uses.setdefault(use.name, use)
            elif self.around and name not in self.own:
                found |= self.around.alias(name, use)
        return found

    def scope(self, name: str, lifetime: Optional[str], parameters: list[tuple[str, str]]) -> Scope:
        """What the declaration of this name may name."""
        return Scope(name, lifetime, [it for it, _ in parameters], self)

    def refusal(self, use: Use) -> str:
        """Why what a `use` brings in is no type that is written and read, or nothing."""
        return self.around.refusal(use) if self.around else ""

    def place_of(self, name: str) -> str:
        """The module that a type of std or of the library is brought in from."""
        place = BROUGHT[name]
        return "rmp_serde" if place == "rmp_wire" and self.around and "rmp_serde" in self.around.libraries() else place

    def defaults(self) -> Known:
        """What a default may name: the constants of the file, with their types, and its enums, with their variants without content."""
        kinds = {name: self.with_lengths(with_aliases(laid_out(it.kind), self.aliases)) for name, it in self.constants.items()}
        enums = {}
        for found in re.finditer(r"^(?:pub(?:\([^)]*\))? )?enum (\w+)\s*\{", self.text, re.M):
            body = self.text[found.end() : closing(self.text, found.end() - 1) - 1]
            enums[found[1]] = variants_as(found[1]), [part for part in split(body) if part.isidentifier()]
        return Known(kinds, enums)

    def number(self, name: str) -> Optional[int]:
        """The number that a constant is."""
        if name in self.constants:
            return number_of(self.constants[name].value, self.number)
        return self.around.number(self.uses[name]) if self.around and name in self.uses else None

    def with_lengths(self, kind: str) -> str:
        """The type with the length of each array as a number, where it is known."""
        def length(found: re.Match) -> str:
            known = number_of(found[1], self.number)
            return f"; {found[1] if known is None else known}]"

        return re.sub(r"; ([^;\[\]]*)\]", length, kind)

    def without_comments(self, text: str) -> str:
        """The text with a space for each sign of a comment, so that each place is the same."""
        parts, last = [], 0
        for found in iter(lambda: TOKEN.search(text, last), None):
            parts.append(text[last : found.start()])
            token, last = found[0], found.end()
            if token == "/*":
                self.blocks.append(found.start())
                end = text.find("*/", last)
                last = len(text) if end < 0 else end + 2
                token = text[found.start() : last]
            elif token.startswith("//"):
                note = NOTE.match(token)
                if note:
                    self.notes[found.start()] = note[1].strip()
            else:
                parts.append(token)
                continue
            parts.append(re.sub(r"[^\n]", " ", token))
        return "".join([*parts, text[last:]])

    def line(self, place: int) -> int:
        return self.text.count("\n", 0, place) + 1


@dataclasses.dataclass
class Span:
    """A part of a file's text."""

    source: Source
    start: int
    end: int

    def __str__(self) -> str:
        return self.source.text[self.start : self.end]

    def line(self) -> int:
        return self.source.line(self.start)

    def strip(self) -> Span:
        text = str(self)
        return Span(self.source, self.start + len(text) - len(text.lstrip()), self.start + len(text.rstrip()))

    def after(self, count: int) -> Span:
        return Span(self.source, self.start + count, self.end)

    def inside(self) -> Span:
        """What the brackets have around which it is."""
        return Span(self.source, self.start + 1, self.end - 1)

    def parts(self) -> list[Span]:
        """The parts of a list, at the commas outside of brackets, each with what was above it."""
        found, depth, start = [], 0, self.start
        for place in range(self.start, self.end):
            depth += depth_at(self.source.text, place)
            if self.source.text[place] == "," and not depth:
                found.append(Span(self.source, start, place))
                start = place + 1
        last = Span(self.source, start, self.end)
        return found + [last] * bool(str(last).strip())

    def notes(self, until: int) -> renaming.Notes:
        """What the notes from its beginning to a place say."""
        found = renaming.Notes()
        for place, text in self.source.notes.items():
            if self.start <= place < until:
                self.source.used.add(place)
                with lines(self.source.line(place)):
                    found.read(text)
        return found


@contextlib.contextmanager
def lines(line: int, name: str = "") -> Iterator[None]:
    """What is refused here is refused with this line, where no part had one of its own, and with the name."""
    try:
        yield
    except Refused as why:
        raise Refused(f"{name}: {why}" if name else str(why), why.line or line) from why


def declared_at(text: str, name: str) -> int:
    found = re.search(rf"\b(?:struct|enum) {name}\b", text)
    return text.count("\n", 0, found.start()) + 1


def typed(span: Span, scope: Scope) -> str:
    if not str(span).strip():
        raise Refused("a field has no type: write it after the colon, as age: u16")
    source = span.source
    kind = re.sub(r"\bSelf\b", scope.itself(), with_aliases(laid_out(str(span)), source.aliases))
    kind = source.with_lengths(kind)
    scope.check(kind)
    return kind


# ---- fields and variants


def check_word(what: str, name: str) -> None:
    if not name.isascii():
        raise Refused(f"{what} {name} is not ASCII, and such a name is not in the language")
    if name in WORDS or name.startswith("r#"):
        rename = f', and rename it: // derive: rename = "{name.removeprefix("r#")}"' if what != "the type" else ""
        raise Refused(f"{what} {name} is a word of the language: give it another name{rename}")


def check_names(what: str, named: list) -> None:
    """Refuses two of the same name, or two that are written by one name."""
    for at, it in enumerate(named):
        for other in named[:at]:
            if it.name == other.name:
                raise Refused(f"{what} {it.name} is declared twice: give one of the two another name")
            if it.key == other.key:
                raise Refused(f'{what}s {other.name} and {it.name} are both written as "{it.key}": rename one of the two')


def without_visibility(span: Span) -> Span:
    return span.after(re.match(r"(pub(\([^)]*\))?\s+)?", str(span)).end())


def refuse_attribute(span: Span, what: str) -> None:
    """Refuses an attribute, and says what to write in its place, if anything."""
    if str(span).startswith("#"):
        attribute = str(span)[: closing(str(span), 1)]
        raise Refused(renaming.in_place_of(attribute, what), span.line())


def noted(span: Span, what: str) -> tuple[Span, renaming.Notes]:
    """A part of a list from its first word on, and what the notes above say."""
    bare = span.strip()
    refuse_attribute(bare, what)
    return bare, span.notes(bare.start)


def named_fields(body: Span, scope: Scope, rule: Optional[str]) -> list[Field]:
    fields = []
    for part in body.parts():
        bare, notes = noted(part, "a field")
        with lines(bare.line()):
            bare = without_visibility(bare)
            name, colon, _ = str(bare).partition(":")
            if not colon or not re.fullmatch(r"(r#)?[^\W\d]\w*", name.strip()):
                raise Refused(f"{bare} is no field: write its name, a colon and its type, as age: u16")
            check_word("the field", name.strip())
            notes.only("rename", "default", "skip")
            key = notes.rename or renaming.field(rule, name.strip())
            kind = typed(bare.after(len(name) + 1), scope)
            is_skipped = bool(notes.skip)
            has_default = is_skipped or notes.default is not None
            default = default_of(kind, notes.default or "", bare.source.defaults(), is_skipped) if has_default else None
            fields.append(Field(name.strip(), kind, key, default, is_skipped))
    check_names("the field", fields)
    return fields


def tuple_fields(body: Span, scope: Scope) -> list[Field]:
    fields = []
    for at, part in enumerate(body.parts()):
        bare, notes = noted(part, "a field")
        with lines(bare.line()):
            notes.only()
            fields.append(Field(str(at), typed(without_visibility(bare), scope)))
    return fields


def shape_of(name: str, body: Span, scope: Scope, rule: Optional[str], key: str = "") -> Shape:
    """What is written after a struct's or a variant's name, whose fields are renamed by this rule."""
    body = body.strip()
    text = str(body)
    if not text:
        return Shape(name, "unit", [], key)
    if text.startswith("{"):
        fields = named_fields(body.inside(), scope, rule)
        written, skipped = ([field for field in fields if field.is_skipped is apart] for apart in (False, True))
        if skipped and not written:
            raise Refused(f"each field of {name} is skipped: write it without fields")
        return Shape(name, "named", written, key, skipped)
    if not text.startswith("("):
        raise Refused(f"{name} {text} can't be derived: write its fields in braces or brackets, or its name alone")
    fields = tuple_fields(Span(body.source, body.start + 1, body.start + closing(text, 0) - 1), scope)
    if not fields:
        raise Refused(f"{name}() has no fields: write {name}, or an implementation by hand")
    return Shape(name, "newtype" if len(fields) == 1 else "tuple", fields, key)


def no_parameter(part: str) -> str:
    """Why this isn't a type parameter that is derived, and what to write."""
    if part.startswith("const "):
        return f"{part} is a constant as a parameter: write a number in its place, or the name of a constant of this file"
    if part.startswith("'"):
        return f"{part} is a lifetime with a bound: write it without"
    if "=" in part:
        return f"{part} is a parameter with a default: write {part.partition('=')[0].strip()} alone, and the type where it is used"
    return f"{part} is no type parameter: write its name, as T"


def parameters_of(text: str) -> tuple[Optional[str], list[tuple[str, str]]]:
    """The lifetime, if there is one, and the type parameters, each with its bounds."""
    lifetime, found = None, []
    for part in split(text):
        name, _, bounds = part.partition(":")
        if re.fullmatch(r"'[a-z]\w*", part):
            if lifetime:
                raise Refused(f"{part} is a second lifetime, and what is read is lent for one: write {lifetime} in its place")
            lifetime = part
        elif re.fullmatch(r"[A-Z]\w*", name.strip()):
            found.append((name.strip(), bounds.strip()))
        else:
            raise Refused(no_parameter(part))
    return lifetime, found


def variants_of(body: Span, scope: Scope, notes: renaming.Notes) -> list[Shape]:
    variants = []
    for part in body.parts():
        bare, own = noted(part, "a variant")
        with lines(bare.line()):
            found = re.match(r"[^\W\d]\w*", str(bare))
            if not found:
                raise Refused(f"{bare} is no variant: write its name, and its fields in braces or brackets")
            rest = str(bare)[found.end() :].lstrip()
            if rest.startswith("="):
                raise Refused(f"{bare}: a variant is written by its name, and not by a number: take out `{rest}`")
            check_word("the variant", found[0])
            own.only("rename", "rename_all")
            key = own.rename or renaming.variant(notes.rename_all, found[0])
            variants.append(shape_of(found[0], bare.after(found.end()), scope, own.rename_all or notes.rename_all_fields, key))
            if own.rename_all and variants[-1].kind != "named":
                raise Refused(f"{found[0]} has no fields with names to rename: take out `rename_all`")
    if not variants:
        raise Refused("it has no variants, so it has no values: give it one, or declare it in a file without `mod derived;`")
    check_names("the variant", variants)
    return variants


def check_shape(shape: Shape, most_named: int, most_unnamed: int) -> None:
    """Refuses a shape that no call writes or reads at once."""
    count = len(shape.fields)
    most = most_named if shape.kind == "named" else most_unnamed
    if count > most:
        raise Refused(f"{shape.name} has {count} fields, and up to {most} can be derived: group some of them in a type of their own")
    if shape.kind == "named" and not count:
        raise Refused(f"{shape.name} has no fields: write it without braces")
    if shape.kind == "newtype" and shape.name == "_ExtStruct":
        raise Refused("this is the name of extensions: give it another")


def check_mixed(of: Declared) -> None:
    """Refuses a shape of which one field borrows and another is of a type parameter, where one call reads both in one type: the checker
    doesn't follow it. The call for so many fields has a type parameter for each."""
    parameters = {name for name, _ in of.parameters}
    for shape in of.shapes():
        lent = [field.kind for field in shape.fields if of.lifetime and of.lifetime in field.kind]
        free = [field.kind for field in shape.fields if parameters & set(identifiers(field.kind))]
        if lent and free and not (of.shape and is_flat(shape)):
            raise Refused(f"{lent[0]} borrows beside {free[0]}, which is of a type parameter: {shape.name} is written by hand")


# ---- declarations


def declared(source: Source, word: str, name: str, at: int, notes: renaming.Notes) -> Declared:
    """The declaration of this name, whose rest begins at this place."""
    lifetime, parameters, text = None, [], source.text
    if text.startswith("<", at):
        end = closing(text, at)
        (lifetime, parameters), at = parameters_of(text[at + 1 : end - 1]), end
    while text[at] in " \n":
        at += 1
    if text.startswith("where", at):
        raise Refused("a `where` isn't read: write the bounds at the parameters")
    end = at if text[at] == ";" else closing(text, at)
    scope = source.scope(name, lifetime, parameters)
    if word == "enum":
        notes.only("rename_all", "rename_all_fields", "round_trip")
        found = Declared(name, parameters, variants=variants_of(Span(source, at + 1, end - 1), scope, notes), lifetime=lifetime)
        if any(shape.copies() for shape in found.variants):
            raise Refused("a text is no default in a variant: hold a struct there, of which a field has that default")
        if any(shape.skipped for shape in found.variants):
            raise Refused("a field of a variant isn't skipped: hold a struct there, of which a field is")
    else:
        notes.only("rename_all", "round_trip")
        found = Declared(name, parameters, shape=shape_of(name, Span(source, at, end), scope, notes.rename_all), lifetime=lifetime)
        if notes.rename_all and found.shape.kind != "named":
            raise Refused("it has no fields with names to rename: take out `rename_all`")
    if lifetime and not any(re.search(rf"{lifetime}\b", kind) for kind in found.kinds()):
        raise Refused(f"no field borrows for {lifetime}: take it out")
    found.asked = bool(notes.round_trip)
    check_mixed(found)
    for shape in found.shapes():
        if found.shape:
            check_shape(shape, MOST_NAMED, MOST_UNNAMED)
        else:
            check_shape(shape, MOST_IN_VARIANT, MOST_IN_VARIANT)
    return found


def check_recursion(types: dict[str, Declared], text: str) -> None:
    """Refuses a type that leads back to itself through another type."""
    inner = {name: {word for kind in of.kinds() for word in identifiers(kind)} & set(types) for name, of in types.items()}
    for name, of in types.items():
        other = next((word for word in sorted(inner[name] - {name}) if name in reached(word, inner)), None)
        if other:
            why = f"it leads back to itself through {other}: {instead_of_two(of, types[other])}, or implement both by hand, in a file without `mod derived;`"
            raise Refused(f"{name}: {why}", declared_at(text, name))


def instead_of_two(of: Declared, other: Declared) -> str:
    """What is written in place of two types that lead to each other."""
    structs, enums = [it for it in (of, other) if it.shape], [it for it in (of, other) if it.variants]
    if not structs:
        return "write one enum of the variants of both"
    if not enums or structs[0].shape.kind != "named":
        return "put the fields of one into the other, so that each type holds no other that holds it"
    [struct], [enum] = structs, enums
    holding = [shape for shape in enum.variants if any(struct.name in identifiers(field.kind) for field in shape.fields)]
    fields = ", ".join(f"{field.name}: {field.kind}" for field in struct.shape.fields)
    alone = [shape for shape in holding if shape.kind == "newtype" and shape.fields[0].kind in (struct.name, f"Box<{struct.name}>")]
    if not alone or len(alone) < len(holding):
        return f"write the fields of {struct.name} in the variants of {enum.name} that hold it" + "".join(f", as {it.name} {{ {fields} }}" for it in alone[:1])
    others = f", and {', '.join(shape.name for shape in alone[1:])} so, too" if alone[1:] else ""
    return f"in {enum.name} write {alone[0].name} {{ {fields} }} in place of {alone[0].name}({alone[0].fields[0].kind}), which has the same bytes{others}"


def reached(word: str, inner: dict[str, set[str]]) -> set[str]:
    """The types that one leads to, where each names these."""
    seen, todo = set(), [word]
    while todo:
        found = inner[todo.pop()] - seen
        seen |= found
        todo += found
    return seen


def check_skipped(types: dict[str, Declared], text: str) -> None:
    """Refuses a type that leads back to itself where it, or a type of the file that it names, has a field that is skipped."""
    for name, of in types.items():
        named = {name, *(word for kind in of.kinds() for word in identifiers(kind))} & set(types)
        if of.leads_back() and any(shape.skipped for word in named for shape in types[word].shapes()):
            why = "it leads back to itself, and no field of such a type is skipped: make it an Option, and leave it None"
            raise Refused(f"{name}: {why}", declared_at(text, name))


def enclosing(text: str, place: int) -> str:
    """The heads of the items around a place, the outermost first."""
    heads, start = [], 0
    for at in range(place):
        if text[at] == "{":
            heads.append(text[start:at])
            start = at + 1
        elif text[at] == "}":
            heads = heads[:-1]
            start = at + 1
        elif text[at] == ";":
            start = at + 1
    return "\n".join(heads)


def is_outer(source: Source, found: re.Match) -> bool:
    """Whether a declaration is one of the file itself; one of a test or of a function's body is passed over, and one of another module refused."""
    around = enclosing(source.text, found.start(3))
    if re.search(r"\bmod \w+\s*$", around, re.M) and "fn " not in around and "cfg(test)" not in around:
        raise Refused(f"{found[4]}: it is declared in an inner module: move it to a file of its own", source.line(found.start(3)))
    return not around


def notes_above(source: Source, start: int, until: int) -> Span:
    """The lines of comments and attributes that end where a declaration begins."""
    while start and not source.text[source.text.rfind("\n", 0, start - 1) + 1 : start].strip():
        start = source.text.rfind("\n", 0, start - 1) + 1
    return Span(source, start, until)


# Attributes that say whether there is a type, and traits that this tool implements.
BUILDS = re.compile(r"#\[\s*cfg(_attr)?\b[^\]]*\]")
BY_SERDE = re.compile(r"\bderive\([^)]*\b(Serialize|Deserialize)\b")


def check_attributes(source: Source, attributes: str, start: int) -> None:
    """Refuses what the attributes of a type, which begin at this place, may not be."""
    if "#[serde(" in attributes:
        serde = re.search(r"#\[serde\(.*?\)\]", attributes, re.S)
        raise Refused(renaming.in_place_of(serde[0], "a type"), source.line(start + serde.start()))
    by_serde = BY_SERDE.search(attributes)
    if by_serde:
        raise Refused(f"take {by_serde[1]} out of the derive: this tool writes it", source.line(start + by_serde.start()))
    builds = BUILDS.search(attributes)
    if builds:
        raise Refused(renaming.in_place_of(builds[0], "a type"), source.line(start + builds.start()))
    if not re.search(r"derive\([^)]*\bDrop\b", attributes):
        raise Refused("what is read has to be let go: write #[derive(Drop)]")


def types_of(text: str, around: Optional[Module] = None) -> dict[str, Declared]:
    """Each type that a file declares, by its name, where the file is this module."""
    source = Source(text, around)
    types = {}
    for found in ITEM.finditer(source.text):
        attributes, _, word, name = found.groups()
        if not is_outer(source, found):
            continue
        with lines(source.line(found.start(3)), name):
            check_word("the type", name)
            if name in types:
                raise Refused("it is declared twice: give one of the two another name")
            check_attributes(source, attributes, found.start(1))
            notes = notes_above(source, found.start(1), found.start(3)).notes(found.start(3))
            types[name] = declared(source, word, name, found.end(), notes)
    for place in source.blocks:
        raise Refused("a block comment isn't read: begin each of its lines with //", source.line(place))
    for place in sorted(set(source.notes) - source.used):
        raise Refused("a `derive:` line is above a type, a variant or a field: move it there, or take it out", source.line(place))
    serde = re.search(r"^use serde(_derive)?\b[^;]*;", source.text, re.M)
    if serde:
        raise Refused(f"take out `{serde[0]}`: this tool writes what it brings in", source.line(serde.start()))
    check_recursion(types, source.text)
    check_skipped(types, source.text)
    return types
