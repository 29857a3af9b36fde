"""The value of a field that a map doesn't have: `// derive: default` and `// derive: default = VALUE`.

Such a field is read as `rmp_decode::Defaulted`, and its default is put in the place of `None`.
"""
from __future__ import annotations

import dataclasses
import re
import struct

from shared.brackets import split
from shared.terms import list_of

from ..table.kinds import Refused
from ..table.types import Default
from .uses import TYPED, number_of

UNSIGNED = {f"u{bits}": bits for bits in (8, 16, 32, 64, 128)} | {"usize": 64}
SIGNED = {f"i{bits}": bits for bits in (8, 16, 32, 64, 128)} | {"isize": 64}
CONSTANT = re.compile(r"[A-Z][A-Z0-9_]*")
VARIANT = re.compile(r"(\w+)::(\w+)")
TEXT = re.compile(r'"([ !#-\[\]-~]*)"')
FLOAT = re.compile(r"-?[0-9][0-9_]*(\.[0-9_]+)?([eE][+-]?[0-9]+)?")
# The empty value of a type that owns memory, and what is so of a value that is empty.
EMPTY = {
    "String": ("String::new(de.alloc())", "string_bytes {v} ≡ []"),
    "ByteBuf": ("ByteBuf::new(Vec::new(de.alloc()))", "buffer_bytes {v} ≡ []"),
    "Vec": ("Vec::new(de.alloc())", "{v}.items ≡ []"),
    "BTreeMap": ("BTreeMap::new(de.alloc())", "{v}.entries ≡ []"),
    "BTreeSet": ("BTreeSet::new(de.alloc())", "{v}.keys ≡ []"),
}
# Other types that take memory.
IN_MEMORY = ("Box", "VecDeque", "Value", "Raw", "Ext")
# The types of floats: how the bits of one are packed, and its code and term for bits.
FLOATS = {
    "F32Bits": (">f", ">I", "F32Bits({bits})", "record {{ 0 = {bits} }}"),
    "F64Bits": (">d", ">Q", "F64Bits({bits})", "record {{ 0 = {bits} }}"),
    "Float64": (">d", ">Q", "Float64 {{ bits: {bits} }}", "record {{ bits = {bits} }}"),
}


@dataclasses.dataclass(frozen=True)
class Known:
    """What a default may name: the constants of its file, with their types, and the enums of the file, each with the name that terms have for
    it and its variants without content."""

    constants: dict[str, str]
    enums: dict[str, tuple[str, list[str]]]


def default_of(kind: str, value: str, known: Known, is_skipped: bool = False) -> Default:
    """The default of a field of this type, which a map may be without, or which is skipped: `value` is what is written after the word, or
    nothing."""
    name = kind.partition("<")[0]
    if is_skipped and name == "Option" and not value:
        return Default("None", "{v} ≡ None")
    if is_skipped and name == "String" and value not in ("", '""'):
        raise Refused("a text that is skipped is empty after a read: write `skip` alone")
    if name == "Option" and value in ("", "None"):
        raise Refused("a field of type Option is None where it is missing: take out `default`")
    if "'" in kind:
        raise Refused(f"{kind} borrows, and has no default: write Option<{kind}>, which is None where it is missing")
    if not value and name in EMPTY:
        return Default(*EMPTY[name], proof="(search rules)")
    if kind == "String":
        return text_of(value, known)
    if name in EMPTY:
        raise Refused(f"{value} would take memory: the default of a {name} is empty, as `default` alone says")
    maker = Maker(known)
    made, term = maker.value(kind, value)
    fact = f"{{v}} ≡ {term}".replace("{ ", "{{ ").replace(" }", " }}")
    is_one = not maker.enums and re.fullmatch(r"[\w ]*", term) and not term.startswith("Some")
    return Default(made, fact, tuple(maker.constants), term=term if is_one else None, enums=tuple(maker.enums))


def text_of(value: str, known: Known) -> Default:
    """A text, or a constant that is one."""
    text = TEXT.fullmatch(value)
    if text and not text[1]:
        return Default(*EMPTY["String"], proof="(search rules)")
    if text:
        return Default(value, f'string_bytes {{v}} ≡ codes "{text[1]}"', is_copy=True)
    if known.constants.get(value) not in ("&str", "&'static str"):
        raise Refused(f'{value} is no default of String: write a text in printable ASCII, as `default = "a"`, or a constant &str of this file')
    return Default(value, f"string_bytes {{v}} ≡ {value}.now", (value,), is_copy=True)


def one(term: str) -> str:
    """The term as one argument."""
    return f"({term})" if " " in term and not term.startswith("(") else term


class Maker:
    """Makes values that take no memory, in code and in terms, and keeps the constants and the enums that they name."""

    def __init__(self, known: Known) -> None:
        self.known, self.constants, self.enums = known, [], []

    def value(self, kind: str, value: str) -> tuple[str, str]:
        """The value of this type, or its zero where none is written."""
        name = kind.partition("<")[0]
        if CONSTANT.fullmatch(value):
            return self.constant(kind, value)
        if kind in UNSIGNED or kind in SIGNED:
            return number(kind, value or "0")
        if kind == "bool" and value in ("", "false", "true"):
            return value or "false", value or "false"
        if kind == "char" and re.fullmatch(r"'[ -&(-\[\]-~]'", value):
            return value, f"{ord(value[1])}"
        if kind in FLOATS and FLOAT.fullmatch(value or "0"):
            return float_of(kind, value or "0")
        if kind.startswith("(") and kind != "()":
            return self.tuple(kind, value)
        if kind.startswith("["):
            return self.array(kind, value)
        if name == "Option" and value:
            return self.option(kind, value)
        if VARIANT.fullmatch(value):
            return self.variant(kind, value)
        raise refusal(kind, value)

    def constant(self, kind: str, value: str) -> tuple[str, str]:
        constants = self.known.constants
        if value not in constants:
            raise Refused(f"this file declares no constant {value}: name one of this file, as `const OWN_{value}: {kind} = {value};`")
        if constants[value] != kind:
            raise Refused(f"the constant {value} is a {constants[value]}, and the field a {kind}: name one of the field's type")
        self.constants.append(value)
        return value, value

    def variant(self, kind: str, value: str) -> tuple[str, str]:
        name, variant = VARIANT.fullmatch(value).groups()
        term, variants = self.known.enums.get(name, ("", []))
        if kind != name or variant not in variants:
            raise refusal(kind, value)
        self.enums.append(name)
        return value, f"{term}.{variant}"

    def tuple(self, kind: str, value: str) -> tuple[str, str]:
        kinds, values = split(kind[1:-1]), split(value[1:-1]) if value.startswith("(") else []
        if len(kinds) == 1 or len(values) != len(kinds) and value:
            raise refusal(kind, value)
        made, terms = zip(*map(self.value, kinds, values or [""] * len(kinds)))
        return f"({', '.join(made)})", f"({', '.join(terms)})"

    def array(self, kind: str, value: str) -> tuple[str, str]:
        part, count = (word.strip() for word in kind[1:-1].rsplit(";", 1))
        inner = value[1:-1].strip() if value.startswith("[") else ""
        repeated = re.fullmatch(r"(.*);\s*(\d+)", inner) or re.fullmatch("()()", inner)
        values = [repeated[1]] * int(repeated[2] or count) if repeated else split(inner)
        if len(values) != int(count) or value and not inner and count != "0":
            raise refusal(kind, value)
        made, terms = zip(*(self.value(part, it) for it in values)) if values else ((), ())
        same = len(set(made)) == 1 and len(made) > 1
        return f"[{made[0]}; {count}]" if same else f"[{', '.join(made)}]", list_of([one(term) for term in terms])

    def option(self, kind: str, value: str) -> tuple[str, str]:
        inner = re.fullmatch(r"Some\((.*)\)", value)
        if value == "None":
            return value, value
        if not inner:
            raise refusal(kind, value)
        made, term = self.value(kind[7:-1], inner[1])
        return f"Some({made})", f"Some {one(term)}"


def refusal(kind: str, value: str) -> Refused:
    if kind.partition("<")[0] in IN_MEMORY:
        return Refused(f"a {kind} takes memory, and has no default: write Option<{kind}>, which is None where it is missing")
    if kind.partition("<")[0] in EMPTY:
        return Refused(f"a {kind} inside of another type takes memory, and has no default there: make it a field of its own, which may have one")
    which = f"{value} is no default of {kind}" if value else f"{kind} has no default of its own"
    return Refused(f"{which}: name a constant of this file, as `const LIMIT: {kind} = ..;` and `default = LIMIT`")


def number(kind: str, value: str) -> tuple[str, str]:
    """A whole number: as digits, or as Rust has it, with a prefix, the type or a sign of arithmetic, as `60 * 60` and `u32::MAX`."""
    low, high = (0, 2 ** UNSIGNED[kind]) if kind in UNSIGNED else (-(2 ** (SIGNED[kind] - 1)), 2 ** (SIGNED[kind] - 1))
    is_plain = re.fullmatch(r"-?[0-9][0-9_]*", value)
    ends = {f"{kind}::MIN": f"({low})", f"{kind}::MAX": f"{high - 1}"}
    text = re.sub(r"\b[iu]\w+::M(IN|AX)\b", lambda end: ends.get(end[0], end[0]), value)
    is_other = any(other != kind for _, other in TYPED.findall(text))
    n = int(value.replace("_", "")) if is_plain else None if is_other else number_of(text, lambda name: None)
    if n is None:
        raise refusal(kind, value)
    if not low <= n < high:
        raise Refused(f"{value} is no {kind}: write a number from {low} to {high - 1}")
    return value if is_plain else f"{n}", f"{n}" if kind in UNSIGNED else f"pos {n}" if n >= 0 else f"negsuc {-n - 1}"


def float_of(kind: str, value: str) -> tuple[str, str]:
    """The bits of a float."""
    packed, unpacked, made, term = FLOATS[kind]
    try:
        bits = struct.unpack(unpacked, struct.pack(packed, float(value.replace("_", ""))))[0]
    except OverflowError as why:
        raise Refused(f"{value} is no {kind}: write one that it holds") from why
    return made.format(bits=bits), term.format(bits=bits)
