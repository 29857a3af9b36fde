#!/usr/bin/env python3
"""Writes the rows of the program tests/programs/samples, where it is laid out: the values that it writes, and the types that it reads.

    tools/typed_samples.py FOLDER [PART PARTS]   FOLDER is the crate's, with a src/

With PART and PARTS it takes one of so many parts of the values and of the types, so that several programs are made side by side.
src/rows.rt gets a call for each value of tests/samples/typed_write.txt with its settings, src/kinds.rt an arm for each type of
typed_read.txt and for those of typed_write.txt that are read, and src/types/derived.rt the implementations of the types of src/types.rt, by tools/derive.py.
"""
import os
import re
import sys

sys.dont_write_bytecode = True
from derive.command import derive
from derive.reading import renaming
from derive.reading.modules import Module
from derive.table.kinds import parted
from shared.brackets import split
from shared.files import write
from testing import read_samples
from testing.model import heads

# About how many lines the statements of a function take.
LINES = 22

NUMBERS = "u8 u16 u32 u64 u128 usize i8 i16 i32 i64 i128 isize".split()
# Where the names of types come from. Those of the program's own types are found in src/types.rt.
HOMES = {
    "crate::by_hand": "Empty VOpt",
    "crate::ignored": "Ignored",
    "rmp_serde": "Float64 Raw RawRef Value",
    "rmp_serde::wire": "ByteBuf Bytes Ext F32Bits F64Bits",
    "std::collections": "BTreeMap BTreeSet VecDeque",
    "test_derived": "Dog Four Newtype Opt Two Unit V12",
    "test_json": "Dir Json",
    "test_nodes": "Doc Frame Id List Rose Width",
    "test_recursive": "Nested Order Span Task Term Tree",
    "test_types": "TupleS TupleS0 UnkMap UnkSeq",
}
HOME = {name: home for home, names in HOMES.items() for name in names.split()}
# The enum that is a key in the samples, and what means it, since a key has an order.
KEYS = {"Two": "TwoKey"}
# The fields of the types of which the deriving tool reads no declaration.
BY_HAND = {"Empty": {}, "VOpt::N": {"0": "Option<u8>"}, "VOpt::B": {"0": "ByteBuf"}, "VOpt::T0": {}, "TupleS": {"0": "u8", "1": "u16"}}


def shapes_of(crate):
    """The fields of each struct and of each variant, by their names or places, with their types."""
    types = Module(crate, "types.rt").types()
    for name, home in HOME.items():
        own = Module(os.path.join(crate, "..", home), "lib.rt").named(name, ((home, ""),)) if home.startswith("test_") else None
        types |= {name: own} if own else {}
    found = dict(BY_HAND)
    for name, own in types.items():
        for shape in own.of.shapes():
            found[name if own.of.shape else f"{name}::{shape.name}"] = {field.name: field.kind for field in [*shape.fields, *shape.skipped]}
    return found


def listed(text):
    """The parts of a list of values."""
    return [part.strip() for part in renaming.listed(text)]


def inside(text, before, after):
    if not (text.startswith(before) and text.endswith(after)):
        raise ValueError(text)
    return text[len(before) : len(text) - len(after)].strip()


def message(value):
    """The value of a sample's `Value`, as a message in wide spellings."""
    name, _, rest = value.removeprefix("Value::").partition("(")
    rest = rest[:-1]
    if name == "Text":
        text = inside(rest, 's("', '")').encode()
        return heads("text", len(text))[-1] + text
    if name == "List":
        parts = listed(inside(rest, "vec![", "]"))
        return heads("list", len(parts))[-1] + b"".join(map(message, parts))
    if name == "Ext":
        tag, data = listed(rest)
        data = bytes(int(part) for part in listed(inside(data, "vec![", "]")))
        return heads("ext", len(data), int(tag))[-1] + data
    kind, n = {"Nil": ("nil", "0"), "Truth": ("truth", f"{rest == 'true':d}"), "Whole": ("number", rest), "F64": ("float64", rest)}[name]
    return heads(kind, int(n, 0))[-1]


class Body:
    """The statements of a function."""

    def __init__(self, shapes):
        self.shapes = shapes
        self.lines = []
        self.names = 0

    def let(self, value, mutable=False, kind=None):
        self.names += 1
        name = f"value_{self.names}"
        kind = f": {kind}" if kind else ""
        self.lines.append(f"let {'mut ' if mutable else ''}{name}{kind} = {value};")
        return name

    def vec(self, kind, value):
        """A `Vec` of this type of element."""
        body = inside(value, "vec![", "]")
        if not body:
            return self.let("Vec::new(alloc)", kind=f"Vec<{kind}>")
        item, _, count = body.partition(";")
        if count:
            return f"vec![in alloc; {self.value(kind, item)}; {count.strip()}]?"
        return f"vec![in alloc; {', '.join(self.value(kind, part) for part in listed(body))}]?"

    def slice(self, kind, value):
        body = inside(value, "[", "]")
        item, _, count = body.partition(";")
        if count:
            return f"[{self.value(kind, item)}; {count.strip()}]"
        return f"[{', '.join(self.value(kind, part) for part in listed(body))}]"

    def pairs(self, kinds, value):
        """Keys and values: from a list of pairs, or from a range."""
        made = re.fullmatch(r"\(0\.\.(\d+)\)\.map\(\|i\| \(i, (\w+)\)\)", value)
        if made:
            second = (lambda i: i) if made[2] == "i" else (lambda i: int(made[2]))
            return [(self.value(kinds[0], str(i)), self.value(kinds[1], str(second(i)))) for i in range(int(made[1]))]
        body = re.sub(r"^vec!", "", value)
        found = []
        for part in listed(inside(body, "[", "]")):
            key, item = listed(inside(part, "(", ")"))
            found.append((self.value(kinds[0], key), self.value(kinds[1], item)))
        return found

    def map_of(self, kinds, value):
        key = KEYS.get(kinds[0], kinds[0])
        kinds, value = [key, *kinds[1:]], value.replace(f"{kinds[0]}::", f"{key}::")
        pairs = self.pairs(kinds, value)
        of = f"BTreeMap<{', '.join(k for k in kinds)}>"
        if len(pairs) > 8:
            name = self.let("BTreeMap::new(alloc)", mutable=True, kind=of)
            second = "i" if pairs[2][0] == pairs[2][1] else pairs[2][1]
            self.lines.append(f"for i in 0..{len(pairs)} {{ {name}.insert(i, {second})?; }}")
            return name
        name = self.let("BTreeMap::new(alloc)", mutable=bool(pairs), kind=of)
        for key, item in pairs:
            self.lines.append(f"{name}.insert({key}, {item})?;")
        return name

    def filled(self, name, kind, parts, call):
        made = self.let(f"{name}::new(alloc)", mutable=bool(parts), kind=f"{name}<{kind}>")
        for part in parts:
            self.lines.append(f"{made}.{call}({self.value(kind, part)})?;")
        return made

    def ext(self, value):
        tag, data = listed(inside(value, "ext(", ")"))
        return f"Ext::new({tag}, {self.vec('u8', 'vec!' + inside(data, '&', ''))})"

    def any_value(self, value):
        wide = ", ".join(f"0x{b:02x}" for b in message(value))
        return self.let(f"from_slice(alloc, &[{wide}])?", kind="Value")

    def value(self, kind, value):
        """An expression for a value of a type."""
        if kind in NUMBERS:
            return f"{int(value, 0)}{kind}"
        if kind in ("bool", "char", "&str", "()"):
            return value
        if kind in ("f32", "f64", "F32Bits", "F64Bits"):
            return f"{kind[:3].upper()}Bits({inside(value, kind[:3].lower() + '::from_bits(', ')')})"
        if kind == "String":
            return f"String::from_str(alloc, {text_of(value)})?"
        if kind == "Ext":
            return self.ext(value)
        if kind == "Value":
            return self.any_value(value)
        if kind == "Raw":
            name, _, rest = value[:-1].partition("(")
            return f"{name}({self.value('Vec<u8>' if rest.startswith('vec!') else 'String', rest)})"
        if kind.startswith("(") and kind.endswith(")"):
            kinds, parts = split(kind[1:-1]), listed(value[1:-1])
            made = [self.value(k, p) for k, p in zip(kinds, parts, strict=True)]
            return f"({made[0]},)" if len(made) == 1 else f"({', '.join(made)})"
        if kind.startswith("["):
            item, _, count = kind[1:-1].rpartition(";")
            if count.strip() == "0":
                return self.let("[]", kind=kind)
            return self.slice(item.strip(), value)
        return self.of_name(kind, value)

    def of_name(self, kind, value):
        if kind == "&Bytes":
            return f"Bytes::new(&{self.slice('u8', inside(value, 'Bytes::new(&', ')'))})"
        if kind == "ByteBuf":
            return f"ByteBuf::new({self.vec('u8', inside(value, 'ByteBuf::from(', ')'))})"
        if kind.startswith("&["):
            made = self.slice(kind[2:-1], inside(value, "&", ""))
            return f"{self.let(made, kind=f'[{kind[2:-1]}; 0]') if made == '[]' else made}.as_slice()"
        if kind.startswith("&"):
            inner = self.value(kind[1:], inside(value, "&", ""))
            return f"&{self.let(inner) if inner.startswith('&') else inner}"
        name, inner = parted(kind)
        if name == "Option":
            return self.let("None", kind=kind) if value == "None" else f"Some({self.value(inner[0], inside(value, 'Some(', ')'))})"
        if name == "Box":
            return f"Box::new(alloc, {self.value(inner[0], inside(value, 'Box::new(', ')'))})?"
        if name == "Vec":
            return self.vec(inner[0], value)
        if name == "VecDeque":
            body = "[]" if value == "VecDeque::new()" else inside(value, "VecDeque::from(", ")")
            return self.filled(name, inner[0], listed(inside(body, "[", "]")), "push_back")
        if name == "KnownSeq":
            return self.filled("VecDeque", inner[0], listed(inside(value, "KnownSeq(vec![", "])")), "push_back")
        if name == "BTreeSet":
            return self.filled(name, inner[0], listed(inside(value, "BTreeSet::from([", "])")), "insert")
        if name == "BTreeMap":
            body = value if value.startswith("(0..") else inside(value, "BTreeMap::from(", ")")
            return self.map_of(inner, body)
        if name == "UnkSeq":
            return f"UnkSeq {{ items: {self.vec(inner[0], inside(value, 'UnkSeq(', ')'))} }}"
        if name == "UnkMap":
            return f"UnkMap {{ entries: {self.map_of(inner, inside(value, 'UnkMap(', ')'))} }}"
        return self.of_shape(kind, value)

    def of_shape(self, kind, value):
        """A struct or a variant, whose fields' types are known."""
        if value.startswith("dog("):
            name, age = listed(inside(value, "dog(", ")"))
            value = f"Dog {{ name: {name if name.startswith('s(') else f's({name})'}, age: {age} }}"
        name = re.match(r"[\w:]+", value)[0]
        if not (name == kind or name.startswith(f"{kind}::")):
            raise ValueError(f"{value} of the type {kind}")
        shape, rest = self.shapes[name], value[len(name) :].strip()
        if not shape:
            return value
        if rest.startswith("{"):
            parts = dict(part.split(": ", 1) for part in listed(rest[1:-1]))
            return f"{name} {{ {', '.join(f'{field}: {self.value(shape[field], part)}' for field, part in parts.items())} }}"
        parts = [self.value(shape[str(at)], part) for at, part in enumerate(listed(rest[1:-1]))]
        return f"{name}({', '.join(parts)})"


def text_of(value):
    found = re.fullmatch(r'"x"\.repeat\((\d+)\)', value)
    return f'"{"x" * int(found[1])}"' if found else inside(value, "s(", ")")


def quoted(text):
    return '"' + text.replace("\\", "\\\\").replace('"', '\\"') + '"'


def setting_of(words):
    """The setting of these words of the sample, and the form that it is of, which doesn't say what is forced."""
    name = "".join(word[0].upper() + word[1:] for word in words.split(","))
    return name, re.sub(r"Default|Force\w+", "", name) or "Plain"


def statements(kind, value, rows, shapes):
    body = Body(shapes)
    made = body.value(kind, value)
    name = made if re.fullmatch(r"value_\d+", made) else body.let(made, kind=kind if kind.startswith("Option") else None)
    settings = [setting_of(words) for words, _ in rows]
    for form in dict.fromkeys(form for _, form in settings):
        of = ", ".join(f"Setting::{setting}" for setting, its in settings if its == form)
        body.lines.append(f"rows.add::<{form}, _>({quoted(kind)}, {quoted(value)}, &[{of}], &{name})?;")
    if ("Default", "Plain") in settings:
        body.lines.append(f"rows.fill(&{name})?;")
    return body


def renamed(lines, names):
    """The same statements, whose names are numbered from `names` on."""
    return [re.sub(r"\bvalue_(\d+)\b", lambda m: f"value_{int(m[1]) + names}", line) for line in lines]


def module(about, uses, lines, own):
    """The text of a module, which brings in those names of types that are in its lines."""
    words = set(re.findall(r"\w+", "\n".join(re.sub(r'"(?:[^"\\\\]|\\\\.)*"', "", line) for line in lines)))
    homes = {**HOME, **{name: "crate::types" for name in own}}
    uses = uses + [f"{homes[word]}::{word}" for word in words & set(homes)]
    return "\n".join([f"//! {about} Written by tools/typed_samples.py.", *(f"use {it};" for it in sorted(uses)), "", *lines]) + "\n"


def rows_module(shapes, own, part, parts):
    functions, current, names = [], [], 0
    for kind, value, rows in read_samples.written_of(part, parts):
        body = statements(kind, value, rows, shapes)
        if current and sum(2 + len(line) // 90 for line in current + body.lines) > LINES:
            functions.append(current)
            current, names = [], 0
        current = current + renamed(body.lines, names)
        names += body.names
    functions.append(current)
    lines, calls = [], []
    for i, statements_of in enumerate(functions, 1):
        lines += [f"fn rows_{i}(alloc: Global, rows: &mut Rows) -> Result<(), Fault> {{", "let _ = alloc;", *statements_of, "Ok(())", "}", ""]
        calls.append(f"rows_{i}(alloc, rows)?;")
    lines += ["/// Adds each row.", "pub fn all(alloc: Global, rows: &mut Rows) -> Result<(), Fault> {", *calls, "Ok(())", "}"]
    uses = ["crate::fault::Fault", "crate::form::Human", "crate::form::Named", "crate::form::NamedTuple", "crate::form::Plain",
            "crate::form::TupleNamed", "crate::row::Rows", "crate::row::Setting", "rmp_serde::from_slice", "std::alloc::Global"]
    return module("The rows of the sample.", uses, lines, own)


def kinds_module(own, part, parts):
    part_of = read_samples.part_of(parts)
    kinds = [kind for kind in read_samples.kinds() if part_of[kind] == part]
    lines = ["/// The place of the type of this name.", "pub fn place(kind: &str) -> Option<usize> {", "match kind {"]
    lines += [f'"{kind}" => Some({at}),' for at, kind in enumerate(kinds)]
    lines += ["_ => None,", "}", "}", "", "/// Reads the next message as the type at this place, and says what came of it.",
              "pub fn read<'de, R: ReadSlice<'de>>(alloc: Global, at: usize, de: &mut Deserializer<R>) -> Read {", "match at {"]
    lines += [f"{at} => again::<R, {kind}>(alloc, de)," for at, kind in enumerate(kinds)]
    lines += ["_ => Read::NoType,", "}", "}"]
    uses = ["crate::answer::Read", "crate::answer::again", "rmp_serde::Deserializer", "rmp_serde::wire::ReadSlice", "std::alloc::Global"]
    return module("The types that are read, by their names in the sample.", uses, lines, own)


def main():
    crate = os.path.abspath(sys.argv[1])
    part, parts = (int(sys.argv[2]), int(sys.argv[3])) if len(sys.argv) == 4 else (0, 1)
    own = {it.of.name for it in Module(crate, "types.rt").wanted()}
    write(rows_module(shapes_of(crate), own, part, parts), crate, "src", "rows.rt")
    write(kinds_module(own, part, parts), crate, "src", "kinds.rt")
    derive(crate, "types.rt")


if __name__ == "__main__":
    main()
