"""The code that derive.py writes for recursive enums and structs alike: how the type is read again in a list, a box or an option, how its
leaves are read, and its implementations."""
from __future__ import annotations

import re
from collections.abc import Callable

from ..table.types import Shape
from ..flat.terms import nested
from shared.halves import FIELDS
from ..table.own import Own
from .given import given_by, in_brackets, laws, parameters, quoted
from .leaves import Part
from .forms import BOX, Again
from .levels import Content, Level, is_map
from shared.terms import list_of, texts, tuple_of

LAW = "ensures law {{ Lawful R.Source {reads} de.old de.new result }}"
READER = "<R: Source, C: SerializerConfig{more}>"
TAKES = "(de: &mut Deserializer<R, C>) -> Result<{kind}, rmp_decode::Error>"
READ = {"list": "a list of them", "box": "a boxed one", "option": "nil as none, or else a boxed one", "queue": "a queue of them"}
IN_TURN, MAPPED = "the values of a variant, one after another", "them by their keys"


# Names of values of the code's own, and of facts beside those of a variant's values in goals.
TAKEN = "se fields is ensures follows result lifetimes type_inv auto old new".split()


def values_in(part: Part) -> list[str]:
    """What the values of a variant are called."""
    if part.named:
        return [f"{field.name}_" if field.name in TAKEN else field.name for field, _ in part.named.fields]
    return FIELDS[: len(part.held)] if part.held else ["value"]


def made_of(level: Level, shape: Shape, values: list[str]) -> str:
    """A variant of these values, or its pattern."""
    if shape.kind == "named":
        fields = [value if value == field.name else f"{field.name}: {value}" for field, value in zip(shape.fields, values)]
        return f"{level.kind}::{shape.name} {{ {', '.join(fields)} }}"
    return f"{level.kind}::{shape.name}({', '.join(values)})" if values else f"{level.kind}::{shape.name}"


def in_code(part: Part, name: str = "") -> str:
    """What a part is read from, in the code's words."""
    return part.reads.format(k="m", a="v", reads=f"Is{name}").replace("msg.", "")


def read_as(level: Level, part: Part) -> str:
    """What a part is read from, as a function of a message and a value."""
    return f"(λ m v. {in_code(part, level.name)})"


def function(name: str, kind: str, reads: str, body: list[str], more: str = "", cycle: str = "") -> list[str]:
    """A function that reads."""
    return [
        *[f"#[cycle({cycle})]"] * bool(cycle),
        f"fn {name}{READER.format(more=more)}{TAKES.format(kind=kind)}",
        f"    {LAW.format(reads=reads)}",
        "{",
        *body,
        "}\n",
    ]


def closure(level: Level, part: Part, call: str) -> list[str]:
    """A call as a closure that states its promise."""
    return [f"|de: &mut Deserializer<R, C>| -> Result<{part.kind}, rmp_decode::Error>", f"    {LAW.format(reads=read_as(level, part))}", f"{{ {call} }}"]


def holder(level: Level, part: Again) -> str:
    """The function that reads the type again, in a list, a box or an option."""
    return f"read_{level.low}_{part.word}" if part.form != "alone" else f"read_{level.low}"


def read_by(level: Level, part: Part) -> list[str]:
    """The function, or the closure, that reads a part."""
    if part.is_leaf and not part.is_lent:
        return [f"{part.call()}::<R, C>"]
    return closure(level, part, f"P::{part.call()}::<C>(de)" if part.is_leaf else f"{holder(level, part)}::<R, C, P>(de)")


def in_turn(level: Level, part: Again) -> list[str]:
    """How several values are read, one after another."""
    lines = ["let mut seq = match de.deserialize_seq() {", "Ok(seq) => seq,", "Err(e) => return Err(e),", "};"]
    names = values_in(part)
    for name, value in zip(names, part.held):
        first, *others = read_by(level, value)
        lines += [
            f"let {name} = match seq.next_element_with({first}", *others, ") {", "Ok(Some(value)) => value,",
            "Ok(None) => return Err(rmp_decode::Error::Syntax(rmp_decode::Text::InvalidLength)),", "Err(e) => return Err(e),", "};",
        ]
    return [*lines, "match seq.end() {", f"Ok(()) => Ok({tuple_of(names)}),", "Err(e) => Err(e),", "}"]


def in_map(level: Level, part: Again, value: list[str]) -> list[str]:
    """How a map is read, whose values this closure reads."""
    key, *rest = read_by(level, part.keys)
    return [
        "let mut entries = BTreeMap::new(de.alloc());", "let mut pairs = de.deserialize_map()?;", f"while let Some(key) = pairs.next_key_with({key}", *rest, ")? {",
        f"let value = pairs.next_value_with({value[0]}", *value[1:], ")?;", "drop(entries.insert(key, value)?);", "}", "pairs.end()?;", "Ok(entries)",
    ]


def held(level: Level, part: Again) -> list[str]:
    """How the type again is read."""
    if part.held:
        return in_turn(level, part)
    again = f"read_{level.low}::<R, C, P>(de)"
    item = read_by(level, part.inner or level.alone())
    if is_map(part):
        return in_map(level, part, item)
    if part.form in ("list", "queue"):
        kind, push = ("Vec", "push") if part.form == "list" else ("VecDeque", "push_back")
        return [
            f"let mut items = {kind}::new(de.alloc());", "let mut seq = de.deserialize_seq()?;", f"while let Some(item) = seq.next_element_with({item[0]}", *item[1:],
            ")? {", f"items.{push}(item)?;", "}", "seq.end()?;", "Ok(items)",
        ]
    if part.form == "option":
        value = read_by(level, part.inner or BOX.of(level))
        return [f"de.deserialize_option_with({value[0]}", *value[1:], ")"]
    return [f"let value = match {again} {{", "Ok(value) => value,", "Err(e) => return Err(e),", "};", "match Box::new(de.alloc(), value) {",
            "Ok(boxed) => Ok(boxed),", "Err(_) => Err(de.refuse(rmp_decode::Error::OutOfMemory)),", "}"]


def bounds(level: Level) -> str:
    """How the leaves are read, and the parts that are given."""
    return " + ReadLeaves<R>" * bool(lent([level])) + f" + {level.name}Parts<R>" * bool(level.given)


def lent(levels: list[Level]) -> list[Part]:
    """The leaves that only a source that lends reads, each once."""
    return list(dict.fromkeys(part for level in levels for part in level.leaves() if part.is_lent and not is_by_parts(part)))


def is_by_parts(part: Part) -> bool:
    """Whether it is a part that is given, or holds one."""
    return part.is_given or any(is_by_parts(held) for held in part.held)


def by_parts(level: Level) -> list[Part]:
    """The leaves that are given, or hold one that is."""
    return [part for part in level.leaves() if part.is_lent and is_by_parts(part)]


def leaves_trait(parts: list[Part]) -> list[str]:
    """How such leaves are read, for the functions that call themselves."""
    about = "// How leaves are read. A function that calls itself may have no bound that names a lifetime, so it has this one, and is called with `Slices`."
    return readers_trait(about, "ReadLeaves", [(part, f"(λ m v. {in_code(part)})") for part in parts], [], [])


def parts_trait(level: Level) -> list[str]:
    """How the parts of a type are read that are given, and those that hold them, and what they are read from."""
    parts = by_parts(level)
    if not parts:
        return []
    [(name, kind)] = parameters(level, "R")
    reads = ", ".join(f"⟦<{part.kind} as Deserialize<'de, R>>⟧.reads human R.lends" for part in level.given)
    return readers_trait(
        f"// How the parts of a `{level.kind}` are read that are other types.", f"{level.name}Parts",
        [(part, given_by(level, f"(λ m v. {in_code(part)})", "(reads_of C.human)")) for part in parts],
        [f"    ghost {name}: {{ Bool → {in_brackets(kind)} }};\n"], [f"    ghost {name} = {{ λ human. ({reads}) }};\n"],
    )


def readers_trait(about: str, name: str, parts: list[tuple[Part, str]], members: list[str], given: list[str]) -> list[str]:
    """A trait that reads these parts, which are read from this, with more members, and its implementation."""
    heads = [f"fn {part.call()}<C: SerializerConfig>(de: &mut Deserializer<R, C>) -> Result<{part.kind}, rmp_decode::Error>" for part, _ in parts]
    lines = [about, f"trait {name}<R: Source> {{", *members]
    for (_, reads), head in zip(parts, heads):
        lines += [head, f"    {LAW.format(reads=reads)};\n"]
    lines += ["}\n", f"impl<'de, R: ReadSlice<'de>> {name}<R> for Slices<'de> {{", *given]
    for (part, _), head in zip(parts, heads):
        lines += [f"{head} {{", *(leaves_by_name(part.named) if part.named else ["Deserialize::deserialize(de)"]), "}\n"]
    return [*lines, "}\n"]


def leaves_by_name(of: Content) -> list[str]:
    """How the fields of a variant are read of which each is a leaf."""
    values = [f"value{at}" for at in range(len(of.fields))]
    kind, pattern = nested([part.kind for _, part in of.fields]), nested(values)
    made = tuple_of(values) if len(values) > 1 else values[0]
    return [
        f"let read: Result<{kind}, rmp_decode::Error> = de.deserialize_fields({texts(field.key for field, _ in of.fields)});",
        "match read {", "Ok(parts) => {", f"let {pattern} = parts;", f"Ok({made})", "}", "Err(e) => Err(e),", "}",
    ]


def leaf_readers(levels: list[Level]) -> list[str]:
    """The functions that read leaves, each once."""
    leaves = dict.fromkeys(part for level in levels for part in level.leaves() if not part.is_lent)
    lines = [line for part in leaves for line in function(part.call(), part.kind, f"(λ m v. {in_code(part)})", [f"de.deserialize_{part.kind}()"])]
    lines += leaves_trait(lent(levels)) if lent(levels) else []
    return lines + [line for level in levels for line in parts_trait(level)]


def reading(level: Level) -> list[str]:
    """The implementation of `Deserialize`."""
    name, low = level.name, level.low
    return [
        f"impl<'de, R: ReadSlice<'de>> Deserialize<'de, R> for {level.kind} {{",
        f"    ghost reads = {{ λ human lends. {quoted(level, f'Is{name}', 'R', lends='lends')} }};\n",
        "    ghost absent = { None };\n",
        f"fn deserialize<C: SerializerConfig>(de: &mut Deserializer<R, C>) -> Result<{level.kind}, rmp_decode::Error> {{",
        f"read_{low}::<R, C, Slices<'de>>(de)", "}\n",
        f"fn missing() -> Option<{level.kind}> {{", "None", "}", "}\n",
    ]


def rounds(level: Level, own: Own) -> list[str]:
    """Those of `RoundTrip` and `NeverNil`."""
    name, low = level.name, level.low
    (some, rows, only, alike), lines = laws(level, own)
    words = [quoted(level, f"{low}_{word} s", letters, "s.human") for word, letters in (("round", "RDF"), ("only", "RDFQ"), ("other", "D"))]
    return [
        f"impl<'de, R: ReadSlice<'de>> RoundTrip<'de, R> for {level.kind} {{", *lines, *[""] * bool(lines),
        f"    ghost has_data = {{ λ human v. {quoted(level, f'{low}_some', 'D')}{some} v }};\n",
        f"    ghost round = {{ λ lent s v fits. {words[0]}{rows} v fits }};\n",
        f"    ghost same = {{ {quoted(level, f'Same{name}', 'Q')} }};\n",
        f"    ghost alike = {{ λ human v w h. {quoted(level, 'h', 'D')}{alike} }};\n",
        f"    ghost only = {{ λ s v fits. {words[1]}{only} v fits }};", "}\n",
        f"impl NeverNil for {level.kind} {{",
        f"    ghost never_nil = {{ λ s v. {words[2]} v }};", "}\n",
    ]


def readers(level: Level, bound: str, body: list[str], fields: Callable[[Level], list[str]]) -> list[str]:
    """The functions that read the type, by this body, and what it is again in, of which `fields` reads the named fields of a variant. The way in
    which names are read has this bound."""
    name, low = level.name, level.low
    cycle, more = f"{low}_reading", f", P: {bound}{bounds(level)}"
    lines = [f"// Reads a `{level.kind}`.", *function(level.reader, level.kind, level.reads, body, more, cycle)]
    for part in level.holders():
        what = READ.get(part.form, MAPPED if is_map(part) else IN_TURN)
        if part.inner or part.held and part.parts:
            what = f"a `{part.kind}`"
        if part.named:
            what = f"the fields of `{part.named.shape.name}`"
        how = fields(part.named) if part.named else held(level, part)
        lines += [f"// Reads {what}.", *function(holder(level, part), part.kind, read_as(level, part), how, more, cycle)]
    return [given_by(level, line, "(P.reads_of C.human)") for line in lines]


def takes_memory(level: Level) -> str:
    """Whether writing a value may take memory, under the settings `s`: where they make bytes of its lists or tuples, or a part that is given may."""
    given = [part.kind for part in level.given]
    kinds = [kind for kind in level.of.kinds() if kind not in given] + [kind for part in level.own_leaves() for kind in part.declared[0].kinds()]
    flags = ["forces_slices s.bytes"] * any(re.search(r"\bVec<", kind) for kind in kinds) + ["forces_all s.bytes"] * any("(" in kind for kind in kinds)
    flags += [f"⟦<{kind} as Serialize>⟧.takes_memory s" for kind in given]
    return f"one_of ({list_of(flags)})" if len(flags) > 1 else (flags or ["false"])[0]


def writing(level: Level, body: list[str], no_byte: list[str], unfolding: bool = False) -> list[str]:
    """The implementation of `Serialize`, by the bodies of its calls."""
    name, low = level.name, level.low
    return [
        f"impl Serialize for {level.kind} {{",
        f"    ghost data_of = {{ λ v human. {quoted(level, f'{low}_data', 'D')} v }};\n",
        f"    ghost is_value = {{ λ v. {quoted(level, f'{low}_fits', 'F')} v }};\n",
        f"    ghost takes_memory = {{ λ s. {takes_memory(level)} }};\n",
        # which error a part that is given answers isn't known
        *["    ghost refuses = { λ _. OfLength ⊤ };\n"] * (not level.given),
        *["#[tactic(auto, unfolding(rmp_encode::specs::Data::lower))]"] * unfolding,
        f"#[cycle({low}_writing)]",
        "fn serialize<W: Sink, C: SerializerConfig>(&self, se: &mut Serializer<W, C>) -> Result<(), rmp_encode::Error> {",
        *body, "}\n",
        f"#[tactic(auto, using(crate::proofs::{name}Levels::{low}_no_byte))]",
        "fn as_u8(&self, _human: bool) -> Option<u8> {", *no_byte, "}", "}\n",
    ]
