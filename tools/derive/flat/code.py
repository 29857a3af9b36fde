"""The code that derive.py writes: how a type is written and read."""
from __future__ import annotations

import dataclasses

from shared import halves
from shared.terms import MOST, texts

from ..table.types import Declared, is_flat, is_long
from .proofs import has_content, has_defaults
from .terms import GROUP, MOST_IN_TUPLES, Words, apart, bound_name, data_of, elements_of, header, member_of_reading, member_of_refusing
from .terms import members_of_writing, memory_of, nested, place_of, refused_of, then_bound, then_of
from shared.texts import Texts

TEXTS = Texts(__file__)

PLACES = halves.FIELDS
# The lemmas that a struct is no byte.
NO_BYTE = {"newtype": "Wrapped::wrapped_no_byte", "tuple": "Lists::sequence_no_byte", "named": "Fields::structure_no_byte"}
# How many fields a struct has at most whose read is small enough to be inlined into its callers.
FEW = 4


def bound_names(shape):
    """What patterns call the fields."""
    if shape.kind == "named":
        return [bound_name(field) for field in shape.fields]
    return PLACES[: len(shape.fields)]


def made_of(path, shape):
    """A value, or a pattern, of these names."""
    names = bound_names(shape)
    if shape.kind == "unit":
        return path
    if shape.fields[0].name == "0":
        return f"{path}({', '.join(names)})"
    fields = [name if name == field.name else f"{field.name}: {name}" for field, name in zip(shape.fields, names)]
    fields += [f"{field.name}: {field.default.made}" for field in shape.skipped]
    return f"{path} {{ {', '.join(fields)} }}"


def field_names(shape):
    return texts(field.key for field in shape.fields)


def handed_over(values):
    """The struct that hands several values over."""
    fields = [value if value == place else f"{place}: {value}" for place, value in zip(PLACES, values)]
    return f"{halves.holder(len(values), 'rmp_encode::')} {{ {', '.join(fields)} }}"


def front_of(count):
    """How many of so many values are written before the others: no more than twice as many as one struct of rmp_encode hands over."""
    return MOST if count <= 3 * MOST else 2 * MOST


def more_parts(wanted):
    """Of how many values there are more than one struct of rmp_encode hands over: of the fields, and of the parts of more. The fields of a type
    that leads back to itself are written one after another."""
    written_at_once = [own for own in wanted if "Serialize" in own.derived and not own.of.leads_back()]
    counts = {len(shape.fields) for own in written_at_once for shape in own.of.shapes()}
    for count in sorted(counts, reverse=True):
        while count > MOST:
            counts |= {front_of(count), count - front_of(count)}
            count = max(front_of(count), count - front_of(count))
    return sorted(count for count in counts if count > MOST)


def handing_over(count):
    """The struct that hands so many values over."""
    name, kinds, front = halves.holder(count), halves.kinds(count), front_of(count)
    fields = [f"{place}: &'r {kind}," for place, kind in zip(PLACES, kinds)]
    elements, named = halves.bodies(count, front, "rmp_encode::")
    return [
        f"// {count} values, the first {front} of which are written before the others.",
        "#[derive(Drop)]",
        f"struct {name}<'r, {', '.join(kinds)}> {{",
        *fields,
        "}",
        halves.implementation(name, count, elements, named, "rmp_encode::"),
    ]


def several(of, at, shape, values):
    """How the fields of a struct or a variant are written, where there are several: they are handed over to one call."""
    start = f'"{shape.name}"' if of.shape else f'"{of.name}", {at}, "{shape.key}"'
    call = {True: "serialize_elements", False: "serialize_tuple_variant_of"}[bool(of.shape)]
    if shape.kind == "named":
        call = {True: "serialize_fields", False: "serialize_struct_variant_of"}[bool(of.shape)]
        start += f", {field_names(shape)}"
    return [f"let parts = {handed_over(values)};", f"se.{call}({start}, &parts)"]


def written(of, at, shape, values):
    """The same. Of a type that borrows, a function whose type parameters are those of the fields hands them over."""
    if of.lifetime:
        return [f"{apart(of, shape)}(se, {', '.join(values)})"]
    return several(of, at, shape, values)


def body_of_struct(of):
    """How a struct is written."""
    shape = of.shape
    values = [f"&self.{field.name}" for field in shape.fields]
    if shape.kind == "unit":
        return [f'se.serialize_unit_struct("{shape.name}")']
    if shape.kind == "newtype":
        return [f'se.serialize_newtype_struct("{shape.name}", &self.0)']
    return written(of, 0, shape, values)


def arm_of_writing(of, at, shape):
    """How a variant is written."""
    start = f'("{of.name}", {at}, "{shape.key}"'
    pattern = made_of(f"{of.name}::{shape.name}", shape)
    names = bound_names(shape)
    if shape.kind == "unit":
        return [f"{pattern} => se.serialize_unit_variant{start}),"]
    if shape.kind == "newtype":
        return [f"{pattern} => se.serialize_newtype_variant{start}, {names[0]}),"]
    return [f"{pattern} => {{", *written(of, at, shape, names), "}"]


def body_of_writing(of):
    if of.shape:
        return body_of_struct(of)
    return ["match self {", *(line for at, shape in enumerate(of.variants) for line in arm_of_writing(of, at, shape)), "}"]


def writing_differ(of, at, shape):
    """That function. The type arguments of a call have at most one lifetime each, as the checker asks, so it has one for each field."""
    kinds = halves.kinds(len(shape.fields))
    places = PLACES[: len(kinds)]
    fields = [dataclasses.replace(field, kind=kind) for field, kind in zip(shape.fields, kinds)]
    general = dataclasses.replace(shape, fields=fields)
    words = Words(Declared(of.name, [(kind, "") for kind in kinds]))
    tree = data_of(words, general, "v" if of.shape else None, [f"{place}.now" for place in places], "(settings_of se.old).human")
    known = " × ".join(f"{kind}.is_value {place}.now" for kind, place in zip(kinds, places))
    return [
        f"// Writes the fields of {'a struct' if of.shape else 'a variant'}, each of which may borrow.",
        "#[inline(always)]",
        f"fn {apart(of, shape)}<W: Sink, C: SerializerConfig, {', '.join(f'{kind}: Serialize' for kind in kinds)}>(",
        "se: &mut Serializer<W, C>,",
        *(f"{place}: &{kind}," for place, kind in zip(places, kinds)),
        ") -> Result<(), rmp_encode::Error>",
        f"    ensures writes {{ WritesTree W.Sink ({memory_of(words, general, '(settings_of se.old)')} || W.takes_memory)"
        f" (tree_of (settings_of se.old) ({tree})) (sink_of se.old) (sink_of se.new) result }}",
        "    ensures keeps { Keeps W.Sink se.old se.new }",
        f"    ensures error {{ IfErr result ({refused_of(words, general, values=[f'{place}.now' for place in places])}) }}",
        f"    ensures value {{ OnOk result ({known}) }}",
        "{",
        *several(of, at, shape, places),
        "}\n",
    ]


def filled(name, default):
    """How a default is put in the place of what was read, where a map had none."""
    if not default.is_copy:
        return f"let {name} = {name}.value.unwrap_or({default.made});"
    memory = "return Err(de.refuse(rmp_decode::Error::OutOfMemory))"
    return f"let {name} = match text_or(de.alloc(), {name}.value, {default.made}) {{ Ok({name}) => {name}, Err(_) => {memory}, }};"


# What fills in a text.
TEXT_OR = TEXTS.fill("text_or")


def taken_differ(shape):
    """How the parts that were read get the fields' names.

    It is one pattern, or, where an array is two tuples deep, one for each tuple: the borrow checker covers no move of such an array. Of more
    than tuples hold, it is one for each struct.
    """
    names = bound_names(shape)
    if shape.kind == "tuple" and not is_long(shape):
        return [f"let ({', '.join(names)}) = parts;"]
    made = [filled(name, field.default) for name, field in zip(names, shape.fields) if field.default]
    lines, whole = [], "parts"
    while len(shape.fields) > MOST_IN_TUPLES and then_of(len(names)):
        size = then_of(len(names))
        names, first = names[size:], names[:size]
        lines.append(f"let {then_bound(first, 'others' if names else '()')} = {whole};")
        whole = "others"
    fields = shape.fields[len(shape.fields) - len(names) :]
    depths = [place_of(at, len(names)).count(".") for at, field in enumerate(fields) if field.kind.startswith("[")]
    if names and max(depths, default=0) < 3:
        return [*lines, f"let {nested(names)} = {whole};", *made]
    while names:
        size = GROUP if len(names) >= GROUP else 1
        names, first = names[size:], names[:size]
        lines.append(f"let ({', '.join(first)}, {'others' if names else '()'}) = {whole};")
        whole = "others"
    return lines + made


def arm_of_reading(of, at, shape):
    """How a variant is read whose name was.

    Each arm returns by itself: an answer that left the `match` as its value would be copied once more on its way.
    """
    place = "_" if at == len(of.variants) - 1 else str(at)
    call = {"unit": "unit_variant()", "named": f"fields_variant({field_names(shape)})"}.get(shape.kind, "newtype_variant()")
    made = f"Ok({made_of(f'{of.name}::{shape.name}', shape)})"
    names = bound_names(shape)
    lines = [f"Ok(({place}, variant)) => match variant.{call} {{"]
    if len(shape.fields) < 2 and shape.kind != "named":
        lines.append(f"Ok({names[0] if names else '()'}) => return {made},")
    else:
        # a default is put in the place of a part's value, so the type of the parts is named
        taken = taken_differ(shape)
        if has_defaults(shape):
            taken = [f"let parts: {nested([field.read_as() for field in shape.fields])} = parts;", *taken]
        elif is_long(shape):
            elements = elements_of(of, shape)
            taken = [f"let {made_of(elements.name, elements.shape)} = parts;"]
        lines += ["Ok(parts) => {", *taken, f"return {made};", "}"]
    return [*lines, "Err(e) => return Err(e),", "},"]


def body_of_reading(of):
    """How a value is read."""
    shape = of.shape
    if shape is None:
        arms = [line for at, variant in enumerate(of.variants) for line in arm_of_reading(of, at, variant)]
        return [f"match de.deserialize_enum({texts(variant.key for variant in of.variants)}) {{", *arms, "Err(e) => return Err(e),", "}"]
    made = f"Ok({made_of(shape.name, shape)})"
    if shape.kind in ("unit", "newtype"):
        pattern = "()" if shape.kind == "unit" else PLACES[0]
        return [f'match de.deserialize_{shape.kind}_struct("{shape.name}") {{', f"Ok({pattern}) => return {made},", "Err(e) => return Err(e),", "}"]
    kinds = [field.read_as() for field in shape.fields]
    if is_long(shape):
        call, kind = f"de.tuple_parts({len(kinds)})", nested(kinds)
    elif shape.kind == "tuple":
        call, kind = "Deserialize::deserialize(de)", f"({', '.join(kinds)})"
    else:
        names = field_names(shape)
        call = f"rmp_decode::read_fields_{len(kinds)}(de, {names})" if is_flat(shape) else f"de.deserialize_fields({names})"
        kind = nested(kinds)
    read = f"let read: Result<{kind}, rmp_decode::Error> = {call};"
    return [read, "match read {", "Ok(parts) => {", *taken_differ(shape), f"return {made};", "}", "Err(e) => return Err(e),", "}"]


def no_byte(of):
    """How it is said that the value is no byte."""
    lemma = NO_BYTE.get(of.shape.kind) if of.shape else None
    body = ["None"]
    if has_content(of):
        body = ["match self {", *(f"{any_value_of(of, shape)} => None," for shape in of.variants), "}"]
    tactic = [f"#[tactic(auto, using(rmp_encode::proofs::{lemma}))]"] if lemma else []
    return [*tactic, "fn as_u8(&self, _human: bool) -> Option<u8> {", *body, "}"]


def any_value_of(of, shape):
    rest = {"unit": "", "named": " { .. }"}.get(shape.kind, f"({', '.join('_' for _ in shape.fields)})")
    return f"{of.name}::{shape.name}{rest}"


def writing(of):
    """The implementation of `Serialize`."""
    data, known, memory, refused = members_of_writing(of, Words(of))
    lower = any(shape.kind == "unit" for shape in of.shapes())
    several_of = [(at, shape) for at, shape in enumerate(of.shapes()) if shape.kind in ("tuple", "named")]
    return [
        *(line for at, shape in several_of if of.lifetime for line in writing_differ(of, at, shape)),
        header(of, "Serialize"),
        f"    ghost data_of = {{ λ v human. {data} }};\n",
        f"    ghost is_value = {{ λ v. {known} }};\n",
        f"    ghost takes_memory = {{ λ s. {memory} }};\n",
        f"    ghost refuses = {{ λ v. {refused} }};\n",
        *(["#[tactic(auto, unfolding(rmp_encode::specs::Data::lower))]"] if lower else []),
        "fn serialize<W: Sink, C: SerializerConfig>(&self, se: &mut Serializer<W, C>) -> Result<(), rmp_encode::Error> {",
        *body_of_writing(of),
        "}\n",
        *no_byte(of),
        "}\n",
    ]


def is_small(of):
    """Whether it is a struct of few fields."""
    return of.shape is not None and len(of.shape.fields) <= FEW


def reading(of):
    """The implementation of `Deserialize`."""
    of = of.lent_for("'de")
    return [
        header(of, "Deserialize<'de, R>"),
        f"    ghost reads = {{ λ human lends m v. {member_of_reading(of, Words(of))} }};\n",
        "    ghost absent = { None };\n",
        f"    ghost refuses = {{ {member_of_refusing(of, Words(of))} }};\n",
        *["#[inline(always)]"] * is_small(of),
        f"fn deserialize<C: SerializerConfig>(de: &mut Deserializer<R, C>) -> Result<{of.name}{of.arguments()}, rmp_decode::Error> {{",
        *body_of_reading(of),
        "}\n",
        f"fn missing() -> Option<{of.name}{of.arguments()}> {{",
        "None",
        "}",
        "}\n",
    ]


def elements_struct(of: Declared) -> list[str]:
    """A struct that the elements of a variant are read as."""
    fields = [f"{field.name}: {field.kind}," for field in of.shape.fields]
    head = f"struct {of.name}{of.arguments(bounded=True)} {{"
    return ["// What the elements of a variant are read as.", "#[derive(Drop)]", head, *fields, "}\n", *reading(of)]
