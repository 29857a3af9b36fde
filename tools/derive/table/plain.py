"""The laws of types without parts: the lemmas by which their values are written, read back and compared."""
from __future__ import annotations

from typing import NamedTuple, Optional


class Plain(NamedTuple):
    """The terms of a type's laws. {v} and {w} are values, {fits} is what is known of {v}, and {h} that {v} and {w} have the same content."""

    # a value is read as it was written
    row: str
    # none is written as nil, where that is so
    other: Optional[str]
    # nothing else is read
    only: str
    # values of the same content are written alike; without a term, such values are equal
    alike: Optional[str]
    # a read meets an end only inside of a message
    ends: str


def of_content(row: str, kind: str, content: str, ends: str, is_lent: bool = False, fits: str = "") -> Plain:
    """Those of values that are known by their content: a text, bytes, or the bits of a float."""
    return Plain(
        f"{row}_row s {content}{' _ (lent refl)' * is_lent}{fits}", f"{kind}_other s {content}",
        f"{row}_only s (λ w. {content.format(v='w').strip('()')}) {content}{' R.lends' * is_lent}",
        f"{kind}_alike {content} {content.format(v='{w}')} {{h}}", f"{ends}_inside",
    )


def unsigned(bits: int) -> Plain:
    return Plain(f"unsigned_row_{bits} s {{v}} {{fits}}", "pos_other s {v}", f"unsigned_only s {2**bits - 1} {{v}}", None, "number_inside")


def signed(bits: int) -> Plain:
    ends = f"(negsuc {2 ** (bits - 1) - 1}) (pos {2 ** (bits - 1) - 1})"
    return Plain(f"signed_row_{bits} s {{v}} {{fits}}", "whole_other s {v}", f"signed_only s {ends} {{v}}", None, "number_inside")


def wide(word: str) -> Plain:
    """Those of a number of 128 bits."""
    return Plain(f"{word}_row s {{v}} {{fits}}", f"{word}_other s {{v}}", f"{word}_only s {{v}} {{fits}}", None, f"{word}_inside")


TIME = "{v}.seconds {v}.nanoseconds"
LAWS = {
    "()": Plain("unit_row s", None, "unit_only s", "unit_alike", "nil_inside"),
    "bool": Plain("truth_row s {v}", "truth_other s {v}", "truth_only s {v}", None, "kind_inside"),
    "u8": Plain("byte_row s {v} {fits}", "byte_other s {v}", "byte_only s {v}", None, "number_inside"),
    **{f"u{bits}": unsigned(bits) for bits in (16, 32, 64)},
    **{f"i{bits}": signed(bits) for bits in (8, 16, 32, 64)},
    "usize": unsigned(64),
    "isize": signed(64),
    "u128": wide("unsigned128"),
    "i128": wide("signed128"),
    "F32Bits": of_content("float32", "float32", "{v}.0", "kind"),
    "F64Bits": of_content("float64", "float64", "{v}.0", "kind"),
    "Float64": Plain("float_row s {v}.bits", "float64_other s {v}.bits", "float_only s {v}.bits", "float64_alike {v}.bits {w}.bits {h}", "float_inside"),
    "Timestamp": Plain(
        f"time_row s {TIME} {{fits}}.0 {{fits}}.1", f"extension_other s time_tag (time_payload {TIME})", f"time_only s {TIME} {{fits}}.0 {{fits}}.1",
        "time_alike {v}.seconds {w}.seconds {v}.nanoseconds {w}.nanoseconds {h}", "time_inside",
    ),
    "char": Plain("char_row s {v} {fits}", "char_other s {v}", "char_only s {v} {fits}", None, "char_inside"),
    "String": of_content("string", "text", "(string_bytes {v})", "string"),
    "&'de str": of_content("str", "text", "{v}.now", "str", True, " {fits}"),
    "ByteBuf": of_content("buffer", "bytes", "(buffer_bytes {v})", "buffer"),
    "Bytes<'de>": of_content("bytes", "bytes", "(bytes_of {v})", "bytes", True),
    "Raw": of_content("raw", "raw", "(raw_bytes {v})", "raw"),
    "RawRef<'de>": of_content("raw_ref", "raw", "(raw_ref_bytes {v})", "bytes", True),
    "Ext": Plain(
        "ext_row s {v}", "extension_other s (tag_of {v}) (ext_bytes {v})", "ext_only s {v}",
        "extension_alike (tag_of {v}) (tag_of {w}) (ext_bytes {v}) (ext_bytes {w}) {h}", "ext_inside",
    ),
    "Value": Plain("value_row s {v} {fits}.1", None, "value_only s {v}", None, "value_inside"),
}
# Of lists and sets: what their lemmas begin with, and their items.
LISTS = {"Vec": ("slice", ".items"), "VecDeque": ("sequence", ".items"), "BTreeSet": ("sequence", ".keys")}
# That the order of keys is total, and that keys of the same content are equal in it.
ORDERS = {
    **dict.fromkeys("u8 u16 u32 u64 usize u128 i8 i16 i32 i64 isize i128 bool char".split(), "(Prim.search (comparing, rules))"),
    "String": "(on_total (λ x. string_bytes x) nat_list_cmp_total)",
}
TIED = {kind: f"(λ x y e. tied ⟦<{kind} as Ord>⟧.cmp {order} x y e)" for kind, order in ORDERS.items()}
TIED["String"] = "(λ x y e. tied (slice_cmp nat_cmp) nat_list_cmp_total (string_bytes x) (string_bytes y) e)"
