//! Where the original answers otherwise, and docs/DIFFERENCES.md says so: by what is in the bytes, and not by what is answered alone.

use crate::model::{self, Place};
use crate::original::ALL;
use crate::typed::Answer;
use Answer::{NotWritten, Refused, Whole};

/// The kinds of errors that matter here, by their statuses.
const CUT: u32 = 2;
const MISMATCH: u32 = 3;
const OUT_OF_RANGE: u32 = 4;
const LENGTH: u32 = 5;
const SYNTAX: u32 = 7;
const NOT_UTF8: u32 = 8;
const TOO_DEEP: u32 = 9;

/// A difference that is documented.
pub type Reason = &'static str;

/// Both agree.
pub const AGREED: Reason = "";

const FLOATS: Reason = "floats of one size are read as the other, and whole numbers as floats: here each as the bits of its own size";
const EXCESS: Reason = "bytes read as a tuple drop excess: here it is refused";
const OFFERED: Reason = "bytes read as a list refuse options and variants: here each is offered to the element's type";
const WRAPS: Reason = "a negative number read as u128 wraps: here it is out of range";
const WIDE: Reason = "128 bits are read from Bin8 alone: here from bytes of every width";
const UNIT: Reason = "a unit struct's list is read only as 90: here in every width";
const SIGNED: Reason = "a place of a field or a variant is refused in a head with a sign: here it counts by its value";
const EXTENSIONS: Reason = "extensions count for the limit on nesting: here lists and maps alone";
const NO_TREE: Reason = "a text that isn't UTF-8 is handed on as bytes, and there is no tree of any kind: here that refuses it";
const MIXED: Reason = "a tuple whose later element isn't a u8 is refused where tuples are bytes: here it is a list";
const CONTENT: Reason = "both refuse: the content of a text or of bytes is read before its kind is refused: here its head alone";
const HEAD: Reason = "both refuse: a marker of a wrong kind is refused before its length or number: here the head is read whole first";
const EXTENSION_CUT: Reason = "both refuse: an extension's head that is cut, where something else is wanted, by its kind: here as cut";
const ERRORS: Reason = "both refuse: by another error of the port's own table";

const STRUCTS: &[&str] = &["dog", "optional", "dogs", "four", "v12"];

fn is_bytes(first: u8) -> bool {
    matches!(first, 0xc4..=0xc6)
}

/// Whether the read stopped inside of bytes, or at their head.
fn is_in_bytes(places: &[Place], taken: usize) -> bool {
    let holds = |place: &Place| is_bytes(place.first) && place.content <= taken && taken <= place.content + place.len;
    places.iter().any(holds)
}

/// Whether some head is one of these.
fn has(places: &[Place], wanted: impl Fn(u8) -> bool) -> bool {
    places.iter().any(|place| wanted(place.first))
}

fn is_signed(first: u8) -> bool {
    matches!(first, 0xd0..=0xd3)
}

fn is_extension(first: u8) -> bool {
    matches!(first, 0xc7..=0xc9 | 0xd4..=0xd8)
}

fn is_number(first: u8) -> bool {
    matches!(first, 0x00..=0x7f | 0xca..=0xd3 | 0xe0..=0xff)
}

/// Why the original reads what the port refuses by this error, with so many bytes taken.
fn refused_here(name: &str, places: &[Place], error: u32, taken: usize) -> Option<Reason> {
    let first = places.first()?.first;
    match (error, name) {
        (SYNTAX, "f32" | "f64") if is_number(first) => Some(FLOATS),
        (LENGTH, "pair" | "array" | "point" | "four" | "v12") if is_in_bytes(places, taken) => Some(EXCESS),
        (OUT_OF_RANGE, "u128") if is_signed(first) || first >= 0xe0 => Some(WRAPS),
        (NOT_UTF8, "value") => Some(NO_TREE),
        _ => None,
    }
}

/// Why the original refuses by this error what the port reads.
fn read_here(name: &str, places: &[Place], error: u32) -> Option<Reason> {
    let first = places.first()?.first;
    match (error, name) {
        (MISMATCH, "u128" | "i128") if matches!(first, 0xc5 | 0xc6) => Some(WIDE),
        (SYNTAX, "options" | "optional") if is_bytes(first) => Some(OFFERED),
        (SYNTAX, "unit") if matches!(first, 0xdc | 0xdd) => Some(UNIT),
        (SYNTAX, _) if STRUCTS.contains(&name) && has(places, is_signed) => Some(SIGNED),
        (TOO_DEEP, "value" | "skip") if has(places, is_extension) => Some(EXTENSIONS),
        _ => None,
    }
}

/// Whether the first head that is cut, or has its content cut, is an extension's.
fn ends_in_extension(bytes: &[u8], places: &[Place]) -> bool {
    let end = places.last().map_or(0, |place| place.content + place.len);
    let last = bytes.get(end).copied().or(places.last().map(|place| place.first));
    last.is_some_and(is_extension)
}

/// Why both refuse, and the port by another error than the original.
fn refused_by_both(name: &str, bytes: &[u8], places: &[Place], here: u32, there: u32) -> Reason {
    match (here, there) {
        (NOT_UTF8, _) if name == "value" => NO_TREE,
        (SYNTAX, CUT | NOT_UTF8) | (LENGTH, CUT) => CONTENT,
        (CUT, MISMATCH) => HEAD,
        (_, SYNTAX) if STRUCTS.contains(&name) && has(places, is_signed) => SIGNED,
        (LENGTH, SYNTAX) if name == "optional" => OFFERED,
        (LENGTH, MISMATCH) if matches!(name, "u128" | "i128") => WIDE,
        (CUT, SYNTAX) if ends_in_extension(bytes, places) => EXTENSION_CUT,
        (_, TOO_DEEP) if ends_in_extension(bytes, places) => EXTENSIONS,
        _ => ERRORS,
    }
}

/// What the two answers have to do with one another: that they agree, or the reason why they don't, if there is one.
pub fn reason(name: &str, bytes: &[u8], form: u32, port: &Answer, original: &Answer) -> Option<Reason> {
    if port == original {
        return Some(AGREED);
    }
    let places = model::places(bytes);
    match (port, original) {
        (Refused { error, .. }, Refused { error: other, .. }) if error == other => Some(AGREED),
        (Refused { error, .. }, Refused { error: other, .. }) => Some(refused_by_both(name, bytes, &places, *error, *other)),
        (Refused { error, left }, Whole { .. } | NotWritten { .. }) => refused_here(name, &places, *error, bytes.len() - left),
        (Whole { .. } | NotWritten { .. }, Refused { error, .. }) => read_here(name, &places, *error),
        (Whole { left, .. }, NotWritten { left: other }) if left == other && form == ALL && name == "mixed" => Some(MIXED),
        _ => None,
    }
}

/// What two lengths of a list have to do with one another, in which a list that is refused has none.
pub fn list_reason(name: &str, bytes: &[u8], here: usize, there: usize) -> Option<Reason> {
    if here == there {
        return Some(AGREED);
    }
    let places = model::places(bytes);
    let is_struct = matches!(name, "bench_read_two" | "bench_read_five" | "bench_read_eight" | "bench_read_twelve" | "bench_read_shape");
    match (name, here, there) {
        ("bench_read_f64", 0, _) if has(&places, |b| is_number(b) || is_bytes(b)) => Some(FLOATS),
        ("bench_read_u128", 0, _) if has(&places, |b| is_signed(b) || b >= 0xe0) => Some(WRAPS),
        ("bench_read_u128", _, 0) if has(&places, |b| matches!(b, 0xc5 | 0xc6)) => Some(WIDE),
        ("bench_read_option" | "bench_read_shape", _, 0) if has(&places, is_bytes) => Some(OFFERED),
        ("bench_skip", 1, 0) if has(&places, is_extension) => Some(EXTENSIONS),
        (_, 0, _) if is_struct && has(&places, is_bytes) => Some(EXCESS),
        (_, _, 0) if is_struct && has(&places, is_signed) => Some(SIGNED),
        _ => None,
    }
}
