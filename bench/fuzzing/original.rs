//! The same reads and writes by the original, the crate rmp-serde.

use crate::typed::Answer;
use derived::{Dog, Four};
use rmp_serde::config::BytesMode;
use rmp_serde::decode::Error;
use rmp_serde::{Raw, Serializer, from_slice};
use serde::de::{DeserializeOwned, IgnoredAny};
use serde::{Deserialize, Serialize};
use serde_bytes::ByteBuf;
use std::collections::{BTreeMap, BTreeSet};
use value::Value;

#[path = "../types/derived.rs"]
mod derived;
#[path = "../types/value.rs"]
mod value;

/// The forms to write in, but for that without a setting.
const NAMED: u32 = 1;
const ITERABLES: u32 = 2;
pub const ALL: u32 = 3;

#[derive(Deserialize, Serialize)]
struct Opt {
    v: Option<u8>,
}

#[derive(Deserialize, Serialize)]
struct Point(u32, String);

#[derive(Deserialize, Serialize)]
struct Newtype(u64);

#[derive(Deserialize, Serialize)]
struct Unit;

#[derive(Deserialize, Serialize)]
enum V12 {
    V1,
    V2(u32, u32),
}

#[derive(Deserialize, Serialize)]
#[serde(rename = "_ExtStruct")]
struct Ext((i8, ByteBuf));

type OfType = fn(&[u8], u32) -> Answer;

macro_rules! types {
    ($($name:ident $kind:ty),* $(,)?) => {
        /// The types, by the names that they have in typed.rs.
        pub const TYPES: &[(&str, OfType)] = &[$((stringify!($name), again::<$kind> as OfType)),*];
    };
}

types! {
    u8 u8,
    u32 u32,
    u64 u64,
    i16 i16,
    i64 i64,
    u128 u128,
    i128 i128,
    bool bool,
    char char,
    f32 f32,
    f64 f64,
    nil (),
    text String,
    buffer ByteBuf,
    raw Raw,
    ext Ext,
    bytes Vec<u8>,
    texts Vec<String>,
    options Vec<Option<u8>>,
    option Option<u8>,
    pair (u8, u8),
    mixed (u8, i8, bool, char, String),
    array [u8; 4],
    map BTreeMap<u8, u8>,
    named_map BTreeMap<String, u16>,
    set BTreeSet<u16>,
    dog Dog,
    optional Opt,
    point Point,
    newtype Newtype,
    unit Unit,
    dogs Vec<Dog>,
    four Four,
    v12 V12,
    value Value,
}

/// The status that an error is, as the port's exports say it.
fn status_of(error: &Error) -> u32 {
    match error {
        Error::InvalidMarkerRead(_) => 1,
        Error::InvalidDataRead(_) => 2,
        Error::TypeMismatch(_) => 3,
        Error::OutOfRange => 4,
        Error::LengthMismatch(_) => 5,
        Error::Uncategorized(_) => 6,
        Error::Syntax(_) => 7,
        Error::Utf8Error(_) => 8,
        Error::DepthLimitExceeded => 9,
    }
}

/// How many bytes are left after a value. A read from a slice doesn't say it, so they are read again from a reader.
fn left_after<T: DeserializeOwned>(bytes: &[u8]) -> usize {
    let mut de = rmp_serde::Deserializer::new(bytes);
    let read = T::deserialize(&mut de);
    assert!(read.is_ok(), "the original reads a slice, and not the same bytes from a reader");
    de.get_ref().len()
}

fn spelled<T: Serialize>(value: &T, form: u32) -> Option<Vec<u8>> {
    let mut out = Vec::new();
    let written = match form {
        NAMED => value.serialize(&mut Serializer::new(&mut out).with_struct_map()),
        ITERABLES => value.serialize(&mut Serializer::new(&mut out).with_bytes(BytesMode::ForceIterables)),
        ALL => value.serialize(&mut Serializer::new(&mut out).with_bytes(BytesMode::ForceAll)),
        _ => value.serialize(&mut Serializer::new(&mut out)),
    };
    written.ok().map(|()| out)
}

fn again<T: DeserializeOwned + Serialize>(bytes: &[u8], form: u32) -> Answer {
    let value = match from_slice::<T>(bytes) {
        Ok(value) => value,
        Err(e) => return Answer::Refused { error: status_of(&e), left: 0 },
    };
    let left = left_after::<T>(bytes);
    match spelled(&value, form) {
        Some(written) => Answer::Whole { left, written },
        None => Answer::NotWritten { left },
    }
}

/// Passes over a message.
pub fn skip(bytes: &[u8]) -> Answer {
    match from_slice::<IgnoredAny>(bytes) {
        Ok(_) => Answer::Whole { left: left_after::<IgnoredAny>(bytes), written: Vec::new() },
        Err(e) => Answer::Refused { error: status_of(&e), left: 0 },
    }
}
