//! Reads and writes of values of many types, for a program that compares them with what others answer (`bench/fuzz`).
//!
//! Each export but the last reads a value of a type from the front of the bytes, strictly where `strict` isn't 0, and writes it again to the
//! front of `out`: under a `form` of 0 as `to_vec`, of 1 as `to_vec_named`, of 2 and 3 with lists of numbers, and with tuples too, as bytes.
//! They promise nothing: what the libraries below promise holds of them.
//!
//! The status is 0 where all was done, 1 to 11 where the read is refused, by the place of its error in the enum, 20 where `out` is too
//! short, and 21 where the write is refused.
#![tactic(auto)]

use rmp_decode::{Deserialize, Deserializer, Error};
use rmp_encode::{Serialize, Serializer, to_vec, to_vec_named};
use rmp_serde::{Raw, Value};
use rmp_wire::config::BytesMode;
use rmp_wire::{ByteBuf, Ext, F32Bits, F64Bits, ReadRefReader};
use std::alloc::Global;
use std::collections::{BTreeMap, BTreeSet};
use test_derived::{Dog, Four, Newtype, Opt, Point, Unit, V12};

/// What is told beside the status.
#[repr(C)]
#[derive(Clone, Copy)]
pub struct Told {
    /// How many bytes the read left.
    pub left: usize,
    /// How long what was written is.
    pub len: usize,
}

// The status that an error is.
fn status_of(e: &Error) -> u32 {
    match e {
        Error::InvalidMarkerRead(_) => 1,
        Error::InvalidDataRead(_) => 2,
        Error::TypeMismatch(_) => 3,
        Error::OutOfRange => 4,
        Error::LengthMismatch(_) => 5,
        Error::Uncategorized(_) => 6,
        Error::Syntax(_) => 7,
        Error::Utf8Error(_) => 8,
        Error::DepthLimitExceeded => 9,
        Error::OutOfMemory => 10,
        Error::NotCanonical => 11,
    }
}

// Writes a value, with what of it may be bytes as the mode says.
fn packed<T: Serialize>(
    alloc: Global,
    value: &T,
    mode: BytesMode,
) -> Result<Vec<u8>, rmp_encode::Error> {
    let mut se = Serializer::new(alloc, Vec::new(alloc)).with_bytes(mode);
    value.serialize(&mut se)?;
    Ok(se.into_inner())
}

// Writes a value in a form.
fn spelled<T: Serialize>(
    alloc: Global,
    value: &T,
    form: u32,
) -> Result<Vec<u8>, rmp_encode::Error> {
    match form {
        0 => to_vec(alloc, value),
        1 => to_vec_named(alloc, value),
        2 => packed(alloc, value, BytesMode::ForceIterables),
        _ => packed(alloc, value, BytesMode::ForceAll),
    }
}

// Reads a value, and writes it again.
fn again<'de, T: Deserialize<'de, ReadRefReader<'de>> + Serialize>(
    alloc: Global,
    data: &'de [u8],
    strict: u32,
    form: u32,
    out: &mut [u8],
    told: &mut Told,
) -> u32 {
    let mut de = Deserializer::from_read_ref(alloc, data);
    de.set_strict(strict != 0);
    let read: Result<T, Error> = Deserialize::deserialize(&mut de);
    told.left = de.remaining_slice().len();
    let value = match read {
        Ok(value) => value,
        Err(e) => return status_of(&e),
    };
    let Ok(bytes) = spelled(alloc, &value, form) else {
        return 21;
    };
    let len = bytes.len();
    told.len = len;
    if len > out.len() {
        return 20;
    }
    out[..len].copy_from_slice(bytes.as_slice());
    0
}

/// A number of a byte.
#[unsafe(no_mangle)]
pub extern "C" fn fuzz_u8(
    alloc: Global,
    data: &[u8],
    strict: u32,
    form: u32,
    out: &mut [u8],
    told: &mut Told,
) -> u32 {
    again::<u8>(alloc, data, strict, form, out, told)
}

/// A number of 32 bits.
#[unsafe(no_mangle)]
pub extern "C" fn fuzz_u32(
    alloc: Global,
    data: &[u8],
    strict: u32,
    form: u32,
    out: &mut [u8],
    told: &mut Told,
) -> u32 {
    again::<u32>(alloc, data, strict, form, out, told)
}

/// A number of 64 bits.
#[unsafe(no_mangle)]
pub extern "C" fn fuzz_u64(
    alloc: Global,
    data: &[u8],
    strict: u32,
    form: u32,
    out: &mut [u8],
    told: &mut Told,
) -> u32 {
    again::<u64>(alloc, data, strict, form, out, told)
}

/// A number of 16 bits with a sign.
#[unsafe(no_mangle)]
pub extern "C" fn fuzz_i16(
    alloc: Global,
    data: &[u8],
    strict: u32,
    form: u32,
    out: &mut [u8],
    told: &mut Told,
) -> u32 {
    again::<i16>(alloc, data, strict, form, out, told)
}

/// A number of 64 bits with a sign.
#[unsafe(no_mangle)]
pub extern "C" fn fuzz_i64(
    alloc: Global,
    data: &[u8],
    strict: u32,
    form: u32,
    out: &mut [u8],
    told: &mut Told,
) -> u32 {
    again::<i64>(alloc, data, strict, form, out, told)
}

/// A number of 128 bits.
#[unsafe(no_mangle)]
pub extern "C" fn fuzz_u128(
    alloc: Global,
    data: &[u8],
    strict: u32,
    form: u32,
    out: &mut [u8],
    told: &mut Told,
) -> u32 {
    again::<u128>(alloc, data, strict, form, out, told)
}

/// A number of 128 bits with a sign.
#[unsafe(no_mangle)]
pub extern "C" fn fuzz_i128(
    alloc: Global,
    data: &[u8],
    strict: u32,
    form: u32,
    out: &mut [u8],
    told: &mut Told,
) -> u32 {
    again::<i128>(alloc, data, strict, form, out, told)
}

/// A truth.
#[unsafe(no_mangle)]
pub extern "C" fn fuzz_bool(
    alloc: Global,
    data: &[u8],
    strict: u32,
    form: u32,
    out: &mut [u8],
    told: &mut Told,
) -> u32 {
    again::<bool>(alloc, data, strict, form, out, told)
}

/// A character.
#[unsafe(no_mangle)]
pub extern "C" fn fuzz_char(
    alloc: Global,
    data: &[u8],
    strict: u32,
    form: u32,
    out: &mut [u8],
    told: &mut Told,
) -> u32 {
    again::<char>(alloc, data, strict, form, out, told)
}

/// A float of 32 bits.
#[unsafe(no_mangle)]
pub extern "C" fn fuzz_f32(
    alloc: Global,
    data: &[u8],
    strict: u32,
    form: u32,
    out: &mut [u8],
    told: &mut Told,
) -> u32 {
    again::<F32Bits>(alloc, data, strict, form, out, told)
}

/// A float of 64 bits.
#[unsafe(no_mangle)]
pub extern "C" fn fuzz_f64(
    alloc: Global,
    data: &[u8],
    strict: u32,
    form: u32,
    out: &mut [u8],
    told: &mut Told,
) -> u32 {
    again::<F64Bits>(alloc, data, strict, form, out, told)
}

/// Nil.
#[unsafe(no_mangle)]
pub extern "C" fn fuzz_nil(
    alloc: Global,
    data: &[u8],
    strict: u32,
    form: u32,
    out: &mut [u8],
    told: &mut Told,
) -> u32 {
    again::<()>(alloc, data, strict, form, out, told)
}

/// A text.
#[unsafe(no_mangle)]
pub extern "C" fn fuzz_text(
    alloc: Global,
    data: &[u8],
    strict: u32,
    form: u32,
    out: &mut [u8],
    told: &mut Told,
) -> u32 {
    again::<String>(alloc, data, strict, form, out, told)
}

/// Bytes.
#[unsafe(no_mangle)]
pub extern "C" fn fuzz_buffer(
    alloc: Global,
    data: &[u8],
    strict: u32,
    form: u32,
    out: &mut [u8],
    told: &mut Told,
) -> u32 {
    again::<ByteBuf>(alloc, data, strict, form, out, told)
}

/// A text or bytes as they are encoded.
#[unsafe(no_mangle)]
pub extern "C" fn fuzz_raw(
    alloc: Global,
    data: &[u8],
    strict: u32,
    form: u32,
    out: &mut [u8],
    told: &mut Told,
) -> u32 {
    again::<Raw>(alloc, data, strict, form, out, told)
}

/// An extension.
#[unsafe(no_mangle)]
pub extern "C" fn fuzz_ext(
    alloc: Global,
    data: &[u8],
    strict: u32,
    form: u32,
    out: &mut [u8],
    told: &mut Told,
) -> u32 {
    again::<Ext>(alloc, data, strict, form, out, told)
}

/// A list of bytes.
#[unsafe(no_mangle)]
pub extern "C" fn fuzz_bytes(
    alloc: Global,
    data: &[u8],
    strict: u32,
    form: u32,
    out: &mut [u8],
    told: &mut Told,
) -> u32 {
    again::<Vec<u8>>(alloc, data, strict, form, out, told)
}

/// A list of texts.
#[unsafe(no_mangle)]
pub extern "C" fn fuzz_texts(
    alloc: Global,
    data: &[u8],
    strict: u32,
    form: u32,
    out: &mut [u8],
    told: &mut Told,
) -> u32 {
    again::<Vec<String>>(alloc, data, strict, form, out, told)
}

/// A list of bytes that may be nil.
#[unsafe(no_mangle)]
pub extern "C" fn fuzz_options(
    alloc: Global,
    data: &[u8],
    strict: u32,
    form: u32,
    out: &mut [u8],
    told: &mut Told,
) -> u32 {
    again::<Vec<Option<u8>>>(alloc, data, strict, form, out, told)
}

/// A byte that may be nil.
#[unsafe(no_mangle)]
pub extern "C" fn fuzz_option(
    alloc: Global,
    data: &[u8],
    strict: u32,
    form: u32,
    out: &mut [u8],
    told: &mut Told,
) -> u32 {
    again::<Option<u8>>(alloc, data, strict, form, out, told)
}

/// A pair of bytes.
#[unsafe(no_mangle)]
pub extern "C" fn fuzz_pair(
    alloc: Global,
    data: &[u8],
    strict: u32,
    form: u32,
    out: &mut [u8],
    told: &mut Told,
) -> u32 {
    again::<(u8, u8)>(alloc, data, strict, form, out, told)
}

/// A tuple of five types.
#[unsafe(no_mangle)]
pub extern "C" fn fuzz_mixed(
    alloc: Global,
    data: &[u8],
    strict: u32,
    form: u32,
    out: &mut [u8],
    told: &mut Told,
) -> u32 {
    again::<(u8, i8, bool, char, String)>(alloc, data, strict, form, out, told)
}

/// An array of four bytes.
#[unsafe(no_mangle)]
pub extern "C" fn fuzz_array(
    alloc: Global,
    data: &[u8],
    strict: u32,
    form: u32,
    out: &mut [u8],
    told: &mut Told,
) -> u32 {
    again::<[u8; 4]>(alloc, data, strict, form, out, told)
}

/// A map of bytes.
#[unsafe(no_mangle)]
pub extern "C" fn fuzz_map(
    alloc: Global,
    data: &[u8],
    strict: u32,
    form: u32,
    out: &mut [u8],
    told: &mut Told,
) -> u32 {
    again::<BTreeMap<u8, u8>>(alloc, data, strict, form, out, told)
}

/// A map from texts.
#[unsafe(no_mangle)]
pub extern "C" fn fuzz_named_map(
    alloc: Global,
    data: &[u8],
    strict: u32,
    form: u32,
    out: &mut [u8],
    told: &mut Told,
) -> u32 {
    again::<BTreeMap<String, u16>>(alloc, data, strict, form, out, told)
}

/// A set of numbers.
#[unsafe(no_mangle)]
pub extern "C" fn fuzz_set(
    alloc: Global,
    data: &[u8],
    strict: u32,
    form: u32,
    out: &mut [u8],
    told: &mut Told,
) -> u32 {
    again::<BTreeSet<u16>>(alloc, data, strict, form, out, told)
}

/// A struct with names.
#[unsafe(no_mangle)]
pub extern "C" fn fuzz_dog(
    alloc: Global,
    data: &[u8],
    strict: u32,
    form: u32,
    out: &mut [u8],
    told: &mut Told,
) -> u32 {
    again::<Dog>(alloc, data, strict, form, out, told)
}

/// A struct whose field may be missing.
#[unsafe(no_mangle)]
pub extern "C" fn fuzz_optional(
    alloc: Global,
    data: &[u8],
    strict: u32,
    form: u32,
    out: &mut [u8],
    told: &mut Told,
) -> u32 {
    again::<Opt>(alloc, data, strict, form, out, told)
}

/// A tuple struct.
#[unsafe(no_mangle)]
pub extern "C" fn fuzz_point(
    alloc: Global,
    data: &[u8],
    strict: u32,
    form: u32,
    out: &mut [u8],
    told: &mut Told,
) -> u32 {
    again::<Point>(alloc, data, strict, form, out, told)
}

/// A struct of one number.
#[unsafe(no_mangle)]
pub extern "C" fn fuzz_newtype(
    alloc: Global,
    data: &[u8],
    strict: u32,
    form: u32,
    out: &mut [u8],
    told: &mut Told,
) -> u32 {
    again::<Newtype>(alloc, data, strict, form, out, told)
}

/// A struct of nothing.
#[unsafe(no_mangle)]
pub extern "C" fn fuzz_unit(
    alloc: Global,
    data: &[u8],
    strict: u32,
    form: u32,
    out: &mut [u8],
    told: &mut Told,
) -> u32 {
    again::<Unit>(alloc, data, strict, form, out, told)
}

/// A list of structs.
#[unsafe(no_mangle)]
pub extern "C" fn fuzz_dogs(
    alloc: Global,
    data: &[u8],
    strict: u32,
    form: u32,
    out: &mut [u8],
    told: &mut Told,
) -> u32 {
    again::<Vec<Dog>>(alloc, data, strict, form, out, told)
}

/// An enum of a variant of each kind.
#[unsafe(no_mangle)]
pub extern "C" fn fuzz_four(
    alloc: Global,
    data: &[u8],
    strict: u32,
    form: u32,
    out: &mut [u8],
    told: &mut Told,
) -> u32 {
    again::<Four>(alloc, data, strict, form, out, told)
}

/// An enum of two variants.
#[unsafe(no_mangle)]
pub extern "C" fn fuzz_v12(
    alloc: Global,
    data: &[u8],
    strict: u32,
    form: u32,
    out: &mut [u8],
    told: &mut Told,
) -> u32 {
    again::<V12>(alloc, data, strict, form, out, told)
}

/// A message of any kind.
#[unsafe(no_mangle)]
pub extern "C" fn fuzz_value(
    alloc: Global,
    data: &[u8],
    strict: u32,
    form: u32,
    out: &mut [u8],
    told: &mut Told,
) -> u32 {
    again::<Value>(alloc, data, strict, form, out, told)
}

/// Passes over a message, and writes nothing.
#[unsafe(no_mangle)]
pub extern "C" fn fuzz_skip(alloc: Global, data: &[u8], strict: u32, told: &mut Told) -> u32 {
    let mut de = Deserializer::from_read_ref(alloc, data);
    de.set_strict(strict != 0);
    let passed = de.deserialize_ignored_any();
    told.left = de.remaining_slice().len();
    match passed {
        Ok(()) => 0,
        Err(e) => status_of(&e),
    }
}
