//! Lists of values of many types, each of which is read once and written over and over.
use rmp_encode::{Serialize, Serializer, write_named};
use rmp_serde::decode::Deserialize;
use rmp_serde::from_slice;
use rmp_wire::config::BytesMode;
use rmp_wire::{ByteBuf, F32Bits, F64Bits, ReadRefReader};
use std::alloc::Global;
use std::collections::BTreeMap;
use test_derived::{Dog, Four};
use test_wide::Papers;

// Reads a list, and writes it so many times.
#[inline(always)]
fn writes<'de, T: Deserialize<'de, ReadRefReader<'de>> + Serialize>(
    alloc: Global,
    data: &'de [u8],
    reps: u32,
) -> usize {
    let Ok(items) = from_slice::<Vec<T>>(alloc, data) else {
        return 0;
    };
    crate::rounds(alloc, &items, reps).unwrap_or(0)
}

// Reads a list, and writes it so many times, its structs as maps from names.
#[inline(always)]
fn writes_named<'de, T: Deserialize<'de, ReadRefReader<'de>> + Serialize>(
    alloc: Global,
    data: &'de [u8],
    reps: u32,
) -> usize {
    let Ok(items) = from_slice::<Vec<T>>(alloc, data) else {
        return 0;
    };
    let mut out = Vec::new(alloc);
    for _ in 0..reps {
        out.clear();
        if write_named(alloc, &mut out, &items).is_err() {
            return 0;
        }
    }
    out.len()
}

// Writes a list of lists of numbers so many times, under a mode of bytes.
#[inline(always)]
fn writes_bytes(alloc: Global, data: &[u8], reps: u32, mode: BytesMode) -> usize {
    let Ok(items) = from_slice::<Vec<Vec<u8>>>(alloc, data) else {
        return 0;
    };
    let mut se = Serializer::new(alloc, Vec::new(alloc)).with_bytes(mode);
    for _ in 0..reps {
        se.get_mut().clear();
        if items.serialize(&mut se).is_err() {
            return 0;
        }
    }
    se.get_ref().len()
}

/// Writes a list of nils.
#[unsafe(no_mangle)]
pub extern "C" fn bench_write_nil(alloc: Global, data: &[u8], reps: u32) -> usize {
    writes::<()>(alloc, data, reps)
}

/// Writes a list of truths.
#[unsafe(no_mangle)]
pub extern "C" fn bench_write_bool(alloc: Global, data: &[u8], reps: u32) -> usize {
    writes::<bool>(alloc, data, reps)
}

/// Writes a list of numbers of 32 bits.
#[unsafe(no_mangle)]
pub extern "C" fn bench_write_u32(alloc: Global, data: &[u8], reps: u32) -> usize {
    writes::<u32>(alloc, data, reps)
}

/// Writes a list of numbers of 64 bits.
#[unsafe(no_mangle)]
pub extern "C" fn bench_write_u64(alloc: Global, data: &[u8], reps: u32) -> usize {
    writes::<u64>(alloc, data, reps)
}

/// Writes a list of numbers with a sign.
#[unsafe(no_mangle)]
pub extern "C" fn bench_write_i64(alloc: Global, data: &[u8], reps: u32) -> usize {
    writes::<i64>(alloc, data, reps)
}

/// Writes a list of numbers of 128 bits.
#[unsafe(no_mangle)]
pub extern "C" fn bench_write_u128(alloc: Global, data: &[u8], reps: u32) -> usize {
    writes::<u128>(alloc, data, reps)
}

/// Writes a list of floats of 32 bits.
#[unsafe(no_mangle)]
pub extern "C" fn bench_write_f32(alloc: Global, data: &[u8], reps: u32) -> usize {
    writes::<F32Bits>(alloc, data, reps)
}

/// Writes a list of floats.
#[unsafe(no_mangle)]
pub extern "C" fn bench_write_f64(alloc: Global, data: &[u8], reps: u32) -> usize {
    writes::<F64Bits>(alloc, data, reps)
}

/// Writes a list of characters.
#[unsafe(no_mangle)]
pub extern "C" fn bench_write_char(alloc: Global, data: &[u8], reps: u32) -> usize {
    writes::<char>(alloc, data, reps)
}

/// Writes a list of texts.
#[unsafe(no_mangle)]
pub extern "C" fn bench_write_text(alloc: Global, data: &[u8], reps: u32) -> usize {
    writes::<String>(alloc, data, reps)
}

/// Writes a list of bytes.
#[unsafe(no_mangle)]
pub extern "C" fn bench_write_buffer(alloc: Global, data: &[u8], reps: u32) -> usize {
    writes::<ByteBuf>(alloc, data, reps)
}

/// Writes a list of lists of small numbers.
#[unsafe(no_mangle)]
pub extern "C" fn bench_write_bytes(alloc: Global, data: &[u8], reps: u32) -> usize {
    writes::<Vec<u8>>(alloc, data, reps)
}

/// Writes a list of numbers that may be nil.
#[unsafe(no_mangle)]
pub extern "C" fn bench_write_option(alloc: Global, data: &[u8], reps: u32) -> usize {
    writes::<Option<u32>>(alloc, data, reps)
}

/// Writes a list of lists of lists.
#[unsafe(no_mangle)]
pub extern "C" fn bench_write_nested(alloc: Global, data: &[u8], reps: u32) -> usize {
    writes::<Vec<Vec<u32>>>(alloc, data, reps)
}

/// Writes a list of maps of numbers.
#[unsafe(no_mangle)]
pub extern "C" fn bench_write_map(alloc: Global, data: &[u8], reps: u32) -> usize {
    writes::<BTreeMap<u32, u32>>(alloc, data, reps)
}

/// Writes a list of maps from texts.
#[unsafe(no_mangle)]
pub extern "C" fn bench_write_named_map(alloc: Global, data: &[u8], reps: u32) -> usize {
    writes::<BTreeMap<String, u32>>(alloc, data, reps)
}

/// Writes a list of tuples.
#[unsafe(no_mangle)]
pub extern "C" fn bench_write_tuple(alloc: Global, data: &[u8], reps: u32) -> usize {
    writes::<(u32, bool)>(alloc, data, reps)
}

/// Writes a list of lists of small numbers, which become bytes.
#[unsafe(no_mangle)]
pub extern "C" fn bench_write_iterables(alloc: Global, data: &[u8], reps: u32) -> usize {
    writes_bytes(alloc, data, reps, BytesMode::ForceIterables)
}

/// Writes a list of lists of small numbers, which become bytes as tuples and arrays do.
#[unsafe(no_mangle)]
pub extern "C" fn bench_write_forced(alloc: Global, data: &[u8], reps: u32) -> usize {
    writes_bytes(alloc, data, reps, BytesMode::ForceAll)
}

/// Writes a list of structs of two fields.
#[unsafe(no_mangle)]
pub extern "C" fn bench_write_dog(alloc: Global, data: &[u8], reps: u32) -> usize {
    writes::<Dog>(alloc, data, reps)
}

/// Writes a list of structs of two fields, by names.
#[unsafe(no_mangle)]
pub extern "C" fn bench_write_dog_named(alloc: Global, data: &[u8], reps: u32) -> usize {
    writes_named::<Dog>(alloc, data, reps)
}

/// Writes a list of structs of nine fields.
#[unsafe(no_mangle)]
pub extern "C" fn bench_write_papers(alloc: Global, data: &[u8], reps: u32) -> usize {
    writes::<Papers>(alloc, data, reps)
}

/// Writes a list of structs of nine fields, by names.
#[unsafe(no_mangle)]
pub extern "C" fn bench_write_papers_named(alloc: Global, data: &[u8], reps: u32) -> usize {
    writes_named::<Papers>(alloc, data, reps)
}

/// Writes a list of variants.
#[unsafe(no_mangle)]
pub extern "C" fn bench_write_four(alloc: Global, data: &[u8], reps: u32) -> usize {
    writes::<Four>(alloc, data, reps)
}

/// Writes a list of variants, their fields by names.
#[unsafe(no_mangle)]
pub extern "C" fn bench_write_four_named(alloc: Global, data: &[u8], reps: u32) -> usize {
    writes_named::<Four>(alloc, data, reps)
}
