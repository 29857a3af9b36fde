//! Strict reads of values of many types, for a program that compares them with other reads (`bench/fuzz`).
//!
//! Each export reads a list `reps` times, drops what it has read, and answers how many elements all the rounds came to: a list counts where
//! its spelling is canonical. They are apart from `bench_shapes`, since a second read of a type there would change what is measured.
#![tactic(auto)]

use rmp_decode::{Deserialize, Deserializer, Error, from_slice_strict};
use rmp_wire::{ByteBuf, F64Bits, ReadRefReader};
use std::alloc::Global;
use std::collections::BTreeMap;

// Reads a list strictly so many times.
#[inline(always)]
fn reads<'de, T: Deserialize<'de, ReadRefReader<'de>>>(
    alloc: Global,
    data: &'de [u8],
    reps: u32,
) -> usize {
    let mut sum: usize = 0;
    for _ in 0..reps {
        let read: Result<Vec<T>, Error> = from_slice_strict(alloc, data);
        if let Ok(items) = read {
            sum = sum.wrapping_add(items.len());
        }
    }
    sum
}

/// Reads a list of numbers that may be nil.
#[unsafe(no_mangle)]
pub extern "C" fn bench_strict_option(alloc: Global, data: &[u8], reps: u32) -> usize {
    reads::<Option<u32>>(alloc, data, reps)
}

/// Reads a list of bytes as vectors of numbers.
#[unsafe(no_mangle)]
pub extern "C" fn bench_strict_bytes(alloc: Global, data: &[u8], reps: u32) -> usize {
    reads::<Vec<u8>>(alloc, data, reps)
}

/// Reads a list of bytes.
#[unsafe(no_mangle)]
pub extern "C" fn bench_strict_buffer(alloc: Global, data: &[u8], reps: u32) -> usize {
    reads::<ByteBuf>(alloc, data, reps)
}

/// Reads a list of texts.
#[unsafe(no_mangle)]
pub extern "C" fn bench_strict_text(alloc: Global, data: &[u8], reps: u32) -> usize {
    reads::<String>(alloc, data, reps)
}

/// Reads a list of characters.
#[unsafe(no_mangle)]
pub extern "C" fn bench_strict_char(alloc: Global, data: &[u8], reps: u32) -> usize {
    reads::<char>(alloc, data, reps)
}

/// Reads a list of numbers with a sign.
#[unsafe(no_mangle)]
pub extern "C" fn bench_strict_i64(alloc: Global, data: &[u8], reps: u32) -> usize {
    reads::<i64>(alloc, data, reps)
}

/// Reads a list of floats.
#[unsafe(no_mangle)]
pub extern "C" fn bench_strict_f64(alloc: Global, data: &[u8], reps: u32) -> usize {
    reads::<F64Bits>(alloc, data, reps)
}

/// Reads a list of maps of numbers.
#[unsafe(no_mangle)]
pub extern "C" fn bench_strict_map(alloc: Global, data: &[u8], reps: u32) -> usize {
    reads::<BTreeMap<u32, u32>>(alloc, data, reps)
}

/// Reads a list of numbers of 128 bits.
#[unsafe(no_mangle)]
pub extern "C" fn bench_strict_u128(alloc: Global, data: &[u8], reps: u32) -> usize {
    reads::<u128>(alloc, data, reps)
}

/// Passes over a message, and answers how many were passed over.
#[unsafe(no_mangle)]
pub extern "C" fn bench_strict_skip(alloc: Global, data: &[u8], reps: u32) -> usize {
    let mut sum: usize = 0;
    for _ in 0..reps {
        let mut de = Deserializer::from_read_ref(alloc, data);
        de.set_strict(true);
        if let Ok(()) = de.deserialize_ignored_any() {
            sum = sum.wrapping_add(1);
        }
    }
    sum
}
