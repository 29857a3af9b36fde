//! Loads for a timer: typed values that are read from the same message over and over.
//!
//! Each export reads `reps` times, drops what it has read, and answers how many elements all the rounds came to. A round
//! that is refused counts none. Nothing but the program under bench/ calls them.
#![tactic(auto)]

use rmp_decode::{Deserialize, Deserializer, from_slice, from_slice_strict};
use rmp_serde::{Canon, check_canonical};
use rmp_wire::ReadRefReader;
use std::alloc::Global;

// Reads a list so many times, strictly or not.
#[inline(always)]
fn lists<'de, T: Deserialize<'de, ReadRefReader<'de>>>(
    alloc: Global,
    data: &'de [u8],
    reps: u32,
    strict: bool,
) -> usize {
    let mut sum: usize = 0;
    for _ in 0..reps {
        let read: Result<Vec<T>, rmp_decode::Error> = if strict {
            from_slice_strict(alloc, data)
        } else {
            from_slice(alloc, data)
        };
        if let Ok(items) = read {
            sum = sum.wrapping_add(items.len());
        }
    }
    sum
}

/// Reads a list of numbers.
#[unsafe(no_mangle)]
pub extern "C" fn bench_decode_numbers(alloc: Global, data: &[u8], reps: u32) -> usize {
    lists::<u32>(alloc, data, reps, false)
}

/// Reads a list of lists of numbers.
#[unsafe(no_mangle)]
pub extern "C" fn bench_decode_rows(alloc: Global, data: &[u8], reps: u32) -> usize {
    lists::<Vec<u32>>(alloc, data, reps, false)
}

/// Reads a list of texts into memory of its own.
#[unsafe(no_mangle)]
pub extern "C" fn bench_decode_texts(alloc: Global, data: &[u8], reps: u32) -> usize {
    lists::<String>(alloc, data, reps, false)
}

/// Reads a list of texts that stay where they are.
#[unsafe(no_mangle)]
pub extern "C" fn bench_decode_lent_texts(alloc: Global, data: &[u8], reps: u32) -> usize {
    lists::<&str>(alloc, data, reps, false)
}

/// Reads a list of pairs of a text and a number.
#[unsafe(no_mangle)]
pub extern "C" fn bench_decode_entries(alloc: Global, data: &[u8], reps: u32) -> usize {
    lists::<(String, u16)>(alloc, data, reps, false)
}

/// Reads a list of pairs of a text that stays where it is and a number.
#[unsafe(no_mangle)]
pub extern "C" fn bench_decode_lent_entries(alloc: Global, data: &[u8], reps: u32) -> usize {
    lists::<(&str, u16)>(alloc, data, reps, false)
}

/// Reads a list of numbers strictly.
#[unsafe(no_mangle)]
pub extern "C" fn bench_decode_strict_numbers(alloc: Global, data: &[u8], reps: u32) -> usize {
    lists::<u32>(alloc, data, reps, true)
}

/// Reads a list of lists of numbers strictly.
#[unsafe(no_mangle)]
pub extern "C" fn bench_decode_strict_rows(alloc: Global, data: &[u8], reps: u32) -> usize {
    lists::<Vec<u32>>(alloc, data, reps, true)
}

/// Reads a list of texts into memory of its own, strictly.
#[unsafe(no_mangle)]
pub extern "C" fn bench_decode_strict_texts(alloc: Global, data: &[u8], reps: u32) -> usize {
    lists::<String>(alloc, data, reps, true)
}

/// Reads a list of texts that stay where they are, strictly.
#[unsafe(no_mangle)]
pub extern "C" fn bench_decode_strict_lent_texts(alloc: Global, data: &[u8], reps: u32) -> usize {
    lists::<&str>(alloc, data, reps, true)
}

/// Reads a list of pairs of a text and a number strictly.
#[unsafe(no_mangle)]
pub extern "C" fn bench_decode_strict_entries(alloc: Global, data: &[u8], reps: u32) -> usize {
    lists::<(String, u16)>(alloc, data, reps, true)
}

/// Reads a list of pairs of a text that stays where it is and a number, strictly.
#[unsafe(no_mangle)]
pub extern "C" fn bench_decode_strict_lent_entries(alloc: Global, data: &[u8], reps: u32) -> usize {
    lists::<(&str, u16)>(alloc, data, reps, true)
}

/// Checks whether a message is spelled canonically, and answers how many bytes are.
#[unsafe(no_mangle)]
pub extern "C" fn bench_decode_check(alloc: Global, data: &[u8], reps: u32) -> usize {
    let mut sum: usize = 0;
    for _ in 0..reps {
        if let Ok(Canon::Whole(len)) = check_canonical(alloc, data) {
            sum = sum.wrapping_add(len);
        }
    }
    sum
}

/// Passes over a message, which counts as one element.
#[unsafe(no_mangle)]
pub extern "C" fn bench_decode_skip(alloc: Global, data: &[u8], reps: u32) -> usize {
    let mut sum: usize = 0;
    for _ in 0..reps {
        let mut de = Deserializer::from_read_ref(alloc, data);
        if let Ok(()) = de.deserialize_ignored_any() {
            sum = sum.wrapping_add(1);
        }
    }
    sum
}
