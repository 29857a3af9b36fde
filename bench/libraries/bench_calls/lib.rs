//! Loads for a timer: one message a call, and values of types that contain themselves.
//!
//! Each export reads messages `reps` times, and answers how many were read; or it reads them once, writes each `reps` times, and answers
//! the bytes of the last round. What is refused counts none. Nothing but the program under bench/ calls them.
#![tactic(auto)]

ghost use Rattle.std.specs.Prelude.{◌<◌};

mod chains;

use chains::{Chain, Expr};
use rmp_serde::wire::ReadRefReader;
use rmp_serde::{Deserialize, Serialize, from_slice, to_vec, to_vec_named};
use std::alloc::Global;

// Reads messages of this length, each by a call of its own.
#[inline(always)]
fn reads<'de, T: Deserialize<'de, ReadRefReader<'de>>>(
    alloc: Global,
    data: &'de [u8],
    size: usize,
    reps: u32,
) -> usize
    requires { 0 < size }
{
    let mut sum: usize = 0;
    for _ in 0..reps {
        for message in data.chunks(size) {
            if from_slice::<T>(alloc, message).is_ok() {
                sum = sum.wrapping_add(1);
            }
        }
    }
    sum
}

// The values of these messages. It has less where one is refused.
#[inline(always)]
fn values<'de, T: Deserialize<'de, ReadRefReader<'de>>>(
    alloc: Global,
    data: &'de [u8],
    size: usize,
) -> Vec<T>
    requires { 0 < size }
{
    let mut found = Vec::new(alloc);
    for message in data.chunks(size) {
        if let Ok(value) = from_slice::<T>(alloc, message) {
            let _kept = found.push(value);
        }
    }
    found
}

// Writes the values of these messages, each by a call of its own: structs as lists, or as maps from names.
#[inline(always)]
fn writes<'de, T: Deserialize<'de, ReadRefReader<'de>> + Serialize>(
    alloc: Global,
    data: &'de [u8],
    size: usize,
    is_named: bool,
    reps: u32,
) -> usize
    requires { 0 < size }
{
    let items: Vec<T> = values(alloc, data, size);
    let mut sum: usize = 0;
    for _ in 0..reps {
        sum = 0;
        for item in &items {
            let written = if is_named {
                to_vec_named(alloc, item)
            } else {
                to_vec(alloc, item)
            };
            if let Ok(bytes) = written {
                sum = sum.wrapping_add(bytes.len());
            }
        }
    }
    sum
}

/// Reads numbers of five bytes, each by one call.
#[unsafe(no_mangle)]
pub extern "C" fn once_read_number(alloc: Global, data: &[u8], reps: u32) -> usize {
    reads::<u32>(alloc, data, 5, reps)
}

/// Writes numbers of five bytes, each by one call.
#[unsafe(no_mangle)]
pub extern "C" fn once_write_number(alloc: Global, data: &[u8], reps: u32) -> usize {
    writes::<u32>(alloc, data, 5, false, reps)
}

/// Reads texts of ten bytes, each by one call.
#[unsafe(no_mangle)]
pub extern "C" fn once_read_text(alloc: Global, data: &[u8], reps: u32) -> usize {
    reads::<String>(alloc, data, 11, reps)
}

/// Writes texts of ten bytes, each by one call.
#[unsafe(no_mangle)]
pub extern "C" fn once_write_text(alloc: Global, data: &[u8], reps: u32) -> usize {
    writes::<String>(alloc, data, 11, false, reps)
}

/// Reads lists of three numbers, each by one call.
#[unsafe(no_mangle)]
pub extern "C" fn once_read_row(alloc: Global, data: &[u8], reps: u32) -> usize {
    reads::<Vec<u32>>(alloc, data, 4, reps)
}

/// Writes lists of three numbers, each by one call.
#[unsafe(no_mangle)]
pub extern "C" fn once_write_row(alloc: Global, data: &[u8], reps: u32) -> usize {
    writes::<Vec<u32>>(alloc, data, 4, false, reps)
}

/// Reads a chain.
#[unsafe(no_mangle)]
pub extern "C" fn chain_read(alloc: Global, data: &[u8], reps: u32) -> usize {
    reads::<Chain>(alloc, data, data.len().max(1), reps)
}

/// Writes a chain, of lists.
#[unsafe(no_mangle)]
pub extern "C" fn chain_write(alloc: Global, data: &[u8], reps: u32) -> usize {
    writes::<Chain>(alloc, data, data.len().max(1), false, reps)
}

/// Writes a chain, of maps from names.
#[unsafe(no_mangle)]
pub extern "C" fn chain_write_named(alloc: Global, data: &[u8], reps: u32) -> usize {
    writes::<Chain>(alloc, data, data.len().max(1), true, reps)
}

/// Reads an expression.
#[unsafe(no_mangle)]
pub extern "C" fn expression_read(alloc: Global, data: &[u8], reps: u32) -> usize {
    reads::<Expr>(alloc, data, data.len().max(1), reps)
}

/// Writes an expression.
#[unsafe(no_mangle)]
pub extern "C" fn expression_write(alloc: Global, data: &[u8], reps: u32) -> usize {
    writes::<Expr>(alloc, data, data.len().max(1), false, reps)
}
