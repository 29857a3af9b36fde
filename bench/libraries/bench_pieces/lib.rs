//! Loads for a timer: a message that arrives in pieces, and a walk over a message of any kind.
//!
//! Nothing but the program under bench/ calls them.
#![tactic(auto)]

ghost use Rattle.std.specs.Prelude.{◌<◌};

use rmp_serde::{Scan, Scanner, Value, ValueRef, from_slice};
use std::alloc::Global;

// How many messages end in these bytes, which a scanner is given in pieces of this size. Each ends where a piece does.
#[inline(always)]
fn scanned(data: &[u8], size: usize) -> usize
    requires { 0 < size }
{
    let mut scanner = Scanner::new();
    let mut count: usize = 0;
    for piece in data.chunks(size) {
        if let Ok(Scan::Whole { used: _ }) = scanner.scan(piece) {
            count = count.wrapping_add(1);
        }
    }
    count
}

// The same, so many times.
#[inline(always)]
fn scans(data: &[u8], size: usize, reps: u32) -> usize
    requires { 0 < size }
{
    let mut sum: usize = 0;
    for _ in 0..reps {
        sum = sum.wrapping_add(scanned(data, size));
    }
    sum
}

/// Scans a message byte by byte.
#[unsafe(no_mangle)]
pub extern "C" fn pieces_of_1(_alloc: Global, data: &[u8], reps: u32) -> usize {
    scans(data, 1, reps)
}

/// Scans a message in pieces of 64 bytes.
#[unsafe(no_mangle)]
pub extern "C" fn pieces_of_64(_alloc: Global, data: &[u8], reps: u32) -> usize {
    scans(data, 64, reps)
}

/// Scans a message in pieces of 1460 bytes.
#[unsafe(no_mangle)]
pub extern "C" fn pieces_of_1460(_alloc: Global, data: &[u8], reps: u32) -> usize {
    scans(data, 1460, reps)
}

// This and the numbers of a list.
#[inline(always)]
fn sum_of(row: ValueRef<'_>, before: u64) -> u64 {
    let mut sum = before;
    for part in row.parts() {
        sum = sum.wrapping_add(part.as_u64().unwrap_or(0));
    }
    sum
}

// This and the numbers of a list of lists.
fn sum_of_rows(value: &Value, before: u64) -> u64 {
    let mut sum = before;
    for row in value.root().parts() {
        sum = sum_of(row, sum);
    }
    sum
}

// This and the lengths of the texts of a list of lists.
fn lengths_of_rows(value: &Value, before: usize) -> usize {
    let mut sum = before;
    for row in value.root().parts() {
        sum = lengths_of(row, sum);
    }
    sum
}

// This and the lengths of a list's texts.
#[inline(always)]
fn lengths_of(row: ValueRef<'_>, before: usize) -> usize {
    let mut sum = before;
    for part in row.parts() {
        sum = sum.wrapping_add(part.as_str().map_or(0, str::len));
    }
    sum
}

/// Walks over a list of lists of texts, so many times, and answers the sum of all lengths.
#[unsafe(no_mangle)]
pub extern "C" fn pieces_walk_texts(alloc: Global, data: &[u8], reps: u32) -> usize {
    let Ok(value) = from_slice::<Value>(alloc, data) else {
        return 0;
    };
    let mut sum: usize = 0;
    for _ in 0..reps {
        sum = lengths_of_rows(&value, sum);
    }
    sum
}

/// Walks over a list of lists of numbers, so many times, and answers the sum of all numbers.
#[unsafe(no_mangle)]
pub extern "C" fn pieces_walk(alloc: Global, data: &[u8], reps: u32) -> usize {
    let Ok(value) = from_slice::<Value>(alloc, data) else {
        return 0;
    };
    let mut sum: u64 = 0;
    for _ in 0..reps {
        sum = sum_of_rows(&value, sum);
    }
    sum as usize
}
