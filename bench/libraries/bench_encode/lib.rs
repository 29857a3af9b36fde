//! Loads for a timer: typed values that are written over and over.
//!
//! Each export goes `reps` times over the same value, into one buffer that is emptied before each round, and answers the bytes
//! of the last round, or 0 where something is refused. Nothing but the program under bench/ calls them.
#![tactic(auto)]

mod entry;
mod kinds;
mod parts;

use entry::Entry;
use parts::{write_counted, write_tuple, write_uncounted, write_values, write_wire};
use rmp_encode::{Error, Serialize, Serializer, write};
use rmp_serde::{Value, from_slice};
use rmp_wire::Bytes;
use std::alloc::{AllocError, Global};

fn rounds<T: Serialize>(alloc: Global, value: &T, reps: u32) -> Result<usize, Error> {
    let mut out = Vec::new(alloc);
    for _ in 0..reps {
        out.clear();
        write(alloc, &mut out, value)?;
    }
    Ok(out.len())
}

/// Writes a list of numbers.
#[unsafe(no_mangle)]
pub extern "C" fn bench_encode_numbers(alloc: Global, numbers: &[u32], reps: u32) -> usize {
    let Ok(numbers) = numbers.to_vec(alloc) else {
        return 0;
    };
    rounds(alloc, &numbers, reps).unwrap_or(0)
}

/// Writes a list of numbers whose length is told, element by element.
#[unsafe(no_mangle)]
pub extern "C" fn bench_encode_counted(alloc: Global, numbers: &[u32], reps: u32) -> usize {
    let mut se = Serializer::new(alloc, Vec::new(alloc));
    for _ in 0..reps {
        se.get_mut().clear();
        if write_counted(&mut se, numbers).is_err() {
            return 0;
        }
    }
    se.get_ref().len()
}

/// Writes a list of numbers whose length isn't told, element by element.
#[unsafe(no_mangle)]
pub extern "C" fn bench_encode_uncounted(alloc: Global, numbers: &[u32], reps: u32) -> usize {
    let mut se = Serializer::new(alloc, Vec::new(alloc));
    for _ in 0..reps {
        se.get_mut().clear();
        if write_uncounted(&mut se, numbers).is_err() {
            return 0;
        }
    }
    se.get_ref().len()
}

/// Writes a list of numbers as a tuple, element by element.
#[unsafe(no_mangle)]
pub extern "C" fn bench_encode_tuple(alloc: Global, numbers: &[u32], reps: u32) -> usize {
    let mut se = Serializer::new(alloc, Vec::new(alloc));
    for _ in 0..reps {
        se.get_mut().clear();
        if write_tuple(&mut se, numbers).is_err() {
            return 0;
        }
    }
    se.get_ref().len()
}

/// Writes a list of numbers by the calls of single values, after its head.
#[unsafe(no_mangle)]
pub extern "C" fn bench_encode_values(alloc: Global, numbers: &[u32], reps: u32) -> usize {
    let mut se = Serializer::new(alloc, Vec::new(alloc));
    for _ in 0..reps {
        se.get_mut().clear();
        if write_values(&mut se, numbers).is_err() {
            return 0;
        }
    }
    se.get_ref().len()
}

/// Writes a list of numbers by the wire's calls alone: its head, and each number.
#[unsafe(no_mangle)]
pub extern "C" fn bench_encode_wire(alloc: Global, numbers: &[u32], reps: u32) -> usize {
    let mut out = Vec::new(alloc);
    for _ in 0..reps {
        out.clear();
        if write_wire(&mut out, numbers).is_err() {
            return 0;
        }
    }
    out.len()
}

/// Writes a list of lists of ten numbers each.
#[unsafe(no_mangle)]
pub extern "C" fn bench_encode_rows(alloc: Global, numbers: &[u32], reps: u32) -> usize {
    let Ok(rows) = rows_of(alloc, numbers) else {
        return 0;
    };
    rounds(alloc, &rows, reps).unwrap_or(0)
}

fn rows_of(alloc: Global, numbers: &[u32]) -> Result<Vec<Vec<u32>>, AllocError> {
    let mut rows = Vec::new(alloc);
    for row in numbers.chunks_exact(10) {
        rows.push(row.to_vec(alloc)?)?;
    }
    Ok(rows)
}

/// Writes a list of texts of ten bytes, which are one after the other in `data`.
#[unsafe(no_mangle)]
pub extern "C" fn bench_encode_texts(alloc: Global, data: &[u8], reps: u32) -> usize {
    let Ok(texts) = texts_of(alloc, data) else {
        return 0;
    };
    rounds(alloc, &texts, reps).unwrap_or(0)
}

// The text of these bytes, or none where they are no text.
fn text_of(alloc: Global, bytes: &[u8]) -> Result<String, AllocError> {
    String::from_str(alloc, str::from_utf8(bytes).unwrap_or(""))
}

fn texts_of(alloc: Global, data: &[u8]) -> Result<Vec<String>, AllocError> {
    let mut texts = Vec::new(alloc);
    for bytes in data.chunks_exact(10) {
        texts.push(text_of(alloc, bytes)?)?;
    }
    Ok(texts)
}

/// Writes a list of tuple structs, each of a text of ten bytes and a number of 16 bits, which are one after the other in
/// `data`.
#[unsafe(no_mangle)]
pub extern "C" fn bench_encode_entries(alloc: Global, data: &[u8], reps: u32) -> usize {
    let Ok(entries) = entries_of(alloc, data) else {
        return 0;
    };
    rounds(alloc, &entries, reps).unwrap_or(0)
}

fn entries_of(alloc: Global, data: &[u8]) -> Result<Vec<Entry>, AllocError> {
    let mut entries = Vec::new(alloc);
    for bytes in data.chunks_exact(12) {
        let (name, number) = bytes.split_at(10);
        let number = u16::from(number[0]) << 8 | u16::from(number[1]);
        entries.push(Entry(text_of(alloc, name)?, number))?;
    }
    Ok(entries)
}

/// Writes bytes.
#[unsafe(no_mangle)]
pub extern "C" fn bench_encode_bytes(alloc: Global, data: &[u8], reps: u32) -> usize {
    rounds(alloc, &Bytes::new(data), reps).unwrap_or(0)
}

/// Writes the message that `data` spells, as a value of any kind.
#[unsafe(no_mangle)]
pub extern "C" fn bench_encode_value(alloc: Global, data: &[u8], reps: u32) -> usize {
    let Ok(value) = from_slice::<Value>(alloc, data) else {
        return 0;
    };
    rounds(alloc, &value, reps).unwrap_or(0)
}
