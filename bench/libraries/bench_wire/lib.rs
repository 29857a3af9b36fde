//! Loads for a timer: numbers and texts that are written over and over, and heads that are read back.
//!
//! Each export goes `reps` times over the same input, and answers something that all of its work goes into. Nothing but
//! the program under bench/ calls them.
#![tactic(auto)]

ghost use Rattle.std.specs.Prelude.{◌<◌, ◌^◌, string_len};

use rmp_wire::{Head, ValueWriteError, next_head, write_str, write_uint};
use std::alloc::Global;

/// A text that is short enough for a head.
#[derive(Drop)]
struct Word {
    text: String,
    ghost short: { string_len text < 2 ^ 32 },
}

impl Word {
    /// The text of these bytes, or `None` where they are none, or too long, or where memory is refused.
    fn new(alloc: Global, bytes: &[u8]) -> Option<Word> {
        let text = str::from_utf8(bytes).ok()?;
        if text.len() >= 1 << 32 {
            return None;
        }
        let text = String::from_str(alloc, text).ok()?;
        Some(Word { text })
    }
}

/// Writes each number `reps` times over into one buffer, which is emptied before each round, and answers the bytes of the
/// last round. 0 where memory is refused.
#[unsafe(no_mangle)]
pub extern "C" fn bench_write_uints(alloc: Global, numbers: &[u64], reps: u32) -> usize {
    let mut out = Vec::new(alloc);
    for _ in 0..reps {
        out.clear();
        if write_uints(&mut out, numbers).is_err() {
            return 0;
        }
    }
    out.len()
}

fn write_uints(out: &mut Vec<u8>, numbers: &[u64]) -> Result<(), ValueWriteError> {
    for n in numbers {
        write_uint(out, *n)?;
    }
    Ok(())
}

/// Writes texts of ten bytes, which are one after the other in `data`, as `bench_write_uints` writes numbers. 0 also
/// where ten of the bytes are no text.
#[unsafe(no_mangle)]
pub extern "C" fn bench_write_texts(alloc: Global, data: &[u8], reps: u32) -> usize {
    let Some(words) = words_of(alloc, data) else {
        return 0;
    };
    let mut out = Vec::new(alloc);
    for _ in 0..reps {
        out.clear();
        if write_words(&mut out, &words).is_err() {
            return 0;
        }
    }
    out.len()
}

fn words_of(alloc: Global, data: &[u8]) -> Option<Vec<Word>> {
    let mut words = Vec::new(alloc);
    for bytes in data.chunks_exact(10) {
        words.push(Word::new(alloc, bytes)?).ok()?;
    }
    Some(words)
}

fn write_words(out: &mut Vec<u8>, words: &[Word]) -> Result<(), ValueWriteError> {
    for word in words {
        write_str(out, &word.text)?;
    }
    Ok(())
}

/// Reads the heads that `data` is made of, `reps` times over, and answers the sum of what they say, modulo 2 ^ 64. A round
/// ends where no head can be read.
#[unsafe(no_mangle)]
pub extern "C" fn bench_read_heads(data: &[u8], reps: u32) -> u64 {
    let mut sum = 0;
    for _ in 0..reps {
        sum = read_heads(data, sum);
    }
    sum
}

// The sum goes in and out, so that no round is the same work as the one before it.
fn read_heads(data: &[u8], mut sum: u64) -> u64 {
    let mut rest = data;
    for _ in 0..data.len() {
        let Ok((_, head)) = next_head(&mut rest) else {
            return sum;
        };
        sum = sum.wrapping_add(number_said(head));
    }
    sum
}

// The number, the bits or the length that a head says, with a type added to it, modulo 2 ^ 64.
fn number_said(head: Head) -> u64 {
    match head {
        Head::Nil => 0,
        Head::Truth(b) => u64::from(b),
        Head::Whole(n) => (n.cast_unsigned() % (1 << 64)) as u64,
        Head::F32Bits(n) | Head::Text(n) | Head::Bin(n) | Head::Array(n) | Head::Map(n) =>
            u64::from(n),
        Head::F64Bits(bits) => bits,
        Head::Ext(n, tag) => u64::from(n) + u64::from(tag.cast_unsigned()),
    }
}
