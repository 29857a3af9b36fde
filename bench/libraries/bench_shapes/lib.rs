//! Loads for a timer: values of many types, read and written over and over.
//!
//! Each export reads a list `reps` times, drops what it has read, and answers how many elements all the rounds came to; or it
//! reads the list once, writes it `reps` times, and answers the bytes of the last round. A round that is refused counts none.
//! Nothing but the program under bench/ calls them.
#![tactic(auto)]

mod shapes;

use rmp_decode::{Deserialize, Deserializer, Error, from_read, from_slice};
use rmp_serde::{Raw, Value};
use rmp_wire::{AheadSource, BufSource, ByteBuf, Ext, F64Bits, ReadReader, ReadRefReader};
use shapes::{EightFields, Five, Nothing, Shape, Twelve, Two};
use std::alloc::Global;
use std::collections::{BTreeMap, BTreeSet, VecDeque};
use std::io::{BufReader, Cursor};

// Reads a list so many times.
#[inline(always)]
fn reads<'de, T: Deserialize<'de, ReadRefReader<'de>>>(
    alloc: Global,
    data: &'de [u8],
    reps: u32,
) -> usize {
    let mut sum: usize = 0;
    for _ in 0..reps {
        let read: Result<Vec<T>, Error> = from_slice(alloc, data);
        if let Ok(items) = read {
            sum = sum.wrapping_add(items.len());
        }
    }
    sum
}

/// Reads a list of structs of two fields.
#[unsafe(no_mangle)]
pub extern "C" fn bench_read_two(alloc: Global, data: &[u8], reps: u32) -> usize {
    reads::<Two>(alloc, data, reps)
}

/// Reads a list of structs of five fields.
#[unsafe(no_mangle)]
pub extern "C" fn bench_read_five(alloc: Global, data: &[u8], reps: u32) -> usize {
    reads::<Five>(alloc, data, reps)
}

/// Reads a list of structs of eight fields.
#[unsafe(no_mangle)]
pub extern "C" fn bench_read_eight(alloc: Global, data: &[u8], reps: u32) -> usize {
    reads::<EightFields>(alloc, data, reps)
}

/// Reads a list of structs of twelve fields.
#[unsafe(no_mangle)]
pub extern "C" fn bench_read_twelve(alloc: Global, data: &[u8], reps: u32) -> usize {
    reads::<Twelve>(alloc, data, reps)
}

/// Reads a list of variants of an enum.
#[unsafe(no_mangle)]
pub extern "C" fn bench_read_shape(alloc: Global, data: &[u8], reps: u32) -> usize {
    reads::<Shape>(alloc, data, reps)
}

/// Reads a list of numbers that may be nil.
#[unsafe(no_mangle)]
pub extern "C" fn bench_read_option(alloc: Global, data: &[u8], reps: u32) -> usize {
    reads::<Option<u32>>(alloc, data, reps)
}

/// Reads a list of bytes as vectors of numbers.
#[unsafe(no_mangle)]
pub extern "C" fn bench_read_bytes(alloc: Global, data: &[u8], reps: u32) -> usize {
    reads::<Vec<u8>>(alloc, data, reps)
}

/// Reads a list of bytes as queues of numbers.
#[unsafe(no_mangle)]
pub extern "C" fn bench_read_queue(alloc: Global, data: &[u8], reps: u32) -> usize {
    reads::<VecDeque<u8>>(alloc, data, reps)
}

/// Reads a list of bytes.
#[unsafe(no_mangle)]
pub extern "C" fn bench_read_buffer(alloc: Global, data: &[u8], reps: u32) -> usize {
    reads::<ByteBuf>(alloc, data, reps)
}

/// Reads a list of texts.
#[unsafe(no_mangle)]
pub extern "C" fn bench_read_text(alloc: Global, data: &[u8], reps: u32) -> usize {
    reads::<String>(alloc, data, reps)
}

/// Reads a list of texts that stay where they are.
#[unsafe(no_mangle)]
pub extern "C" fn bench_read_str(alloc: Global, data: &[u8], reps: u32) -> usize {
    reads::<&str>(alloc, data, reps)
}

/// Reads a list of characters.
#[unsafe(no_mangle)]
pub extern "C" fn bench_read_char(alloc: Global, data: &[u8], reps: u32) -> usize {
    reads::<char>(alloc, data, reps)
}

/// Reads a list of numbers with a sign.
#[unsafe(no_mangle)]
pub extern "C" fn bench_read_i64(alloc: Global, data: &[u8], reps: u32) -> usize {
    reads::<i64>(alloc, data, reps)
}

/// Reads a list of numbers of 16 bits with a sign.
#[unsafe(no_mangle)]
pub extern "C" fn bench_read_i16(alloc: Global, data: &[u8], reps: u32) -> usize {
    reads::<i16>(alloc, data, reps)
}

/// Reads a list of floats.
#[unsafe(no_mangle)]
pub extern "C" fn bench_read_f64(alloc: Global, data: &[u8], reps: u32) -> usize {
    reads::<F64Bits>(alloc, data, reps)
}

/// Reads a list of truths.
#[unsafe(no_mangle)]
pub extern "C" fn bench_read_bool(alloc: Global, data: &[u8], reps: u32) -> usize {
    reads::<bool>(alloc, data, reps)
}

/// Reads a list of maps of numbers.
#[unsafe(no_mangle)]
pub extern "C" fn bench_read_map(alloc: Global, data: &[u8], reps: u32) -> usize {
    reads::<BTreeMap<u32, u32>>(alloc, data, reps)
}

/// Reads a list of maps from texts.
#[unsafe(no_mangle)]
pub extern "C" fn bench_read_named_map(alloc: Global, data: &[u8], reps: u32) -> usize {
    reads::<BTreeMap<String, u32>>(alloc, data, reps)
}

/// Reads a list of numbers of 128 bits.
#[unsafe(no_mangle)]
pub extern "C" fn bench_read_u128(alloc: Global, data: &[u8], reps: u32) -> usize {
    reads::<u128>(alloc, data, reps)
}

/// Reads a list of nil.
#[unsafe(no_mangle)]
pub extern "C" fn bench_read_nil(alloc: Global, data: &[u8], reps: u32) -> usize {
    reads::<()>(alloc, data, reps)
}

/// Reads a list of pairs of a number and a truth.
#[unsafe(no_mangle)]
pub extern "C" fn bench_read_pair(alloc: Global, data: &[u8], reps: u32) -> usize {
    reads::<(u32, bool)>(alloc, data, reps)
}

/// Reads a list of triples of numbers.
#[unsafe(no_mangle)]
pub extern "C" fn bench_read_triple(alloc: Global, data: &[u8], reps: u32) -> usize {
    reads::<(u32, u32, u32)>(alloc, data, reps)
}

/// Reads a list of lists of numbers.
#[unsafe(no_mangle)]
pub extern "C" fn bench_read_nested(alloc: Global, data: &[u8], reps: u32) -> usize {
    reads::<Vec<u32>>(alloc, data, reps)
}

/// Reads a list of sets of numbers.
#[unsafe(no_mangle)]
pub extern "C" fn bench_read_set(alloc: Global, data: &[u8], reps: u32) -> usize {
    reads::<BTreeSet<u32>>(alloc, data, reps)
}

/// Reads a list of arrays of 32 bytes.
#[unsafe(no_mangle)]
pub extern "C" fn bench_read_array(alloc: Global, data: &[u8], reps: u32) -> usize {
    reads::<[u8; 32]>(alloc, data, reps)
}

/// Reads a list of extensions.
#[unsafe(no_mangle)]
pub extern "C" fn bench_read_ext(alloc: Global, data: &[u8], reps: u32) -> usize {
    reads::<Ext>(alloc, data, reps)
}

/// Reads a list of texts and bytes as they are encoded.
#[unsafe(no_mangle)]
pub extern "C" fn bench_read_raw(alloc: Global, data: &[u8], reps: u32) -> usize {
    reads::<Raw>(alloc, data, reps)
}

/// Reads a list of bytes that stay where they are.
#[unsafe(no_mangle)]
pub extern "C" fn bench_read_lent_bytes(alloc: Global, data: &[u8], reps: u32) -> usize {
    reads::<&[u8]>(alloc, data, reps)
}

/// Reads a list of lists of lists of numbers.
#[unsafe(no_mangle)]
pub extern "C" fn bench_read_rows(alloc: Global, data: &[u8], reps: u32) -> usize {
    reads::<Vec<Vec<u32>>>(alloc, data, reps)
}

/// Reads a list of lists of texts.
#[unsafe(no_mangle)]
pub extern "C" fn bench_read_texts(alloc: Global, data: &[u8], reps: u32) -> usize {
    reads::<Vec<String>>(alloc, data, reps)
}

/// Reads a list of texts that may be nil.
#[unsafe(no_mangle)]
pub extern "C" fn bench_read_option_text(alloc: Global, data: &[u8], reps: u32) -> usize {
    reads::<Option<String>>(alloc, data, reps)
}

/// Reads a list of tuples of four bytes.
#[unsafe(no_mangle)]
pub extern "C" fn bench_read_quad(alloc: Global, data: &[u8], reps: u32) -> usize {
    reads::<(u8, u8, u8, u8)>(alloc, data, reps)
}

/// Reads a list of structs without fields.
#[unsafe(no_mangle)]
pub extern "C" fn bench_read_nothing(alloc: Global, data: &[u8], reps: u32) -> usize {
    reads::<Nothing>(alloc, data, reps)
}

/// Reads a list of numbers in boxes.
#[unsafe(no_mangle)]
pub extern "C" fn bench_read_boxed(alloc: Global, data: &[u8], reps: u32) -> usize {
    reads::<Box<u64>>(alloc, data, reps)
}

/// Reads a list of arrays of four numbers.
#[unsafe(no_mangle)]
pub extern "C" fn bench_read_four(alloc: Global, data: &[u8], reps: u32) -> usize {
    reads::<[u16; 4]>(alloc, data, reps)
}

/// Reads a list of values of any kind.
#[unsafe(no_mangle)]
pub extern "C" fn bench_read_value(alloc: Global, data: &[u8], reps: u32) -> usize {
    reads::<Value>(alloc, data, reps)
}

// Reads a message that is refused so many times, and answers how often it was.
#[inline(always)]
fn refusals<'de, T: Deserialize<'de, ReadRefReader<'de>>>(
    alloc: Global,
    data: &'de [u8],
    reps: u32,
) -> usize {
    let mut sum: usize = 0;
    for _ in 0..reps {
        let read: Result<T, Error> = from_slice(alloc, data);
        if let Err(_error) = read {
            sum = sum.wrapping_add(1);
        }
    }
    sum
}

/// Reads what is no number of a byte.
#[unsafe(no_mangle)]
pub extern "C" fn bench_refuse_byte(alloc: Global, data: &[u8], reps: u32) -> usize {
    refusals::<u8>(alloc, data, reps)
}

/// Reads what is no list of numbers.
#[unsafe(no_mangle)]
pub extern "C" fn bench_refuse_numbers(alloc: Global, data: &[u8], reps: u32) -> usize {
    refusals::<Vec<u64>>(alloc, data, reps)
}

/// Reads what is no struct of two fields.
#[unsafe(no_mangle)]
pub extern "C" fn bench_refuse_two(alloc: Global, data: &[u8], reps: u32) -> usize {
    refusals::<Two>(alloc, data, reps)
}

/// Reads a struct of two fields from a cursor by one call.
#[unsafe(no_mangle)]
pub extern "C" fn bench_cursor_two(alloc: Global, data: &[u8], reps: u32) -> usize {
    let mut sum: usize = 0;
    for _ in 0..reps {
        let read: Result<Two, Error> = from_read(alloc, Cursor::new(data));
        if let Ok(_two) = read {
            sum = sum.wrapping_add(1);
        }
    }
    sum
}

/// Passes over a message, and answers how many were passed over.
#[unsafe(no_mangle)]
pub extern "C" fn bench_skip(alloc: Global, data: &[u8], reps: u32) -> usize {
    let mut sum: usize = 0;
    for _ in 0..reps {
        let mut de = Deserializer::from_read_ref(alloc, data);
        if let Ok(()) = de.deserialize_ignored_any() {
            sum = sum.wrapping_add(1);
        }
    }
    sum
}

// Reads a list from a cursor so many times.
#[inline(always)]
fn cursor_reads<'de, T: Deserialize<'de, ReadReader<Cursor<&'de [u8]>>>>(
    alloc: Global,
    data: &'de [u8],
    reps: u32,
) -> usize {
    let mut sum: usize = 0;
    for _ in 0..reps {
        let mut de = Deserializer::new(alloc, Cursor::new(data));
        let read: Result<Vec<T>, Error> = Deserialize::deserialize(&mut de);
        if let Ok(items) = read {
            sum = sum.wrapping_add(items.len());
        }
    }
    sum
}

/// Reads a list of numbers from a cursor.
#[unsafe(no_mangle)]
pub extern "C" fn bench_cursor_numbers(alloc: Global, data: &[u8], reps: u32) -> usize {
    cursor_reads::<u32>(alloc, data, reps)
}

/// Reads a list of texts from a cursor.
#[unsafe(no_mangle)]
pub extern "C" fn bench_cursor_texts(alloc: Global, data: &[u8], reps: u32) -> usize {
    cursor_reads::<String>(alloc, data, reps)
}

/// Reads a list of bytes from a cursor.
#[unsafe(no_mangle)]
pub extern "C" fn bench_cursor_buffers(alloc: Global, data: &[u8], reps: u32) -> usize {
    cursor_reads::<ByteBuf>(alloc, data, reps)
}

// Reads a list from a reader with a buffer so many times.
#[inline(always)]
fn buffered_reads<'de, T: Deserialize<'de, ReadReader<BufSource<Cursor<&'de [u8]>>>>>(
    alloc: Global,
    data: &'de [u8],
    reps: u32,
) -> usize {
    let mut sum: usize = 0;
    for _ in 0..reps {
        let Ok(reader) = BufReader::new(alloc, Cursor::new(data)) else {
            return sum;
        };
        let mut de = Deserializer::new(alloc, BufSource::new(reader));
        let read: Result<Vec<T>, Error> = Deserialize::deserialize(&mut de);
        if let Ok(items) = read {
            sum = sum.wrapping_add(items.len());
        }
    }
    sum
}

/// Reads a list of numbers from a reader with a buffer.
#[unsafe(no_mangle)]
pub extern "C" fn bench_buffered_numbers(alloc: Global, data: &[u8], reps: u32) -> usize {
    buffered_reads::<u32>(alloc, data, reps)
}

/// Reads a list of texts from a reader with a buffer.
#[unsafe(no_mangle)]
pub extern "C" fn bench_buffered_texts(alloc: Global, data: &[u8], reps: u32) -> usize {
    buffered_reads::<String>(alloc, data, reps)
}

// Reads a list from a reader that is read ahead so many times.
#[inline(always)]
fn ahead_reads<'de, T: Deserialize<'de, ReadReader<AheadSource<Cursor<&'de [u8]>>>>>(
    alloc: Global,
    data: &'de [u8],
    reps: u32,
) -> usize {
    let mut sum: usize = 0;
    for _ in 0..reps {
        let mut de = Deserializer::new(alloc, AheadSource::new(alloc, Cursor::new(data)));
        let read: Result<Vec<T>, Error> = Deserialize::deserialize(&mut de);
        if let Ok(items) = read {
            sum = sum.wrapping_add(items.len());
        }
    }
    sum
}

/// Reads a list of numbers from a reader that is read ahead.
#[unsafe(no_mangle)]
pub extern "C" fn bench_ahead_numbers(alloc: Global, data: &[u8], reps: u32) -> usize {
    ahead_reads::<u32>(alloc, data, reps)
}

/// Reads a list of texts from a reader that is read ahead.
#[unsafe(no_mangle)]
pub extern "C" fn bench_ahead_texts(alloc: Global, data: &[u8], reps: u32) -> usize {
    ahead_reads::<String>(alloc, data, reps)
}
