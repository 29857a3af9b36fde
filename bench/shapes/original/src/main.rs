//! Measures the same loads over the original, the crate rmp-serde, written as bench/libraries/bench_shapes is.

use derived::{Dog, Four};
use rmp_serde::config::BytesMode;
use rmp_serde::{Raw, Serializer, from_slice};
use serde::de::IgnoredAny;
use serde::{Deserialize, Serialize};
use serde_bytes::{ByteBuf, Bytes};
use std::collections::{BTreeMap, BTreeSet, VecDeque};
use std::hint::black_box;
use std::io::{BufReader, Cursor};
use structs::{EightFields, Five, Shape, Twelve, Two};
use value::Value;

#[path = "../../../types/derived.rs"]
mod derived;
#[path = "../../loads.rs"]
mod loads;
#[path = "../../../types/structs.rs"]
mod structs;
#[path = "../../../types/value.rs"]
mod value;

#[derive(Deserialize)]
#[serde(rename = "_ExtStruct")]
#[expect(dead_code)]
struct Ext((i8, ByteBuf));

#[derive(Deserialize)]
struct Nothing;

#[derive(Deserialize, Serialize)]
struct Papers {
    number: u64,
    name: String,
    born: u16,
    chip: Option<u64>,
    mother: Option<u64>,
    father: Option<u64>,
    weight: u8,
    height: i8,
    vaccinated: bool,
}

macro_rules! of_types {
    ($($name:literal $kind:ty),* $(,)?) => {
        vec![$((concat!("bench_read_", $name), reads::<$kind> as loads::OfBytes)),*]
    };
}

macro_rules! written_types {
    ($($name:literal $kind:ty),* $(,)?) => {
        vec![$((concat!("bench_write_", $name), writes::<$kind> as loads::OfBytes)),*]
    };
}

/// A call by its name.
type Named = (&'static str, loads::OfBytes);

fn reading() -> Vec<Named> {
    of_types![
        "two" Two,
        "five" Five,
        "eight" EightFields,
        "twelve" Twelve,
        "shape" Shape,
        "option" Option<u32>,
        "bytes" Vec<u8>,
        "queue" VecDeque<u8>,
        "buffer" ByteBuf,
        "text" String,
        "char" char,
        "i16" i16,
        "i64" i64,
        "f64" f64,
        "bool" bool,
        "map" BTreeMap<u32, u32>,
        "named_map" BTreeMap<String, u32>,
        "u128" u128,
        "nil" (),
        "pair" (u32, bool),
        "triple" (u32, u32, u32),
        "nested" Vec<u32>,
        "set" BTreeSet<u32>,
        "array" [u8; 32],
        "ext" Ext,
        "raw" Raw,
        "rows" Vec<Vec<u32>>,
        "texts" Vec<String>,
        "option_text" Option<String>,
        "quad" (u8, u8, u8, u8),
        "nothing" Nothing,
        "boxed" Box<u64>,
        "four" [u16; 4],
        "value" Value,
    ]
}

fn writing() -> Vec<Named> {
    written_types![
        "nil" (),
        "bool" bool,
        "u32" u32,
        "u64" u64,
        "i64" i64,
        "u128" u128,
        "f32" f32,
        "f64" f64,
        "char" char,
        "text" String,
        "buffer" ByteBuf,
        "bytes" Vec<u8>,
        "option" Option<u32>,
        "nested" Vec<Vec<u32>>,
        "map" BTreeMap<u32, u32>,
        "named_map" BTreeMap<String, u32>,
        "tuple" (u32, bool),
        "dog" Dog,
        "papers" Papers,
        "four" Four,
    ]
}

/// What isn't a list that is read as a vector, or written as it was read.
const OTHERS: [Named; 19] = [
    ("bench_write_dog_named", writes_named::<Dog>),
    ("bench_write_papers_named", writes_named::<Papers>),
    ("bench_write_four_named", writes_named::<Four>),
    ("bench_write_iterables", |data, reps| {
        writes_bytes(data, reps, BytesMode::ForceIterables)
    }),
    ("bench_write_forced", |data, reps| {
        writes_bytes(data, reps, BytesMode::ForceAll)
    }),
    ("bench_refuse_byte", refusals::<u8>),
    ("bench_refuse_numbers", refusals::<Vec<u64>>),
    ("bench_refuse_two", refusals::<Two>),
    ("bench_cursor_two", cursor_two),
    ("bench_read_lent_bytes", read_lent_bytes),
    ("bench_read_str", read_str),
    ("bench_skip", skip),
    ("bench_cursor_buffers", cursor_reads::<ByteBuf>),
    ("bench_cursor_numbers", cursor_reads::<u32>),
    ("bench_cursor_texts", cursor_reads::<String>),
    ("bench_ahead_numbers", buffered_reads::<u32>),
    ("bench_ahead_texts", buffered_reads::<String>),
    ("bench_buffered_numbers", buffered_reads::<u32>),
    ("bench_buffered_texts", buffered_reads::<String>),
];

fn main() {
    loads::main(&loads::Calls(
        [reading(), writing(), OTHERS.to_vec()].concat(),
    ));
}

#[inline(never)]
fn reads<T: for<'de> Deserialize<'de>>(data: &[u8], reps: u32) -> usize {
    let mut sum: usize = 0;
    for _ in 0..reps {
        if let Ok(items) = from_slice::<Vec<T>>(data) {
            sum = sum.wrapping_add(items.len());
        }
    }
    sum
}

#[inline(never)]
fn read_str(data: &[u8], reps: u32) -> usize {
    let mut sum: usize = 0;
    for _ in 0..reps {
        if let Ok(items) = from_slice::<Vec<&str>>(data) {
            sum = sum.wrapping_add(items.len());
        }
    }
    sum
}

#[inline(never)]
fn read_lent_bytes(data: &[u8], reps: u32) -> usize {
    let mut sum: usize = 0;
    for _ in 0..reps {
        if let Ok(items) = from_slice::<Vec<&Bytes>>(data) {
            sum = sum.wrapping_add(items.len());
        }
    }
    sum
}

#[inline(never)]
fn refusals<T: for<'de> Deserialize<'de>>(data: &[u8], reps: u32) -> usize {
    let mut sum: usize = 0;
    for _ in 0..reps {
        if from_slice::<T>(black_box(data)).is_err() {
            sum = sum.wrapping_add(1);
        }
    }
    sum
}

#[inline(never)]
fn cursor_two(data: &[u8], reps: u32) -> usize {
    let mut sum: usize = 0;
    for _ in 0..reps {
        if rmp_serde::from_read::<_, Two>(Cursor::new(black_box(data))).is_ok() {
            sum = sum.wrapping_add(1);
        }
    }
    sum
}

#[inline(never)]
fn skip(data: &[u8], reps: u32) -> usize {
    let mut sum: usize = 0;
    for _ in 0..reps {
        if from_slice::<IgnoredAny>(data).is_ok() {
            sum = sum.wrapping_add(1);
        }
    }
    sum
}

#[inline(never)]
fn cursor_reads<T: for<'de> Deserialize<'de>>(data: &[u8], reps: u32) -> usize {
    let mut sum: usize = 0;
    for _ in 0..reps {
        if let Ok(items) = rmp_serde::from_read::<_, Vec<T>>(Cursor::new(data)) {
            sum = sum.wrapping_add(items.len());
        }
    }
    sum
}

#[inline(never)]
fn buffered_reads<T: for<'de> Deserialize<'de>>(data: &[u8], reps: u32) -> usize {
    let mut sum: usize = 0;
    for _ in 0..reps {
        if let Ok(items) = rmp_serde::from_read::<_, Vec<T>>(BufReader::new(Cursor::new(data))) {
            sum = sum.wrapping_add(items.len());
        }
    }
    sum
}

#[inline(never)]
fn writes<T: for<'de> Deserialize<'de> + Serialize>(data: &[u8], reps: u32) -> usize {
    let Ok(items) = from_slice::<Vec<T>>(data) else {
        return 0;
    };
    let mut out = Vec::new();
    for _ in 0..reps {
        out.clear();
        if rmp_serde::encode::write(&mut out, &items).is_err() {
            return 0;
        }
    }
    out.len()
}

#[inline(never)]
fn writes_named<T: for<'de> Deserialize<'de> + Serialize>(data: &[u8], reps: u32) -> usize {
    let Ok(items) = from_slice::<Vec<T>>(data) else {
        return 0;
    };
    let mut out = Vec::new();
    for _ in 0..reps {
        out.clear();
        if rmp_serde::encode::write_named(&mut out, &items).is_err() {
            return 0;
        }
    }
    out.len()
}

#[inline(never)]
fn writes_bytes(data: &[u8], reps: u32, mode: BytesMode) -> usize {
    let Ok(items) = from_slice::<Vec<Vec<u8>>>(data) else {
        return 0;
    };
    let mut se = Serializer::new(Vec::new()).with_bytes(mode);
    for _ in 0..reps {
        se.get_mut().clear();
        if items.serialize(&mut se).is_err() {
            return 0;
        }
    }
    se.get_ref().len()
}
