//! Measures the same loads over the original, the crate rmp-serde, written as bench/libraries are.
//!
//! It has no scanner: what arrives in pieces is skipped from a reader that gives a piece at a time.

use rmp_serde::{from_read, from_slice};
use serde::de::IgnoredAny;
use serde::{Deserialize, Serialize};
use std::hint::black_box;
use std::io::{self, Read};

#[path = "../../loads.rs"]
mod loads;
#[path = "../../../types/value.rs"]
mod value;

use value::Value;

fn main() {
    let calls: Vec<(&str, loads::OfBytes)> = vec![
        ("bench_read_f64", reads::<f64>),
        ("bench_read_i64", reads::<i64>),
        ("bench_refuse_byte", refusals),
        ("bench_skip", skip),
        ("bench_write_f64", writes::<f64>),
        ("bench_write_i64", writes::<i64>),
        ("bench_write_u64", writes::<u64>),
        ("pieces_of_1", in_pieces::<1>),
        ("pieces_of_1460", in_pieces::<1460>),
        ("pieces_of_64", in_pieces::<64>),
        ("pieces_walk", walks),
        ("pieces_walk_texts", walks_texts),
        ("once_read_number", |data, reps| once_read::<u32>(data, 5, reps)),
        ("once_write_number", |data, reps| once_write::<u32>(data, 5, reps)),
        ("once_read_text", |data, reps| once_read::<String>(data, 11, reps)),
        ("once_write_text", |data, reps| once_write::<String>(data, 11, reps)),
        ("once_read_row", |data, reps| once_read::<Vec<u32>>(data, 4, reps)),
        ("once_write_row", |data, reps| once_write::<Vec<u32>>(data, 4, reps)),
        ("chain_read", |data, reps| once_read::<Chain>(data, data.len(), reps)),
        ("chain_write", |data, reps| once_write::<Chain>(data, data.len(), reps)),
        ("chain_write_named", chain_write_named),
        ("expression_read", |data, reps| once_read::<Expr>(data, data.len(), reps)),
        ("expression_write", |data, reps| once_write::<Expr>(data, data.len(), reps)),
    ];
    loads::main(&loads::Calls(calls));
}

#[inline(never)]
fn reads<T: for<'de> Deserialize<'de>>(data: &[u8], reps: u32) -> usize {
    let mut sum: usize = 0;
    for _ in 0..reps {
        if let Ok(items) = from_slice::<Vec<T>>(data) {
            sum = sum.wrapping_add(items.len());
        }
    }
    sum
}

#[inline(never)]
fn writes<T: for<'de> Deserialize<'de> + Serialize>(data: &[u8], reps: u32) -> usize {
    let items = from_slice::<Vec<T>>(data).expect("a list");
    let mut out = Vec::new();
    for _ in 0..reps {
        out.clear();
        if rmp_serde::encode::write(&mut out, &items).is_err() {
            return 0;
        }
    }
    out.len()
}

#[inline(never)]
fn refusals(data: &[u8], reps: u32) -> usize {
    let mut sum: usize = 0;
    for _ in 0..reps {
        if from_slice::<u8>(black_box(data)).is_err() {
            sum = sum.wrapping_add(1);
        }
    }
    sum
}

#[inline(never)]
fn skip(data: &[u8], reps: u32) -> usize {
    let mut sum: usize = 0;
    for _ in 0..reps {
        if from_slice::<IgnoredAny>(data).is_ok() {
            sum = sum.wrapping_add(1);
        }
    }
    sum
}

/// A reader that gives a piece at a time.
struct Pieces<'a, const SIZE: usize>(&'a [u8]);

impl<const SIZE: usize> Read for Pieces<'_, SIZE> {
    #[inline]
    fn read(&mut self, out: &mut [u8]) -> io::Result<usize> {
        let len = out.len().min(SIZE).min(self.0.len());
        let (piece, rest) = self.0.split_at(len);
        out[..len].copy_from_slice(piece);
        self.0 = rest;
        Ok(len)
    }
}

#[inline(never)]
fn in_pieces<const SIZE: usize>(data: &[u8], reps: u32) -> usize {
    let mut sum: usize = 0;
    for _ in 0..reps {
        if from_read::<_, IgnoredAny>(Pieces::<SIZE>(data)).is_ok() {
            sum = sum.wrapping_add(1);
        }
    }
    sum
}

/// This and the numbers of a list of lists.
#[inline(never)]
fn sum_of_rows(value: &Value, before: u64) -> u64 {
    let mut sum = before;
    let Value::List(rows) = value else {
        return sum;
    };
    for row in rows {
        if let Value::List(items) = row {
            for item in items {
                if let Value::Whole(n) = item {
                    sum = sum.wrapping_add(*n);
                }
            }
        }
    }
    sum
}

#[inline(never)]
fn walks(data: &[u8], reps: u32) -> usize {
    let value = from_slice::<Value>(data).expect("a message");
    let mut sum: u64 = 0;
    for _ in 0..reps {
        sum = sum_of_rows(&value, sum);
    }
    sum as usize
}

/// This and the lengths of the texts of a list of lists.
#[inline(never)]
fn lengths_of_rows(value: &Value, before: usize) -> usize {
    let mut sum = before;
    let Value::List(rows) = value else {
        return sum;
    };
    for row in rows {
        if let Value::List(items) = row {
            for item in items {
                if let Value::Text(text) = item {
                    sum = sum.wrapping_add(text.len());
                }
            }
        }
    }
    sum
}

#[inline(never)]
fn walks_texts(data: &[u8], reps: u32) -> usize {
    let value = from_slice::<Value>(data).expect("a message");
    let mut sum: usize = 0;
    for _ in 0..reps {
        sum = lengths_of_rows(&value, sum);
    }
    sum
}

/// A number, and the next one.
#[derive(Deserialize, Serialize)]
struct Chain {
    at: u32,
    next: Option<Box<Chain>>,
}

/// An expression over numbers.
#[derive(Deserialize, Serialize)]
enum Expr {
    Number(u32),
    Negated(Box<Expr>),
    Sum(Box<Expr>, Box<Expr>),
}

/// Reads messages of this length, each by a call of its own.
#[inline(never)]
fn once_read<T: for<'de> Deserialize<'de>>(data: &[u8], size: usize, reps: u32) -> usize {
    let mut sum: usize = 0;
    for _ in 0..reps {
        for message in data.chunks(size) {
            if from_slice::<T>(message).is_ok() {
                sum = sum.wrapping_add(1);
            }
        }
    }
    sum
}

/// The values of messages of this length.
fn values<T: for<'de> Deserialize<'de>>(data: &[u8], size: usize) -> Vec<T> {
    let read = |message| from_slice::<T>(message).expect("a value");
    data.chunks(size).map(read).collect()
}

/// Writes them, each by a call of its own.
#[inline(never)]
fn once_write<T: for<'de> Deserialize<'de> + Serialize>(
    data: &[u8],
    size: usize,
    reps: u32,
) -> usize {
    let items: Vec<T> = values(data, size);
    let mut sum: usize = 0;
    for _ in 0..reps {
        sum = 0;
        for item in &items {
            if let Ok(bytes) = rmp_serde::to_vec(item) {
                sum = sum.wrapping_add(bytes.len());
            }
        }
    }
    sum
}

#[inline(never)]
fn chain_write_named(data: &[u8], reps: u32) -> usize {
    let items: Vec<Chain> = values(data, data.len());
    let mut sum: usize = 0;
    for _ in 0..reps {
        sum = 0;
        for item in &items {
            if let Ok(bytes) = rmp_serde::to_vec_named(item) {
                sum = sum.wrapping_add(bytes.len());
            }
        }
    }
    sum
}
