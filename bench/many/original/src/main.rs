//! Measures the same loads over the original, the crate rmp-serde, written as bench/libraries/bench_many is.

use many::{
    Color, Counted, Eight, Either, Five, Flag, Id, Maybe, Newt, Nine, Outer, Point, Record,
    Request, Shape, Struv, Tree, Tup, Unit, Vec3,
};
use rmp_serde::encode::{write, write_named};
use rmp_serde::from_slice;
use serde::{Deserialize, Serialize};
use serde_bytes::ByteBuf;
use std::collections::{BTreeMap, BTreeSet, VecDeque};
use std::hint::black_box;

#[path = "../../loads.rs"]
mod loads;
#[path = "../../../types/many.rs"]
mod many;

macro_rules! leaves {
    ($($name:literal $kind:ty),* $(,)?) => {
        vec![$(
            (concat!("many_read_", $name), reads::<$kind> as loads::OfBytes),
            (concat!("many_write_", $name), writes::<$kind> as loads::OfBytes),
        )*]
    };
}

macro_rules! named {
    ($($name:literal $kind:ty),* $(,)?) => {
        vec![$(
            (concat!("many_read_", $name), reads::<$kind> as loads::OfBytes),
            (concat!("many_write_", $name), writes::<$kind> as loads::OfBytes),
            (concat!("many_named_", $name), writes_named::<$kind> as loads::OfBytes),
        )*]
    };
}

fn main() {
    let leaves = leaves![
        "u8" u8,
        "u32" u32,
        "i64" i64,
        "f64" f64,
        "bool" bool,
        "char" char,
        "nil" (),
        "text" String,
        "bytebuf" ByteBuf,
        "option" Option<u32>,
        "opttext" Option<String>,
        "list" Vec<u32>,
        "texts" Vec<String>,
        "bytes" Vec<u8>,
        "array" [u32; 4],
        "pair" (u32, bool),
        "triple" (u32, u32, u32),
        "textnum" (String, u32),
        "map" BTreeMap<u32, u32>,
        "tmap" BTreeMap<String, u32>,
        "set" BTreeSet<u32>,
        "queue" VecDeque<u32>,
        "boxed" Box<u32>,
    ];
    let named = named![
        "unit" Unit,
        "id" Id,
        "tup" Tup,
        "flag" Flag,
        "point" Point,
        "vec3" Vec3,
        "maybe" Maybe,
        "five" Five,
        "eight" Eight,
        "nine" Nine,
        "outer" Outer,
        "counted" Counted,
        "record" Record,
        "tree" Tree,
        "color" Color,
        "either" Either,
        "shape" Shape,
        "newt" Newt,
        "struv" Struv,
        "request" Request,
    ];
    loads::main(&loads::Calls([leaves, named].concat()));
}

#[inline(never)]
fn reads<T: for<'de> Deserialize<'de>>(data: &[u8], reps: u32) -> usize {
    let mut sum: usize = 0;
    for _ in 0..reps {
        if let Ok(items) = from_slice::<Vec<T>>(black_box(data)) {
            sum = sum.wrapping_add(black_box(&items).len());
        }
    }
    sum
}

#[inline(never)]
fn writes<T: for<'de> Deserialize<'de> + Serialize>(data: &[u8], reps: u32) -> usize {
    let Ok(items) = from_slice::<Vec<T>>(data) else {
        return 0;
    };
    let mut out = Vec::new();
    for _ in 0..reps {
        out.clear();
        if write(&mut out, black_box(&items)).is_err() {
            return 0;
        }
    }
    out.len()
}

#[inline(never)]
fn writes_named<T: for<'de> Deserialize<'de> + Serialize>(data: &[u8], reps: u32) -> usize {
    let Ok(items) = from_slice::<Vec<T>>(data) else {
        return 0;
    };
    let mut out = Vec::new();
    for _ in 0..reps {
        out.clear();
        if write_named(&mut out, black_box(&items)).is_err() {
            return 0;
        }
    }
    out.len()
}
