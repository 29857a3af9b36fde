//! The reads of lists that bench/libraries/bench_shapes has, by the original: how many elements a list has, or none where it is refused.

use rmp_serde::{from_read, from_slice};
use serde::de::{DeserializeOwned, IgnoredAny};
use serde_bytes::ByteBuf;
use std::collections::{BTreeMap, VecDeque};
use std::io::{BufReader, Cursor};
use structs::{EightFields, Five, Shape, Twelve, Two};

#[path = "../types/structs.rs"]
mod structs;

fn of_slice<T: DeserializeOwned>(bytes: &[u8]) -> usize {
    from_slice::<Vec<T>>(bytes).map_or(0, |items| items.len())
}

fn of_cursor<T: DeserializeOwned>(bytes: &[u8]) -> usize {
    from_read::<_, Vec<T>>(Cursor::new(bytes)).map_or(0, |items| items.len())
}

fn of_buffer<T: DeserializeOwned>(bytes: &[u8]) -> usize {
    from_read::<_, Vec<T>>(BufReader::new(Cursor::new(bytes))).map_or(0, |items| items.len())
}

fn of_lent_texts(bytes: &[u8]) -> usize {
    from_slice::<Vec<&str>>(bytes).map_or(0, |items| items.len())
}

/// The list's length by the read of this name.
pub fn length(name: &str, bytes: &[u8]) -> usize {
    let read = match name {
        "bench_buffered_numbers" => of_buffer::<u32>,
        "bench_buffered_texts" => of_buffer::<String>,
        "bench_cursor_numbers" => of_cursor::<u32>,
        "bench_cursor_texts" => of_cursor::<String>,
        "bench_read_bool" => of_slice::<bool>,
        "bench_read_buffer" => of_slice::<ByteBuf>,
        "bench_read_bytes" => of_slice::<Vec<u8>>,
        "bench_read_char" => of_slice::<char>,
        "bench_read_eight" => of_slice::<EightFields>,
        "bench_read_f64" => of_slice::<f64>,
        "bench_read_five" => of_slice::<Five>,
        "bench_read_i64" => of_slice::<i64>,
        "bench_read_map" => of_slice::<BTreeMap<u32, u32>>,
        "bench_read_named_map" => of_slice::<BTreeMap<String, u32>>,
        "bench_read_option" => of_slice::<Option<u32>>,
        "bench_read_queue" => of_slice::<VecDeque<u8>>,
        "bench_read_shape" => of_slice::<Shape>,
        "bench_read_str" => of_lent_texts,
        "bench_read_text" => of_slice::<String>,
        "bench_read_twelve" => of_slice::<Twelve>,
        "bench_read_two" => of_slice::<Two>,
        "bench_read_u128" => of_slice::<u128>,
        "bench_skip" => |bytes: &[u8]| usize::from(from_slice::<IgnoredAny>(bytes).is_ok()),
        _ => unreachable!("a read of this name"),
    };
    read(bytes)
}
