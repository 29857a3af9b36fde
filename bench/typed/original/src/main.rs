//! Measures the same loads over the original, the crate rmp-serde, written as bench_encode and bench_decode in bench/libraries are.

use rmp::encode::{write_array_len, write_uint};
use rmp_serde::encode::Error;
use rmp_serde::from_slice;
use serde::de::IgnoredAny;
use serde::ser::{SerializeSeq, SerializeTuple, Serializer};
use serde::{Deserialize, Serialize};
use serde_bytes::Bytes;
use value::Value;

#[path = "../../loads.rs"]
mod loads;
#[path = "../../../types/value.rs"]
mod value;

fn main() {
    loads::main(&loads::Calls {
        write_numbers: |numbers, reps| rounds(&numbers.to_vec(), reps),
        write_counted: |numbers, reps| {
            rounds_of(reps, |out| write_list(out, Some(numbers.len()), numbers))
        },
        write_uncounted: |numbers, reps| rounds_of(reps, |out| write_list(out, None, numbers)),
        write_tuple: |numbers, reps| rounds_of(reps, |out| write_tuple(out, numbers)),
        write_values: |numbers, reps| rounds_of(reps, |out| write_values(out, numbers)),
        write_wire: |numbers, reps| rounds_of(reps, |out| write_wire(out, numbers)),
        write_rows,
        write_texts,
        write_entries,
        write_bytes: |data, reps| rounds(&Bytes::new(data), reps),
        write_value,
        read_numbers: reads::<Vec<u32>>,
        read_rows: reads::<Vec<Vec<u32>>>,
        read_texts: reads::<Vec<String>>,
        read_lent_texts,
        read_entries: reads::<Vec<(String, u16)>>,
        read_lent_entries,
        // The original has no strict reading: it reads heads of any width here too.
        strict_numbers: reads::<Vec<u32>>,
        strict_rows: reads::<Vec<Vec<u32>>>,
        strict_texts: reads::<Vec<String>>,
        strict_lent_texts: read_lent_texts,
        strict_entries: reads::<Vec<(String, u16)>>,
        strict_lent_entries: read_lent_entries,
        skip,
        // Nor has it a checker: it passes over the message.
        check: |data, reps| skip(data, reps) * data.len(),
    });
}

#[derive(Serialize)]
struct Entry(String, u16);

#[inline(never)]
fn rounds<T: Serialize>(value: &T, reps: u32) -> usize {
    let mut out = Vec::new();
    for _ in 0..reps {
        out.clear();
        if rmp_serde::encode::write(&mut out, value).is_err() {
            return 0;
        }
    }
    out.len()
}

#[inline(never)]
fn rounds_of(reps: u32, write: impl Fn(&mut Vec<u8>) -> Result<(), Error>) -> usize {
    let mut out = Vec::new();
    for _ in 0..reps {
        out.clear();
        if write(&mut out).is_err() {
            return 0;
        }
    }
    out.len()
}

fn write_list(out: &mut Vec<u8>, len: Option<usize>, numbers: &[u32]) -> Result<(), Error> {
    let mut serializer = rmp_serde::Serializer::new(out);
    let mut seq = serializer.serialize_seq(len)?;
    for n in numbers {
        seq.serialize_element(n)?;
    }
    SerializeSeq::end(seq)
}

fn write_tuple(out: &mut Vec<u8>, numbers: &[u32]) -> Result<(), Error> {
    let mut serializer = rmp_serde::Serializer::new(out);
    let mut tuple = serializer.serialize_tuple(numbers.len())?;
    for n in numbers {
        tuple.serialize_element(n)?;
    }
    tuple.end()
}

fn write_values(out: &mut Vec<u8>, numbers: &[u32]) -> Result<(), Error> {
    let mut serializer = rmp_serde::Serializer::new(out);
    write_array_len(serializer.get_mut(), numbers.len() as u32)?;
    for n in numbers {
        serializer.serialize_u32(*n)?;
    }
    Ok(())
}

fn write_wire(out: &mut Vec<u8>, numbers: &[u32]) -> Result<(), Error> {
    write_array_len(out, numbers.len() as u32)?;
    for n in numbers {
        write_uint(out, (*n).into())?;
    }
    Ok(())
}

fn write_rows(numbers: &[u32], reps: u32) -> usize {
    let rows: Vec<Vec<u32>> = numbers.chunks_exact(10).map(<[u32]>::to_vec).collect();
    rounds(&rows, reps)
}

fn text_of(bytes: &[u8]) -> String {
    String::from_utf8(bytes.to_vec()).expect("a text")
}

fn write_texts(data: &[u8], reps: u32) -> usize {
    let texts: Vec<String> = data.chunks_exact(10).map(text_of).collect();
    rounds(&texts, reps)
}

fn write_entries(data: &[u8], reps: u32) -> usize {
    let entry = |bytes: &[u8]| {
        Entry(
            text_of(&bytes[..10]),
            u16::from_be_bytes([bytes[10], bytes[11]]),
        )
    };
    let entries: Vec<Entry> = data.chunks_exact(12).map(entry).collect();
    rounds(&entries, reps)
}

fn write_value(data: &[u8], reps: u32) -> usize {
    let value: Value = from_slice(data).expect("a message");
    rounds(&value, reps)
}

#[inline(never)]
fn skip(data: &[u8], reps: u32) -> usize {
    let mut sum: usize = 0;
    for _ in 0..reps {
        if from_slice::<IgnoredAny>(data).is_ok() {
            sum = sum.wrapping_add(1);
        }
    }
    sum
}

/// A list that is counted.
trait Counted {
    fn count(&self) -> usize;
}

impl<T> Counted for Vec<T> {
    fn count(&self) -> usize {
        self.len()
    }
}

#[inline(never)]
fn reads<T: for<'de> Deserialize<'de> + Counted>(data: &[u8], reps: u32) -> usize {
    let mut sum: usize = 0;
    for _ in 0..reps {
        if let Ok(items) = from_slice::<T>(data) {
            sum = sum.wrapping_add(items.count());
        }
    }
    sum
}

#[inline(never)]
fn read_lent_texts(data: &[u8], reps: u32) -> usize {
    let mut sum: usize = 0;
    for _ in 0..reps {
        if let Ok(items) = from_slice::<Vec<&str>>(data) {
            sum = sum.wrapping_add(items.len());
        }
    }
    sum
}

#[inline(never)]
fn read_lent_entries(data: &[u8], reps: u32) -> usize {
    let mut sum: usize = 0;
    for _ in 0..reps {
        if let Ok(items) = from_slice::<Vec<(&str, u16)>>(data) {
            sum = sum.wrapping_add(items.len());
        }
    }
    sum
}
