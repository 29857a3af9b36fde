//! Measures the same loads over the original, the crate rmp, written as bench/libraries/bench_wire is.

use rmp::Marker;
use rmp::decode::{RmpRead, ValueReadError, read_marker};
use rmp::encode::{ValueWriteError, write_str, write_uint};
use std::io::Error;

#[path = "../../loads.rs"]
mod loads;

fn main() {
    loads::main(&loads::Calls {
        write_uints,
        write_texts,
        read_heads,
    });
}

#[inline(never)]
fn write_uints(numbers: &[u64], reps: u32) -> usize {
    let mut out = Vec::new();
    for _ in 0..reps {
        out.clear();
        if write_all_uints(&mut out, numbers).is_err() {
            return 0;
        }
    }
    out.len()
}

fn write_all_uints(out: &mut Vec<u8>, numbers: &[u64]) -> Result<(), ValueWriteError> {
    for n in numbers {
        write_uint(out, *n)?;
    }
    Ok(())
}

#[inline(never)]
fn write_texts(data: &[u8], reps: u32) -> usize {
    let texts = data
        .chunks_exact(10)
        .map(|text| String::from_utf8(text.to_vec()).expect("a text"));
    let texts: Vec<String> = texts.collect();
    let mut out = Vec::new();
    for _ in 0..reps {
        out.clear();
        if write_all_texts(&mut out, &texts).is_err() {
            return 0;
        }
    }
    out.len()
}

fn write_all_texts(out: &mut Vec<u8>, texts: &[String]) -> Result<(), ValueWriteError> {
    for text in texts {
        write_str(out, text)?;
    }
    Ok(())
}

#[inline(never)]
fn read_heads(data: &[u8], reps: u32) -> u64 {
    let mut sum = 0;
    for _ in 0..reps {
        sum = read_all_heads(data, sum);
    }
    sum
}

fn read_all_heads(data: &[u8], mut sum: u64) -> u64 {
    let mut rest = data;
    for _ in 0..data.len() {
        let Ok(said) = head(&mut rest) else {
            return sum;
        };
        sum = sum.wrapping_add(said);
    }
    sum
}

/// The number, the bits or the length that the next head says, with a type added to it. The original has no call that
/// reads a head of any kind: this is what rmp-serde does, a marker and then a match.
fn head(rest: &mut &[u8]) -> Result<u64, ValueReadError<Error>> {
    let marker = read_marker(rest)?;
    Ok(match marker {
        Marker::Null | Marker::False => 0,
        Marker::True => 1,
        Marker::FixNeg(n) => n as u64,
        Marker::FixPos(n) | Marker::FixMap(n) | Marker::FixArray(n) | Marker::FixStr(n) => n.into(),
        Marker::U8 | Marker::Str8 | Marker::Bin8 => rest.read_data_u8()?.into(),
        Marker::U16 | Marker::Str16 | Marker::Bin16 | Marker::Array16 | Marker::Map16 => {
            rest.read_data_u16()?.into()
        }
        Marker::U32 | Marker::Str32 | Marker::Bin32 | Marker::Array32 | Marker::Map32 => {
            rest.read_data_u32()?.into()
        }
        Marker::U64 => rest.read_data_u64()?,
        Marker::I8 => rest.read_data_i8()? as u64,
        Marker::I16 => rest.read_data_i16()? as u64,
        Marker::I32 => rest.read_data_i32()? as u64,
        Marker::I64 => rest.read_data_i64()? as u64,
        Marker::F32 => rest.read_data_f32()?.to_bits().into(),
        Marker::F64 => rest.read_data_f64()?.to_bits(),
        Marker::FixExt1 => 1 + tag(rest)?,
        Marker::FixExt2 => 2 + tag(rest)?,
        Marker::FixExt4 => 4 + tag(rest)?,
        Marker::FixExt8 => 8 + tag(rest)?,
        Marker::FixExt16 => 16 + tag(rest)?,
        Marker::Ext8 => u64::from(rest.read_data_u8()?) + tag(rest)?,
        Marker::Ext16 => u64::from(rest.read_data_u16()?) + tag(rest)?,
        Marker::Ext32 => u64::from(rest.read_data_u32()?) + tag(rest)?,
        Marker::Reserved => return Err(ValueReadError::TypeMismatch(Marker::Reserved)),
    })
}

fn tag(rest: &mut &[u8]) -> Result<u64, ValueReadError<Error>> {
    Ok(rest.read_data_u8()?.into())
}
