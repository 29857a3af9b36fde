//! Loads for a timer: values of many types in one program, in which the compiler inlines less than where there are few.
//!
//! Each export reads a list `reps` times, and answers how many elements all the rounds came to; or it reads the list once, writes it `reps`
//! times, and answers the bytes of the last round. A round that is refused counts none. Nothing but the program under bench/ calls them.
#![tactic(auto)]

mod kinds;

use kinds::{
    Color, Counted, Eight, Either, Five, Flag, Id, Maybe, Newt, Nine, Outer, Point, Record,
    Request, Shape, Struv, Tree, Tup, Unit, Vec3,
};
use rmp_decode::{Deserialize, Error, from_slice};
use rmp_encode::{Serialize, write, write_named};
use rmp_wire::{ByteBuf, F64Bits, ReadRefReader};
use std::alloc::Global;
use std::collections::{BTreeMap, BTreeSet, VecDeque};

// Reads a list so many times.
#[inline(always)]
fn reads<'de, T: Deserialize<'de, ReadRefReader<'de>>>(
    alloc: Global,
    data: &'de [u8],
    reps: u32,
) -> usize {
    let mut sum: usize = 0;
    for _ in 0..reps {
        let read: Result<Vec<T>, Error> = from_slice(alloc, data);
        if let Ok(items) = read {
            sum = sum.wrapping_add(items.len());
        }
    }
    sum
}

// Reads a list, and writes it so many times.
#[inline(always)]
fn writes<'de, T: Deserialize<'de, ReadRefReader<'de>> + Serialize>(
    alloc: Global,
    data: &'de [u8],
    reps: u32,
) -> usize {
    let Ok(items) = from_slice::<Vec<T>>(alloc, data) else {
        return 0;
    };
    let mut out = Vec::new(alloc);
    for _ in 0..reps {
        out.clear();
        if write(alloc, &mut out, &items).is_err() {
            return 0;
        }
    }
    out.len()
}

// The same with structs as maps from names.
#[inline(always)]
fn writes_named<'de, T: Deserialize<'de, ReadRefReader<'de>> + Serialize>(
    alloc: Global,
    data: &'de [u8],
    reps: u32,
) -> usize {
    let Ok(items) = from_slice::<Vec<T>>(alloc, data) else {
        return 0;
    };
    let mut out = Vec::new(alloc);
    for _ in 0..reps {
        out.clear();
        if write_named(alloc, &mut out, &items).is_err() {
            return 0;
        }
    }
    out.len()
}

/// Reads numbers of 8 bits.
#[unsafe(no_mangle)]
pub extern "C" fn many_read_u8(alloc: Global, data: &[u8], reps: u32) -> usize {
    reads::<u8>(alloc, data, reps)
}

/// Writes numbers of 8 bits.
#[unsafe(no_mangle)]
pub extern "C" fn many_write_u8(alloc: Global, data: &[u8], reps: u32) -> usize {
    writes::<u8>(alloc, data, reps)
}

/// Reads numbers of 32 bits.
#[unsafe(no_mangle)]
pub extern "C" fn many_read_u32(alloc: Global, data: &[u8], reps: u32) -> usize {
    reads::<u32>(alloc, data, reps)
}

/// Writes numbers of 32 bits.
#[unsafe(no_mangle)]
pub extern "C" fn many_write_u32(alloc: Global, data: &[u8], reps: u32) -> usize {
    writes::<u32>(alloc, data, reps)
}

/// Reads numbers with a sign.
#[unsafe(no_mangle)]
pub extern "C" fn many_read_i64(alloc: Global, data: &[u8], reps: u32) -> usize {
    reads::<i64>(alloc, data, reps)
}

/// Writes numbers with a sign.
#[unsafe(no_mangle)]
pub extern "C" fn many_write_i64(alloc: Global, data: &[u8], reps: u32) -> usize {
    writes::<i64>(alloc, data, reps)
}

/// Reads floats.
#[unsafe(no_mangle)]
pub extern "C" fn many_read_f64(alloc: Global, data: &[u8], reps: u32) -> usize {
    reads::<F64Bits>(alloc, data, reps)
}

/// Writes floats.
#[unsafe(no_mangle)]
pub extern "C" fn many_write_f64(alloc: Global, data: &[u8], reps: u32) -> usize {
    writes::<F64Bits>(alloc, data, reps)
}

/// Reads truths.
#[unsafe(no_mangle)]
pub extern "C" fn many_read_bool(alloc: Global, data: &[u8], reps: u32) -> usize {
    reads::<bool>(alloc, data, reps)
}

/// Writes truths.
#[unsafe(no_mangle)]
pub extern "C" fn many_write_bool(alloc: Global, data: &[u8], reps: u32) -> usize {
    writes::<bool>(alloc, data, reps)
}

/// Reads characters.
#[unsafe(no_mangle)]
pub extern "C" fn many_read_char(alloc: Global, data: &[u8], reps: u32) -> usize {
    reads::<char>(alloc, data, reps)
}

/// Writes characters.
#[unsafe(no_mangle)]
pub extern "C" fn many_write_char(alloc: Global, data: &[u8], reps: u32) -> usize {
    writes::<char>(alloc, data, reps)
}

/// Reads nils.
#[unsafe(no_mangle)]
pub extern "C" fn many_read_nil(alloc: Global, data: &[u8], reps: u32) -> usize {
    reads::<()>(alloc, data, reps)
}

/// Writes nils.
#[unsafe(no_mangle)]
pub extern "C" fn many_write_nil(alloc: Global, data: &[u8], reps: u32) -> usize {
    writes::<()>(alloc, data, reps)
}

/// Reads texts.
#[unsafe(no_mangle)]
pub extern "C" fn many_read_text(alloc: Global, data: &[u8], reps: u32) -> usize {
    reads::<String>(alloc, data, reps)
}

/// Writes texts.
#[unsafe(no_mangle)]
pub extern "C" fn many_write_text(alloc: Global, data: &[u8], reps: u32) -> usize {
    writes::<String>(alloc, data, reps)
}

/// Reads bytes.
#[unsafe(no_mangle)]
pub extern "C" fn many_read_bytebuf(alloc: Global, data: &[u8], reps: u32) -> usize {
    reads::<ByteBuf>(alloc, data, reps)
}

/// Writes bytes.
#[unsafe(no_mangle)]
pub extern "C" fn many_write_bytebuf(alloc: Global, data: &[u8], reps: u32) -> usize {
    writes::<ByteBuf>(alloc, data, reps)
}

/// Reads numbers that may be nil.
#[unsafe(no_mangle)]
pub extern "C" fn many_read_option(alloc: Global, data: &[u8], reps: u32) -> usize {
    reads::<Option<u32>>(alloc, data, reps)
}

/// Writes numbers that may be nil.
#[unsafe(no_mangle)]
pub extern "C" fn many_write_option(alloc: Global, data: &[u8], reps: u32) -> usize {
    writes::<Option<u32>>(alloc, data, reps)
}

/// Reads texts that may be nil.
#[unsafe(no_mangle)]
pub extern "C" fn many_read_opttext(alloc: Global, data: &[u8], reps: u32) -> usize {
    reads::<Option<String>>(alloc, data, reps)
}

/// Writes texts that may be nil.
#[unsafe(no_mangle)]
pub extern "C" fn many_write_opttext(alloc: Global, data: &[u8], reps: u32) -> usize {
    writes::<Option<String>>(alloc, data, reps)
}

/// Reads lists of numbers.
#[unsafe(no_mangle)]
pub extern "C" fn many_read_list(alloc: Global, data: &[u8], reps: u32) -> usize {
    reads::<Vec<u32>>(alloc, data, reps)
}

/// Writes lists of numbers.
#[unsafe(no_mangle)]
pub extern "C" fn many_write_list(alloc: Global, data: &[u8], reps: u32) -> usize {
    writes::<Vec<u32>>(alloc, data, reps)
}

/// Reads lists of texts.
#[unsafe(no_mangle)]
pub extern "C" fn many_read_texts(alloc: Global, data: &[u8], reps: u32) -> usize {
    reads::<Vec<String>>(alloc, data, reps)
}

/// Writes lists of texts.
#[unsafe(no_mangle)]
pub extern "C" fn many_write_texts(alloc: Global, data: &[u8], reps: u32) -> usize {
    writes::<Vec<String>>(alloc, data, reps)
}

/// Reads lists of bytes.
#[unsafe(no_mangle)]
pub extern "C" fn many_read_bytes(alloc: Global, data: &[u8], reps: u32) -> usize {
    reads::<Vec<u8>>(alloc, data, reps)
}

/// Writes lists of bytes.
#[unsafe(no_mangle)]
pub extern "C" fn many_write_bytes(alloc: Global, data: &[u8], reps: u32) -> usize {
    writes::<Vec<u8>>(alloc, data, reps)
}

/// Reads arrays.
#[unsafe(no_mangle)]
pub extern "C" fn many_read_array(alloc: Global, data: &[u8], reps: u32) -> usize {
    reads::<[u32; 4]>(alloc, data, reps)
}

/// Writes arrays.
#[unsafe(no_mangle)]
pub extern "C" fn many_write_array(alloc: Global, data: &[u8], reps: u32) -> usize {
    writes::<[u32; 4]>(alloc, data, reps)
}

/// Reads pairs.
#[unsafe(no_mangle)]
pub extern "C" fn many_read_pair(alloc: Global, data: &[u8], reps: u32) -> usize {
    reads::<(u32, bool)>(alloc, data, reps)
}

/// Writes pairs.
#[unsafe(no_mangle)]
pub extern "C" fn many_write_pair(alloc: Global, data: &[u8], reps: u32) -> usize {
    writes::<(u32, bool)>(alloc, data, reps)
}

/// Reads triples.
#[unsafe(no_mangle)]
pub extern "C" fn many_read_triple(alloc: Global, data: &[u8], reps: u32) -> usize {
    reads::<(u32, u32, u32)>(alloc, data, reps)
}

/// Writes triples.
#[unsafe(no_mangle)]
pub extern "C" fn many_write_triple(alloc: Global, data: &[u8], reps: u32) -> usize {
    writes::<(u32, u32, u32)>(alloc, data, reps)
}

/// Reads pairs of a text and a number.
#[unsafe(no_mangle)]
pub extern "C" fn many_read_textnum(alloc: Global, data: &[u8], reps: u32) -> usize {
    reads::<(String, u32)>(alloc, data, reps)
}

/// Writes pairs of a text and a number.
#[unsafe(no_mangle)]
pub extern "C" fn many_write_textnum(alloc: Global, data: &[u8], reps: u32) -> usize {
    writes::<(String, u32)>(alloc, data, reps)
}

/// Reads maps of numbers.
#[unsafe(no_mangle)]
pub extern "C" fn many_read_map(alloc: Global, data: &[u8], reps: u32) -> usize {
    reads::<BTreeMap<u32, u32>>(alloc, data, reps)
}

/// Writes maps of numbers.
#[unsafe(no_mangle)]
pub extern "C" fn many_write_map(alloc: Global, data: &[u8], reps: u32) -> usize {
    writes::<BTreeMap<u32, u32>>(alloc, data, reps)
}

/// Reads maps from texts.
#[unsafe(no_mangle)]
pub extern "C" fn many_read_tmap(alloc: Global, data: &[u8], reps: u32) -> usize {
    reads::<BTreeMap<String, u32>>(alloc, data, reps)
}

/// Writes maps from texts.
#[unsafe(no_mangle)]
pub extern "C" fn many_write_tmap(alloc: Global, data: &[u8], reps: u32) -> usize {
    writes::<BTreeMap<String, u32>>(alloc, data, reps)
}

/// Reads sets.
#[unsafe(no_mangle)]
pub extern "C" fn many_read_set(alloc: Global, data: &[u8], reps: u32) -> usize {
    reads::<BTreeSet<u32>>(alloc, data, reps)
}

/// Writes sets.
#[unsafe(no_mangle)]
pub extern "C" fn many_write_set(alloc: Global, data: &[u8], reps: u32) -> usize {
    writes::<BTreeSet<u32>>(alloc, data, reps)
}

/// Reads queues.
#[unsafe(no_mangle)]
pub extern "C" fn many_read_queue(alloc: Global, data: &[u8], reps: u32) -> usize {
    reads::<VecDeque<u32>>(alloc, data, reps)
}

/// Writes queues.
#[unsafe(no_mangle)]
pub extern "C" fn many_write_queue(alloc: Global, data: &[u8], reps: u32) -> usize {
    writes::<VecDeque<u32>>(alloc, data, reps)
}

/// Reads boxed numbers.
#[unsafe(no_mangle)]
pub extern "C" fn many_read_boxed(alloc: Global, data: &[u8], reps: u32) -> usize {
    reads::<Box<u32>>(alloc, data, reps)
}

/// Writes boxed numbers.
#[unsafe(no_mangle)]
pub extern "C" fn many_write_boxed(alloc: Global, data: &[u8], reps: u32) -> usize {
    writes::<Box<u32>>(alloc, data, reps)
}

/// Reads a list of `Unit`.
#[unsafe(no_mangle)]
pub extern "C" fn many_read_unit(alloc: Global, data: &[u8], reps: u32) -> usize {
    reads::<Unit>(alloc, data, reps)
}

/// Writes a list of `Unit`.
#[unsafe(no_mangle)]
pub extern "C" fn many_write_unit(alloc: Global, data: &[u8], reps: u32) -> usize {
    writes::<Unit>(alloc, data, reps)
}

/// Writes a list of `Unit` by names.
#[unsafe(no_mangle)]
pub extern "C" fn many_named_unit(alloc: Global, data: &[u8], reps: u32) -> usize {
    writes_named::<Unit>(alloc, data, reps)
}

/// Reads a list of `Id`.
#[unsafe(no_mangle)]
pub extern "C" fn many_read_id(alloc: Global, data: &[u8], reps: u32) -> usize {
    reads::<Id>(alloc, data, reps)
}

/// Writes a list of `Id`.
#[unsafe(no_mangle)]
pub extern "C" fn many_write_id(alloc: Global, data: &[u8], reps: u32) -> usize {
    writes::<Id>(alloc, data, reps)
}

/// Writes a list of `Id` by names.
#[unsafe(no_mangle)]
pub extern "C" fn many_named_id(alloc: Global, data: &[u8], reps: u32) -> usize {
    writes_named::<Id>(alloc, data, reps)
}

/// Reads a list of `Tup`.
#[unsafe(no_mangle)]
pub extern "C" fn many_read_tup(alloc: Global, data: &[u8], reps: u32) -> usize {
    reads::<Tup>(alloc, data, reps)
}

/// Writes a list of `Tup`.
#[unsafe(no_mangle)]
pub extern "C" fn many_write_tup(alloc: Global, data: &[u8], reps: u32) -> usize {
    writes::<Tup>(alloc, data, reps)
}

/// Writes a list of `Tup` by names.
#[unsafe(no_mangle)]
pub extern "C" fn many_named_tup(alloc: Global, data: &[u8], reps: u32) -> usize {
    writes_named::<Tup>(alloc, data, reps)
}

/// Reads a list of `Flag`.
#[unsafe(no_mangle)]
pub extern "C" fn many_read_flag(alloc: Global, data: &[u8], reps: u32) -> usize {
    reads::<Flag>(alloc, data, reps)
}

/// Writes a list of `Flag`.
#[unsafe(no_mangle)]
pub extern "C" fn many_write_flag(alloc: Global, data: &[u8], reps: u32) -> usize {
    writes::<Flag>(alloc, data, reps)
}

/// Writes a list of `Flag` by names.
#[unsafe(no_mangle)]
pub extern "C" fn many_named_flag(alloc: Global, data: &[u8], reps: u32) -> usize {
    writes_named::<Flag>(alloc, data, reps)
}

/// Reads a list of `Point`.
#[unsafe(no_mangle)]
pub extern "C" fn many_read_point(alloc: Global, data: &[u8], reps: u32) -> usize {
    reads::<Point>(alloc, data, reps)
}

/// Writes a list of `Point`.
#[unsafe(no_mangle)]
pub extern "C" fn many_write_point(alloc: Global, data: &[u8], reps: u32) -> usize {
    writes::<Point>(alloc, data, reps)
}

/// Writes a list of `Point` by names.
#[unsafe(no_mangle)]
pub extern "C" fn many_named_point(alloc: Global, data: &[u8], reps: u32) -> usize {
    writes_named::<Point>(alloc, data, reps)
}

/// Reads a list of `Vec3`.
#[unsafe(no_mangle)]
pub extern "C" fn many_read_vec3(alloc: Global, data: &[u8], reps: u32) -> usize {
    reads::<Vec3>(alloc, data, reps)
}

/// Writes a list of `Vec3`.
#[unsafe(no_mangle)]
pub extern "C" fn many_write_vec3(alloc: Global, data: &[u8], reps: u32) -> usize {
    writes::<Vec3>(alloc, data, reps)
}

/// Writes a list of `Vec3` by names.
#[unsafe(no_mangle)]
pub extern "C" fn many_named_vec3(alloc: Global, data: &[u8], reps: u32) -> usize {
    writes_named::<Vec3>(alloc, data, reps)
}

/// Reads a list of `Maybe`.
#[unsafe(no_mangle)]
pub extern "C" fn many_read_maybe(alloc: Global, data: &[u8], reps: u32) -> usize {
    reads::<Maybe>(alloc, data, reps)
}

/// Writes a list of `Maybe`.
#[unsafe(no_mangle)]
pub extern "C" fn many_write_maybe(alloc: Global, data: &[u8], reps: u32) -> usize {
    writes::<Maybe>(alloc, data, reps)
}

/// Writes a list of `Maybe` by names.
#[unsafe(no_mangle)]
pub extern "C" fn many_named_maybe(alloc: Global, data: &[u8], reps: u32) -> usize {
    writes_named::<Maybe>(alloc, data, reps)
}

/// Reads a list of `Five`.
#[unsafe(no_mangle)]
pub extern "C" fn many_read_five(alloc: Global, data: &[u8], reps: u32) -> usize {
    reads::<Five>(alloc, data, reps)
}

/// Writes a list of `Five`.
#[unsafe(no_mangle)]
pub extern "C" fn many_write_five(alloc: Global, data: &[u8], reps: u32) -> usize {
    writes::<Five>(alloc, data, reps)
}

/// Writes a list of `Five` by names.
#[unsafe(no_mangle)]
pub extern "C" fn many_named_five(alloc: Global, data: &[u8], reps: u32) -> usize {
    writes_named::<Five>(alloc, data, reps)
}

/// Reads a list of `Eight`.
#[unsafe(no_mangle)]
pub extern "C" fn many_read_eight(alloc: Global, data: &[u8], reps: u32) -> usize {
    reads::<Eight>(alloc, data, reps)
}

/// Writes a list of `Eight`.
#[unsafe(no_mangle)]
pub extern "C" fn many_write_eight(alloc: Global, data: &[u8], reps: u32) -> usize {
    writes::<Eight>(alloc, data, reps)
}

/// Writes a list of `Eight` by names.
#[unsafe(no_mangle)]
pub extern "C" fn many_named_eight(alloc: Global, data: &[u8], reps: u32) -> usize {
    writes_named::<Eight>(alloc, data, reps)
}

/// Reads a list of `Nine`.
#[unsafe(no_mangle)]
pub extern "C" fn many_read_nine(alloc: Global, data: &[u8], reps: u32) -> usize {
    reads::<Nine>(alloc, data, reps)
}

/// Writes a list of `Nine`.
#[unsafe(no_mangle)]
pub extern "C" fn many_write_nine(alloc: Global, data: &[u8], reps: u32) -> usize {
    writes::<Nine>(alloc, data, reps)
}

/// Writes a list of `Nine` by names.
#[unsafe(no_mangle)]
pub extern "C" fn many_named_nine(alloc: Global, data: &[u8], reps: u32) -> usize {
    writes_named::<Nine>(alloc, data, reps)
}

/// Reads a list of `Outer`.
#[unsafe(no_mangle)]
pub extern "C" fn many_read_outer(alloc: Global, data: &[u8], reps: u32) -> usize {
    reads::<Outer>(alloc, data, reps)
}

/// Writes a list of `Outer`.
#[unsafe(no_mangle)]
pub extern "C" fn many_write_outer(alloc: Global, data: &[u8], reps: u32) -> usize {
    writes::<Outer>(alloc, data, reps)
}

/// Writes a list of `Outer` by names.
#[unsafe(no_mangle)]
pub extern "C" fn many_named_outer(alloc: Global, data: &[u8], reps: u32) -> usize {
    writes_named::<Outer>(alloc, data, reps)
}

/// Reads a list of `Counted`.
#[unsafe(no_mangle)]
pub extern "C" fn many_read_counted(alloc: Global, data: &[u8], reps: u32) -> usize {
    reads::<Counted>(alloc, data, reps)
}

/// Writes a list of `Counted`.
#[unsafe(no_mangle)]
pub extern "C" fn many_write_counted(alloc: Global, data: &[u8], reps: u32) -> usize {
    writes::<Counted>(alloc, data, reps)
}

/// Writes a list of `Counted` by names.
#[unsafe(no_mangle)]
pub extern "C" fn many_named_counted(alloc: Global, data: &[u8], reps: u32) -> usize {
    writes_named::<Counted>(alloc, data, reps)
}

/// Reads a list of `Record`.
#[unsafe(no_mangle)]
pub extern "C" fn many_read_record(alloc: Global, data: &[u8], reps: u32) -> usize {
    reads::<Record>(alloc, data, reps)
}

/// Writes a list of `Record`.
#[unsafe(no_mangle)]
pub extern "C" fn many_write_record(alloc: Global, data: &[u8], reps: u32) -> usize {
    writes::<Record>(alloc, data, reps)
}

/// Writes a list of `Record` by names.
#[unsafe(no_mangle)]
pub extern "C" fn many_named_record(alloc: Global, data: &[u8], reps: u32) -> usize {
    writes_named::<Record>(alloc, data, reps)
}

/// Reads a list of `Tree`.
#[unsafe(no_mangle)]
pub extern "C" fn many_read_tree(alloc: Global, data: &[u8], reps: u32) -> usize {
    reads::<Tree>(alloc, data, reps)
}

/// Writes a list of `Tree`.
#[unsafe(no_mangle)]
pub extern "C" fn many_write_tree(alloc: Global, data: &[u8], reps: u32) -> usize {
    writes::<Tree>(alloc, data, reps)
}

/// Writes a list of `Tree` by names.
#[unsafe(no_mangle)]
pub extern "C" fn many_named_tree(alloc: Global, data: &[u8], reps: u32) -> usize {
    writes_named::<Tree>(alloc, data, reps)
}

/// Reads a list of `Color`.
#[unsafe(no_mangle)]
pub extern "C" fn many_read_color(alloc: Global, data: &[u8], reps: u32) -> usize {
    reads::<Color>(alloc, data, reps)
}

/// Writes a list of `Color`.
#[unsafe(no_mangle)]
pub extern "C" fn many_write_color(alloc: Global, data: &[u8], reps: u32) -> usize {
    writes::<Color>(alloc, data, reps)
}

/// Writes a list of `Color` by names.
#[unsafe(no_mangle)]
pub extern "C" fn many_named_color(alloc: Global, data: &[u8], reps: u32) -> usize {
    writes_named::<Color>(alloc, data, reps)
}

/// Reads a list of `Either`.
#[unsafe(no_mangle)]
pub extern "C" fn many_read_either(alloc: Global, data: &[u8], reps: u32) -> usize {
    reads::<Either>(alloc, data, reps)
}

/// Writes a list of `Either`.
#[unsafe(no_mangle)]
pub extern "C" fn many_write_either(alloc: Global, data: &[u8], reps: u32) -> usize {
    writes::<Either>(alloc, data, reps)
}

/// Writes a list of `Either` by names.
#[unsafe(no_mangle)]
pub extern "C" fn many_named_either(alloc: Global, data: &[u8], reps: u32) -> usize {
    writes_named::<Either>(alloc, data, reps)
}

/// Reads a list of `Shape`.
#[unsafe(no_mangle)]
pub extern "C" fn many_read_shape(alloc: Global, data: &[u8], reps: u32) -> usize {
    reads::<Shape>(alloc, data, reps)
}

/// Writes a list of `Shape`.
#[unsafe(no_mangle)]
pub extern "C" fn many_write_shape(alloc: Global, data: &[u8], reps: u32) -> usize {
    writes::<Shape>(alloc, data, reps)
}

/// Writes a list of `Shape` by names.
#[unsafe(no_mangle)]
pub extern "C" fn many_named_shape(alloc: Global, data: &[u8], reps: u32) -> usize {
    writes_named::<Shape>(alloc, data, reps)
}

/// Reads a list of `Newt`.
#[unsafe(no_mangle)]
pub extern "C" fn many_read_newt(alloc: Global, data: &[u8], reps: u32) -> usize {
    reads::<Newt>(alloc, data, reps)
}

/// Writes a list of `Newt`.
#[unsafe(no_mangle)]
pub extern "C" fn many_write_newt(alloc: Global, data: &[u8], reps: u32) -> usize {
    writes::<Newt>(alloc, data, reps)
}

/// Writes a list of `Newt` by names.
#[unsafe(no_mangle)]
pub extern "C" fn many_named_newt(alloc: Global, data: &[u8], reps: u32) -> usize {
    writes_named::<Newt>(alloc, data, reps)
}

/// Reads a list of `Struv`.
#[unsafe(no_mangle)]
pub extern "C" fn many_read_struv(alloc: Global, data: &[u8], reps: u32) -> usize {
    reads::<Struv>(alloc, data, reps)
}

/// Writes a list of `Struv`.
#[unsafe(no_mangle)]
pub extern "C" fn many_write_struv(alloc: Global, data: &[u8], reps: u32) -> usize {
    writes::<Struv>(alloc, data, reps)
}

/// Writes a list of `Struv` by names.
#[unsafe(no_mangle)]
pub extern "C" fn many_named_struv(alloc: Global, data: &[u8], reps: u32) -> usize {
    writes_named::<Struv>(alloc, data, reps)
}

/// Reads a list of `Request`.
#[unsafe(no_mangle)]
pub extern "C" fn many_read_request(alloc: Global, data: &[u8], reps: u32) -> usize {
    reads::<Request>(alloc, data, reps)
}

/// Writes a list of `Request`.
#[unsafe(no_mangle)]
pub extern "C" fn many_write_request(alloc: Global, data: &[u8], reps: u32) -> usize {
    writes::<Request>(alloc, data, reps)
}

/// Writes a list of `Request` by names.
#[unsafe(no_mangle)]
pub extern "C" fn many_named_request(alloc: Global, data: &[u8], reps: u32) -> usize {
    writes_named::<Request>(alloc, data, reps)
}
