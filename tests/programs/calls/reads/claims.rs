//! Lengths that are claimed with little after them, and no input at all.
use super::rows::{NO_DATA, NO_MARKER, refused, refuses, refuses_strictly};
use faulty_io::Drip;
use rmp_decode::{Deserialize, from_read};
use rmp_serde::{Raw, RawRef, Value};
use rmp_wire::{ByteBuf, Bytes, Ext, F32Bits, F64Bits, ReadReader, ReadRefReader};
use std::collections::{BTreeMap, BTreeSet, VecDeque};
use std::process::Abort;
use test_derived::{Dog, Two};

// The input is refused as a `T` in these words, from a slice, strictly or not, and by a source that gives a byte a pull.
fn refuse<'de, T>(rt: &(impl Abort + AllocGlobal), input: &'de [u8], why: &str)
where
    T: Deserialize<'de, ReadRefReader<'de>> + Deserialize<'de, ReadReader<Drip<'de>>> + Drop,
{
    refuses::<T>(rt, input, why);
    refuses_strictly::<T>(rt, input, why);
    refused::<T>(rt, from_read(rt.alloc(), Drip::new(input, 1000)), why);
}

#[test]
fn claims_with_little_after_them(rt: HostRuntime) {
    refuse::<ByteBuf>(&rt, b"\xc6\xff\xff\xff\xff\x61", NO_DATA);
    refuse::<ByteBuf>(&rt, b"\xc6\xff\xff\xff\xff", NO_DATA);
    refuse::<String>(&rt, b"\xdb\xff\xff\xff\xff\x61\x62", NO_DATA);
    refuse::<Raw>(&rt, b"\xdb\xff\xff\xff\xff\x61\x62", NO_DATA);
    refuse::<Ext>(&rt, b"\xc9\xff\xff\xff\xff\x05", NO_DATA);
    refuse::<Vec<u8>>(&rt, b"\xdd\xff\xff\xff\xff\x01", NO_MARKER);
    refuse::<Vec<u8>>(&rt, b"\xdd\xff\xff\xff\xff", NO_MARKER);
    refuse::<VecDeque<u8>>(&rt, b"\xdd\xff\xff\xff\xff\x01", NO_MARKER);
    refuse::<BTreeSet<u8>>(&rt, b"\xdd\xff\xff\xff\xff\x01", NO_MARKER);
    refuse::<BTreeMap<u8, u8>>(&rt, b"\xdf\xff\xff\xff\xff\x01", NO_MARKER);
    refuse::<Value>(&rt, b"\xdf\xff\xff\xff\xff", NO_MARKER);
    refuse::<Value>(&rt, b"\xc6\xff\xff\xff\xff\x61", NO_DATA);
    refuse::<Dog>(&rt, b"\x92\xa5\x61", NO_DATA);
}

// Five bytes are claimed, and two are there.
#[test]
fn bytes_that_are_cut(rt: HostRuntime) {
    refuses::<ByteBuf>(&rt, b"\xc6\x00\x00\x00\x05\x61\x62", NO_DATA);
    let cut = Drip::new(b"\xc6\x00\x00\x00\x05\x61\x62", 1000);
    refused::<ByteBuf>(&rt, from_read(rt.alloc(), cut), NO_DATA);
}

type Eight = (u8, u8, u8, u8, u8, u8, u8, u8);

#[test]
fn no_input_is_no_number_or_text(rt: HostRuntime) {
    refuse::<bool>(&rt, b"", NO_MARKER);
    refuse::<u8>(&rt, b"", NO_MARKER);
    refuse::<u16>(&rt, b"", NO_MARKER);
    refuse::<u32>(&rt, b"", NO_MARKER);
    refuse::<u64>(&rt, b"", NO_MARKER);
    refuse::<usize>(&rt, b"", NO_MARKER);
    refuse::<i8>(&rt, b"", NO_MARKER);
    refuse::<i16>(&rt, b"", NO_MARKER);
    refuse::<i32>(&rt, b"", NO_MARKER);
    refuse::<i64>(&rt, b"", NO_MARKER);
    refuse::<isize>(&rt, b"", NO_MARKER);
    refuse::<i128>(&rt, b"", NO_MARKER);
    refuse::<u128>(&rt, b"", NO_MARKER);
    refuse::<char>(&rt, b"", NO_MARKER);
    refuse::<String>(&rt, b"", NO_MARKER);
    refuse::<&str>(&rt, b"", NO_MARKER);
    refuse::<&[u8]>(&rt, b"", NO_MARKER);
    refuse::<Bytes>(&rt, b"", NO_MARKER);
    refuse::<ByteBuf>(&rt, b"", NO_MARKER);
    refuse::<F32Bits>(&rt, b"", NO_MARKER);
    refuse::<F64Bits>(&rt, b"", NO_MARKER);
    refuse::<Ext>(&rt, b"", NO_MARKER);
    refuse::<Raw>(&rt, b"", NO_MARKER);
    refuse::<RawRef>(&rt, b"", NO_MARKER);
}

#[test]
fn no_input_is_nothing_with_parts(rt: HostRuntime) {
    refuse::<()>(&rt, b"", NO_MARKER);
    refuse::<Option<u8>>(&rt, b"", NO_MARKER);
    refuse::<Box<u8>>(&rt, b"", NO_MARKER);
    refuse::<Vec<u8>>(&rt, b"", NO_MARKER);
    refuse::<VecDeque<u8>>(&rt, b"", NO_MARKER);
    refuse::<BTreeSet<u8>>(&rt, b"", NO_MARKER);
    refuse::<BTreeMap<u8, u8>>(&rt, b"", NO_MARKER);
    refuse::<[u8; 0]>(&rt, b"", NO_MARKER);
    refuse::<[u8; 2]>(&rt, b"", NO_MARKER);
    refuse::<(u8,)>(&rt, b"", NO_MARKER);
    refuse::<(u8, u8)>(&rt, b"", NO_MARKER);
    refuse::<(u8, u8, u8)>(&rt, b"", NO_MARKER);
    refuse::<(u8, u8, u8, u8)>(&rt, b"", NO_MARKER);
    refuse::<(u8, u8, u8, u8, u8)>(&rt, b"", NO_MARKER);
    refuse::<(u8, u8, u8, u8, u8, u8)>(&rt, b"", NO_MARKER);
    refuse::<(u8, u8, u8, u8, u8, u8, u8)>(&rt, b"", NO_MARKER);
    refuse::<Eight>(&rt, b"", NO_MARKER);
    refuse::<Value>(&rt, b"", NO_MARKER);
    refuse::<Dog>(&rt, b"", NO_MARKER);
    refuse::<Two>(&rt, b"", NO_MARKER);
}
