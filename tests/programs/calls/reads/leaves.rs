//! Options, structs without fields, newtype structs, and numbers of 128 bits.
use super::rows::{
    FAILED_BEFORE, INVALID_TYPE, NO_DATA, NO_MARKER, NOT_CANONICAL, RESERVED, SliceReader, ahead,
    gives, next, next_refused, reader, reads, reads_items, reads_strictly, refused, refuses,
    refuses_strictly,
};
use rmp_decode::{Deserialize, Error};
use rmp_wire::{MSGPACK_EXT_STRUCT_NAME, ReadRefReader};

const SEVEN: [u8; 18] = [0xc4, 16, 0, 0, 0, 0, 0, 0, 0, 0, 0, 0, 0, 0, 0, 0, 0, 7];

const ALL: [u8; 18] = [
    0xc4, 16, 255, 255, 255, 255, 255, 255, 255, 255, 255, 255, 255, 255, 255, 255, 255, 255,
];

// Seven after a head that is wider than it has to be.
const WIDE: [u8; 19] = [0xc5, 0, 16, 0, 0, 0, 0, 0, 0, 0, 0, 0, 0, 0, 0, 0, 0, 0, 7];

#[test]
fn options(rt: HostRuntime) {
    let pair: (Option<Option<u32>>, Option<Option<u32>>) = (None, Some(Some(13)));
    reads(&rt, &[0x92, 0xc0, 0x0d], pair);
    reads(&rt, &[0xcc, 200], Some(200u8));
    reads::<Option<()>>(&rt, &[0xc0], None);
    reads(&rt, &[0xcd, 0, 5], Some(5u16));
    reads_items(&rt, &[0xc4, 2, 0xc0, 1], &[Some(0xc0u8), Some(1)]);
}

#[test]
fn refused_options(rt: HostRuntime) {
    refuses::<Option<u16>>(&rt, &[0xa1, 0x21], "wrong msgpack marker FixStr(1)");
    refuses::<Option<u8>>(&rt, &[], NO_MARKER);
    refuses::<Option<u8>>(&rt, &[0xcc], NO_DATA);
    refuses_strictly::<Option<u16>>(&rt, &[0xcd, 0, 5], NOT_CANONICAL);
    reads_strictly(&rt, &[0xcd, 1, 5], Some(261u16));
}

// The reserved byte isn't eaten: the value's type refuses it, and a second read fails.
#[test]
fn reserved_option(rt: HostRuntime) {
    let mut de = reader(&rt, &[0xc1, 0x05]);
    next_refused::<Option<u8>>(&rt, &mut de, RESERVED);
    next_refused::<Option<u8>>(&rt, &mut de, FAILED_BEFORE);
}

fn option<'de, T: Deserialize<'de, ReadRefReader<'de>>>(
    de: &mut SliceReader<'de>,
) -> Result<Option<T>, Error> {
    de.deserialize_option()
}

#[test]
fn options_in_turn(rt: HostRuntime) {
    let mut de = reader(&rt, &[0xc0, 0x05, 0xa1, 0x78, 0xc3]);
    gives(&rt, option::<u8>(&mut de), None);
    gives(&rt, option(&mut de), Some(5u8));
    gives(&rt, option(&mut de), Some("x"));
    next(&rt, &mut de, Some(true));
    ahead(&rt, &de, &[]);
}

#[test]
fn missing_options(rt: HostRuntime) {
    let none: Option<Option<u8>> = Deserialize::<ReadRefReader>::missing();
    assert!(rt; matches!(&none, Some(None)));
}

#[test]
fn signed_128(rt: HostRuntime) {
    reads(&rt, &WIDE, 7i128);
    reads(&rt, &SEVEN, 7i128);
    reads(&rt, &ALL, -1i128);
    reads(&rt, &[0xff], -1i128);
    reads(&rt, &[0xcd, 1, 0x2c], 300i128);
    reads_strictly(&rt, &SEVEN, 7i128);
    refuses_strictly::<i128>(&rt, &WIDE, NOT_CANONICAL);
    refuses::<i128>(
        &rt,
        &[0xc4, 1, 7],
        "array had incorrect length, expected 16",
    );
    refuses::<i128>(&rt, &[0x91, 7], "array had incorrect length, expected 16");
    refuses::<i128>(&rt, &[0xdc, 0, 0], "wrong msgpack marker Array16");
    refuses::<i128>(&rt, &SEVEN[..17], NO_DATA);
}

#[test]
fn unsigned_128(rt: HostRuntime) {
    reads(&rt, &[0x2a], 42u128);
    reads(&rt, &[0xd1, 1, 0x2c], 300u128);
    reads(&rt, &SEVEN, 7u128);
    reads(&rt, &ALL, u128::MAX);
    refuses::<u128>(&rt, &[0xff], "numeric cast found out of range");
    refuses::<u128>(
        &rt,
        &[0xc4, 2, 0, 7],
        "array had incorrect length, expected 16",
    );
    refuses::<u128>(&rt, &[0x90], "array had incorrect length, expected 16");
    refuses::<u128>(&rt, &[0xc3], "wrong msgpack marker True");
    refuses::<u128>(&rt, &[0xc1], RESERVED);
}

fn unit_struct(de: &mut SliceReader) -> Result<(), Error> {
    de.deserialize_unit_struct("Nothing")
}

#[test]
fn unit_structs(rt: HostRuntime) {
    for input in [
        [0xc0u8].as_slice(),
        &[0x90],
        &[0xdc, 0, 0],
        &[0xdd, 0, 0, 0, 0],
    ] {
        let mut de = reader(&rt, input);
        gives(&rt, unit_struct(&mut de), ());
        ahead(&rt, &de, &[]);
    }
}

#[test]
fn refused_unit_structs(rt: HostRuntime) {
    for input in [[0x91u8, 0xc0].as_slice(), &[0x80], &[0x05], &[0xc4, 0]] {
        refused(&rt, unit_struct(&mut reader(&rt, input)), INVALID_TYPE);
    }
    let mut de = reader(&rt, &[0xdc, 0, 0]);
    de.set_strict(true);
    refused(&rt, unit_struct(&mut de), NOT_CANONICAL);
    refused(&rt, unit_struct(&mut reader(&rt, &[0xc1])), RESERVED);
}

fn newtype_struct(de: &mut SliceReader, name: &str) -> Result<u64, Error> {
    de.deserialize_newtype_struct(name)
}

#[test]
fn newtype_structs(rt: HostRuntime) {
    let mut de = reader(&rt, &[0x2a, 0xc1]);
    gives(&rt, newtype_struct(&mut de, "Meters"), 42);
    refused(
        &rt,
        newtype_struct(&mut de, MSGPACK_EXT_STRUCT_NAME),
        "extensions are read by deserialize_ext",
    );
    ahead(&rt, &de, &[0xc1]);
    refused(&rt, newtype_struct(&mut de, "_ExtStruct"), FAILED_BEFORE);
}
