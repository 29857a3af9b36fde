//! Messages that are canonical, at fault, or cut.
use rmp_serde::decode::Error;
use rmp_serde::{Canon, check_canonical};
use std::alloc::Global;
use std::process::Abort;

fn check(rt: &impl AllocGlobal, input: &[u8]) -> Result<Canon, Error> {
    check_canonical(rt.alloc(), input)
}

// The input's first message is whole or at fault, as this says.
fn is(rt: &(impl Abort + AllocGlobal), input: &[u8], want: Canon) {
    match check(rt, input) {
        Ok(canon) => assert_eq!(rt; canon, want),
        Err(e) => panic!(rt; "{want:?} is refused: {e}"),
    }
}

// The check was refused, in these words.
fn refused(rt: &(impl Abort + AllocGlobal), input: &[u8], why: &str) {
    match check(rt, input) {
        Ok(canon) => panic!(rt; "{canon:?}, and not: {why}"),
        Err(e) => {
            let words = format!(in rt.alloc(); "{e}").expect(rt, "memory");
            assert_eq!(rt; words.as_str(), why);
        }
    }
}

#[test]
fn other_heads_are_faults(rt: HostRuntime) {
    is(&rt, b"\xd1\x01\x2c", Canon::Fault(0));
    is(&rt, b"\x92\xd9\x00", Canon::Fault(1));
    is(&rt, b"\xc7\x01\x02", Canon::Fault(0));
    is(&rt, b"\x92\x05\xd9\x01a", Canon::Fault(2));
    // The key of a map.
    is(&rt, b"\x81\xcc\x7f", Canon::Fault(1));
}

#[test]
fn canonical_messages_are_whole(rt: HostRuntime) {
    is(&rt, b"\xa1\xff", Canon::Whole(2));
    is(&rt, b"\x92\x05\xa1a\xc0", Canon::Whole(4));
    let map = b"\x82\x01\x92\xc0\x80\xc4\x01\xc1\xd1\xff\x7f\xc1";
    is(&rt, map, Canon::Whole(11));
}

const NO_MARKER: &str = "IO error while reading marker: unexpected end of file";

const NO_DATA: &str = "IO error while reading data: unexpected end of file";

#[test]
fn cut_messages_are_errors(rt: HostRuntime) {
    refused(&rt, b"\xd9", NO_DATA);
    refused(&rt, b"\xc7\x01", NO_DATA);
    refused(&rt, b"\xa2a", NO_DATA);
    refused(&rt, b"\x92\x05", NO_MARKER);
    refused(&rt, b"", NO_MARKER);
    refused(&rt, b"\x92\xc1", "wrong msgpack marker Reserved");
}

#[test]
fn nesting_has_no_limit(rt: HostRuntime) {
    let mut input = Vec::new(rt.alloc());
    for _ in 0..100_000 {
        assert!(rt; input.push(0x91).is_ok());
    }
    assert!(rt; input.push(0x90).is_ok());
    is(&rt, input.as_slice(), Canon::Whole(100_001));
}

// Maps whose lengths add up to more than 64 bits hold would take more bytes than a test has: each of these is cut.
#[test]
fn long_maps_are_cut(rt: HostRuntime) {
    let mut input = Vec::new(rt.alloc());
    for _ in 0..1000 {
        for byte in [0xdf, 0xff, 0xff, 0xff, 0xff] {
            assert!(rt; input.push(byte).is_ok());
        }
    }
    refused(&rt, input.as_slice(), NO_MARKER);
}

// A list of 41 items, of which the first is this one and the others are nil.
fn among_nils(alloc: Global, item: &[u8]) -> Result<Vec<u8>, Error> {
    let mut input = Vec::new(alloc);
    for byte in b"\xdc\x00\x29" {
        input.push(*byte)?;
    }
    for byte in item {
        input.push(*byte)?;
    }
    for _ in 0..40 {
        input.push(0xc0)?;
    }
    Ok(input)
}

fn is_among_nils(rt: &(impl Abort + AllocGlobal), item: &[u8], want: Canon) {
    match among_nils(rt.alloc(), item) {
        Ok(input) => is(rt, input.as_slice(), want),
        Err(e) => panic!(rt; "{e}"),
    }
}

#[test]
fn the_last_of_each_width_is_whole(rt: HostRuntime) {
    for (item, len) in [
        (b"\x7f".as_slice(), 44),
        (b"\xe0", 44),
        (b"\xcc\x80", 45),
        (b"\xcd\x01\x00", 46),
        (b"\xce\x00\x01\x00\x00", 48),
        (b"\xcf\x00\x00\x00\x01\x00\x00\x00\x00", 52),
        (b"\xd0\xdf", 45),
        (b"\xd1\xff\x7f", 46),
        (b"\xd2\xff\xff\x7f\xff", 48),
        (b"\xd3\xff\xff\xff\xff\x7f\xff\xff\xff", 52),
        (b"\xca\x00\x00\x00\x00", 48),
        (b"\xa2a\xff", 46),
        (b"\x82\x01\x90\x02\x91\x80", 49),
    ] {
        is_among_nils(&rt, item, Canon::Whole(len));
    }
}

#[test]
fn the_next_of_each_width_is_a_fault(rt: HostRuntime) {
    for (item, at) in [
        (b"\xcc\x7f".as_slice(), 3),
        (b"\xcd\x00\xff", 3),
        (b"\xce\x00\x00\xff\xff", 3),
        (b"\xcf\x00\x00\x00\x00\xff\xff\xff\xff", 3),
        (b"\xd0\x05", 3),
        (b"\xd0\xe0", 3),
        (b"\xd1\xff\x80", 3),
        (b"\xd2\xff\xff\x80\x00", 3),
        (b"\xd3\xff\xff\xff\xff\x80\x00\x00\x00", 3),
        (b"\x91\xd9\x01a", 4),
    ] {
        is_among_nils(&rt, item, Canon::Fault(at));
    }
}
