//! Types of the library, and what is read as them.
use super::rows::{
    FAILED_BEFORE, INVALID_LENGTH, INVALID_TYPE, INVALID_VALUE, NO_DATA, NO_MARKER, NO_UTF8,
    NOT_CANONICAL, RESERVED, SliceReader, ahead, gives, gives_items, gives_text, next_refused,
    reader, reads, reads_items, reads_strictly, refused, refuses, refuses_strictly,
};
use rmp_decode::{Error, from_slice, from_slice_strict};
use rmp_wire::{ByteBuf, Ext, F32Bits, F64Bits};
use std::collections::{BTreeMap, BTreeSet, VecDeque};
use std::process::Abort;

#[test]
fn numbers(rt: HostRuntime) {
    reads(&rt, &[0xd1, 0x01, 0x2c], 300u32);
    reads(&rt, &[0xcf, 0, 0, 0, 0, 0, 0, 0, 0x2a], 42u8);
    reads(
        &rt,
        &[0xd3, 0xff, 0xff, 0xff, 0xff, 0xff, 0xff, 0xff, 0x80],
        -128i8,
    );
    refuses::<u32>(
        &rt,
        &[0xcf, 0xff, 0xff, 0xff, 0xff, 0xff, 0xff, 0xff, 0xff],
        INVALID_VALUE,
    );
    refuses::<u32>(&rt, &[0xc3], INVALID_TYPE);
    refuses::<bool>(&rt, &[0xa1, 0x21], "wrong msgpack marker FixStr(1)");
    reads(&rt, &[0xa1, 0x21], '!');
    refuses::<char>(&rt, &[0xa2, 0x21, 0x21], INVALID_VALUE);
}

#[test]
fn refusals_of_one_head(rt: HostRuntime) {
    for (input, why) in [
        ([0xc0u8].as_slice(), INVALID_TYPE),
        (&[0xc2], INVALID_TYPE),
        (&[0xca, 0, 0, 0, 0], INVALID_TYPE),
        (&[0xff], INVALID_VALUE),
        (&[0xcd, 1, 0], INVALID_VALUE),
        (&[0xd0, 0x80], INVALID_VALUE),
        (&[0xd4, 0xff, 5], "wrong msgpack marker FixExt1"),
    ] {
        refuses::<u8>(&rt, input, why);
    }
    refuses::<bool>(&rt, &[0x93], "wrong msgpack marker FixArray(3)");
    refuses::<()>(&rt, &[0xc4, 0], INVALID_TYPE);
    refuses::<i64>(&rt, &[0xc1], RESERVED);
    refuses::<i64>(&rt, &[], NO_MARKER);
    refuses::<i64>(&rt, &[0xd2, 0, 0], NO_DATA);
}

#[test]
fn numbers_at_the_ends(rt: HostRuntime) {
    let ones = [0xcf, 0xff, 0xff, 0xff, 0xff, 0xff, 0xff, 0xff, 0xff];
    reads(&rt, &ones, 18446744073709551615u64);
    reads(&rt, &[0xd2, 0xff, 0xff, 0x7f, 0xff], -32769i32);
    let long = [0xd3, 0xff, 0xff, 0xff, 0xff, 0x7f, 0xff, 0xff, 0xff];
    reads(&rt, &long, -2147483649i64);
}

#[test]
fn bits_of_floats(rt: HostRuntime) {
    reads(&rt, &[0xca, 0x7f, 0x7f, 0xff, 0xff], F32Bits(0x7f7f_ffff));
    refuses::<F64Bits>(&rt, &[0xca, 0x7f, 0x7f, 0xff, 0xff], INVALID_TYPE);
    let double = [0xcb, 0x40, 0x45, 0, 0, 0, 0, 0, 0];
    reads(&rt, &double, F64Bits(0x4045_0000_0000_0000));
    refuses::<F32Bits>(&rt, &double, INVALID_TYPE);
}

#[test]
fn a_failed_reader_stays_failed(rt: HostRuntime) {
    let mut de = reader(&rt, &[0xc1, 0x05]);
    next_refused::<()>(&rt, &mut de, RESERVED);
    next_refused::<u8>(&rt, &mut de, FAILED_BEFORE);
    ahead(&rt, &de, &[5]);
}

// The text of a pair of a number and a text.
fn text_of<N: PartialEq + Drop>(
    pair: Result<(N, String), Error>,
    number: N,
) -> Result<String, Error> {
    match pair {
        Ok((n, text)) if n == number => Ok(text),
        Ok(_) => Err(Error::OutOfRange),
        Err(e) => Err(e),
    }
}

fn reads_pair(rt: &(impl Abort + AllocGlobal), input: &[u8], number: u32, text: &str) {
    gives_text(rt, text_of(from_slice(rt.alloc(), input), number), text);
}

#[test]
fn a_pair(rt: HostRuntime) {
    let input = b"\x92\x2a\xaathe Answer".as_slice();
    reads_pair(&rt, input, 42, "the Answer");
    reads(&rt, input, (42u32, "the Answer"));
}

#[test]
fn counts_of_pairs(rt: HostRuntime) {
    const NOT_TWO: &str = "array had incorrect length, expected 2";
    refuses::<(u8, u8)>(&rt, &[0xc4, 3, 1, 2, 3], NOT_TWO);
    refuses::<(u8, u8)>(&rt, &[0x93, 1, 2, 3], NOT_TWO);
    reads(&rt, &[0xc4, 2, 1, 2], (1u8, 2u8));
    refuses::<(u8, u8)>(&rt, &[0x91, 1], INVALID_LENGTH);
    refuses::<(u8, u8)>(&rt, &[0xc4, 2, 1], NO_DATA);
}

// These are two lists, of these bytes.
fn are_two(lists: &[Vec<u8>], first: &[u8], second: &[u8]) -> bool {
    match lists {
        [one, other] => one.as_slice() == first && other.as_slice() == second,
        _ => false,
    }
}

// The input is read as a list of two lists.
fn reads_two_lists(rt: &(impl Abort + AllocGlobal), input: &[u8], first: &[u8], second: &[u8]) {
    match from_slice::<Vec<Vec<u8>>>(rt.alloc(), input) {
        Ok(lists) => assert!(rt; are_two(&lists, first, second)),
        Err(e) => panic!(rt; "{e}"),
    }
}

#[test]
fn lists(rt: HostRuntime) {
    reads_items(&rt, &[0xc4, 2, 1, 0xc8], &[1u16, 200]);
    refuses::<Vec<u8>>(&rt, &[0xdd, 0xff, 0xff, 0xff, 0xff], NO_MARKER);
    reads_two_lists(&rt, &[0x92, 0x90, 0xc4, 1, 7], &[], &[7]);
}

fn lent_bytes<'de>(de: &mut SliceReader<'de>) -> Result<&'de [u8], Error> {
    de.deserialize_bytes()
}

#[test]
fn bytes(rt: HostRuntime) {
    let mut de = reader(&rt, &[0xc6, 0, 0, 0, 5, 0x61, 0x62]);
    refused(&rt, lent_bytes(&mut de), NO_DATA);
    ahead(&rt, &de, &[0x61, 0x62]);
    reads(&rt, &[0xa2, 0xff, 0xfe], [0xffu8, 0xfe].as_slice());
    refuses::<String>(&rt, &[0xa1, 0xff], NO_UTF8);
    refuses::<String>(&rt, &[0xc4, 1, 0xff], INVALID_VALUE);
}

type Numbers = BTreeMap<u8, u8>;

// The input is read as a map of so many entries, with this one among them.
fn reads_map(rt: &(impl Abort + AllocGlobal), input: &[u8], len: usize, key: u8, value: u8) {
    match from_slice::<Numbers>(rt.alloc(), input) {
        Ok(map) => assert!(rt; map.len() == len && map.get(&key) == Some(&value)),
        Err(e) => panic!(rt; "{e}"),
    }
}

#[test]
fn maps(rt: HostRuntime) {
    reads_map(&rt, &[0x82, 1, 5, 1, 6], 1, 1, 6);
    refuses::<Numbers>(&rt, &[0x90], INVALID_TYPE);
    refuses::<Numbers>(&rt, &[0xdf, 0xff, 0xff, 0xff, 0xff], NO_MARKER);
    refuses::<BTreeMap<u8, bool>>(&rt, &[0x81, 1, 2], INVALID_TYPE);
}

#[test]
fn pairs_one_by_one(rt: HostRuntime) {
    let mut de = reader(&rt, &[0x82, 1, 0xc3, 2, 0xc2, 7]);
    let Ok(mut map) = de.deserialize_map() else {
        panic!(rt; "no map");
    };
    assert_eq!(rt; map.left(), 2);
    let key: Result<Option<u8>, Error> = map.next_key();
    assert!(rt; matches!(&key, Ok(Some(1))));
    assert!(rt; map.owes_value() && map.left() == 1);
    let value: Result<bool, Error> = map.next_value();
    assert!(rt; matches!(&value, Ok(true)));
    assert!(rt; !map.owes_value());
    refused(&rt, map.end(), "array had incorrect length, expected 1");
    next_refused::<u8>(&rt, &mut de, FAILED_BEFORE);
}

#[test]
fn a_map_that_is_dropped_leaves_the_reader_failed(rt: HostRuntime) {
    let mut de = reader(&rt, &[0x80, 7]);
    match de.deserialize_map() {
        Ok(map) => drop(map),
        Err(_) => panic!(rt; "no map"),
    }
    next_refused::<u8>(&rt, &mut de, FAILED_BEFORE);
    ahead(&rt, &de, &[7]);
}

fn gives_ext(rt: &impl Abort, read: Result<Ext, Error>, tag: i8, content: &[u8]) {
    match read {
        Ok(ext) => assert!(rt; ext.tag() == tag && ext.as_bytes() == content),
        Err(e) => panic!(rt; "{e}"),
    }
}

fn reads_ext(rt: &(impl Abort + AllocGlobal), input: &[u8], tag: i8, content: &[u8]) {
    gives_ext(rt, from_slice(rt.alloc(), input), tag, content);
}

fn ext(de: &mut SliceReader) -> Result<Ext, Error> {
    de.deserialize_ext()
}

#[test]
fn extensions(rt: HostRuntime) {
    for (input, tag, content) in [
        ([0xd4u8, 2, 5].as_slice(), 2, [5].as_slice()),
        (&[0xc7, 0, 2], 2, &[]),
        (&[0xc7, 3, 2, 1, 2, 3], 2, &[1, 2, 3]),
        (&[0xd4, 0xff, 5], -1, &[5]),
        (&[0xc8, 0, 1, 0xff, 5], -1, &[5]),
    ] {
        reads_ext(&rt, input, tag, content);
    }
    refuses::<Ext>(&rt, &[0x92, 1, 2], "wrong msgpack marker FixArray(2)");
    refuses::<Ext>(&rt, &[0xc9, 0xff, 0xff, 0xff, 0xff, 5], NO_DATA);
    let mut de = reader(&rt, &[0xd5, 0x80, 1, 2, 7]);
    gives_ext(&rt, ext(&mut de), -128, &[1, 2]);
    ahead(&rt, &de, &[7]);
}

// The input is read as a buffer of these bytes.
fn reads_buffer(rt: &(impl Abort + AllocGlobal), input: &[u8], want: &[u8]) {
    match from_slice::<ByteBuf>(rt.alloc(), input) {
        Ok(bytes) => assert_eq!(rt; bytes.as_bytes(), want),
        Err(e) => panic!(rt; "{e}"),
    }
}

fn buffer(de: &mut SliceReader) -> Result<Vec<u8>, Error> {
    de.deserialize_byte_buf()
}

#[test]
fn buffers(rt: HostRuntime) {
    for input in [
        [0xa2u8, 0xff, 0xfe].as_slice(),
        &[0xc4, 2, 0xff, 0xfe],
        &[0x92, 0xcc, 0xff, 0xcd, 0, 0xfe],
    ] {
        reads_buffer(&rt, input, &[0xff, 0xfe]);
    }
    let mut de = reader(&rt, &[0xc6, 0, 0, 0, 5, 0x61, 0x62]);
    refused(&rt, buffer(&mut de), NO_DATA);
    ahead(&rt, &de, &[0x61, 0x62]);
    refuses::<ByteBuf>(&rt, &[0x91, 0xcd, 1, 0], INVALID_VALUE);
    refuses::<ByteBuf>(&rt, &[0x91, 0xa0], "wrong msgpack marker FixStr(0)");
    refuses::<ByteBuf>(&rt, &[0x80], INVALID_TYPE);
}

fn reads_queue(rt: &(impl Abort + AllocGlobal), input: &[u8]) {
    match from_slice::<VecDeque<u8>>(rt.alloc(), input) {
        Ok(it) => assert!(rt; it.len() == 2 && it.get(0) == Some(&1) && it.get(1) == Some(&2)),
        Err(e) => panic!(rt; "{e}"),
    }
}

fn reads_box(rt: &(impl Abort + AllocGlobal), input: &[u8]) {
    match from_slice::<Box<Vec<u8>>>(rt.alloc(), input) {
        Ok(items) => assert_eq!(rt; items.as_slice(), [1u8, 2].as_slice()),
        Err(e) => panic!(rt; "{e}"),
    }
}

fn reads_set(rt: &(impl Abort + AllocGlobal), input: &[u8]) {
    match from_slice::<BTreeSet<u8>>(rt.alloc(), input) {
        Ok(it) => assert!(rt; it.len() == 2 && it.contains(&1u8) && it.contains(&2u8)),
        Err(e) => panic!(rt; "{e}"),
    }
}

// The input is read as a set of these keys.
fn reads_keys(rt: &(impl Abort + AllocGlobal), input: &[u8], keys: &[u8]) {
    match from_slice::<BTreeSet<u8>>(rt.alloc(), input) {
        Ok(it) => assert!(rt; it.len() == keys.len() && keys.iter().all(|key| it.contains(key))),
        Err(e) => panic!(rt; "{e}"),
    }
}

// Forty keys in order, or not: as a list, and as bytes.
#[test]
fn large_sets(rt: HostRuntime) {
    let mut keys = [0u8; 40];
    let mut input = [0u8; 43];
    input[0] = 0xdc;
    input[2] = 40;
    for i in 0..40 {
        keys[i] = 2 * i as u8;
        input[3 + i] = 2 * i as u8;
    }
    reads_keys(&rt, &input, &keys);
    refuses::<BTreeSet<u8>>(&rt, &input[..42], NO_MARKER);
    input[42] = 8;
    reads_keys(&rt, &input, &keys[..39]);
    input[20] = 9;
    keys[17] = 9;
    reads_keys(&rt, &input, &keys[..39]);
    for i in 0..40 {
        input[42 - i] = keys[i];
    }
    reads_keys(&rt, &input, &keys);
    input[1] = 0xc4;
    reads_keys(&rt, &input[1..], &keys);
    refuses::<BTreeSet<u8>>(&rt, &input[1..42], NO_DATA);
}

// One and two, in other hands.
#[test]
fn elements_in_other_hands(rt: HostRuntime) {
    let input = [0x92, 1, 2];
    reads_queue(&rt, &input);
    reads_box(&rt, &input);
    reads_set(&rt, &[0x94, 2, 1, 2, 1]);
    reads_set(&rt, &input);
}

#[test]
fn arrays(rt: HostRuntime) {
    for input in [[0x92u8, 1, 2].as_slice(), [0xc4, 2, 1, 2].as_slice()] {
        reads(&rt, input, [1u8, 2]);
        refuses::<[u8; 3]>(&rt, input, INVALID_LENGTH);
        refuses::<[u8; 1]>(&rt, input, "array had incorrect length, expected 1");
    }
    reads::<[u8; 0]>(&rt, &[0x90], []);
}

// The input is read as an array of two lists.
fn reads_array(rt: &(impl Abort + AllocGlobal), input: &[u8], first: &[u8], second: &[u8]) {
    match from_slice::<[Vec<u8>; 2]>(rt.alloc(), input) {
        Ok(lists) => assert!(rt; are_two(&lists, first, second)),
        Err(e) => panic!(rt; "{e}"),
    }
}

// The input is read as an array of two maps, of which the first has this entry and the second none.
fn reads_two_maps(rt: &(impl Abort + AllocGlobal), input: &[u8], key: u8, value: u8) {
    match from_slice::<[Numbers; 2]>(rt.alloc(), input) {
        Ok([first, second]) => { assert!(rt; first.get(&key) == Some(&value) && second.is_empty()) }
        Err(e) => panic!(rt; "{e}"),
    }
}

#[test]
fn arrays_of_collections(rt: HostRuntime) {
    reads_array(&rt, &[0x92, 0x91, 5, 0xc4, 2, 6, 7], &[5], &[6, 7]);
    reads_two_maps(&rt, &[0x92, 0x81, 1, 2, 0x80], 1, 2);
    refuses::<[Vec<u8>; 2]>(&rt, &[0x92, 0x91, 5, 6], INVALID_TYPE);
    refuses::<[Vec<u8>; 2]>(
        &rt,
        &[0x93, 0x90, 0x90, 0x90],
        "array had incorrect length, expected 2",
    );
}

type Seven = (u8, u8, u8, u8, u8, u8, bool);

type Eight = (u8, u8, u8, u8, u8, u8, bool, char);

#[test]
fn tuples_of_other_sizes(rt: HostRuntime) {
    reads(&rt, &[0x91, 7], (7u8,));
    reads(&rt, &[0xc4, 1, 7], (7u8,));
    refuses::<(u8,)>(&rt, &[0x90], INVALID_LENGTH);
    refuses::<(u8,)>(&rt, &[0x92, 7, 8], "array had incorrect length, expected 1");
    reads::<Seven>(
        &rt,
        &[0x97, 1, 2, 3, 4, 5, 6, 0xc3],
        (1, 2, 3, 4, 5, 6, true),
    );
    let input = [0x98, 1, 2, 3, 4, 5, 6, 0xc3, 0xa1, 0x21];
    reads::<Eight>(&rt, &input, (1, 2, 3, 4, 5, 6, true, '!'));
    refuses::<(u8, u8, u8, u8, u8, u8, u8, char)>(&rt, &input, INVALID_TYPE);
    refuses::<Seven>(&rt, &input, "array had incorrect length, expected 7");
}

#[test]
fn maps_that_end_too_soon(rt: HostRuntime) {
    for (input, why) in [
        ([0x82u8].as_slice(), NO_MARKER),
        (&[0x82, 1], NO_MARKER),
        (&[0x82, 1, 5], NO_MARKER),
        (&[0x82, 1, 5, 1], NO_MARKER),
        (&[0xde, 0], NO_DATA),
        (&[0x81, 0xcc], NO_DATA),
        (&[0x81, 1, 0xcd, 0], NO_DATA),
        (&[0x81, 0xc1, 0], RESERVED),
    ] {
        refuses::<Numbers>(&rt, input, why);
    }
}

fn reads_pair_strictly(rt: &(impl Abort + AllocGlobal), input: &[u8], number: u8, text: &str) {
    gives_text(
        rt,
        text_of(from_slice_strict(rt.alloc(), input), number),
        text,
    );
}

fn reads_numbers_strictly(rt: &(impl Abort + AllocGlobal), input: &[u8], want: &[u16]) {
    gives_items(rt, from_slice_strict(rt.alloc(), input), want);
}

#[test]
fn strictly(rt: HostRuntime) {
    reads_pair_strictly(&rt, &[0x92, 0x05, 0xa1, 0x61], 5, "a");
    refuses_strictly::<(u8, String)>(&rt, &[0x92, 0x05, 0xd9, 0x01, 0x61], NOT_CANONICAL);
    refuses_strictly::<(u8, String)>(&rt, &[0x92, 0xcc, 0x05, 0xa1, 0x61], NOT_CANONICAL);
    refuses_strictly::<Numbers>(&rt, &[0xde, 0, 0], NOT_CANONICAL);
    refuses_strictly::<i8>(&rt, &[0xd0, 0x05], NOT_CANONICAL);
    refuses_strictly::<u32>(&rt, &[0xd1, 0x01, 0x2c], NOT_CANONICAL);
    reads_strictly(&rt, &[0xcd, 0x01, 0x2c], 300u32);
    refuses_strictly::<Ext>(&rt, &[0xc7, 0x01, 0x02, 0x05], NOT_CANONICAL);
    // A byte of bytes counts as canonical, and their head is tested.
    reads_numbers_strictly(&rt, &[0xc4, 0x02, 0x01, 0xc8], &[1, 200]);
    refuses_strictly::<Vec<u16>>(&rt, &[0xc5, 0x00, 0x02, 0x01, 0xc8], NOT_CANONICAL);
}

fn pass_over(de: &mut SliceReader) -> Result<(), Error> {
    de.deserialize_ignored_any()
}

#[test]
fn strictly_or_not(rt: HostRuntime) {
    let mut de = reader(&rt, &[0x91, 0xcc, 0x05, 0x91, 0xcc, 0x05]);
    gives(&rt, pass_over(&mut de), ());
    de.set_strict(true);
    refused(&rt, pass_over(&mut de), NOT_CANONICAL);
    de.set_strict(false);
    refused(&rt, pass_over(&mut de), FAILED_BEFORE);
}
