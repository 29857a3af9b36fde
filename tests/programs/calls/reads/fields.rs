//! Structs whose fields are read by one call.
use super::rows::{
    INVALID_LENGTH, INVALID_TYPE, NOT_CANONICAL, SliceReader, TOO_DEEP, reader, refused, refuses,
    refuses_strictly,
};
use rmp_decode::{Deserialize, Error, from_slice, from_slice_strict};
use std::process::Abort;
use test_types::structs::{Dog, Named, Tagged, Wide};

// The read gave this dog.
fn is(rt: &impl Abort, read: Result<Dog, Error>, name: &str, age: u16, grams: u32) {
    match read {
        Ok(dog) => assert_eq!(rt;
            (dog.name.as_str(), dog.age, dog.weight.grams),
            (name, age, grams)
        ),
        Err(e) => panic!(rt; "{name} is refused: {e}"),
    }
}

// The input is read as this dog.
fn reads(rt: &(impl Abort + AllocGlobal), input: &[u8], name: &str, age: u16, grams: u32) {
    is(rt, from_slice(rt.alloc(), input), name, age, grams);
}

#[test]
fn fields_by_names(rt: HostRuntime) {
    // in another order, with a name that is unknown
    reads(
        &rt,
        b"\x84\xa1\x78\x81\x05\x90\xa3age\x08\xa6weight\x01\xa4name\xa5Bobby",
        "Bobby",
        8,
        1,
    );
    // places and bytes for names
    reads(&rt, b"\x83\x01\x08\xc4\x06weight\x09\x00\xa1A", "A", 8, 9);
    // one that isn't there, that has a default
    reads(&rt, b"\x82\x01\x08\x00\xa1A", "A", 8, 7);
    refuses::<Dog>(&rt, b"\x81\xa4name\xa1A", "missing field");
    refuses::<Dog>(&rt, b"\x82\xa3age\x08\xa3age\x08", "duplicate field");
    refuses::<Dog>(&rt, b"\x81\xff\x08", INVALID_TYPE);
    refuses::<Dog>(&rt, b"\x81\xa3age\xc3", INVALID_TYPE);
    refuses::<Dog>(&rt, b"\xc0", INVALID_TYPE);
}

#[test]
fn fields_in_order(rt: HostRuntime) {
    reads(&rt, b"\x93\xa5Bobby\x08\x01", "Bobby", 8, 1);
    refuses::<Dog>(&rt, b"\x92\xa5Bobby\x08", INVALID_LENGTH);
    refuses::<Dog>(
        &rt,
        b"\x94\xa5Bobby\x08\x01\x07",
        "array had incorrect length, expected 3",
    );
    refuses::<Dog>(&rt, b"\xc4\x03\x01\x02\x03", INVALID_TYPE);
}

// A dog by a reader with this limit.
fn within(mut de: SliceReader, limit: usize) -> Result<Dog, Error> {
    de.set_max_depth(limit);
    Dog::deserialize(&mut de)
}

#[test]
fn how_deep_fields_nest(rt: HostRuntime) {
    let input = b"\x83\xa1\x78\x91\x90\x01\x08\x00\xa1A";
    refused(&rt, within(reader(&rt, input), 3), TOO_DEEP);
    is(&rt, within(reader(&rt, input), 4), "A", 8, 7);
    refused(&rt, within(reader(&rt, b"\x80"), 1), TOO_DEEP);
}

// A strict reader reads the input as this dog.
fn reads_strictly(rt: &(impl Abort + AllocGlobal), input: &[u8], name: &str, age: u16, grams: u32) {
    is(rt, from_slice_strict(rt.alloc(), input), name, age, grams);
}

#[test]
fn fields_strictly(rt: HostRuntime) {
    reads_strictly(&rt, b"\x82\x01\x08\x00\xa1A", "A", 8, 7);
    refuses_strictly::<Dog>(&rt, b"\x82\x01\x08\xd9\x04name\xa1A", NOT_CANONICAL);
    refuses_strictly::<Dog>(&rt, b"\x83\x01\x08\x00\xa1A\xa1x\xcc\x01", NOT_CANONICAL);
}

fn is_wide(wide: &Wide) -> bool {
    let first = wide.alpha == 1 && wide.beta == 2 && wide.gamma == 3 && wide.delta == 4;
    first && wide.epsilon && wide.zeta.as_str() == "z" && wide.eta == 7 && wide.theta == 8
}

#[test]
fn eight_fields(rt: HostRuntime) {
    let input =
        b"\x88\xa5theta\x08\xa5alpha\x01\xa4beta\x02\xa5gamma\x03\xa5delta\x04\xa7epsilon\xc3\xa4zeta\xa1z\xa3eta\x07";
    let found: Result<Wide, Error> = from_slice(rt.alloc(), input);
    assert!(rt; matches!(&found, Ok(wide) if is_wide(wide)));
}

fn is_named(read: &Result<Named, Error>, first: &str, last: &str) -> bool {
    matches!(read, Ok(it) if it.first.as_str() == first && it.last.as_str() == last)
}

fn is_tagged(read: &Result<Tagged, Error>, tag: u8, name: &str) -> bool {
    matches!(read, Ok(it) if it.tag == tag && it.name.as_str() == name)
}

#[test]
fn two_fields(rt: HostRuntime) {
    let found = from_slice(rt.alloc(), b"\x82\xa4last\xa1b\xa5first\xa1a");
    assert!(rt; is_named(&found, "a", "b"));
    let found = from_slice(rt.alloc(), b"\x82\xa4name\xa1b\xa3tag\x07");
    assert!(rt; is_tagged(&found, 7, "b"));
}
