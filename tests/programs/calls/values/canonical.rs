//! What is read from the very bytes that are written of it, and what isn't.
use rmp_serde::decode::Error;
use rmp_serde::{
    Explained, Structs, from_slice_canonical, from_slice_canonical_explained,
    from_slice_canonical_named, from_slice_strict,
};
use std::collections::{BTreeMap, BTreeSet};
use std::test::Fail;
use test_derived::Dog;

#[test]
fn what_is_written_is_read(rt: HostRuntime) -> Result<(), Fail> {
    let pair: Result<(u8, bool), Error> = from_slice_canonical(rt.alloc(), b"\x92\x2a\xc3");
    assert!(rt; matches!(pair, Ok((42, true))));
    let map: Result<BTreeMap<u8, u8>, Error> = from_slice_canonical(
        rt.alloc(),
        b"\x82\x01\x02\x03\x04",
    );
    match map {
        Ok(map) => assert_eq!(rt; map.len(), 2),
        Err(_) => assert!(rt; false),
    }
    Ok(())
}

#[test]
fn other_widths_and_what_follows_are_refused(rt: HostRuntime) {
    let wide: Result<(u8, bool), Error> = from_slice_canonical(rt.alloc(), b"\x92\xcc\x2a\xc3");
    assert!(rt; matches!(wide, Err(Error::NotCanonical)));
    let more: Result<(u8, bool), Error> = from_slice_canonical(rt.alloc(), b"\x92\x2a\xc3\xc0");
    assert!(rt; matches!(more, Err(Error::NotCanonical)));
}

#[test]
fn keys_in_another_order_are_refused(rt: HostRuntime) {
    let bytes = b"\x82\x03\x04\x01\x02";
    let strict: Result<BTreeMap<u8, u8>, Error> = from_slice_strict(rt.alloc(), bytes);
    assert!(rt; strict.is_ok());
    let canonical: Result<BTreeMap<u8, u8>, Error> = from_slice_canonical(rt.alloc(), bytes);
    assert!(rt; matches!(canonical, Err(Error::NotCanonical)));
    let twice: Result<BTreeSet<u8>, Error> = from_slice_canonical(rt.alloc(), b"\x92\x01\x01");
    assert!(rt; matches!(twice, Err(Error::NotCanonical)));
}

#[test]
fn structs_are_lists_or_maps(rt: HostRuntime) {
    let list = b"\x92\xa1a\x01";
    let read: Result<Dog, Error> = from_slice_canonical(rt.alloc(), list);
    assert!(rt; read.is_ok());
    let named: Result<Dog, Error> = from_slice_canonical_named(rt.alloc(), list);
    assert!(rt; matches!(named, Err(Error::NotCanonical)));
    let map = b"\x82\xa4name\xa1a\xa3age\x01";
    let read: Result<Dog, Error> = from_slice_canonical_named(rt.alloc(), map);
    assert!(rt; read.is_ok());
    let listed: Result<Dog, Error> = from_slice_canonical(rt.alloc(), map);
    assert!(rt; matches!(listed, Err(Error::NotCanonical)));
}

#[test]
fn fields_in_another_order_are_refused(rt: HostRuntime) {
    let turned = b"\x82\xa3age\x01\xa4name\xa1a";
    let strict: Result<Dog, Error> = from_slice_strict(rt.alloc(), turned);
    assert!(rt; strict.is_ok());
    let named: Result<Dog, Error> = from_slice_canonical_named(rt.alloc(), turned);
    assert!(rt; matches!(named, Err(Error::NotCanonical)));
}

// Whether a refusal comes with this line.
fn is_explained<T: Drop>(rt: HostRuntime, read: Result<T, Explained>, line: &str) -> bool {
    match read {
        Ok(_) => false,
        Err(refused) => match format!(in rt.alloc(); "{refused}") {
            Ok(said) => said.as_str() == line,
            Err(_) => false,
        },
    }
}

#[test]
fn what_is_written_otherwise_is_explained(rt: HostRuntime) -> Result<(), Fail> {
    let alloc = rt.alloc();
    // {"b": 1, "a": 2}, whose keys aren't in order
    let bytes = b"\x82\xa1b\x01\xa1a\x02";
    let read: Result<BTreeMap<String, u8>, Explained> = from_slice_canonical_explained(
        alloc,
        bytes,
        Structs::Lists,
    );
    assert!(rt;
        is_explained(
            rt,
            read,
            "not canonical at {key 0} (byte 1): a text of 1 byte"
        )
    );
    // What follows the message is otherwise.
    let read: Result<(u8, bool), Explained> = from_slice_canonical_explained(
        alloc,
        b"\x92\x2a\xc3\xc0",
        Structs::Lists,
    );
    assert!(rt; is_explained(rt, read, "not canonical (byte 3): nil"));
    // A head that isn't canonical, which no strict read accepts.
    let read: Result<(u8, bool), Explained> = from_slice_canonical_explained(
        alloc,
        b"\x92\xcc\x2a\xc3",
        Structs::Lists,
    );
    assert!(rt; is_explained(rt, read, "not canonical at [0] (byte 1): the integer 42"));
    let read: Result<(u8, bool), Explained> = from_slice_canonical_explained(
        alloc,
        b"\x92\x2a\xc3",
        Structs::Lists,
    );
    assert!(rt; matches!(read, Ok((42, true))));
    Ok(())
}

#[test]
fn structs_are_canonical_in_one_form(rt: HostRuntime) -> Result<(), Fail> {
    let alloc = rt.alloc();
    let (list, map) = (
        b"\x92\xa5Bobby\x08".as_slice(),
        b"\x82\xa4name\xa5Bobby\xa3age\x08".as_slice(),
    );
    let read: Result<Dog, Explained> = from_slice_canonical_explained(alloc, list, Structs::Lists);
    assert!(rt; matches!(read, Ok(dog) if dog.age == 8));
    let read: Result<Dog, Explained> = from_slice_canonical_explained(alloc, map, Structs::Maps);
    assert!(rt; matches!(read, Ok(dog) if dog.age == 8));
    let read: Result<Dog, Explained> = from_slice_canonical_explained(alloc, map, Structs::Lists);
    assert!(rt; is_explained(rt, read, "not canonical (byte 0): a map of 2 pairs"));
    let read: Result<Dog, Explained> = from_slice_canonical_explained(alloc, list, Structs::Maps);
    assert!(rt; is_explained(rt, read, "not canonical (byte 0): a list of 2 elements"));
    Ok(())
}
