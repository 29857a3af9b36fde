//! The parts of values, how values are written, and which are equal.
use rmp_serde::config::BytesMode;
use rmp_serde::decode::Error;
use rmp_serde::encode::{Serialize, Serializer, write};
use rmp_serde::{Kind, Value, ValueRef, from_slice, from_slice_strict, to_vec, to_vec_named};
use std::alloc::Global;
use std::test::Fail;

// A list of a message of each kind, in the kinds' order, spelled canonically.
const ALL_KINDS: [u8; 41] = [
    0x9a, 0xc0, 0xc3, 0xd0, 0xdf, 0xca, 0x3f, 0x80, 0, 0, 0xcb, 0x3f, 0xf0, 0, 0, 0, 0, 0, 0, 0xa1,
    0x61, 0xc4, 2, 1, 2, 0x92, 0x7f, 0xce, 0, 1, 0x88, 0x94, 0x81, 0xff, 0xc2, 0xc7, 3, 5, 1, 2, 3,
];

// The same list in wider heads, and a byte after it.
const WIDE: [u8; 66] = [
    0xdc, 0, 10, 0xc0, 0xc3, 0xd1, 0xff, 0xdf, 0xca, 0x3f, 0x80, 0, 0, 0xcb, 0x3f, 0xf0, 0, 0, 0,
    0, 0, 0, 0xda, 0, 1, 0x61, 0xc5, 0, 2, 1, 2, 0xdd, 0, 0, 0, 2, 0xcc, 0x7f, 0xcf, 0, 0, 0, 0, 0,
    1, 0x88, 0x94, 0xde, 0, 1, 0xd2, 0xff, 0xff, 0xff, 0xff, 0xc2, 0xc9, 0, 0, 0, 3, 5, 1, 2, 3, 0,
];

const KINDS: [Kind; 10] = [
    Kind::Nil,
    Kind::Truth,
    Kind::Whole,
    Kind::F32,
    Kind::F64,
    Kind::Text,
    Kind::Bytes,
    Kind::List,
    Kind::Map,
    Kind::Ext,
];

// Which calls answer `Some`, in the kinds' order. None does at nil.
fn answers(part: ValueRef) -> [bool; 10] {
    [
        false,
        part.as_bool().is_some(),
        part.as_whole().is_some(),
        part.as_f32_bits().is_some(),
        part.as_f64_bits().is_some(),
        part.as_str().is_some(),
        part.as_bytes().is_some(),
        part.item(1).is_some(),
        part.pair(0).is_some(),
        part.as_ext().is_some(),
    ]
}

// The item at the index, or the whole list where there is none.
fn item(list: &Value, at: usize) -> ValueRef<'_> {
    list.root().item(at).unwrap_or(list.root())
}

#[test]
fn each_call_answers_for_its_own_kind(rt: HostRuntime) -> Result<(), Error> {
    let all = from_slice::<Value>(rt.alloc(), &ALL_KINDS)?;
    assert_eq!(rt; all.root().len(), KINDS.len());
    for (at, kind) in KINDS.iter().enumerate() {
        let part = item(&all, at);
        assert_eq!(rt; part.kind(), *kind);
        for (call, answered) in answers(part).iter().enumerate() {
            assert_eq!(rt; *answered, call == at && at > 0, "call {call} at kind {at}");
        }
    }
    Ok(())
}

#[test]
fn each_leaf_gives_its_content(rt: HostRuntime) -> Result<(), Error> {
    let all = from_slice::<Value>(rt.alloc(), &ALL_KINDS)?;
    assert_eq!(rt; item(&all, 1).as_bool(), Some(true));
    assert_eq!(rt; item(&all, 2).as_whole(), Some(-33));
    assert_eq!(rt; item(&all, 3).as_f32_bits(), Some(0x3f80_0000));
    assert_eq!(rt; item(&all, 4).as_f64_bits(), Some(0x3ff0_0000_0000_0000));
    assert!(rt; matches!(item(&all, 5).as_str(), Some("a")));
    assert!(rt; matches!(item(&all, 6).as_bytes(), Some([1, 2])));
    assert!(rt; matches!(item(&all, 9).as_ext(), Some((5, [1, 2, 3]))));
    Ok(())
}

#[test]
fn lists_and_maps_give_their_parts(rt: HostRuntime) -> Result<(), Error> {
    let all = from_slice::<Value>(rt.alloc(), &ALL_KINDS)?;
    let (list, map) = (item(&all, 7), item(&all, 8));
    assert_eq!(rt; list.len(), 2);
    assert_eq!(rt;
        list.item(1).and_then(|part| part.as_whole()),
        Some(100_500)
    );
    assert!(rt; list.item(2).is_none());
    assert_eq!(rt; map.len(), 1);
    assert_eq!(rt; map.pair(0).and_then(|pair| pair.0.as_whole()), Some(-1));
    assert_eq!(rt; map.pair(0).and_then(|pair| pair.1.as_bool()), Some(false));
    assert!(rt; map.pair(1).is_none());
    assert_eq!(rt; item(&all, 9).len(), 0);
    Ok(())
}

#[test]
fn parts_come_one_after_another(rt: HostRuntime) -> Result<(), Error> {
    let all = from_slice::<Value>(rt.alloc(), &ALL_KINDS)?;
    assert_eq!(rt; all.root().parts().count(), KINDS.len());
    let mut parts = item(&all, 8).parts();
    assert_eq!(rt; parts.next().and_then(|part| part.as_whole()), Some(-1));
    assert_eq!(rt; parts.next().and_then(|part| part.as_bool()), Some(false));
    assert!(rt; parts.next().is_none());
    assert!(rt; item(&all, 9).parts().next().is_none());
    Ok(())
}

#[test]
fn pairs_come_one_after_another(rt: HostRuntime) -> Result<(), Error> {
    let all = from_slice::<Value>(rt.alloc(), &ALL_KINDS)?;
    let mut pairs = item(&all, 8).pairs();
    let pair = pairs.next();
    assert_eq!(rt; pair.and_then(|pair| pair.0.as_whole()), Some(-1));
    assert_eq!(rt; pair.and_then(|pair| pair.1.as_bool()), Some(false));
    assert!(rt; pairs.next().is_none());
    assert_eq!(rt; all.root().pairs().count(), 0);
    assert_eq!(rt; item(&all, 9).pairs().count(), 0);
    let three = from_slice::<Value>(rt.alloc(), &[0x83, 1, 0x90, 2, 0x91, 3, 4, 5])?;
    assert_eq!(rt; three.root().pairs().count(), 3);
    let last = three.root().pairs().nth(2);
    assert_eq!(rt; last.and_then(|pair| pair.0.as_whole()), Some(4));
    assert_eq!(rt; last.and_then(|pair| pair.1.as_whole()), Some(5));
    Ok(())
}

#[test]
fn the_spelling_that_is_written_is_canonical(rt: HostRuntime) -> Result<(), Error> {
    for spelling in [&ALL_KINDS[..], &WIDE[..]] {
        let all = from_slice::<Value>(rt.alloc(), spelling)?;
        assert!(rt; to_vec(rt.alloc(), &all).is_ok_and(|bytes| bytes.as_slice() == &ALL_KINDS[..]));
    }
    Ok(())
}

// What the message at the front of the input is written as again.
fn again(alloc: Global, input: &[u8]) -> Result<Vec<u8>, Fail> {
    Ok(to_vec(alloc, &from_slice::<Value>(alloc, input)?)?)
}

#[test]
fn equal_trees_are_written_alike(rt: HostRuntime) -> Result<(), Fail> {
    let canonical = b"\x92\x05\xa1a".as_slice();
    for spelling in [b"\x92\xcd\x00\x05\xd9\x01a".as_slice(), canonical] {
        let first = again(rt.alloc(), spelling)?;
        assert_eq!(rt; first.as_slice(), canonical);
        assert_eq!(rt; again(rt.alloc(), first.as_slice())?.as_slice(), canonical);
    }
    let other = again(rt.alloc(), b"\x92\x05\xa1b")?;
    assert_eq!(rt; other.as_slice(), b"\x92\x05\xa1b".as_slice());
    Ok(())
}

#[test]
fn a_list_of_a_value_is_never_bytes(rt: HostRuntime) -> Result<(), Fail> {
    let value = from_slice::<Value>(rt.alloc(), b"\x91\x01")?;
    let mut se = Serializer::new(rt.alloc(), Vec::new(rt.alloc())).with_bytes(BytesMode::ForceAll);
    value.serialize(&mut se)?;
    assert_eq!(rt; se.into_inner().as_slice(), b"\x91\x01".as_slice());
    Ok(())
}

// What other tests have written.
const WRITTEN: [&[u8]; 14] = [
    b"\x92\x2a\xaathe Answer",
    b"\x96\x7f\xcc\x80\xcd\x01\x2c\xe0\xd0\xdf\xd1\xff\x7f",
    b"\xc4\x04\x01\x64\xc8\xfe",
    b"\x94\x01\x02\x03\x7f",
    b"\x92\x2a\xce\x00\x01\x88\x94",
    b"\x90",
    b"\x82\xa4name\xa5Bobby\xa3age\x08",
    b"\x92\xa5Bobby\x08",
    b"\xa2V1",
    b"\x81\xa2V2\x92\x2a\xce\x00\x01\x88\x94",
    b"\x84\xa2f1\x00\xa2f2\x92\x08\x0d\xa2f4\x15\xa2f5\x22",
    b"\xcd\x01\x2c",
    b"\xc7\x03\x02\x01\x02\x03",
    b"\xcb\x40\x45\x00\x00\x00\x00\x00\x00",
];

#[test]
fn what_is_written_is_read_strictly(rt: HostRuntime) -> Result<(), Fail> {
    for bytes in WRITTEN {
        let value: Value = from_slice_strict(rt.alloc(), bytes)?;
        assert_eq!(rt; to_vec(rt.alloc(), &value)?.as_slice(), bytes);
    }
    Ok(())
}

// A number in a value is no `u8`, so that it is never made bytes.
#[test]
fn values_are_written_among_others(rt: HostRuntime) -> Result<(), Fail> {
    let value = from_slice::<Value>(rt.alloc(), &[0xcc, 0xc8])?;
    let pair = (&value, 200u8);
    assert_eq!(rt;
        to_vec(rt.alloc(), &pair)?.as_slice(),
        b"\x92\xcc\xc8\xcc\xc8".as_slice()
    );
    assert_eq!(rt;
        to_vec_named(rt.alloc(), &value)?.as_slice(),
        b"\xcc\xc8".as_slice()
    );
    let mut se = Serializer::new(rt.alloc(), Vec::new(rt.alloc())).with_bytes(BytesMode::ForceAll);
    [200u8; 16].serialize(&mut se)?;
    [&value, &value].serialize(&mut se)?;
    let bytes = se.into_inner();
    assert!(rt; bytes.starts_with(b"\xc4\x10\xc8"));
    assert!(rt; bytes.ends_with(b"\xc8\x92\xcc\xc8\xcc\xc8"));
    let mut sink = Vec::new(rt.alloc());
    write(rt.alloc(), &mut sink, &value)?;
    assert_eq!(rt; sink.as_slice(), b"\xcc\xc8".as_slice());
    Ok(())
}

// Spellings of values that differ from one another, each in one place.
const NEIGHBOURS: [&[u8]; 11] = [
    &[0x61],
    &[0xa1, 0x61],
    &[0xc4, 1, 0x61],
    &[0xd4, 1, 0x61],
    &[0xd4, 2, 0x61],
    &[0x91, 0xc0],
    &[0x92, 0xc0, 0xca, 0, 0, 0, 1],
    &[0x92, 0xc0, 0xcb, 0, 0, 0, 0, 0, 0, 0, 1],
    &[0x81, 0xc0, 0xc0],
    &[0x81, 0xc0, 0xc3],
    &[0x81, 0xc3, 0xc0],
];

#[test]
fn values_are_equal_where_their_trees_are(rt: HostRuntime) -> Result<(), Error> {
    for (i, a) in NEIGHBOURS.iter().enumerate() {
        for (j, b) in NEIGHBOURS.iter().enumerate() {
            let (a, b) = (
                from_slice::<Value>(rt.alloc(), a)?,
                from_slice::<Value>(rt.alloc(), b)?,
            );
            assert_eq!(rt; a == b, i == j, "{i} and {j}");
        }
    }
    assert!(rt;
        from_slice::<Value>(rt.alloc(), &ALL_KINDS)? == from_slice::<Value>(rt.alloc(), &WIDE)?
    );
    Ok(())
}
