//! Values to which items and pairs are added.
use rmp_serde::{Value, ValueRef, encode, from_slice, to_vec};
use std::alloc::Global;
use std::test::Fail;

fn text(alloc: Global, text: &str) -> Result<Value, encode::Error> {
    Value::from_text(alloc, text)
}

// Whether both are there, and have the same tree.
fn are_same(alloc: Global, a: Option<ValueRef>, b: Option<ValueRef>) -> Result<bool, Fail> {
    match (a, b) {
        (Some(a), Some(b)) => Ok(a.to_value(alloc)? == b.to_value(alloc)?),
        _ => Ok(false),
    }
}

// [5, "it", [1, {"k": b"\x07"}], {}, -7: "ab"]
const LIST: &[u8] = b"\x95\x05\xa2it\x92\x01\x81\xa1k\xc4\x01\x07\x80\xd5\xf9ab";

#[test]
fn items_are_added_at_the_end(rt: HostRuntime) -> Result<(), Fail> {
    let alloc = rt.alloc();
    let mut list = Value::from_items(alloc, &[])?;
    let whole: Value = from_slice(alloc, LIST)?;
    let mut added = 0;
    for part in whole.root().parts() {
        list.push(&part.to_value(alloc)?)?;
        added += 1;
        // Each part of it is found, so each node says how many there are.
        assert_eq!(rt; list.root().len(), added);
        for i in 0..added {
            assert!(rt; are_same(alloc, list.root().item(i), whole.root().item(i))?);
        }
    }
    assert!(rt; list == whole);
    assert_eq!(rt; to_vec(alloc, &list)?.as_slice(), LIST);
    let inner = list.pointer("/2/1/k").and_then(|part| part.as_bytes());
    assert!(rt; matches!(inner, Some([7])));
    Ok(())
}

#[test]
fn what_was_read_is_added_to(rt: HostRuntime) -> Result<(), Fail> {
    let alloc = rt.alloc();
    let mut list: Value = from_slice(alloc, b"\xdc\0\x02\xa1a\x91\xc0")?;
    let other: Value = from_slice(alloc, LIST)?;
    list.push(&other)?;
    list.push(&text(alloc, "")?)?;
    assert!(rt; are_same(alloc, list.root().item(2), Some(other.root()))?);
    let (head, last) = (b"\x94\xa1a\x91\xc0".as_slice(), b"\xa0".as_slice());
    let mut wanted = Vec::from_slice(alloc, head)?;
    wanted.extend_from_slice(LIST)?;
    wanted.extend_from_slice(last)?;
    assert_eq!(rt; to_vec(alloc, &list)?.as_slice(), wanted.as_slice());
    Ok(())
}

#[test]
fn pairs_are_added_at_the_end(rt: HostRuntime) -> Result<(), Fail> {
    let alloc = rt.alloc();
    let mut map = Value::from_pairs(alloc, &[])?;
    let list: Value = from_slice(alloc, LIST)?;
    map.push_pair(&text(alloc, "a")?, &list)?;
    map.push_pair(&Value::nil(alloc), &Value::from_bool(alloc, true))?;
    map.push_pair(&text(alloc, "a")?, &text(alloc, "b")?)?;
    let made = Value::from_pairs(
        alloc,
        &[
            (text(alloc, "a")?, list.clone()?),
            (Value::nil(alloc), Value::from_bool(alloc, true)),
            (text(alloc, "a")?, text(alloc, "b")?),
        ],
    )?;
    assert!(rt; map == made);
    assert!(rt; are_same(alloc, map.get("a"), Some(list.root()))?);
    assert!(rt; from_slice::<Value>(alloc, &to_vec(alloc, &map)?)? == map);
    Ok(())
}

#[test]
fn other_kinds_are_refused_and_stay(rt: HostRuntime) -> Result<(), Fail> {
    let alloc = rt.alloc();
    let item = Value::from_u64(alloc, 1);
    let messages = [
        b"\xc0".as_slice(),
        b"\xc2",
        b"\x05",
        b"\xca\0\0\0\0",
        b"\xcb\0\0\0\0\0\0\0\0",
        b"\xa1a",
        b"\xc4\x01\x07",
        b"\x81\xa1a\x05",
        b"\x92\x01\xa1a",
        b"\xd4\x01\x07",
    ];
    for message in messages {
        let mut value: Value = from_slice(alloc, message)?;
        if message[0] != 0x92 {
            let refused = value.push(&item);
            assert!(rt; matches!(refused, Err(encode::Error::InvalidDataModel("no list"))));
        }
        if message[0] != 0x81 {
            let refused = value.push_pair(&item, &item);
            assert!(rt; matches!(refused, Err(encode::Error::InvalidDataModel("no map"))));
        }
        assert_eq!(rt; to_vec(alloc, &value)?.as_slice(), message);
    }
    Ok(())
}
