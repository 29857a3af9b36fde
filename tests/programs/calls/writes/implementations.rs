//! Each implementation of `Serialize`, by rows of values and their bytes.
use super::{is_forced, is_written};
use rmp_encode::Serializer;
use rmp_wire::config::BytesMode;
use rmp_wire::{ByteBuf, Bytes, Ext, F32Bits, F64Bits};
use std::collections::{BTreeMap, BTreeSet, VecDeque};
use std::test::Fail;
use test_types::UnkSeq;

#[test]
fn numbers(rt: HostRuntime) -> Result<(), Fail> {
    assert!(rt; is_written(&rt, &254u8, b"\xcc\xfe")?);
    assert!(rt; is_written(&rt, &256u16, b"\xcd\x01\x00")?);
    assert!(rt; is_written(&rt, &100500u32, b"\xce\x00\x01\x88\x94")?);
    assert!(rt; is_written(&rt, &4294967296u64, b"\xcf\x00\x00\x00\x01\x00\x00\x00\x00")?);
    assert!(rt; is_written(&rt, &300usize, b"\xcd\x01\x2c")?);
    assert!(rt; is_written(&rt, &-127i8, b"\xd0\x81")?);
    assert!(rt; is_written(&rt, &-129i16, b"\xd1\xff\x7f")?);
    assert!(rt; is_written(&rt, &-2147483648i32, b"\xd2\x80\x00\x00\x00")?);
    assert!(rt;
        is_written(
            &rt,
            &-2147483649i64,
            b"\xd3\xff\xff\xff\xff\x7f\xff\xff\xff"
        )?
    );
    assert!(rt; is_written(&rt, &-1isize, b"\xff")?);
    assert!(rt; is_written(&rt, &true, b"\xc3")?);
    assert!(rt; is_written(&rt, &(), b"\xc0")?);
    let ones = b"\xcf\xff\xff\xff\xff\xff\xff\xff\xff";
    assert!(rt; is_written(&rt, &18446744073709551615u64, ones)?);
    assert!(rt; is_written(&rt, &-32769i32, b"\xd2\xff\xff\x7f\xff")?);
    let forty_two = F64Bits(0x4045_0000_0000_0000);
    assert!(rt; is_written(&rt, &forty_two, b"\xcb\x40\x45\x00\x00\x00\x00\x00\x00")?);
    assert!(rt; is_written(&rt, &F32Bits(0x7f7fffff), b"\xca\x7f\x7f\xff\xff")?);
    assert!(rt; is_written(&rt, &F64Bits(1), b"\xcb\x00\x00\x00\x00\x00\x00\x00\x01")?);
    Ok(())
}

#[test]
fn texts_and_bytes(rt: HostRuntime) -> Result<(), Fail> {
    assert!(rt; is_written(&rt, &'\u{10ffff}', b"\xa4\xf4\x8f\xbf\xbf")?);
    assert!(rt; is_written(&rt, &"key", b"\xa3key")?);
    let mut text = String::new(rt.alloc());
    text.push_str("the Answer")?;
    assert!(rt; is_written(&rt, &text, b"\xaathe Answer")?);
    assert!(rt; is_written(&rt, &Bytes::new(b"\x01\xc8"), b"\xc4\x02\x01\xc8")?);
    let owned = ByteBuf::new(vec![in rt.alloc(); 1u8, 200]?);
    assert!(rt; is_written(&rt, &owned, b"\xc4\x02\x01\xc8")?);
    let ext = Ext::new(127, vec![in rt.alloc(); 1u8, 2, 3, 4]?);
    assert!(rt; is_written(&rt, &ext, b"\xd6\x7f\x01\x02\x03\x04")?);
    Ok(())
}

#[test]
fn tuples(rt: HostRuntime) -> Result<(), Fail> {
    assert!(rt; is_written(&rt, &(200u8,), b"\x91\xcc\xc8")?);
    assert!(rt; is_written(&rt, &(1u8, 200u16), b"\x92\x01\xcc\xc8")?);
    assert!(rt; is_written(&rt, &(1u8, -1i8, true), b"\x93\x01\xff\xc3")?);
    assert!(rt; is_written(&rt, &(1u8, 2u8, 3u8, 127u8), b"\x94\x01\x02\x03\x7f")?);
    assert!(rt;
        is_written(
            &rt,
            &(200u8, -1i8, true, 'x', "y"),
            b"\x95\xcc\xc8\xff\xc3\xa1x\xa1y"
        )?
    );
    assert!(rt;
        is_written(
            &rt,
            &(1u8, 2u8, 3u8, 4u8, 5u8, 6u8),
            b"\x96\x01\x02\x03\x04\x05\x06"
        )?
    );
    assert!(rt;
        is_written(
            &rt,
            &(1u8, 2u8, 3u8, 4u8, 5u8, 6u8, 7u8),
            b"\x97\x01\x02\x03\x04\x05\x06\x07"
        )?
    );
    assert!(rt;
        is_written(
            &rt,
            &(1u8, 2u8, 3u8, 4u8, 5u8, 6u8, 7u8, 8u8),
            b"\x98\x01\x02\x03\x04\x05\x06\x07\x08"
        )?
    );
    Ok(())
}

#[test]
fn sequences(rt: HostRuntime) -> Result<(), Fail> {
    let items = vec![in rt.alloc(); 1u16, 200, 300]?;
    assert!(rt; is_written(&rt, &items, b"\x93\x01\xcc\xc8\xcd\x01\x2c")?);
    assert!(rt; is_written(&rt, &items.as_slice(), b"\x93\x01\xcc\xc8\xcd\x01\x2c")?);
    assert!(rt; is_written(&rt, &[1u16, 200], b"\x92\x01\xcc\xc8")?);
    assert!(rt;
        is_written(
            &rt,
            &[[1u8, 200], [3, 4]],
            b"\x92\x92\x01\xcc\xc8\x92\x03\x04"
        )?
    );
    let mut queue = VecDeque::new(rt.alloc());
    queue.push_back(1u8)?;
    queue.push_back(200u8)?;
    assert!(rt; is_written(&rt, &queue, b"\x92\x01\xcc\xc8")?);
    let mut set = BTreeSet::new(rt.alloc());
    set.insert(5i16)?;
    set.insert(-5i16)?;
    set.insert(300i16)?;
    assert!(rt; is_written(&rt, &set, b"\x93\xfb\x05\xcd\x01\x2c")?);
    let mut map = BTreeMap::new(rt.alloc());
    map.insert(1u8, 200u8)?;
    assert!(rt; is_written(&rt, &map, b"\x81\x01\xcc\xc8")?);
    Ok(())
}

#[test]
fn pointers(rt: HostRuntime) -> Result<(), Fail> {
    assert!(rt; is_written(&rt, &&200u8, b"\xcc\xc8")?);
    let boxed = Box::new(rt.alloc(), vec![in rt.alloc(); 200u8]?)?;
    assert!(rt; is_written(&rt, &boxed, b"\x91\xcc\xc8")?);
    assert!(rt; is_forced(&rt, BytesMode::ForceAll, &boxed, b"\xc4\x01\xc8")?);
    let one = 200u8;
    let two = Box::new(rt.alloc(), 1u8)?;
    assert!(rt; is_forced(&rt, BytesMode::ForceAll, &(&one, two), b"\xc4\x02\xc8\x01")?);
    let items = vec![in rt.alloc(); &one]?;
    assert!(rt; is_forced(&rt, BytesMode::ForceIterables, &items, b"\xc4\x01\xc8")?);
    assert!(rt; is_forced(&rt, BytesMode::ForceAll, &items, b"\xc4\x01\xc8")?);
    Ok(())
}

#[test]
fn modes(rt: HostRuntime) -> Result<(), Fail> {
    let all = BytesMode::ForceAll;
    let zeros = b"\x9f\x00\x00\x00\x00\x00\x00\x00\x00\x00\x00\x00\x00\x00\x00\x00";
    assert!(rt; is_forced(&rt, all, &[0u8; 15], zeros)?);
    let packed = b"\xc4\x10\x00\x00\x00\x00\x00\x00\x00\x00\x00\x00\x00\x00\x00\x00\x00\x00";
    assert!(rt; is_forced(&rt, all, &[0u8; 16], packed)?);
    let none: [u8; 0] = [];
    assert!(rt; is_forced(&rt, all, &none, b"\x90")?);
    assert!(rt; is_forced(&rt, all, &[1u16, 200], b"\x92\x01\xcc\xc8")?);
    assert!(rt; is_forced(&rt, all, &([1u8, 200], 3u8), b"\x92\xc4\x02\x01\xc8\x03")?);
    assert!(rt; is_forced(&rt, all, &(200u8, 1u16), b"\x92\xcc\xc8\x01")?);
    let seven = vec![in rt.alloc(); 7u8, 7]?;
    assert!(rt; is_forced(&rt, all, &(seven, 3u8), b"\x92\xc4\x02\x07\x07\x03")?);
    let mut queue = VecDeque::new(rt.alloc());
    queue.push_back(1u8)?;
    assert!(rt; is_forced(&rt, all, &queue, b"\x91\x01")?);
    let small = vec![in rt.alloc(); 1i8, -1]?;
    assert!(rt; is_forced(&rt, all, &small, b"\x92\x01\xff")?);
    Ok(())
}

// Items that are written as a list of unknown length.
fn uncounted<T>(items: Vec<T>) -> UnkSeq<T> {
    UnkSeq { items }
}

#[test]
fn unknown_lengths_of_items(rt: HostRuntime) -> Result<(), Fail> {
    let flat = uncounted(vec![in rt.alloc(); 200u8, 1]?);
    assert!(rt; is_written(&rt, &flat, b"\x92\xcc\xc8\x01")?);
    assert!(rt; is_forced(&rt, BytesMode::ForceAll, &flat, b"\x92\xcc\xc8\x01")?);
    let none: UnkSeq<u8> = uncounted(Vec::new(rt.alloc()));
    assert!(rt; is_written(&rt, &none, b"\x90")?);
    let zeros = uncounted(vec![in rt.alloc(); 0u8; 16]?);
    let many = b"\xdc\x00\x10\x00\x00\x00\x00\x00\x00\x00\x00\x00\x00\x00\x00\x00\x00\x00\x00";
    assert!(rt; is_written(&rt, &zeros, many)?);
    let pairs = uncounted(vec![in rt.alloc(); (1u8, 200u8), (3, 4)]?);
    assert!(rt; is_written(&rt, &pairs, b"\x92\x92\x01\xcc\xc8\x92\x03\x04")?);
    assert!(rt;
        is_forced(
            &rt,
            BytesMode::ForceAll,
            &pairs,
            b"\x92\xc4\x02\x01\xc8\x92\x03\x04"
        )?
    );
    let inner = uncounted(vec![in rt.alloc(); 1u8]?);
    let empty: UnkSeq<u8> = uncounted(Vec::new(rt.alloc()));
    let nested = uncounted(vec![in rt.alloc(); inner, empty]?);
    assert!(rt; is_forced(&rt, BytesMode::ForceAll, &nested, b"\x92\x91\x01\x90")?);
    Ok(())
}

#[test]
fn unknown_lengths_in_one_another(rt: HostRuntime) -> Result<(), Fail> {
    let pairs = uncounted(vec![in rt.alloc(); (1u8, 200u8)]?);
    let mut inner = BTreeMap::new(rt.alloc());
    inner.insert("b", pairs)?;
    let maps = uncounted(vec![in rt.alloc(); inner]?);
    let mut se = Serializer::new(rt.alloc(), Vec::new(rt.alloc())).with_bytes(BytesMode::ForceAll);
    let mut map = se.serialize_map(None)?;
    map.serialize_key(&"a")?;
    map.serialize_value(&maps)?;
    map.serialize_key(&"c")?;
    map.serialize_value(&1u8)?;
    map.end()?;
    let empty = se.serialize_map(None)?;
    empty.end()?;
    assert_eq!(rt;
        se.into_inner().as_slice(),
        b"\x82\xa1a\x91\x81\xa1b\x91\xc4\x02\x01\xc8\xa1c\x01\x80".as_slice()
    );
    Ok(())
}
