//! The calls of a serializer and of what it opens.
use faulty_io::Trickle;
use rmp_encode::{Error, Serializer, UnderlyingWrite, to_vec_named, write_named};
use rmp_wire::ValueWriteError;
use rmp_wire::config::BytesMode;
use std::test::Fail;

#[test]
fn values(rt: HostRuntime) -> Result<(), Fail> {
    let mut se = Serializer::new(rt.alloc(), Vec::new(rt.alloc()));
    se.serialize_bool(true)?;
    se.serialize_u8(200)?;
    se.serialize_u16(256)?;
    se.serialize_u32(65536)?;
    se.serialize_u64(1)?;
    se.serialize_i8(-1)?;
    se.serialize_i16(-33)?;
    se.serialize_i32(-129)?;
    se.serialize_i64(-1)?;
    se.serialize_f32_bits(1)?;
    se.serialize_f64_bits(1)?;
    se.serialize_char('x')?;
    se.serialize_str("y")?;
    se.serialize_bytes(b"\x01")?;
    se.serialize_unit()?;
    se.collect_seq(&[1u8, 2])?;
    assert_eq!(rt;
        se.into_inner().as_slice(),
        b"\xc3\xcc\xc8\xcd\x01\x00\xce\x00\x01\x00\x00\x01\xff\xd0\xdf\xd1\xff\x7f\xff\xca\x00\x00\x00\x01\xcb\x00\x00\x00\x00\x00\x00\x00\x01\xa1x\xa1y\xc4\x01\x01\xc0\x92\x01\x02".as_slice()
    );
    Ok(())
}

#[test]
fn settings(rt: HostRuntime) -> Result<(), Fail> {
    let se = Serializer::new(rt.alloc(), Vec::new(rt.alloc()));
    assert!(rt; !se.is_named() && !se.is_human_readable());
    assert!(rt; matches!(se.bytes(), BytesMode::Normal));
    let se = se
        .with_bytes(BytesMode::ForceIterables)
        .with_human_readable();
    let se = se.with_struct_tuple().with_struct_map();
    assert!(rt; se.is_named() && se.is_human_readable());
    assert!(rt; matches!(se.bytes(), BytesMode::ForceIterables));
    let se = se.with_struct_tuple().with_binary();
    assert!(rt; !se.is_named() && !se.is_human_readable());
    Ok(())
}

#[test]
fn sinks(rt: HostRuntime) -> Result<(), Fail> {
    let mut se = Serializer::new(rt.alloc(), Vec::new(rt.alloc()));
    se.unstable_set_max_depth(1);
    se.serialize_unit()?;
    UnderlyingWrite::get_mut(&mut se).push(7)?;
    assert_eq!(rt;
        UnderlyingWrite::get_ref(&se).as_slice(),
        b"\xc0\x07".as_slice()
    );
    assert_eq!(rt;
        UnderlyingWrite::into_inner(se).as_slice(),
        b"\xc0\x07".as_slice()
    );
    Ok(())
}

#[test]
fn named(rt: HostRuntime) -> Result<(), Fail> {
    assert_eq!(rt;
        to_vec_named(rt.alloc(), &(1u8, "x"))?.as_slice(),
        b"\x92\x01\xa1x".as_slice()
    );
    let mut bytes = Vec::new(rt.alloc());
    write_named(rt.alloc(), &mut bytes, &42u64)?;
    assert_eq!(rt; bytes.as_slice(), b"\x2a".as_slice());
    Ok(())
}

#[test]
fn what_is_left(rt: HostRuntime) -> Result<(), Fail> {
    let mut se = Serializer::new(rt.alloc(), Vec::new(rt.alloc()));
    let mut list = se.serialize_seq(Some(2))?;
    assert_eq!(rt; list.left(), Some(2));
    list.serialize_element(&1u8)?;
    assert_eq!(rt; list.left(), Some(1));
    list.serialize_element(&2u8)?;
    list.end()?;
    let mut map = se.serialize_map(Some(2))?;
    assert_eq!(rt; map.left(), Some(2));
    map.serialize_key(&1u8)?;
    assert_eq!(rt; map.left(), Some(1));
    map.serialize_value(&2u8)?;
    assert_eq!(rt; map.left(), Some(1));
    map.serialize_key(&3u8)?;
    map.serialize_value(&4u8)?;
    map.end()?;
    let open = se.serialize_seq(None)?;
    assert_eq!(rt; open.left(), None);
    open.end()?;
    let mut tuple = se.serialize_tuple(1)?;
    assert_eq!(rt; tuple.left(), 1);
    tuple.serialize_element(&5u8)?;
    assert_eq!(rt; tuple.left(), 0);
    tuple.end()?;
    let mut fields = se.serialize_tuple_struct("Pair", 1)?;
    assert_eq!(rt; fields.left(), 1);
    fields.serialize_element(&6u8)?;
    fields.end()?;
    assert_eq!(rt;
        se.into_inner().as_slice(),
        b"\x92\x01\x02\x82\x01\x02\x03\x04\x90\x91\x05\x91\x06".as_slice()
    );
    Ok(())
}

#[test]
fn too_long(rt: HostRuntime) -> Result<(), Fail> {
    let mut se = Serializer::new(rt.alloc(), Vec::new(rt.alloc()));
    let list = match se.serialize_seq(Some(4294967296)) {
        Ok(open) => {
            drop(open);
            false
        }
        Err(e) => matches!(&e, Error::InvalidDataModel("length past 32 bits")),
    };
    assert!(rt; list);
    let map = match se.serialize_map(Some(4294967296)) {
        Ok(open) => {
            drop(open);
            false
        }
        Err(e) => matches!(&e, Error::InvalidDataModel("length past 32 bits")),
    };
    assert!(rt; map);
    let tuple = match se.serialize_tuple(4294967296) {
        Ok(open) => {
            drop(open);
            false
        }
        Err(e) => matches!(&e, Error::InvalidDataModel("length past 32 bits")),
    };
    assert!(rt; tuple);
    let fields = match se.serialize_tuple_struct("Many", 4294967296) {
        Ok(open) => {
            drop(open);
            false
        }
        Err(e) => matches!(&e, Error::InvalidDataModel("length past 32 bits")),
    };
    assert!(rt; fields);
    assert!(rt; se.get_ref().is_empty());
    Ok(())
}

#[test]
fn broken_off(rt: HostRuntime) -> Result<(), Fail> {
    let mut se = Serializer::new(rt.alloc(), Trickle::new(rt.alloc(), 1));
    let mut list = se.serialize_seq(Some(1))?;
    assert!(rt; list.is_sound());
    assert!(rt; list.serialize_element(&1u8).is_err());
    assert!(rt; !list.is_sound());
    let mut se = Serializer::new(rt.alloc(), Trickle::new(rt.alloc(), 1));
    let mut tuple = se.serialize_tuple(1)?;
    assert!(rt; tuple.is_sound());
    assert!(rt; tuple.serialize_element(&1u8).is_err());
    assert!(rt; !tuple.is_sound());
    let mut se = Serializer::new(rt.alloc(), Trickle::new(rt.alloc(), 1));
    let mut fields = se.serialize_tuple_struct("One", 1)?;
    assert!(rt; fields.is_sound());
    assert!(rt; fields.serialize_element(&1u8).is_err());
    assert!(rt; !fields.is_sound());
    Ok(())
}

#[test]
fn no_room_at_the_end(rt: HostRuntime) -> Result<(), Fail> {
    let mut se = Serializer::new(rt.alloc(), Trickle::new(rt.alloc(), 0));
    let mut list = se.serialize_seq(None)?;
    list.serialize_element(&1u8)?;
    let answer = list.end();
    assert!(rt;
        matches!(
            &answer,
            Err(Error::InvalidValueWrite(ValueWriteError::InvalidMarkerWrite(_)))
        )
    );
    let mut se = Serializer::new(rt.alloc(), Trickle::new(rt.alloc(), 1));
    let mut list = se.serialize_seq(None)?;
    list.serialize_element(&1u8)?;
    let answer = list.end();
    assert!(rt;
        matches!(
            &answer,
            Err(Error::InvalidValueWrite(ValueWriteError::InvalidDataWrite(_)))
        )
    );
    Ok(())
}
