//! Options, structs without fields, newtype structs, and numbers of 128 bits.
use super::{is_forced, is_written};
use rmp_encode::{Error, Serialize, Serializer, to_vec, write_named};
use rmp_wire::config::BytesMode;
use rmp_wire::{MSGPACK_EXT_STRUCT_NAME, SliceSink, ValueWriteError};
use std::test::Fail;
use test_types::written::Meters;

#[test]
fn options(rt: HostRuntime) -> Result<(), Fail> {
    let none: Option<u8> = None;
    assert!(rt; is_written(&rt, &none, b"\xc0")?);
    assert!(rt; is_written(&rt, &Some(200u8), b"\xcc\xc8")?);
    assert!(rt; is_written(&rt, &Some("x"), b"\xa1x")?);
    let nested: (Option<Option<u32>>, Option<Option<u32>>) = (None, Some(Some(13)));
    assert!(rt; is_written(&rt, &nested, b"\x92\xc0\x0d")?);
    assert!(rt; is_written(&rt, &Some(()), b"\xc0")?);
    Ok(())
}

// An option of a `u8` is no `u8`: a list of such is never made bytes.
#[test]
fn options_under_force(rt: HostRuntime) -> Result<(), Fail> {
    let some = vec![in rt.alloc(); Some(1u8)]?;
    assert!(rt; is_forced(&rt, BytesMode::ForceAll, &some, b"\x91\x01")?);
    assert!(rt; is_forced(&rt, BytesMode::ForceIterables, &some, b"\x91\x01")?);
    assert!(rt;
        is_forced(
            &rt,
            BytesMode::ForceAll,
            &(200u8, Some(1u8)),
            b"\x92\xcc\xc8\x01"
        )?
    );
    let list = Some(vec![in rt.alloc(); 1u8, 2]?);
    assert!(rt; is_forced(&rt, BytesMode::ForceIterables, &list, b"\xc4\x02\x01\x02")?);
    assert!(rt; Some(1u8).as_u8(false).is_none());
    Ok(())
}

#[test]
fn wide_numbers(rt: HostRuntime) -> Result<(), Fail> {
    assert!(rt;
        is_written(
            &rt,
            &7i128,
            b"\xc4\x10\x00\x00\x00\x00\x00\x00\x00\x00\x00\x00\x00\x00\x00\x00\x00\x07"
        )?
    );
    assert!(rt;
        is_written(
            &rt,
            &-1i128,
            b"\xc4\x10\xff\xff\xff\xff\xff\xff\xff\xff\xff\xff\xff\xff\xff\xff\xff\xff"
        )?
    );
    assert!(rt;
        is_written(
            &rt,
            &i128::MIN,
            b"\xc4\x10\x80\x00\x00\x00\x00\x00\x00\x00\x00\x00\x00\x00\x00\x00\x00\x00"
        )?
    );
    assert!(rt;
        is_written(
            &rt,
            &0x0102030405060708090a0b0c0d0e0f10u128,
            b"\xc4\x10\x01\x02\x03\x04\x05\x06\x07\x08\x09\x0a\x0b\x0c\x0d\x0e\x0f\x10"
        )?
    );
    assert!(rt; is_written(&rt, &u128::MAX, to_vec(rt.alloc(), &-1i128)?.as_slice())?);
    Ok(())
}

#[test]
fn newtype_structs(rt: HostRuntime) -> Result<(), Fail> {
    assert!(rt; is_written(&rt, &Meters(42), b"\x2a")?);
    let mut bytes = Vec::new(rt.alloc());
    write_named(rt.alloc(), &mut bytes, &Meters(42))?;
    assert_eq!(rt; bytes.as_slice(), b"\x2a".as_slice());
    let mut se = Serializer::new(rt.alloc(), Vec::new(rt.alloc()));
    let refused = se.serialize_newtype_struct("_ExtStruct", &5u8);
    assert!(rt; matches!(&refused, Err(Error::InvalidDataModel("expected tuple"))));
    assert!(rt; se.get_ref().is_empty());
    let refused = se.serialize_newtype_struct(MSGPACK_EXT_STRUCT_NAME, &(-1i8, "x"));
    assert!(rt; matches!(&refused, Err(Error::InvalidDataModel("expected tuple"))));
    assert!(rt; se.get_ref().is_empty());
    se.serialize_newtype_struct("_ExtStruct2", &5u8)?;
    assert_eq!(rt; se.into_inner().as_slice(), b"\x05".as_slice());
    Ok(())
}

#[test]
fn unit_structs(rt: HostRuntime) -> Result<(), Fail> {
    let mut se = Serializer::new(rt.alloc(), Vec::new(rt.alloc()));
    se.serialize_unit_struct("Nothing")?;
    se.serialize_none()?;
    se.serialize_some(&Some(3u8))?;
    let mut se = se.with_struct_map();
    se.serialize_unit_struct("Nothing")?;
    assert_eq!(rt; se.into_inner().as_slice(), b"\x90\xc0\x03\x90".as_slice());
    Ok(())
}

#[test]
fn no_room(rt: HostRuntime) -> Result<(), Fail> {
    let mut none = [0u8; 0];
    let mut se = Serializer::new(rt.alloc(), SliceSink::new(&mut none));
    assert!(rt;
        matches!(
            &se.serialize_unit_struct("Nothing"),
            Err(Error::InvalidValueWrite(ValueWriteError::InvalidMarkerWrite(_)))
        )
    );
    let mut three = [0u8; 3];
    let mut se = Serializer::new(rt.alloc(), SliceSink::new(&mut three));
    assert!(rt;
        matches!(
            &se.serialize_i128(-2),
            Err(Error::InvalidValueWrite(ValueWriteError::InvalidDataWrite(_)))
        )
    );
    assert_eq!(rt; three.as_slice(), b"\xc4\x10\xff".as_slice());
    Ok(())
}
