//! Rows of values and their bytes.
use faulty_io::Trickle;
use rmp_encode::{Error, Serialize, Serializer, to_vec, write};
use rmp_wire::config::BytesMode;
use rmp_wire::{ByteBuf, Bytes, Ext, F32Bits, F64Bits, SliceSink, ValueWriteError};
use std::collections::{BTreeMap, BTreeSet, VecDeque};
use std::test::Fail;

mod calls;
mod errors;
mod failing;
mod implementations;
mod leaves;
mod refusing;
mod structs;

// Whether a value is written as these bytes.
fn is_written<T: Serialize>(rt: &HostRuntime, value: &T, want: &[u8]) -> Result<bool, Fail> {
    let bytes = to_vec(rt.alloc(), value)?;
    Ok(bytes.as_slice() == want)
}

// The same in a mode.
fn is_forced<T: Serialize>(
    rt: &HostRuntime,
    mode: BytesMode,
    value: &T,
    want: &[u8],
) -> Result<bool, Fail> {
    let mut se = Serializer::new(rt.alloc(), Vec::new(rt.alloc())).with_bytes(mode);
    value.serialize(&mut se)?;
    Ok(se.into_inner().as_slice() == want)
}

#[test]
fn values(rt: HostRuntime) -> Result<(), Fail> {
    assert!(rt; is_written(&rt, &(42u32, "the Answer"), b"\x92\x2a\xaathe Answer")?);
    let numbers = vec![in rt.alloc(); 127i64, 128, 300, -32, -33, -129]?;
    assert!(rt;
        is_written(
            &rt,
            &numbers,
            b"\x96\x7f\xcc\x80\xcd\x01\x2c\xe0\xd0\xdf\xd1\xff\x7f"
        )?
    );
    assert!(rt; is_written(&rt, &(), b"\xc0")?);
    assert!(rt; is_written(&rt, &(true, false), b"\x92\xc3\xc2")?);
    assert!(rt; is_written(&rt, &('x', 'é'), b"\x92\xa1x\xa2\xc3\xa9")?);
    let none: Vec<u8> = Vec::new(rt.alloc());
    assert!(rt; is_written(&rt, &none, b"\x90")?);
    Ok(())
}

#[test]
fn one_serializer(rt: HostRuntime) -> Result<(), Fail> {
    let mut se = Serializer::new(rt.alloc(), Vec::new(rt.alloc()));
    true.serialize(&mut se)?;
    false.serialize(&mut se)?;
    assert_eq!(rt; se.into_inner().as_slice(), b"\xc3\xc2".as_slice());
    Ok(())
}

#[test]
fn forced_bytes(rt: HostRuntime) -> Result<(), Fail> {
    assert!(rt;
        is_forced(
            &rt,
            BytesMode::ForceAll,
            &(1u8, 100u8, 200u8, 254u8),
            b"\xc4\x04\x01\x64\xc8\xfe"
        )?
    );
    assert!(rt;
        is_forced(
            &rt,
            BytesMode::ForceAll,
            &(1u8, 2u8, 3u8, 127u8),
            b"\x94\x01\x02\x03\x7f"
        )?
    );
    assert!(rt;
        is_forced(
            &rt,
            BytesMode::ForceAll,
            &(42u32, 100500u32),
            b"\x92\x2a\xce\x00\x01\x88\x94"
        )?
    );
    let none: Vec<u8> = Vec::new(rt.alloc());
    assert!(rt; is_forced(&rt, BytesMode::ForceAll, &none, b"\x90")?);
    let some = vec![in rt.alloc(); 1u8, 2]?;
    assert!(rt; is_forced(&rt, BytesMode::ForceIterables, &some, b"\xc4\x02\x01\x02")?);
    assert!(rt;
        is_forced(
            &rt,
            BytesMode::ForceIterables,
            &[1u8, 200u8],
            b"\x92\x01\xcc\xc8"
        )?
    );
    assert!(rt; is_forced(&rt, BytesMode::Normal, &some, b"\x92\x01\x02")?);
    Ok(())
}

#[test]
fn the_mode_is_normal_by_default(rt: HostRuntime) -> Result<(), Fail> {
    assert!(rt; BytesMode::default() == BytesMode::Normal);
    let some = vec![in rt.alloc(); 1u8, 2]?;
    assert!(rt; is_forced(&rt, BytesMode::default(), &some, b"\x92\x01\x02")?);
    Ok(())
}

#[test]
fn unknown_lengths(rt: HostRuntime) -> Result<(), Fail> {
    let mut se = Serializer::new(rt.alloc(), Vec::new(rt.alloc()));
    let mut list = se.serialize_seq(None)?;
    list.serialize_element(&(1u8, 200u8))?;
    list.serialize_element(&5u8)?;
    list.end()?;
    let mut map = se.serialize_map(None)?;
    map.serialize_key(&7u8)?;
    map.serialize_value(&"x")?;
    map.end()?;
    let mut known = se.serialize_map(Some(1))?;
    known.serialize_key(&7u8)?;
    known.serialize_value(&"x")?;
    known.end()?;
    assert_eq!(rt;
        se.into_inner().as_slice(),
        b"\x92\x92\x01\xcc\xc8\x05\x81\x07\xa1x\x81\x07\xa1x".as_slice()
    );
    Ok(())
}

#[test]
fn maps(rt: HostRuntime) -> Result<(), Fail> {
    let mut names = BTreeMap::new(rt.alloc());
    names.insert(0u8, "le")?;
    names.insert(1u8, "x")?;
    assert!(rt; is_written(&rt, &names, b"\x82\x00\xa2le\x01\xa1x")?);
    let mut set = BTreeSet::new(rt.alloc());
    set.insert(7u16)?;
    set.insert(5u16)?;
    assert!(rt; is_written(&rt, &set, b"\x92\x05\x07")?);
    let mut queue = VecDeque::new(rt.alloc());
    queue.push_back(1u8)?;
    queue.push_front(200u8)?;
    assert!(rt; is_forced(&rt, BytesMode::ForceAll, &queue, b"\x92\xcc\xc8\x01")?);
    Ok(())
}

#[test]
fn extensions(rt: HostRuntime) -> Result<(), Fail> {
    let mut se = Serializer::new(rt.alloc(), Vec::new(rt.alloc()));
    se.extension().tag(2).bytes(b"\x05")?;
    se.extension().tag(2).bytes(b"")?;
    se.extension().tag(2).bytes(b"\x01\x02\x03")?;
    assert_eq!(rt;
        se.into_inner().as_slice(),
        b"\xd4\x02\x05\xc7\x00\x02\xc7\x03\x02\x01\x02\x03".as_slice()
    );
    let time = Ext::new(-1, vec![in rt.alloc(); 5u8]?);
    assert!(rt; is_written(&rt, &time, b"\xd4\xff\x05")?);
    Ok(())
}

#[test]
fn bytes_and_bits(rt: HostRuntime) -> Result<(), Fail> {
    assert!(rt; is_written(&rt, &Bytes::new(b"\x01\x02"), b"\xc4\x02\x01\x02")?);
    let owned = ByteBuf::new(vec![in rt.alloc(); 9u8]?);
    assert!(rt; is_written(&rt, &owned, b"\xc4\x01\x09")?);
    assert!(rt; is_written(&rt, &F32Bits(0x3f800000), b"\xca\x3f\x80\x00\x00")?);
    assert!(rt; is_written(&rt, &F64Bits(1), b"\xcb\x00\x00\x00\x00\x00\x00\x00\x01")?);
    Ok(())
}

#[test]
fn one_byte_a_call(rt: HostRuntime) -> Result<(), Fail> {
    let mut sink = Trickle::new(rt.alloc(), usize::MAX);
    write(rt.alloc(), &mut sink, &(42u32, 100500u32))?;
    assert_eq!(rt;
        sink.bytes.as_slice(),
        b"\x92\x2a\xce\x00\x01\x88\x94".as_slice()
    );
    Ok(())
}

#[test]
fn full_sinks(rt: HostRuntime) -> Result<(), Fail> {
    let mut nothing = [0u8; 0];
    let mut sink = SliceSink::new(&mut nothing);
    let refused = write(rt.alloc(), &mut sink, &());
    assert!(rt;
        matches!(
            &refused,
            Err(Error::InvalidValueWrite(ValueWriteError::InvalidMarkerWrite(_)))
        )
    );
    let mut four = [0u8; 4];
    let mut sink = SliceSink::new(&mut four);
    let cut = write(rt.alloc(), &mut sink, &(42u32, 100500u32));
    assert!(rt;
        matches!(
            &cut,
            Err(Error::InvalidValueWrite(ValueWriteError::InvalidDataWrite(_)))
        )
    );
    assert_eq!(rt; four.as_slice(), b"\x92\x2a\xce\x00".as_slice());
    Ok(())
}

#[test]
fn refused_length(rt: HostRuntime) -> Result<(), Fail> {
    let mut se = Serializer::new(rt.alloc(), Vec::new(rt.alloc()));
    let refused = match se.serialize_seq(Some(4294967296)) {
        Ok(list) => {
            drop(list);
            false
        }
        Err(e) => matches!(&e, Error::InvalidDataModel(t) if *t == "length past 32 bits"),
    };
    assert!(rt; refused);
    assert!(rt; se.get_ref().is_empty());
    Ok(())
}
