//! Structs and variants, as lists and with names.
use super::is_written;
use rmp_decode::from_slice;
use rmp_encode::{Both, Eight, Error, One, Serialize, Serializer, to_vec_named};
use rmp_wire::config::{BytesMode, SerializerConfig};
use rmp_wire::{Sink, SliceSink, ValueWriteError};
use std::test::Fail;
use test_types::Ticket;
use test_types::written::{Cat, Dog, Leaf, Point};

// A struct variant of two fields.
fn put_struct_variant<W: Sink, C: SerializerConfig>(
    se: &mut Serializer<W, C>,
) -> Result<(), Error> {
    let mut fields = se.serialize_struct_variant("E", 3, "V4", 2)?;
    fields.serialize_field("a", &1u8)?;
    fields.serialize_field("b", &"x")?;
    fields.end()
}

#[test]
fn structs(rt: HostRuntime) -> Result<(), Fail> {
    let dog = Dog {
        name: "Bobby",
        age: 8,
    };
    assert!(rt; is_written(&rt, &dog, b"\x92\xa5Bobby\x08")?);
    assert_eq!(rt;
        to_vec_named(rt.alloc(), &dog)?.as_slice(),
        b"\x82\xa4name\xa5Bobby\xa3age\x08".as_slice()
    );
    let se = Serializer::new(rt.alloc(), Vec::new(rt.alloc())).with_struct_map();
    let mut se = se.with_struct_tuple();
    dog.serialize(&mut se)?;
    assert_eq!(rt; se.into_inner().as_slice(), b"\x92\xa5Bobby\x08".as_slice());
    let mut se = Serializer::new(rt.alloc(), Vec::new(rt.alloc()));
    se.serialize_struct("None", 0)?.end()?;
    let mut se = se.with_struct_map();
    se.serialize_struct("None", 0)?.end()?;
    assert_eq!(rt; se.into_inner().as_slice(), b"\x90\x80".as_slice());
    Ok(())
}

#[test]
fn one_call(rt: HostRuntime) -> Result<(), Fail> {
    let mut x = String::new(rt.alloc());
    x.push_str("x")?;
    assert!(rt; is_written(&rt, &Point(300, x), b"\x92\xcd\x01\x2c\xa1x")?);
    let mut name = String::new(rt.alloc());
    name.push_str("Tom")?;
    let cat = Cat {
        name,
        age: 3,
        home: true,
    };
    assert!(rt; is_written(&rt, &cat, b"\x93\xa3Tom\x03\xc3")?);
    assert_eq!(rt;
        to_vec_named(rt.alloc(), &cat)?.as_slice(),
        b"\x83\xa4name\xa3Tom\xa3age\x03\xa4home\xc3".as_slice()
    );
    let one = One { first: &7u8 };
    let mut se = Serializer::new(rt.alloc(), Vec::new(rt.alloc()));
    se.serialize_tuple_variant_of("E", 1, "V2", &one)?;
    se.serialize_struct_variant_of("E", 2, "V3", &["a"], &one)?;
    let mut se = se.with_struct_map();
    se.serialize_struct_variant_of("E", 2, "V3", &["a"], &one)?;
    assert_eq!(rt;
        se.into_inner().as_slice(),
        b"\x81\xa2V2\x91\x07\x81\xa2V3\x91\x07\x81\xa2V3\x81\xa1a\x07".as_slice()
    );
    Ok(())
}

#[test]
fn five_fields_there_and_back(rt: HostRuntime) -> Result<(), Fail> {
    let mut holder = String::new(rt.alloc());
    holder.push_str("Ada")?;
    let ticket = Ticket {
        holder,
        coach: 300,
        seat: None,
        stops: vec![in rt.alloc(); 1, 70000]?,
        paid: true,
    };
    let list = b"\x95\xa3Ada\xcd\x01\x2c\xc0\x92\x01\xce\x00\x01\x11\x70\xc3";
    let map =
        b"\x85\xa6holder\xa3Ada\xa5coach\xcd\x01\x2c\xa4seat\xc0\xa5stops\x92\x01\xce\x00\x01\x11\x70\xa4paid\xc3";
    assert!(rt; is_written(&rt, &ticket, list)?);
    assert_eq!(rt;
        to_vec_named(rt.alloc(), &ticket)?.as_slice(),
        map.as_slice()
    );
    // in another order, without the seat
    let turned =
        b"\x84\xa4paid\xc3\xa5stops\x92\x01\xce\x00\x01\x11\x70\xa5coach\xcd\x01\x2c\xa6holder\xa3Ada";
    for message in [list.as_slice(), map.as_slice(), turned.as_slice()] {
        let read: Ticket = from_slice(rt.alloc(), message)?;
        assert_eq!(rt;
            (read.holder.as_str(), read.coach, read.seat, read.paid),
            ("Ada", 300, None, true)
        );
        assert_eq!(rt; read.stops.as_slice(), [1, 70000].as_slice());
    }
    Ok(())
}

#[test]
fn eight_fields(rt: HostRuntime) -> Result<(), Fail> {
    let values = Eight {
        first: &1u8,
        second: &2u16,
        third: &3u32,
        fourth: &4u64,
        fifth: &-1i8,
        sixth: &true,
        seventh: &'x',
        eighth: &(),
    };
    let mut se = Serializer::new(rt.alloc(), Vec::new(rt.alloc())).with_struct_map();
    se.serialize_fields("S", &["a", "b", "c", "d", "e", "f", "g", "h"], &values)?;
    se.serialize_elements("S", &values)?;
    assert_eq!(rt;
        se.into_inner().as_slice(),
        b"\x88\xa1a\x01\xa1b\x02\xa1c\x03\xa1d\x04\xa1e\xff\xa1f\xc3\xa1g\xa1x\xa1h\xc0\x98\x01\x02\x03\x04\xff\xc3\xa1x\xc0".as_slice()
    );
    Ok(())
}

#[test]
fn variants(rt: HostRuntime) -> Result<(), Fail> {
    let mut se = Serializer::new(rt.alloc(), Vec::new(rt.alloc()));
    se.serialize_unit_variant("E", 0, "V1")?;
    let mut parts = se.serialize_tuple_variant("E", 1, "V2", 2)?;
    parts.serialize_element(&42u32)?;
    parts.serialize_element(&100500u32)?;
    parts.end()?;
    se.serialize_newtype_variant("E", 2, "V3", &200u8)?;
    put_struct_variant(&mut se)?;
    let mut se = se.with_struct_map();
    put_struct_variant(&mut se)?;
    assert_eq!(rt;
        se.into_inner().as_slice(),
        b"\xa2V1\x81\xa2V2\x92\x2a\xce\x00\x01\x88\x94\x81\xa2V3\xcc\xc8\x81\xa2V4\x92\x01\xa1x\x81\xa2V4\x82\xa1a\x01\xa1b\xa1x".as_slice()
    );
    Ok(())
}

#[test]
fn content_of_variants(rt: HostRuntime) -> Result<(), Fail> {
    let leaves = vec![in rt.alloc(); Leaf(1), Leaf(200)]?;
    let mut se = Serializer::new(rt.alloc(), Vec::new(rt.alloc()));
    se.serialize_newtype_variant("Tree", 1, "Node", &leaves)?;
    assert_eq!(rt;
        se.into_inner().as_slice(),
        b"\x81\xa4Node\x92\x81\xa4Leaf\x01\x81\xa4Leaf\xcc\xc8".as_slice()
    );
    // a tuple may be bytes, the content of a tuple variant never
    let mut se = Serializer::new(rt.alloc(), Vec::new(rt.alloc())).with_bytes(BytesMode::ForceAll);
    se.serialize_newtype_variant("E", 0, "V", &(1u8, 200u8))?;
    let mut parts = se.serialize_tuple_variant("E", 1, "W", 2)?;
    parts.serialize_element(&1u8)?;
    parts.serialize_element(&200u8)?;
    parts.end()?;
    assert_eq!(rt;
        se.into_inner().as_slice(),
        b"\x81\xa1V\xc4\x02\x01\xc8\x81\xa1W\x92\x01\xcc\xc8".as_slice()
    );
    Ok(())
}

// A map of unknown length, with a struct among its values.
#[test]
fn struct_in_a_map(rt: HostRuntime) -> Result<(), Fail> {
    let mut se = Serializer::new(rt.alloc(), Vec::new(rt.alloc()));
    let mut map = se.serialize_map(None)?;
    map.serialize_key(&"f1")?;
    map.serialize_value(&0u8)?;
    map.serialize_key(&"f2")?;
    map.serialize_value(&Leaf(8))?;
    map.end()?;
    assert_eq!(rt;
        se.into_inner().as_slice(),
        b"\x82\xa2f1\x00\xa2f2\x81\xa4Leaf\x08".as_slice()
    );
    Ok(())
}

#[test]
fn broken_struct(rt: HostRuntime) -> Result<(), Fail> {
    let mut room = [0u8; 4];
    let mut se = Serializer::new(rt.alloc(), SliceSink::new(&mut room)).with_struct_map();
    let mut fields = se.serialize_struct("S", 2)?;
    assert_eq!(rt; fields.left(), 2);
    let cut = fields.serialize_field("x", &300u16);
    assert!(rt;
        matches!(
            &cut,
            Err(Error::InvalidValueWrite(ValueWriteError::InvalidDataWrite(_)))
        )
    );
    assert_eq!(rt; fields.left(), 1);
    assert!(rt; !fields.is_sound());
    drop(fields);
    drop(se);
    assert_eq!(rt; room.as_slice(), b"\x82\xa1x\xcd".as_slice());
    Ok(())
}

// Whether a write failed before an item's first byte (`Some(false)`) or after it.
fn has_begun(answer: Result<(), Error>) -> Option<bool> {
    match answer {
        Err(Error::InvalidValueWrite(ValueWriteError::InvalidMarkerWrite(_))) => Some(false),
        Err(Error::InvalidValueWrite(ValueWriteError::InvalidDataWrite(_))) => Some(true),
        _ => None,
    }
}

// What the end of a tuple writes is one item, a list as well as bytes. Elements that are written at once are items of their own.
#[test]
fn broken_tuple(rt: HostRuntime) -> Result<(), Fail> {
    for size in 0..4 {
        let mut room = [0u8; 4];
        let sink = SliceSink::new(&mut room[..size]);
        let mut se = Serializer::new(rt.alloc(), sink).with_bytes(BytesMode::ForceAll);
        assert!(rt; has_begun((1u8, 2u8, 3u8).serialize(&mut se)) == Some(size > 0));
        drop(se);
        assert_eq!(rt; room[..size], b"\x93\x01\x02\x03"[..size]);
        let sink = SliceSink::new(&mut room[..size]);
        let mut se = Serializer::new(rt.alloc(), sink).with_bytes(BytesMode::ForceAll);
        assert!(rt; has_begun((1u8, 200u8).serialize(&mut se)) == Some(size > 0));
        drop(se);
        assert_eq!(rt; room[..size], b"\xc4\x02\x01\xc8"[..size]);
        let sink = SliceSink::new(&mut room[..size]);
        let mut se = Serializer::new(rt.alloc(), sink).with_bytes(BytesMode::ForceAll);
        assert!(rt; has_begun((1u8, 2u8, 300u16).serialize(&mut se)) == Some(false));
        drop(se);
        assert_eq!(rt; room[..size], b"\x93\x01\x02\xcd"[..size]);
    }
    Ok(())
}

// A field's name is an item, and so is its value.
#[test]
fn broken_field(rt: HostRuntime) -> Result<(), Fail> {
    let begun = [false, true, false, true, true];
    for (size, has) in begun.iter().enumerate() {
        let mut room = [0u8; 6];
        let sink = SliceSink::new(&mut room[..size + 1]);
        let mut se = Serializer::new(rt.alloc(), sink).with_struct_map();
        let mut fields = se.serialize_struct("S", 1)?;
        assert!(rt; has_begun(fields.serialize_field("x", &300u16)) == Some(*has));
        drop(fields);
        drop(se);
        assert_eq!(rt; room[..size + 1], b"\x81\xa1x\xcd\x01\x2c"[..size + 1]);
    }
    Ok(())
}

// Also where one call writes all fields, or the elements of a variant.
#[test]
fn broken_fields(rt: HostRuntime) -> Result<(), Fail> {
    let begun = [false, false, true, false, true, true];
    for (size, has) in begun.iter().enumerate() {
        let mut room = [0u8; 6];
        let sink = SliceSink::new(&mut room[..size]);
        let mut se = Serializer::new(rt.alloc(), sink).with_struct_map();
        let elements = One { first: &300u16 };
        assert!(rt; has_begun(se.serialize_fields("S", &["x"], &elements)) == Some(*has));
        drop(se);
        assert_eq!(rt; room[..size], b"\x81\xa1x\xcd\x01\x2c"[..size]);
    }
    let begun = [false, false, true, false, false, true, false, true, true];
    for (size, has) in begun.iter().enumerate() {
        let mut room = [0u8; 9];
        let sink = SliceSink::new(&mut room[..size]);
        let mut se = Serializer::new(rt.alloc(), sink).with_struct_map();
        let elements = Both {
            first: &5u8,
            second: &300u16,
        };
        assert!(rt; has_begun(se.serialize_fields("S", &["x", "y"], &elements)) == Some(*has));
        drop(se);
        assert_eq!(rt; room[..size], b"\x82\xa1x\x05\xa1y\xcd\x01\x2c"[..size]);
    }
    let begun = [false, false, true, false, false, true];
    for (size, has) in begun.iter().enumerate() {
        let mut room = [0u8; 6];
        let mut se = Serializer::new(rt.alloc(), SliceSink::new(&mut room[..size]));
        let elements = One { first: &200u8 };
        assert!(rt; has_begun(se.serialize_tuple_variant_of("E", 0, "V", &elements)) == Some(*has));
        drop(se);
        assert_eq!(rt; room[..size], b"\x81\xa1V\x91\xcc\xc8"[..size]);
    }
    Ok(())
}

// The heads of a variant's map and of its name go out as one piece, and a fault between them is one before the name.
#[test]
fn broken_variant(rt: HostRuntime) -> Result<(), Fail> {
    let begun = [false, false, true, true, false, true];
    for (size, has) in begun.iter().enumerate() {
        let mut room = [0u8; 6];
        let mut se = Serializer::new(rt.alloc(), SliceSink::new(&mut room[..size]));
        let answer = se.serialize_newtype_variant("E", 2, "V3", &200u8);
        assert!(rt; has_begun(answer) == Some(*has));
        drop(se);
        assert_eq!(rt; room[..size], b"\x81\xa2V3\xcc\xc8"[..size]);
    }
    Ok(())
}
