//! Each put of each write failed in turn, and slices that have too little room.
use faulty_io::Trickle;
use rmp_decode::Error as Refusal;
use rmp_encode::{Error, One, Serialize, Serializer};
use rmp_serde::check_canonical;
use rmp_wire::config::{BytesMode, SerializerConfig};
use rmp_wire::{F32Bits, Sink, SliceSink, ValueWriteError};
use std::alloc::Global;
use test_derived::{Counted, V12};
use test_types::written::Dog;

// What each of the calls below writes.
const CALLS: [&[u8]; 42] = [
    b"\xc0",
    b"\xc3",
    b"\xcc\xc8",
    b"\xcd\x01\x2c",
    b"\xce\x00\x01\x88\x94",
    b"\xcf\x00\x00\x00\x01\x00\x00\x00\x00",
    b"\xd0\xdf",
    b"\xd1\xff\x7f",
    b"\xd2\xff\xff\x7f\xff",
    b"\xd3\xff\xff\xff\xff\x7f\xff\xff\xff",
    b"\xca\x3f\xc0\x00\x00",
    b"\xcb\x40\x45\x00\x00\x00\x00\x00\x00",
    b"\xa2\xc3\xa9",
    b"\xaathe Answer",
    b"\xc4\x02\x01\xc8",
    b"\xc7\x03\x02\x01\x02\x03",
    b"\xd5\xff\x01\x02",
    b"\xc4\x10\xff\xff\xff\xff\xff\xff\xff\xff\xff\xff\xff\xff\xff\xff\xff\xfe",
    b"\xc4\x10\x00\x00\x00\x00\x00\x00\x00\x00\x00\x00\x00\x00\x00\x00\x01\x2c",
    b"\xc0",
    b"\xcd\x01\x2c",
    b"\x90",
    b"\xcd\x01\x2c",
    b"\xa2V1",
    b"\x81\xa2V3\xcc\xc8",
    b"\x81\xa2V2\x92\x2a\xce\x00\x01\x88\x94",
    b"\x81\xa2V4\x92\x01\xa1x",
    b"\x81\xa2V2\x91\x07",
    b"\x81\xa2V3\x91\x07",
    b"\x92\xcc\xc8\xcd\x01\x2c",
    b"\x92\x01\xa1x",
    b"\x82\xa1a\x01\xa1b\xc0",
    b"\x92\x2a\xaathe Answer",
    b"\x92\x2a\xca\x3f\xc0\x00\x00",
    b"\x92\xa1x\x91\x05",
    b"\x91\x07",
    b"\x91\x07",
    b"\x92\x92\x01\xcc\xc8\x05",
    b"\x81\x07\xa1x",
    b"\x84\xa2f1\x00\xa2f2\x92\x08\x0d\xa2f4\x15\xa2f5\x22",
    b"\xc3\xc2",
    b"\xa2V1\x81\xa2V2\x92\x2a\xce\x00\x01\x88\x94",
];

fn put_number<W: Sink, C: SerializerConfig>(
    se: &mut Serializer<W, C>,
    at: usize,
) -> Result<(), Error> {
    match at {
        0 => se.serialize_unit(),
        1 => se.serialize_bool(true),
        2 => se.serialize_u8(200),
        3 => se.serialize_u16(300),
        4 => se.serialize_u32(100500),
        5 => se.serialize_u64(4294967296),
        6 => se.serialize_i8(-33),
        7 => se.serialize_i16(-129),
        8 => se.serialize_i32(-32769),
        9 => se.serialize_i64(-2147483649),
        10 => se.serialize_f32_bits(0x3fc0_0000),
        _ => se.serialize_f64_bits(0x4045_0000_0000_0000),
    }
}

fn put_leaf<W: Sink, C: SerializerConfig>(
    se: &mut Serializer<W, C>,
    at: usize,
) -> Result<(), Error> {
    match at {
        0..=11 => put_number(se, at),
        12 => se.serialize_char('é'),
        13 => se.serialize_str("the Answer"),
        14 => se.serialize_bytes(b"\x01\xc8"),
        15 => se.extension().tag(2).bytes(b"\x01\x02\x03"),
        16 => se.serialize_ext(-1, b"\x01\x02"),
        17 => se.serialize_i128(-2),
        18 => se.serialize_u128(300),
        19 => se.serialize_none(),
        20 => se.serialize_some(&300u16),
        21 => se.serialize_unit_struct("Nothing"),
        22 => se.serialize_newtype_struct("Meters", &300u16),
        23 => se.serialize_unit_variant("E", 0, "V1"),
        24 => se.serialize_newtype_variant("E", 2, "V3", &200u8),
        _ => put_variant(se, at),
    }
}

fn put_variant<W: Sink, C: SerializerConfig>(
    se: &mut Serializer<W, C>,
    at: usize,
) -> Result<(), Error> {
    let one = One { first: &7u8 };
    match at {
        25 => {
            let mut parts = se.serialize_tuple_variant("E", 1, "V2", 2)?;
            parts.serialize_element(&42u32)?;
            parts.serialize_element(&100500u32)?;
            parts.end()
        }
        26 => {
            let mut fields = se.serialize_struct_variant("E", 3, "V4", 2)?;
            fields.serialize_field("a", &1u8)?;
            fields.serialize_field("b", &"x")?;
            fields.end()
        }
        27 => se.serialize_tuple_variant_of("E", 1, "V2", &one),
        28 => se.serialize_struct_variant_of("E", 2, "V3", &["a"], &one),
        29 => se.collect_seq(&[200u16, 300]),
        _ => put_struct(se, at),
    }
}

fn put_struct<W: Sink, C: SerializerConfig>(
    se: &mut Serializer<W, C>,
    at: usize,
) -> Result<(), Error> {
    match at {
        30 => {
            let mut fields = se.serialize_struct("S", 2)?;
            fields.serialize_field("a", &1u8)?;
            fields.serialize_field("b", &"x")?;
            fields.end()
        }
        31 => {
            let mut map = se.serialize_map(Some(2))?;
            map.serialize_key(&"a")?;
            map.serialize_value(&1u8)?;
            map.serialize_key(&"b")?;
            map.serialize_value(&())?;
            map.end()
        }
        32 => {
            let mut list = se.serialize_seq(Some(2))?;
            list.serialize_element(&42u32)?;
            list.serialize_element(&"the Answer")?;
            list.end()
        }
        33 => {
            let mut pair = se.serialize_tuple(2)?;
            pair.serialize_element(&42u32)?;
            pair.serialize_element(&F32Bits(0x3fc0_0000))?;
            pair.end()
        }
        34 => {
            let mut fields = se.serialize_tuple_struct("Pair", 2)?;
            fields.serialize_element(&"x")?;
            fields.serialize_element(&[5u16])?;
            fields.end()
        }
        _ => put_rest(se, at),
    }
}

fn put_rest<W: Sink, C: SerializerConfig>(
    se: &mut Serializer<W, C>,
    at: usize,
) -> Result<(), Error> {
    match at {
        35 => se.serialize_elements("S", &One { first: &7u8 }),
        36 => se.serialize_fields("S", &["a"], &One { first: &7u8 }),
        37 => {
            let mut list = se.serialize_seq(None)?;
            list.serialize_element(&(1u8, 200u8))?;
            list.serialize_element(&5u8)?;
            list.end()
        }
        38 => {
            let mut map = se.serialize_map(None)?;
            map.serialize_key(&7u8)?;
            map.serialize_value(&"x")?;
            map.end()
        }
        39 => uncounted_map(se),
        40 => {
            true.serialize(se)?;
            false.serialize(se)
        }
        _ => {
            V12::V1.serialize(se)?;
            V12::V2(42, 100500).serialize(se)
        }
    }
}

// A map of unknown length, with a struct among its values.
fn uncounted_map<W: Sink, C: SerializerConfig>(se: &mut Serializer<W, C>) -> Result<(), Error> {
    let mut map = se.serialize_map(None)?;
    map.serialize_key(&"f1")?;
    map.serialize_value(&0u8)?;
    map.serialize_key(&"f2")?;
    map.serialize_value(&Counted {
        value: 8u8,
        count: 13,
    })?;
    map.serialize_key(&"f4")?;
    map.serialize_value(&21u8)?;
    map.serialize_key(&"f5")?;
    map.serialize_value(&34u8)?;
    map.end()
}

// What each of the values below is written as where all that may be bytes is, or, the last, where fields have names.
const FORCED: [&[u8]; 8] = [
    b"\x92\x2a\xaathe Answer",
    b"\xc4\x04\x01\x64\xc8\xfe",
    b"\x94\x01\x02\x03\x7f",
    b"\x92\x2a\xce\x00\x01\x88\x94",
    b"\x90",
    b"\x92\xc4\x02\x01\xc8\x03",
    b"\x92\xc4\x02\x01\xc8\x05",
    b"\x82\xa4name\xa5Bobby\xa3age\x08",
];

fn put_forced<W: Sink, C: SerializerConfig>(
    se: &mut Serializer<W, C>,
    at: usize,
) -> Result<(), Error> {
    const DOG: Dog = Dog {
        name: "Bobby",
        age: 8,
    };
    match at {
        0 => (42u32, "the Answer").serialize(se),
        1 => (1u8, 100u8, 200u8, 254u8).serialize(se),
        2 => (1u8, 2u8, 3u8, 127u8).serialize(se),
        3 => (42u32, 100500u32).serialize(se),
        4 => [0u8; 0].as_slice().serialize(se),
        5 => ([1u8, 200], 3u8).serialize(se),
        6 => put_rest(se, 37),
        _ => DOG.serialize(se),
    }
}

fn called<W: Sink>(alloc: Global, sink: W, at: usize) -> (Result<(), Error>, W) {
    let mut se = Serializer::new(alloc, sink);
    let answer = put_leaf(&mut se, at);
    (answer, se.into_inner())
}

fn forced<W: Sink>(alloc: Global, sink: W, at: usize) -> (Result<(), Error>, W) {
    let se = Serializer::new(alloc, sink).with_bytes(BytesMode::ForceAll);
    let mut se = se.with_struct_map();
    let answer = put_forced(&mut se, at);
    (answer, se.into_inner())
}

// Whether an answer tells of a sink's fault after these bytes: before a head, or inside of an item, where one that is written in
// one piece may begin before them.
fn is_told(alloc: Global, answer: &Result<(), Error>, written: &[u8]) -> bool {
    match answer {
        Err(Error::InvalidValueWrite(ValueWriteError::InvalidMarkerWrite(_))) => {
            is_between(alloc, written)
        }
        Err(Error::InvalidValueWrite(ValueWriteError::InvalidDataWrite(_))) => !written.is_empty(),
        _ => false,
    }
}

// Whether a head is what is wanted next after these bytes.
fn is_between(alloc: Global, written: &[u8]) -> bool {
    let mut rest = written;
    loop {
        match check_canonical(alloc, rest) {
            Ok(rmp_serde::Canon::Whole(len)) => rest = rest.get(len..).unwrap_or_default(),
            answer => return matches!(answer, Err(Refusal::InvalidMarkerRead(_))),
        }
    }
}

// Whether a sink that fails after these bytes has them, and one fault, and the write tells of it.
fn fails_after(alloc: Global, is_forced: bool, at: usize, written: &[u8]) -> bool {
    let sink = Trickle::new(alloc, written.len());
    let (answer, sink) = if is_forced {
        forced(alloc, sink, at)
    } else {
        called(alloc, sink, at)
    };
    is_told(alloc, &answer, written) && sink.faults == 1 && sink.bytes.as_slice() == written
}

// Whether a slice that has room for these bytes alone is filled with them, and the write tells of it.
fn fills(alloc: Global, is_forced: bool, at: usize, written: &[u8]) -> bool {
    let mut room = [0u8; 32];
    let sink = SliceSink::new(&mut room[..written.len()]);
    let (answer, sink) = if is_forced {
        forced(alloc, sink, at)
    } else {
        called(alloc, sink, at)
    };
    let is_full = sink.written() == written.len();
    drop(sink);
    is_told(alloc, &answer, written) && is_full && room.starts_with(written)
}

// Whether a slice that has room for all takes all.
fn fits(alloc: Global, is_forced: bool, at: usize, whole: &[u8]) -> bool {
    let mut room = [0u8; 32];
    let sink = SliceSink::new(&mut room[..whole.len()]);
    let (answer, sink) = if is_forced {
        forced(alloc, sink, at)
    } else {
        called(alloc, sink, at)
    };
    let is_full = sink.written() == whole.len();
    drop(sink);
    answer.is_ok() && is_full && room.starts_with(whole)
}

#[test]
fn each_put_of_each_call_fails(rt: HostRuntime) {
    for (at, whole) in CALLS.iter().enumerate() {
        for room in 0..whole.len() {
            let written = &whole[..room];
            assert!(rt;
                fails_after(rt.alloc(), false, at, written),
                "call {at} at {room}"
            );
            assert!(rt;
                fills(rt.alloc(), false, at, written),
                "call {at} at {room}"
            );
        }
        assert!(rt; fits(rt.alloc(), false, at, whole), "call {at}");
    }
}

#[test]
fn each_put_in_a_setting_fails(rt: HostRuntime) {
    for (at, whole) in FORCED.iter().enumerate() {
        for room in 0..whole.len() {
            let written = &whole[..room];
            assert!(rt;
                fails_after(rt.alloc(), true, at, written),
                "value {at} at {room}"
            );
            assert!(rt;
                fills(rt.alloc(), true, at, written),
                "value {at} at {room}"
            );
        }
        assert!(rt; fits(rt.alloc(), true, at, whole), "value {at}");
    }
}
