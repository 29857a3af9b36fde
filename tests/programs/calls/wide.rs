//! What enums of many variants and structs of as many fields as may be are written as and read from.
use rmp_decode::{Error, Text, from_slice};
use rmp_encode::{to_vec, to_vec_named};
use rmp_wire::{F64Bits, Marker};
use std::test::Fail;
use test_enums::{Entry, Signal};
use test_mixed::{Buoy, Coast, Course, Light, Spot};
use test_wide::{Line, Row};

// Each variant of `Signal` with a value, in the order of the declaration.
const SIGNALS: [&[u8]; 30] = [
    b"\xa6Silent",
    b"\x81\xa4Call\xa1A",
    b"\x81\xa2At\x92\xff\xcd\x01,",
    b"\x81\xa4Sail\x92\x81\xa6Toward\xa1B\x02",
    b"\xa6Anchor",
    b"\x81\xa5Depth\xcd\x01\x00",
    b"\x81\xa6Depths\x94\x01\x02\xcd\x01,\x04",
    b"\x81\xa7Spotted\x92\xd2\xff\xfe\xee\x90\xa1c",
    b"\x81\xa4Crew\x92\xa1D\xa1E",
    b"\x81\xa4Meet\x93\x92\x01\xc0\x08\xa1F",
    b"\xa8Distress",
    b"\x81\xa7Heading\xd1\xff\x7f",
    b"\x81\xa7Weather\x92\xcb?\xf0\x00\x00\x00\x00\x00\x00\xa1w",
    b"\x81\xa5Cargo\x82\xa1a\x01\xa1b\x02",
    b"\x81\xa5Ports\x92\x01\x02",
    b"\x81\xa5Chart\x93\xa1G\xc4\x10\x00\x00\x00\x00\x00\x00\x00\x00\x00\x00\x00\x00\x00\x00\x00\x07\xc4\x02\x01\x02",
    b"\x81\xa6Answer\xc3",
    b"\x81\xa6Course\xa6Moored",
    b"\x81\xa4Pair\x92\x03\xa1H",
    b"\x81\xa5Maybe\xc0",
    b"\x81\xa5Pilot\x91\xa1I",
    b"\xaaQuarantine",
    b"\x81\xa3Tug\x94\x01\xcd\x01\x00\xce\x00\x01\x00\x00\xcf\x00\x00\x00\x01\x00\x00\x00\x00",
    b"\x81\xa4Debt\xc4\x10\xff\xff\xff\xff\xff\xff\xff\xff\xff\xff\xff\xff\xff\xff\xff\xff",
    b"\x81\xa7Nothing\xc0",
    b"\x81\xa6Lights\x94\x01\x02\x92\x03\x04\xc3",
    b"\x81\xa5Flags\x92\x92\x01\xa1a\x92\x02\xa1b",
    b"\x81\xa5Towed\x92\x92\x05\xc0\xd3\xff\xff\xff\x00\x00\x00\x00\x00",
    b"\x81\xa3Fog\x92\x92\x01\x02\xc2",
    b"\xa8Farewell",
];

// The place among them of a signal that has the value of that place.
fn place_of(signal: &Signal) -> Option<usize> {
    match signal {
        Signal::Silent => Some(0),
        Signal::Call(text) if text.as_str() == "A" => Some(1),
        Signal::At(-1, 300) => Some(2),
        Signal::Sail {
            course: Course::Toward(to),
            reef: 2,
        } if to.as_str() == "B" => Some(3),
        Signal::Anchor => Some(4),
        Signal::Depth(256) => Some(5),
        Signal::Depths([1, 2, 300, 4]) => Some(6),
        Signal::Spotted(
            Spot {
                north: -70000,
                name: Some('c'),
            },
        ) => Some(7),
        Signal::Crew(crew)
            if matches!(crew.as_slice(), [d, e] if d.as_str() == "D" && e.as_str() == "E") => Some(
            8,
        ),
        Signal::Meet {
            spot: Spot {
                north: 1,
                name: None,
            },
            hour: 8,
            name: Some(name),
        } if name.as_str() == "F" => Some(9),
        Signal::Distress => Some(10),
        Signal::Heading(-129) => Some(11),
        Signal::Weather(F64Bits(4607182418800017408), 'w') => Some(12),
        Signal::Cargo(cargo) if cargo.len() == 2 => Some(13),
        Signal::Ports(ports) if ports.len() == 2 => Some(14),
        Signal::Chart {
            name,
            seal: 7,
            chart,
        } if name.as_str() == "G" && chart.as_bytes() == b"\x01\x02".as_slice() => Some(15),
        Signal::Answer(true) => Some(16),
        Signal::Course(Course::Moored) => Some(17),
        Signal::Pair((3, text)) if text.as_str() == "H" => Some(18),
        Signal::Maybe(None) => Some(19),
        Signal::Pilot { name } if name.as_str() == "I" => Some(20),
        Signal::Quarantine => Some(21),
        Signal::Tug(1, 256, 65536, 4294967296) => Some(22),
        Signal::Debt(-1) => Some(23),
        Signal::Nothing(()) => Some(24),
        Signal::Lights {
            left: 1,
            right: 2,
            top: [3, 4],
            lit: true,
        } => Some(25),
        Signal::Flags(flags) if matches!(flags.as_slice(), [(1, 'a'), (2, 'b')]) => Some(26),
        Signal::Towed {
            by,
            since: -1099511627776,
        } if by.north == 5 && by.name.is_none() => Some(27),
        Signal::Fog(Some((1, 2)), false) => Some(28),
        Signal::Farewell => Some(29),
        _ => None,
    }
}

#[test]
fn thirty_variants(rt: HostRuntime) -> Result<(), Fail> {
    for (place, bytes) in SIGNALS.iter().enumerate() {
        let read: Result<Signal, Error> = from_slice(rt.alloc(), bytes);
        let Ok(signal) = read else {
            return Err(Fail::from("a signal is refused"));
        };
        assert_eq!(rt; place_of(&signal), Some(place));
        assert_eq!(rt; to_vec(rt.alloc(), &signal)?.as_slice(), *bytes);
        let named = to_vec_named(rt.alloc(), &signal)?;
        let again: Result<Signal, Error> = from_slice(rt.alloc(), named.as_slice());
        assert!(rt; matches!(&again, Ok(signal) if place_of(signal) == Some(place)));
    }
    Ok(())
}

#[test]
fn no_signals(rt: HostRuntime) {
    let read: Result<Signal, Error> = from_slice(rt.alloc(), b"\xa6Shouts");
    assert!(rt; matches!(&read, Err(Error::Syntax(Text::UnknownVariant))));
    let read: Result<Signal, Error> = from_slice(rt.alloc(), b"\xa3Tug");
    assert!(rt; matches!(&read, Err(Error::Syntax(Text::InvalidType))));
    let read: Result<Signal, Error> = from_slice(rt.alloc(), b"\x81\xa3Tug\x93\x01\x02\x03");
    assert!(rt; matches!(&read, Err(Error::Syntax(Text::InvalidLength))));
    let read: Result<Signal, Error> = from_slice(rt.alloc(), b"\x81\xa8Farewell\x01");
    assert!(rt; matches!(&read, Err(Error::TypeMismatch(Marker::FixPos(1)))));
    let read: Result<Signal, Error> = from_slice(
        rt.alloc(),
        b"\x81\xa5Towed\x81\xa2by\x92\x05\xc0",
    );
    assert!(rt; matches!(&read, Err(Error::Syntax(Text::MissingField(_)))));
}

#[test]
fn defaults_in_variants(rt: HostRuntime) -> Result<(), Fail> {
    let read: Result<Entry, Error> = from_slice(rt.alloc(), b"\x81\xa7Harbour\x81\xa4name\xa1A");
    let Ok(
        Entry::Harbour {
            name,
            berths: 4,
            depth: -1,
            notes,
        },
    ) = &read
    else {
        return Err(Fail::from("a harbour is refused"));
    };
    assert!(rt; name.as_str() == "A" && notes.as_slice().is_empty());
    let read: Result<Entry, Error> = from_slice(rt.alloc(), b"\x81\xa5Canal\x80");
    assert!(rt;
        matches!(
            &read,
            Ok(Entry::Canal {
                locked: true,
                width: None,
                berths: 0
            })
        )
    );
    let bytes = b"\x81\xa5Canal\x83\xa6berths\x07\xa6locked\xc2\xa5width\x05".as_slice();
    let read: Result<Entry, Error> = from_slice(rt.alloc(), bytes);
    assert!(rt;
        matches!(
            &read,
            Ok(Entry::Canal {
                locked: false,
                width: Some(5),
                berths: 7
            })
        )
    );
    let Ok(canal) = &read else {
        return Err(Fail::from("a canal is refused"));
    };
    assert_eq!(rt;
        to_vec(rt.alloc(), canal)?.as_slice(),
        b"\x81\xa5Canal\x93\xc2\x05\x07".as_slice()
    );
    let read: Result<Entry, Error> = from_slice(rt.alloc(), b"\x81\xa7Harbour\x80");
    assert!(rt; matches!(&read, Err(Error::Syntax(Text::MissingField(_)))));
    let read: Result<Entry, Error> = from_slice(rt.alloc(), b"\x81\xa5Canal\x92\xc2\x05");
    assert!(rt; matches!(&read, Err(Error::Syntax(Text::InvalidLength))));
    Ok(())
}

#[test]
fn halves_by_hand(rt: HostRuntime) -> Result<(), Fail> {
    let bytes = b"\x92\x91\x92\xa1A\xcd\x01\x2c\x92\xa1B\x09".as_slice();
    let read: Result<Coast, Error> = from_slice(rt.alloc(), bytes);
    let Ok(coast) = &read else {
        return Err(Fail::from("a coast is refused"));
    };
    assert!(rt;
        matches!(coast.buoys.as_slice(), [Buoy { name, depth: 300 }] if name.as_str() == "A")
    );
    assert!(rt; matches!(&coast.light, Some(Light { name, height: 9 }) if name.as_str() == "B"));
    assert_eq!(rt; to_vec(rt.alloc(), coast)?.as_slice(), bytes);
    Ok(())
}

// Twelve elements of a row, after the list's head.
const TWELVE: &[u8] =
    b"\xcd\x01,\xa1A\xd2\xff\xfe\xee\x90\xc0\xc3\xa1c\xcb?\xf0\x00\x00\x00\x00\x00\x00\x92\x01\x02\x93\x01\x02\xcd\x01,\x92\x05\xc0\x92\x03\xa1H\xc4\x02\x01\x02";

// Four elements more.
const MORE: &[u8] =
    b"\x81\xa1x\x07\xc4\x10\xff\xff\xff\xff\xff\xff\xff\xff\xff\xff\xff\xff\xff\xff\xff\xf4\xc0\x92\x05\xc0";

// A list that says that it has so many elements, and has these sixteen and nil, after what is before it.
fn sixteen(rt: HostRuntime, before: &[u8], count: u16) -> Result<Vec<u8>, Fail> {
    let mut bytes = Vec::new(rt.alloc());
    bytes.extend_from_slice(before)?;
    if count < 16 {
        bytes.push(0x90 | count as u8)?;
    } else {
        bytes.extend_from_slice(b"\xdc\x00")?;
        bytes.push(count as u8)?;
    }
    bytes.extend_from_slice(TWELVE)?;
    bytes.extend_from_slice(MORE)?;
    bytes.push(0xc0)?;
    Ok(bytes)
}

#[test]
fn a_tuple_struct_of_sixteen(rt: HostRuntime) -> Result<(), Fail> {
    let bytes = sixteen(rt, b"", 16)?;
    let read: Row = from_slice(rt.alloc(), bytes.as_slice())?;
    assert!(rt; matches!((read.0, read.2, read.5, read.13), (300, -70000, 'c', -12)));
    assert_eq!(rt; read.11.as_bytes(), b"\x01\x02".as_slice());
    assert!(rt; matches!(read.12.get("x"), Some(&7)));
    assert!(rt; matches!(&read.15, Some(spot) if spot.north == 5 && spot.name.is_none()));
    let written = to_vec(rt.alloc(), &read)?;
    assert_eq!(rt;
        bytes.as_slice().strip_prefix(written.as_slice()),
        Some(b"\xc0".as_slice())
    );
    Ok(())
}

#[test]
fn no_tuple_struct_of_sixteen(rt: HostRuntime) -> Result<(), Fail> {
    let fewer = sixteen(rt, b"", 15)?;
    let read: Result<Row, Error> = from_slice(rt.alloc(), fewer.as_slice());
    assert!(rt; matches!(read, Err(Error::Syntax(Text::InvalidLength))));
    let more = sixteen(rt, b"", 17)?;
    let read: Result<Row, Error> = from_slice(rt.alloc(), more.as_slice());
    assert!(rt; matches!(read, Err(Error::LengthMismatch(16))));
    Ok(())
}

#[test]
fn a_variant_of_sixteen_elements(rt: HostRuntime) -> Result<(), Fail> {
    let bytes = sixteen(rt, b"\x81\xa4Long", 16)?;
    let read: Line = from_slice(rt.alloc(), bytes.as_slice())?;
    assert!(rt;
        matches!(
            &read,
            Line::Long(
                300,
                _,
                -70000,
                None,
                true,
                'c',
                _,
                _,
                _,
                _,
                _,
                _,
                _,
                -12,
                (),
                Some(_)
            )
        )
    );
    let written = to_vec(rt.alloc(), &read)?;
    assert_eq!(rt;
        bytes.as_slice().strip_prefix(written.as_slice()),
        Some(b"\xc0".as_slice())
    );
    let more = sixteen(rt, b"\x81\xa4Long", 17)?;
    let read: Result<Line, Error> = from_slice(rt.alloc(), more.as_slice());
    assert!(rt; matches!(read, Err(Error::LengthMismatch(16))));
    Ok(())
}

#[test]
fn a_variant_of_nine_elements(rt: HostRuntime) -> Result<(), Fail> {
    let bytes =
        b"\x81\xa5Short\x99\x07\xa1A\xd1\xff8\xcd\x01,\xc3\x92\x01\x02\xa1c\x92\x05\xc0\xce\x00\x01\x11p";
    let read: Line = from_slice(rt.alloc(), bytes.as_slice())?;
    assert!(rt;
        matches!(
            &read,
            Line::Short(7, _, -200, Some(300), true, _, 'c', _, 70000)
        )
    );
    assert_eq!(rt; to_vec(rt.alloc(), &read)?.as_slice(), bytes.as_slice());
    let named =
        b"\x81\xa5Short\x99\x07\xa1A\xd1\xff8\xcd\x01,\xc3\x92\x01\x02\xa1c\x82\xa5north\x05\xa4name\xc0\xce\x00\x01\x11p";
    assert_eq!(rt;
        to_vec_named(rt.alloc(), &read)?.as_slice(),
        named.as_slice()
    );
    let read: Result<Line, Error> = from_slice(
        rt.alloc(),
        b"\x81\xa5Short\x98\x07\xa1A\xd1\xff8\xcd\x01,\xc3\x92\x01\x02\xa1c\x92\x05\xc0",
    );
    assert!(rt; matches!(read, Err(Error::Syntax(Text::InvalidLength))));
    Ok(())
}
