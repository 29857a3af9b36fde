//! Points in time.
use rmp_serde::decode::{Error, Text};
use rmp_serde::{Timestamp, Value, from_slice, to_vec};
use std::collections::BTreeMap;
use std::test::Fail;

// The point in time that a message is.
fn time_of(rt: &HostRuntime, message: &[u8]) -> Result<(i64, u32), Error> {
    let time: Timestamp = from_slice(rt.alloc(), message)?;
    Ok((time.seconds, time.nanoseconds))
}

// Whether this is what is written of it, and it is read of that.
fn is_written(rt: &HostRuntime, seconds: i64, nanoseconds: u32, wanted: &[u8]) -> bool {
    match Timestamp::new(seconds, nanoseconds) {
        Some(time) => match to_vec(rt.alloc(), &time) {
            Ok(bytes) => {
                let back = time_of(rt, bytes.as_slice());
                bytes.as_slice() == wanted
                    && matches!(back, Ok((s, n)) if s == seconds && n == nanoseconds)
            }
            Err(_) => false,
        },
        None => false,
    }
}

#[test]
fn the_shortest_payload_is_written(rt: HostRuntime) {
    // 4 bytes
    assert!(rt; is_written(&rt, 0, 0, b"\xd6\xff\0\0\0\0"));
    assert!(rt; is_written(&rt, 1, 0, b"\xd6\xff\0\0\0\x01"));
    assert!(rt; is_written(&rt, 4_294_967_295, 0, b"\xd6\xff\xff\xff\xff\xff"));
    assert!(rt; is_written(&rt, 1_514_862_245, 0, b"\xd6\xff\x5a\x4a\xf6\xa5"));
    // 8 bytes
    assert!(rt;
        is_written(
            &rt,
            1_514_862_245,
            678_901_234,
            b"\xd7\xff\xa1\xdc\xd7\xc8\x5a\x4a\xf6\xa5"
        )
    );
    assert!(rt; is_written(&rt, 0, 1, b"\xd7\xff\0\0\0\x04\0\0\0\0"));
    assert!(rt; is_written(&rt, 4_294_967_296, 0, b"\xd7\xff\0\0\0\x01\0\0\0\0"));
    assert!(rt;
        is_written(
            &rt,
            17_179_869_183,
            999_999_999,
            b"\xd7\xff\xee\x6b\x27\xff\xff\xff\xff\xff"
        )
    );
    // 12 bytes
    assert!(rt;
        is_written(
            &rt,
            17_179_869_184,
            0,
            b"\xc7\x0c\xff\0\0\0\0\0\0\0\x04\0\0\0\0"
        )
    );
    assert!(rt;
        is_written(
            &rt,
            -1,
            999_999_999,
            b"\xc7\x0c\xff\x3b\x9a\xc9\xff\xff\xff\xff\xff\xff\xff\xff\xff"
        )
    );
    assert!(rt; is_written(&rt, i64::MIN, 0, b"\xc7\x0c\xff\0\0\0\0\x80\0\0\0\0\0\0\0"));
    assert!(rt;
        is_written(
            &rt,
            i64::MAX,
            0,
            b"\xc7\x0c\xff\0\0\0\0\x7f\xff\xff\xff\xff\xff\xff\xff"
        )
    );
}

#[test]
fn each_payload_is_read(rt: HostRuntime) -> Result<(), Error> {
    // one second and no nanoseconds in 4, 8 and 12 bytes, with a head of any width
    assert!(rt; time_of(&rt, b"\xd6\xff\0\0\0\x01")? == (1, 0));
    assert!(rt; time_of(&rt, b"\xd7\xff\0\0\0\0\0\0\0\x01")? == (1, 0));
    assert!(rt; time_of(&rt, b"\xc7\x0c\xff\0\0\0\0\0\0\0\0\0\0\0\x01")? == (1, 0));
    assert!(rt; time_of(&rt, b"\xc9\0\0\0\x04\xff\0\0\0\x01")? == (1, 0));
    Ok(())
}

#[test]
fn a_second_of_nanoseconds_is_refused_by_name(rt: HostRuntime) {
    assert!(rt; Timestamp::new(0, 1_000_000_000).is_none());
    assert!(rt; Timestamp::new(0, 999_999_999).is_some());
    // 1,000,000,000 in 8 and in 12 bytes
    let messages = [
        b"\xd7\xff\xee\x6b\x28\0\0\0\0\0".as_slice(),
        b"\xc7\x0c\xff\x3b\x9a\xca\0\0\0\0\0\0\0\0\0",
    ];
    for message in &messages {
        match time_of(&rt, *message) {
            Err(Error::Syntax(text)) => assert_eq!(rt;
                text.as_str(),
                "nanoseconds above 999999999"
            ),
            _ => assert!(rt; false),
        }
    }
}

#[test]
fn other_messages_are_no_points_in_time(rt: HostRuntime) {
    // other lengths, and other kinds
    let lengths = [
        b"\xd5\xff\0\0".as_slice(),
        b"\xc7\0\xff",
        b"\xd8\xff\0\0\0\0\0\0\0\0\0\0\0\0\0\0\0\0",
        b"\xc7\x05\xff\0\0\0\0\0",
    ];
    for message in &lengths {
        assert!(rt;
            matches!(
                time_of(&rt, *message),
                Err(Error::Syntax(Text::InvalidLength))
            )
        );
    }
    let kinds = [
        b"\xd6\x01\0\0\0\x01".as_slice(),
        b"\x01",
        b"\xc0",
        b"\xa4\0\0\0\x01",
        b"\x92\x01\0",
    ];
    for message in &kinds {
        assert!(rt;
            matches!(
                time_of(&rt, *message),
                Err(Error::Syntax(Text::InvalidType))
            )
        );
    }
    assert!(rt; matches!(time_of(&rt, b"\xd6\xff\0\0\0"), Err(e) if e.is_incomplete()));
    assert!(rt; matches!(time_of(&rt, b"\xd6"), Err(e) if e.is_incomplete()));
}

#[test]
fn a_point_in_time_is_an_extension(rt: HostRuntime) -> Result<(), Error> {
    let value: Value = from_slice(rt.alloc(), b"\xd6\xff\0\0\0\x01")?;
    assert!(rt;
        matches!(value.root().as_ext(), Some((-1, bytes)) if bytes == b"\0\0\0\x01".as_slice())
    );
    Ok(())
}

#[test]
fn times_are_keys_in_their_order(rt: HostRuntime) -> Result<(), Fail> {
    let alloc = rt.alloc();
    let moments = [
        (1, 0),
        (0, 999_999_999),
        (-1, 1),
        (i64::MAX, 0),
        (0, 0),
        (i64::MIN, 999_999_999),
        (-1, 0),
    ];
    let mut map = BTreeMap::new(alloc);
    for (place, (seconds, nanoseconds)) in moments.iter().enumerate() {
        let time = Timestamp::new(*seconds, *nanoseconds).unwrap();
        map.insert(time, place as u8)?;
    }
    let bytes = to_vec(alloc, &map)?;
    let read: BTreeMap<Timestamp, u8> = from_slice(alloc, &bytes)?;
    let mut places = Vec::new(alloc);
    for (_, place) in read.iter() {
        places.push(*place)?;
    }
    assert_eq!(rt; places.as_slice(), [5u8, 6, 2, 4, 1, 0, 3].as_slice());
    Ok(())
}
