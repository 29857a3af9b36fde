//! What types that a user wrote are written as and read from.
use rmp_serde::decode::{Error, Text};
use rmp_serde::{from_slice, to_vec};
use std::test::Fail;
use test_types::own_type::{Named, Point};

#[test]
fn a_point_is_written_and_read(rt: HostRuntime) -> Result<(), Fail> {
    let point = Point(300, String::from_str(rt.alloc(), "a")?);
    let bytes = to_vec(rt.alloc(), &point)?;
    assert_eq!(rt; bytes.as_slice(), b"\x92\xcd\x01\x2c\xa1a".as_slice());
    let read: Result<Point, Error> = from_slice(rt.alloc(), bytes.as_slice());
    match read {
        Ok(point) => {
            assert_eq!(rt; point.0, 300);
            assert_eq!(rt; point.1.as_str(), "a");
        }
        Err(_) => assert!(rt; false),
    }
    Ok(())
}

#[test]
fn a_point_of_other_lengths_is_refused(rt: HostRuntime) {
    let read: Result<Point, Error> = from_slice(rt.alloc(), b"\x93\x01\xa1a\xc0");
    assert!(rt; matches!(&read, Err(Error::LengthMismatch(2))));
    let read: Result<Point, Error> = from_slice(rt.alloc(), b"\x91\x01");
    assert!(rt; matches!(&read, Err(Error::Syntax(Text::InvalidLength))));
    let read: Result<Point, Error> = from_slice(rt.alloc(), b"\x92\xa1a\x01");
    assert!(rt; read.is_err());
}

#[test]
fn a_named_number_is_read(rt: HostRuntime) {
    let read: Result<Named, Error> = from_slice(
        rt.alloc(),
        b"\xdc\x00\x02\xcf\x00\x00\x00\x00\x00\x00\x00\x07\xd9\x01b",
    );
    match read {
        Ok(named) => {
            assert_eq!(rt; named.0, 7);
            assert_eq!(rt; named.1.as_str(), "b");
        }
        Err(_) => assert!(rt; false),
    }
    let read: Result<Named, Error> = from_slice(rt.alloc(), b"\x93\x01\xa1a\xc0");
    assert!(rt; matches!(&read, Err(Error::LengthMismatch(2))));
}
