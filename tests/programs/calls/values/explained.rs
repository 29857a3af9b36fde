//! Refusals that are explained: of reads in every way, and by what is asked of them.
use rmp_serde::decode::{Deserialize, Deserializer, Error, Text};
use rmp_serde::{
    Explained, Kind, explain, from_slice_explained, from_slice_strict_explained, path_at,
};
use rmp_wire::{IoFault, Marker};
use std::alloc::{AllocError, Global};
use std::io::{Cursor, ErrorKind};
use std::test::Fail;

#[test]
fn a_strict_read_is_explained(rt: HostRuntime) -> Result<(), Fail> {
    let alloc = rt.alloc();
    // [1, 2 in two bytes]
    let wide = [0x92, 1, 0xcc, 2];
    let read: Result<Vec<u8>, Explained> = from_slice_strict_explained(alloc, &wide);
    let Err(refused) = read else {
        return Err(Fail::from("a value"));
    };
    let line = format!(in alloc; "{refused}")?;
    assert_eq!(rt;
        line.as_str(),
        "not canonical at [1] (byte 2): the integer 2"
    );
    assert!(rt; matches!(refused.error(), Error::NotCanonical));
    let read: Result<Vec<u8>, Explained> = from_slice_explained(alloc, &wide);
    assert!(rt; matches!(read, Ok(numbers) if numbers.as_slice() == [1, 2].as_slice()));
    let read: Result<Vec<u8>, Explained> = from_slice_strict_explained(alloc, &[0x92, 1, 2]);
    assert!(rt; matches!(read, Ok(numbers) if numbers.as_slice() == [1, 2].as_slice()));
    Ok(())
}

#[test]
fn a_read_of_a_cursor_is_explained(rt: HostRuntime) -> Result<(), Fail> {
    let alloc = rt.alloc();
    // [[true], [5]]
    let input = b"\x92\x91\xc3\x91\x05".as_slice();
    let mut de = Deserializer::new(alloc, Cursor::new(input));
    let Err(error) = <Vec<Vec<bool>>>::deserialize(&mut de) else {
        return Err(Fail::from("a value"));
    };
    let position = usize::try_from(de.position()).unwrap_or(0);
    let refused = Explained::new(alloc, input, position, de.refused_levels(), error);
    let line = format!(in alloc; "{refused}")?;
    assert_eq!(rt;
        line.as_str(),
        "invalid type at [1][0] (byte 4): the integer 5"
    );
    assert_eq!(rt; refused.position(), 5);
    assert!(rt; matches!(refused.into_error(), Error::Syntax(Text::InvalidType)));
    Ok(())
}

#[test]
fn the_kind_is_that_of_the_refused_part(rt: HostRuntime) -> Result<(), Fail> {
    let alloc = rt.alloc();
    let rows: [(&[u8], Option<Kind>); 9] = [
        (b"\x91\x05", Some(Kind::Whole)),
        (b"\x91\xc0", Some(Kind::Nil)),
        (b"\x91\xa1a", Some(Kind::Text)),
        (b"\x91\xc4\x01a", Some(Kind::Bytes)),
        (b"\x91\x91\xc3", Some(Kind::List)),
        (b"\x91\x80", Some(Kind::Map)),
        (b"\x91\xca\x00\x00\x00\x00", Some(Kind::F32)),
        (b"\x91\xd4\x01\x00", Some(Kind::Ext)),
        (b"\x91\xc1", None),
    ];
    for (input, kind) in rows {
        let read: Result<Vec<bool>, Explained> = from_slice_explained(alloc, input);
        let Err(refused) = read else {
            return Err(Fail::from("a value"));
        };
        assert_eq!(rt; refused.kind(), kind);
        assert!(rt; matches!(refused.path(), Some(path) if path.place() == 1));
    }
    Ok(())
}

#[test]
fn a_reader_that_failed_is_explained(rt: HostRuntime) -> Result<(), Fail> {
    let alloc = rt.alloc();
    // [true, [5]]
    let mut de = Deserializer::from_read_ref(alloc, b"\x92\xc3\x91\x05");
    let Err(error) = <(bool, Vec<bool>)>::deserialize(&mut de) else {
        return Err(Fail::from("a value"));
    };
    let line = format!(in alloc; "{}", explain(&de, error))?;
    assert_eq!(rt;
        line.as_str(),
        "invalid type at [1][0] (byte 3): the integer 5"
    );
    // It stays at what it refused.
    let Err(again) = bool::deserialize(&mut de) else {
        return Err(Fail::from("a value"));
    };
    let line = format!(in alloc; "{}", explain(&de, again))?;
    assert_eq!(rt;
        line.as_str(),
        "uncategorized error: failed before at [1][0] (byte 3): the integer 5"
    );
    Ok(())
}

// Whether the line begins with the error's own text, and goes on with the byte.
fn begins_with_the_error(alloc: Global, error: Error) -> Result<bool, AllocError> {
    let own = format!(in alloc; "{error}")?;
    let line = format!(in alloc; "{}", Explained::new(alloc, b"\xc0", 0, 0, error))?;
    Ok(
        matches!(line.as_str().strip_prefix(own.as_str()), Some(rest) if rest.starts_with(" (byte ")),
    )
}

#[test]
fn the_line_begins_with_the_error(rt: HostRuntime) -> Result<(), Fail> {
    let alloc = rt.alloc();
    let end = IoFault::from(ErrorKind::UnexpectedEof);
    let Err(bytes) = str::from_utf8(b"a\xff") else {
        return Err(Fail::from("a text"));
    };
    let errors = [
        Error::InvalidMarkerRead(IoFault::from(ErrorKind::TimedOut)),
        Error::InvalidDataRead(IoFault::from(ErrorKind::TimedOut)),
        Error::TypeMismatch(Marker::FixStr(3)),
        Error::OutOfRange,
        Error::LengthMismatch(7),
        Error::Uncategorized(Text::FailedBefore),
        Error::Syntax(Text::UnknownVariant),
        Error::Utf8Error(bytes),
        Error::DepthLimitExceeded,
        Error::OutOfMemory,
        Error::NotCanonical,
    ];
    for error in errors {
        assert!(rt; begins_with_the_error(alloc, error)?);
    }
    // The end of the input is at its end.
    let line = format!(in alloc;
        "{}",
        Explained::new(alloc, b"\xa2a", 2, 0, Error::InvalidDataRead(end))
    )?;
    assert_eq!(rt;
        line.as_str(),
        "IO error while reading data: unexpected end of file (byte 0): a text of 2 bytes"
    );
    Ok(())
}

#[test]
fn a_path_leads_to_each_part(rt: HostRuntime) -> Result<(), AllocError> {
    let alloc = rt.alloc();
    // {"tags": ["a", 5]}
    let input = b"\x81\xa4tags\x92\xa1a\x05".as_slice();
    let rows = [
        (0, 0, ""),
        (1, 1, "{key 0}"),
        (5, 1, "{key 0}"),
        (6, 6, ".tags"),
        (7, 7, ".tags[0]"),
        (8, 7, ".tags[0]"),
        (9, 9, ".tags[1]"),
    ];
    for (offset, place, wanted) in rows {
        let path = path_at(alloc, input, offset)?;
        assert_eq!(rt; path.place(), place);
        assert_eq!(rt; format!(in alloc; "{path}")?.as_str(), wanted);
    }
    Ok(())
}
