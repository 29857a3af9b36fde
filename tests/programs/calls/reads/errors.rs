//! The printed texts of errors, and their sizes.
use rmp_decode::{Error, Text};
use rmp_wire::{IoFault, Marker};
use std::io::ErrorKind;
use std::mem::size_of;
use std::str;
use std::test::Fail;

#[test]
fn prints_the_reason(rt: HostRuntime) -> Result<(), Fail> {
    let end = IoFault::from(ErrorKind::UnexpectedEof);
    let rows: [(Error, &str); 9] = [
        (
            Error::InvalidMarkerRead(end),
            "IO error while reading marker: unexpected end of file",
        ),
        (
            Error::InvalidDataRead(end),
            "IO error while reading data: unexpected end of file",
        ),
        (
            Error::TypeMismatch(Marker::Str8),
            "wrong msgpack marker Str8",
        ),
        (Error::OutOfRange, "numeric cast found out of range"),
        (
            Error::LengthMismatch(2),
            "array had incorrect length, expected 2",
        ),
        (
            Error::Uncategorized(Text::FailedBefore),
            "uncategorized error: failed before",
        ),
        (
            Error::Syntax(Text::new("older than anyone")),
            "older than anyone",
        ),
        (Error::DepthLimitExceeded, "depth limit exceeded"),
        (Error::OutOfMemory, "out of memory"),
    ];
    for (error, want) in &rows {
        assert_eq!(rt; format!(in rt.alloc(); "{error}")?.as_str(), *want);
    }
    let Err(invalid) = str::from_utf8(&[0x61, 0xff]) else {
        panic!(rt; "ff is no UTF-8");
    };
    let error = Error::from(invalid);
    assert_eq!(rt;
        format!(in rt.alloc(); "{error}")?.as_str(),
        "string found to be invalid utf8: invalid utf-8 sequence of 1 bytes from index 1"
    );
    Ok(())
}

#[test]
fn keeps_own_words(rt: HostRuntime) {
    for words in [
        "",
        "a",
        "é",
        "ends in\0",
        "as many bytes as there are: 30",
        "and so with a wide letter: 3é",
    ] {
        assert_eq!(rt; Text::new(words).as_str(), words);
    }
}

// A refusal is handed up through every level of a read, so it stays small.
#[test]
fn is_small(rt: HostRuntime) {
    let sizes = (
        size_of::<Text>(),
        size_of::<Error>(),
        size_of::<Result<u8, Error>>(),
    );
    assert_eq!(rt; sizes, (31, 32, 40));
}
