//! The printed texts of errors, and their sizes.
use rmp_encode::Error;
use rmp_wire::{IoFault, ValueWriteError};
use std::io::ErrorKind;
use std::mem::size_of;
use std::test::Fail;

#[test]
fn prints_the_reason(rt: HostRuntime) -> Result<(), Fail> {
    let closed = IoFault::from(ErrorKind::BrokenPipe);
    let rows: [(Error, &str); 7] = [
        (
            Error::InvalidValueWrite(ValueWriteError::InvalidMarkerWrite(closed)),
            "invalid value write: InvalidMarkerWrite",
        ),
        (
            Error::InvalidValueWrite(ValueWriteError::InvalidDataWrite(closed)),
            "invalid value write: InvalidDataWrite",
        ),
        (
            Error::UnknownLength,
            "attempt to serialize struct, sequence or map with unknown length",
        ),
        (
            Error::InvalidDataModel("a key twice"),
            "serialize data model is invalid: a key twice",
        ),
        (Error::DepthLimitExceeded, "depth limit exceeded"),
        (Error::Syntax("older than anyone"), "older than anyone"),
        (Error::OutOfMemory, "out of memory"),
    ];
    for (error, want) in &rows {
        assert_eq!(rt; format!(in rt.alloc(); "{error}")?.as_str(), *want);
    }
    Ok(())
}

// A refusal is handed up through every level of a write, so it stays small.
#[test]
fn is_small(rt: HostRuntime) {
    let sizes = (size_of::<Error>(), size_of::<Result<(), Error>>());
    assert_eq!(rt; sizes, (24, 32));
}
