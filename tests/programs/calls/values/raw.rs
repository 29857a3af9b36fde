//! Texts that aren't UTF-8.
use faulty_io::Drip;
use rmp_encode::{Error as Unwritten, write};
use rmp_serde::decode::{Error, Text};
use rmp_serde::{Raw, RawRef, Value, from_read, from_slice, to_vec};
use rmp_wire::{SliceSink, ValueWriteError};

// A text of four bytes that aren't UTF-8, from the first on.
const INVALID: [u8; 5] = [0xa4, 0x92, 0xcc, 0xc8, 0x90];

#[test]
fn bytes_that_are_no_text(rt: HostRuntime) -> Result<(), Error> {
    let raw = from_slice::<Raw>(rt.alloc(), &INVALID)?;
    assert!(rt; raw.is_err() && !raw.is_str());
    assert!(rt; raw.as_str().is_none());
    match raw.as_err() {
        Some(e) => assert_eq!(rt; e.valid_up_to(), 0),
        None => assert!(rt; false),
    }
    assert_eq!(rt; raw.as_bytes(), &INVALID[1..]);
    match to_vec(rt.alloc(), &raw) {
        Ok(bytes) => assert_eq!(rt; bytes.as_slice(), b"\xc4\x04\x92\xcc\xc8\x90".as_slice()),
        Err(_) => assert!(rt; false),
    }
    assert_eq!(rt; raw.into_bytes().as_slice(), &INVALID[1..]);
    let text: Result<String, Error> = from_slice(rt.alloc(), &INVALID);
    match &text {
        Err(Error::Utf8Error(e)) => assert_eq!(rt; e.valid_up_to(), 0),
        _ => assert!(rt; false),
    }
    Ok(())
}

#[test]
fn bytes_that_are_no_text_are_lent(rt: HostRuntime) -> Result<(), Error> {
    let raw = from_slice::<RawRef>(rt.alloc(), &INVALID)?;
    assert!(rt; raw.is_err() && raw.as_bytes() == &INVALID[1..]);
    assert!(rt; raw.as_err().is_some_and(|e| e.valid_up_to() == 0));
    let key = from_slice::<RawRef>(rt.alloc(), b"\xa3key")?;
    assert!(rt; matches!(key.as_str(), Some("key")));
    Ok(())
}

#[test]
fn a_reader_lends_no_bytes(rt: HostRuntime) {
    let raw: Result<RawRef, Error> = from_read(rt.alloc(), Drip::new(&INVALID, 100));
    assert!(rt; matches!(&raw, Err(Error::Utf8Error(e)) if e.valid_up_to() == 0));
    let key: Result<RawRef, Error> = from_read(rt.alloc(), Drip::new(b"\xa3key", 100));
    assert!(rt; matches!(&key, Err(Error::Syntax(Text::InvalidType))));
}

#[test]
fn a_full_slice_is_told(rt: HostRuntime) -> Result<(), Error> {
    let mut room = [0u8; 2];
    let mut sink = SliceSink::new(&mut room);
    let cut = write(rt.alloc(), &mut sink, &RawRef::new("key"));
    assert!(rt;
        matches!(
            &cut,
            Err(Unwritten::InvalidValueWrite(ValueWriteError::InvalidDataWrite(_)))
        )
    );
    assert_eq!(rt; room.as_slice(), b"\xa3k".as_slice());
    let list = Value::from_slice(rt.alloc(), &[0x92, 0x01, 0x02])?;
    let mut sink = SliceSink::new(&mut room);
    let cut = write(rt.alloc(), &mut sink, &list);
    assert!(rt;
        matches!(
            &cut,
            Err(Unwritten::InvalidValueWrite(ValueWriteError::InvalidMarkerWrite(_)))
        )
    );
    assert_eq!(rt; room.as_slice(), b"\x92\x01".as_slice());
    Ok(())
}
