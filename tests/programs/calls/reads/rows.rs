//! What the rows of tests want of a read.
use rmp_decode::{Deserialize, Deserializer, Error, from_slice, from_slice_strict};
use rmp_wire::ReadRefReader;
use std::fmt::Debug;
use std::process::Abort;

/// A reader over a slice.
pub type SliceReader<'de> = Deserializer<ReadRefReader<'de>>;

pub const NO_MARKER: &str = "IO error while reading marker: unexpected end of file";

pub const NO_DATA: &str = "IO error while reading data: unexpected end of file";

pub const RESERVED: &str = "wrong msgpack marker Reserved";

pub const NO_UTF8: &str =
    "string found to be invalid utf8: invalid utf-8 sequence of 1 bytes from index 0";

pub const FAILED_BEFORE: &str = "uncategorized error: failed before";

pub const TOO_DEEP: &str = "depth limit exceeded";

pub const NOT_CANONICAL: &str = "not canonical";

pub const INVALID_TYPE: &str = "invalid type";

pub const INVALID_VALUE: &str = "invalid value";

pub const INVALID_LENGTH: &str = "invalid length";

/// A reader over the input.
pub fn reader<'de>(rt: &impl AllocGlobal, input: &'de [u8]) -> SliceReader<'de> {
    Deserializer::from_read_ref(rt.alloc(), input)
}

/// The read gave this value.
pub fn gives<T: PartialEq + Debug + Drop>(rt: &impl Abort, read: Result<T, Error>, want: T) {
    match read {
        Ok(value) => assert_eq!(rt; value, want),
        Err(e) => panic!(rt; "{want:?} is refused: {e}"),
    }
}

/// The read gave this text.
pub fn gives_text(rt: &impl Abort, read: Result<String, Error>, want: &str) {
    match read {
        Ok(text) => assert_eq!(rt; text.as_str(), want),
        Err(e) => panic!(rt; "{want:?} is refused: {e}"),
    }
}

/// The read gave these items.
pub fn gives_items<T: PartialEq + Debug + Drop>(
    rt: &impl Abort,
    read: Result<Vec<T>, Error>,
    want: &[T],
) {
    match read {
        Ok(items) => assert_eq!(rt; items.as_slice(), want),
        Err(e) => panic!(rt; "{want:?} is refused: {e}"),
    }
}

/// The read was refused in these words.
pub fn refused<T: Drop>(rt: &(impl Abort + AllocGlobal), read: Result<T, Error>, why: &str) {
    match read {
        Ok(_) => panic!(rt; "a value, and not: {why}"),
        Err(e) => {
            let words = format!(in rt.alloc(); "{e}").expect(rt, "memory");
            assert_eq!(rt; words.as_str(), why);
        }
    }
}

/// The input is read as this value.
pub fn reads<'de, T: Deserialize<'de, ReadRefReader<'de>> + PartialEq + Debug + Drop>(
    rt: &(impl Abort + AllocGlobal),
    input: &'de [u8],
    want: T,
) {
    gives(rt, from_slice(rt.alloc(), input), want);
}

/// The input is read as these items.
pub fn reads_items<'de, T: Deserialize<'de, ReadRefReader<'de>> + PartialEq + Debug + Drop>(
    rt: &(impl Abort + AllocGlobal),
    input: &'de [u8],
    want: &[T],
) {
    gives_items(rt, from_slice(rt.alloc(), input), want);
}

/// The input is refused as a `T`, in these words.
pub fn refuses<'de, T: Deserialize<'de, ReadRefReader<'de>> + Drop>(
    rt: &(impl Abort + AllocGlobal),
    input: &'de [u8],
    why: &str,
) {
    refused(rt, from_slice::<T>(rt.alloc(), input), why);
}

/// A strict reader reads the input as this value.
pub fn reads_strictly<'de, T: Deserialize<'de, ReadRefReader<'de>> + PartialEq + Debug + Drop>(
    rt: &(impl Abort + AllocGlobal),
    input: &'de [u8],
    want: T,
) {
    gives(rt, from_slice_strict(rt.alloc(), input), want);
}

/// A strict reader refuses the input as a `T`, in these words.
pub fn refuses_strictly<'de, T: Deserialize<'de, ReadRefReader<'de>> + Drop>(
    rt: &(impl Abort + AllocGlobal),
    input: &'de [u8],
    why: &str,
) {
    refused(rt, from_slice_strict::<T>(rt.alloc(), input), why);
}

/// The next value of the reader is this.
pub fn next<'de, T: Deserialize<'de, ReadRefReader<'de>> + PartialEq + Debug + Drop>(
    rt: &impl Abort,
    de: &mut SliceReader<'de>,
    want: T,
) {
    gives(rt, T::deserialize(de), want);
}

/// The next value of the reader is refused as a `T`, in these words.
pub fn next_refused<'de, T: Deserialize<'de, ReadRefReader<'de>> + Drop>(
    rt: &(impl Abort + AllocGlobal),
    de: &mut SliceReader<'de>,
    why: &str,
) {
    refused(rt, T::deserialize(de), why);
}

/// So much of its input is ahead of the reader.
pub fn ahead(rt: &impl Abort, de: &SliceReader, want: &[u8]) {
    assert_eq!(rt; de.remaining_slice(), want);
}
