//! Pieces that are lent from a slice.
use rmp_wire::{ReadRefReader, ReadSlice, Reference, Source, SourceFault};
use std::io::ErrorKind;

// Whether these bytes are lent next.
fn lends(reader: &mut ReadRefReader, want: &[u8]) -> bool {
    match reader.read_slice(want.len()) {
        Ok(piece) => piece == Reference::Borrowed(want),
        Err(_) => false,
    }
}

// Whether the input ends before so many bytes.
fn ends_before(reader: &mut ReadRefReader, len: usize) -> bool {
    match reader.read_slice(len) {
        Err(SourceFault::Io(e)) => e.kind() == ErrorKind::UnexpectedEof,
        _ => false,
    }
}

fn left_and_whole(reader: &ReadRefReader) -> (usize, usize) {
    (reader.remaining_slice().len(), reader.whole().len())
}

#[test]
fn pieces_in_turn(rt: HostRuntime) {
    let input = [0u8, 1, 2, 3, 4, 5, 6, 7, 8, 9, 10];
    let mut reader = ReadRefReader::new(&input);
    assert!(rt; lends(&mut reader, &[0]));
    assert!(rt; lends(&mut reader, &[1, 2, 3, 4, 5, 6]));
    assert!(rt; ends_before(&mut reader, 5));
    assert!(rt; lends(&mut reader, &[7, 8, 9, 10]));
    assert_eq!(rt; left_and_whole(&reader), (0, 11));
}

#[test]
fn references_differ(rt: HostRuntime) {
    let bytes = [1u8, 2];
    let lent = Reference::Borrowed(&bytes);
    let copied = Reference::Copied(&bytes);
    assert!(rt; lent == lent);
    assert!(rt; copied == Reference::Copied(&[1, 2]));
    assert!(rt; lent != copied);
    assert!(rt; lent != Reference::Borrowed(&[1, 3]));
    assert_eq!(rt; copied.as_bytes(), bytes.as_slice());
}

fn skips<S: Source>(source: &mut S, len: usize) -> bool {
    source.skip(len)
}

fn is_front<S: Source>(source: &S, want: &[u8]) -> bool {
    source.front() == want
}

// Whether a source skips a byte and then has these in front, by a reference to it.
fn skips_one_by_reference(bytes: &[u8], want: &[u8]) -> bool {
    let mut rest = bytes;
    let mut source = &mut rest;
    source.skip(1) && source.front() == want
}

#[test]
fn front_and_skip(rt: HostRuntime) {
    let mut reader = ReadRefReader::new(&[7, 8, 9]);
    assert!(rt; is_front(&reader, &[7, 8, 9]));
    assert!(rt; skips(&mut reader, 2));
    assert!(rt; is_front(&reader, &[9]));
    assert!(rt; !skips(&mut reader, 2));
    assert!(rt; skips_one_by_reference(&[7, 8, 9], &[8, 9]));
}
