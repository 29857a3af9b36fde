//! Heads of the specification's table, read back; cut and failing input; sizes.
use faulty_io::Drip;
use rmp_wire::{
    Head, IoFault, Marker, MarkerReadError, ValueReadError, next_head, read_head, read_marker,
};
use std::alloc::AllocError;
use std::fmt::Debug;
use std::io::ErrorKind;
use std::process::Abort;

// The bytes are this head, whole, from a slice and from a source that gives one a pull.
fn is_head(rt: &impl Abort, bytes: &[u8], marker: Marker, head: Head) {
    let want = Ok((marker, head));
    same(rt, taken(bytes), (want, 0));
    same(rt, dripped(bytes, 100), (want, 0, 0));
}

#[test]
fn heads_that_are_one_byte(rt: HostRuntime) {
    is_head(&rt, &[0x00], Marker::FixPos(0), Head::Whole(0));
    is_head(&rt, &[0x7f], Marker::FixPos(127), Head::Whole(127));
    is_head(&rt, &[0xe0], Marker::FixNeg(-32), Head::Whole(-32));
    is_head(&rt, &[0xff], Marker::FixNeg(-1), Head::Whole(-1));
    is_head(&rt, &[0x8f], Marker::FixMap(15), Head::Map(15));
    is_head(&rt, &[0x92], Marker::FixArray(2), Head::Array(2));
    is_head(&rt, &[0xbf], Marker::FixStr(31), Head::Text(31));
    is_head(&rt, &[0xc0], Marker::Null, Head::Nil);
    is_head(&rt, &[0xc2], Marker::False, Head::Truth(false));
    is_head(&rt, &[0xc3], Marker::True, Head::Truth(true));
}

#[test]
fn numbers(rt: HostRuntime) {
    let ones = [0xd3, 0xff, 0xff, 0xff, 0xff, 0xff, 0xff, 0xff, 0xff];
    let forty_two = [0xcf, 0, 0, 0, 0, 0, 0, 0, 0x2a];
    is_head(&rt, &[0xcc, 0xff], Marker::U8, Head::Whole(255));
    is_head(&rt, &[0xcd, 0x01, 0x2c], Marker::U16, Head::Whole(300));
    is_head(&rt, &[0xce, 0, 1, 0, 0], Marker::U32, Head::Whole(65536));
    is_head(&rt, &forty_two, Marker::U64, Head::Whole(42));
    is_head(&rt, &[0xd0, 0xdf], Marker::I8, Head::Whole(-33));
    is_head(&rt, &[0xd1, 0x01, 0x2c], Marker::I16, Head::Whole(300));
    is_head(
        &rt,
        &[0xd2, 0xff, 0xff, 0x7f, 0xff],
        Marker::I32,
        Head::Whole(-32769),
    );
    is_head(&rt, &ones, Marker::I64, Head::Whole(-1));
    is_head(
        &rt,
        &[0xca, 0x7f, 0x7f, 0xff, 0xff],
        Marker::F32,
        Head::F32Bits(0x7f7fffff),
    );
    is_head(
        &rt,
        &[0xcb, 0x3f, 0xf0, 0, 0, 0, 0, 0, 0],
        Marker::F64,
        Head::F64Bits(0x3ff0000000000000),
    );
}

#[test]
fn lengths(rt: HostRuntime) {
    is_head(&rt, &[0xc4, 0xff], Marker::Bin8, Head::Bin(255));
    is_head(&rt, &[0xc5, 0x01, 0x00], Marker::Bin16, Head::Bin(256));
    is_head(&rt, &[0xc6, 0, 1, 0, 0], Marker::Bin32, Head::Bin(65536));
    is_head(&rt, &[0xd9, 0x20], Marker::Str8, Head::Text(32));
    is_head(&rt, &[0xda, 0xff, 0xff], Marker::Str16, Head::Text(65535));
    is_head(
        &rt,
        &[0xdb, 0xff, 0xff, 0xff, 0xff],
        Marker::Str32,
        Head::Text(4294967295),
    );
    is_head(&rt, &[0xdc, 0x00, 0x10], Marker::Array16, Head::Array(16));
    is_head(
        &rt,
        &[0xdd, 0, 1, 0, 0],
        Marker::Array32,
        Head::Array(65536),
    );
    is_head(&rt, &[0xde, 0x00, 0x01], Marker::Map16, Head::Map(1));
    is_head(&rt, &[0xdf, 0, 1, 0, 0], Marker::Map32, Head::Map(65536));
}

#[test]
fn extensions(rt: HostRuntime) {
    is_head(&rt, &[0xd4, 0xff], Marker::FixExt1, Head::Ext(1, -1));
    is_head(&rt, &[0xd5, 0x05], Marker::FixExt2, Head::Ext(2, 5));
    is_head(&rt, &[0xd6, 0x7f], Marker::FixExt4, Head::Ext(4, 127));
    is_head(&rt, &[0xd7, 0x80], Marker::FixExt8, Head::Ext(8, -128));
    is_head(&rt, &[0xd8, 0x00], Marker::FixExt16, Head::Ext(16, 0));
    is_head(&rt, &[0xc7, 0x03, 0x05], Marker::Ext8, Head::Ext(3, 5));
    is_head(
        &rt,
        &[0xc8, 0x00, 0x01, 0xff],
        Marker::Ext16,
        Head::Ext(1, -1),
    );
    is_head(
        &rt,
        &[0xc9, 0, 1, 0, 0, 0x05],
        Marker::Ext32,
        Head::Ext(65536, 5),
    );
}

type ReadHead = Result<(Marker, Head), ValueReadError>;

fn ends(kind: ErrorKind) -> ValueReadError {
    ValueReadError::InvalidDataRead(IoFault::from(kind))
}

fn no_marker(kind: ErrorKind) -> ValueReadError {
    ValueReadError::InvalidMarkerRead(IoFault::from(kind))
}

// Both are the same.
fn same<T: PartialEq + Debug + Drop>(rt: &impl Abort, answer: T, want: T) {
    assert_eq!(rt; answer, want);
}

// The head in front, and how many bytes are then left.
fn taken(bytes: &[u8]) -> (ReadHead, usize) {
    let mut rest = bytes;
    let read = next_head(&mut rest);
    (read, rest.len())
}

fn head(bytes: &[u8]) -> ReadHead {
    taken(bytes).0
}

fn marker(bytes: &[u8]) -> Result<Marker, MarkerReadError> {
    let mut rest = bytes;
    read_marker(&mut rest)
}

// What a source answers that fails after so many pulls, how much is then ahead, and how many faults there were.
fn dripped(bytes: &[u8], until_fault: usize) -> (ReadHead, usize, u64) {
    let mut drip = Drip::new(bytes, until_fault);
    let read = next_head(&mut drip);
    (read, drip.rest.len(), drip.faults)
}

#[test]
fn cut_heads(rt: HostRuntime) {
    let cut = ends(ErrorKind::UnexpectedEof);
    same(&rt, head(&[0xd9]), Err(cut));
    same(&rt, head(&[0xcd, 0x01]), Err(cut));
    same(&rt, head(&[0xc7, 0x01]), Err(cut));
    same(&rt, dripped(&[0xc7, 0x01], 100), (Err(cut), 0, 0));
    let none = IoFault::from(ErrorKind::UnexpectedEof);
    same(&rt, marker(&[]), Err(MarkerReadError(none)));
    same(&rt, head(&[]), Err(ValueReadError::InvalidMarkerRead(none)));
}

// The head after a marker, and how many bytes are then left.
fn head_of(marker: Marker, bytes: &[u8]) -> (Result<Head, ValueReadError>, usize) {
    let mut rest = bytes;
    let read = read_head(marker, &mut rest);
    (read, rest.len())
}

#[test]
fn the_reserved_marker(rt: HostRuntime) {
    let refused = ValueReadError::TypeMismatch(Marker::Reserved);
    same(
        &rt,
        head_of(Marker::Reserved, &[0x01, 0x02]),
        (Err(refused), 2),
    );
    same(&rt, head(&[0xc1, 0x01]), Err(refused));
}

#[test]
fn a_payload_out_of_range(rt: HostRuntime) {
    same(
        &rt,
        head_of(Marker::FixArray(0x35), &[]),
        (Ok(Head::Array(5)), 0),
    );
    same(
        &rt,
        head_of(Marker::FixNeg(3), &[]),
        (Ok(Head::Whole(-29)), 0),
    );
}

#[test]
fn faults_of_the_source(rt: HostRuntime) {
    let bytes = [0xcd, 0x01, 0x2c];
    let late = ErrorKind::TimedOut;
    same(&rt, dripped(&bytes, 0), (Err(no_marker(late)), 3, 1));
    same(&rt, dripped(&bytes, 1), (Err(ends(late)), 2, 1));
    same(&rt, dripped(&bytes, 2), (Err(ends(late)), 1, 1));
    same(
        &rt,
        dripped(&bytes, 3),
        (Ok((Marker::U16, Head::Whole(300))), 0, 0),
    );
}

#[test]
fn every_byte_is_its_marker(rt: HostRuntime) {
    for byte in 0..=255u8 {
        assert_eq!(rt; Marker::from_u8(byte).to_u8(), byte);
    }
}

// The head that a reference to a source gives, and how many bytes are then left.
fn lent(bytes: &[u8]) -> (ReadHead, usize) {
    let mut rest = bytes;
    let mut lent = &mut rest;
    let read = next_head(&mut lent);
    (read, rest.len())
}

#[test]
fn through_a_reference(rt: HostRuntime) {
    let input = [0xcd, 0x01, 0x2c, 0xc0];
    same(&rt, lent(&input), (Ok((Marker::U16, Head::Whole(300))), 1));
}

#[test]
fn what_a_head_holds(rt: HostRuntime) {
    assert_eq!(rt; Head::Nil.as_nil(), Some(()));
    assert_eq!(rt; Head::Truth(true).as_bool(), Some(true));
    assert_eq!(rt; Head::Whole(-1).as_whole(), Some(-1));
    assert_eq!(rt; Head::F32Bits(7).as_f32_bits(), Some(7));
    assert_eq!(rt; Head::F64Bits(7).as_f64_bits(), Some(7));
    assert_eq!(rt; Head::Text(5).as_text(), Some(5));
    assert_eq!(rt; Head::Bin(5).as_bin(), Some(5));
    assert_eq!(rt; Head::Array(5).as_array(), Some(5));
    assert_eq!(rt; Head::Map(5).as_map(), Some(5));
    assert_eq!(rt; Head::Ext(5, -1).as_ext(), Some((5, -1)));
    assert_eq!(rt; Head::Text(5).as_raw(), Some((true, 5)));
    assert_eq!(rt; Head::Bin(5).as_raw(), Some((false, 5)));
    assert_eq!(rt; Head::Bin(5).as_seq(), Some((true, 5)));
    assert_eq!(rt; Head::Array(5).as_seq(), Some((false, 5)));
    assert_eq!(rt; Head::Map(5).as_parts(), Some((true, 5)));
    assert_eq!(rt; Head::Array(5).as_parts(), Some((false, 5)));
    assert_eq!(rt; Head::Bin(5).as_fields(), Some((Some(true), 5)));
    assert_eq!(rt; Head::Array(5).as_fields(), Some((Some(false), 5)));
    assert_eq!(rt; Head::Map(5).as_fields(), Some((None, 5)));
    assert_eq!(rt; Head::Ext(5, -1).content_len(), 5);
    assert_eq!(rt; Head::Array(5).content_len(), 0);
    assert_eq!(rt; Head::Map(5).as_text(), None);
    assert_eq!(rt; Head::Nil.as_bool(), None);
}

#[test]
fn sizes(rt: HostRuntime) {
    assert_eq!(rt; size_of::<MarkerReadError>(), 12);
    assert_eq!(rt; size_of::<ValueReadError>(), 16);
    assert_eq!(rt; size_of::<Result<Marker, MarkerReadError>>(), 16);
    assert_eq!(rt; size_of::<Result<Head, ValueReadError>>(), 48);
}

#[test]
fn errors_print_their_names(rt: HostRuntime) -> Result<(), AllocError> {
    let end = IoFault::from(ErrorKind::UnexpectedEof);
    let marker = format!(in rt.alloc(); "{}", MarkerReadError(end))?;
    assert_eq!(rt; marker.as_str(), "MarkerReadError");
    for (error, name) in [
        (ValueReadError::InvalidMarkerRead(end), "InvalidMarkerRead"),
        (ValueReadError::InvalidDataRead(end), "InvalidDataRead"),
        (
            ValueReadError::TypeMismatch(Marker::Reserved),
            "TypeMismatch",
        ),
    ] {
        assert_eq!(rt; format!(in rt.alloc(); "{error}")?.as_str(), name);
    }
    Ok(())
}
