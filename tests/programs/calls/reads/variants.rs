//! What is read as an enum that a user wrote.
use super::rows::{
    FAILED_BEFORE, INVALID_TYPE, NO_DATA, NO_MARKER, NO_UTF8, NOT_CANONICAL, RESERVED, SliceReader,
    TOO_DEEP, ahead, next_refused, reader, refused, refuses, refuses_strictly,
};
use rmp_decode::{Deserialize, Error, from_slice, from_slice_strict};
use std::process::Abort;
use test_types::Shape;

// The shape, with its numbers in one place and its text in another.
fn told(shape: &Shape) -> (&'static str, &str, u32, u32) {
    match shape {
        Shape::Point => ("Point", "", 0, 0),
        Shape::Circle(radius) => ("Circle", "", *radius, 0),
        Shape::Named(name, number) => ("Named", name.as_str(), u32::from(*number), 0),
        Shape::Frame { width, height } => ("Frame", "", u32::from(*width), u32::from(*height)),
    }
}

// The read gave this shape.
fn is(rt: &impl Abort, read: Result<Shape, Error>, want: (&str, &str, u32, u32)) {
    match read {
        Ok(shape) => assert_eq!(rt; told(&shape), want),
        Err(e) => panic!(rt; "{want:?} is refused: {e}"),
    }
}

const POINT: (&str, &str, u32, u32) = ("Point", "", 0, 0);

// The input is read as this shape.
fn reads(rt: &(impl Abort + AllocGlobal), input: &[u8], want: (&str, &str, u32, u32)) {
    is(rt, from_slice(rt.alloc(), input), want);
}

// A strict reader reads the input as this shape.
fn reads_strictly(rt: &(impl Abort + AllocGlobal), input: &[u8], want: (&str, &str, u32, u32)) {
    is(rt, from_slice_strict(rt.alloc(), input), want);
}

fn next_shape(de: &mut SliceReader) -> Result<Shape, Error> {
    Shape::deserialize(de)
}

#[test]
fn variants_without_content(rt: HostRuntime) {
    for input in [
        b"\xa5Point".as_slice(),
        b"\xd9\x05Point",
        b"\xc4\x05Point",
        b"\x00",
        b"\xcd\x00\x00",
        b"\x81\xa5Point\xc0",
        b"\x81\xcd\x00\x00\xc0",
        b"\xdf\x00\x00\x00\x01\xc4\x05Point\xc0",
    ] {
        reads(&rt, input, POINT);
    }
}

#[test]
fn variants_with_content(rt: HostRuntime) {
    let mut de = reader(
        &rt,
        b"\x81\xa6Circle\xcd\x01\x2c\x81\x02\x92\xa1b\x07\xa5Point",
    );
    is(&rt, next_shape(&mut de), ("Circle", "", 300, 0));
    is(&rt, next_shape(&mut de), ("Named", "b", 7, 0));
    is(&rt, next_shape(&mut de), POINT);
    ahead(&rt, &de, &[]);
}

#[test]
fn variants_with_named_content(rt: HostRuntime) {
    for input in [
        b"\x81\xa5Frame\x92\x05\xcd\x01\x2c".as_slice(),
        b"\x81\xa5Frame\x82\xa5width\x05\xa6height\xcd\x01\x2c",
        b"\x81\x03\x83\xa6height\xcd\x01\x2c\xa1x\x90\xa5width\x05",
    ] {
        reads(&rt, input, ("Frame", "", 5, 300));
    }
}

#[test]
fn what_is_no_variant(rt: HostRuntime) {
    const UNKNOWN: &str = "unknown variant";
    for (input, why) in [
        (
            b"\x82\x00\x24\x01\x25".as_slice(),
            "array had incorrect length, expected 2",
        ),
        (b"\x80", "array had incorrect length, expected 0"),
        (b"\x81\x00\x2a", "wrong msgpack marker FixPos(42)"),
        (b"\x81\x04\xc0", UNKNOWN),
        (b"\xa1z", UNKNOWN),
        (b"\xc4\x01\xff", UNKNOWN),
        (b"\xa1\xff", NO_UTF8),
        (b"\x81\xa1\xff\xc0", NO_UTF8),
        (b"\xff", INVALID_TYPE),
        (b"\x81\xff\xc0", INVALID_TYPE),
        (b"\xc0", INVALID_TYPE),
        (b"\x81\x81\x00\xc0\xc0", INVALID_TYPE),
        (b"\xa6Circle", INVALID_TYPE),
        (b"\xa5Frame", INVALID_TYPE),
        (b"\x81\xa5Frame\x81\xa5width\x05", "missing field"),
        (b"\xc1", RESERVED),
        (b"\x81\xc1", RESERVED),
        (b"", NO_MARKER),
        (b"\x81", NO_MARKER),
        (b"\xa5Poin", NO_DATA),
        (b"\x81\xa5Point", NO_MARKER),
    ] {
        refuses::<Shape>(&rt, input, why);
    }
}

// Opens the variant that is ahead, which is the first of these and is alone, and drops it.
fn drops_variant(rt: &impl Abort, de: &mut SliceReader) {
    match de.deserialize_enum(&["Point"]) {
        Ok((place, variant)) => assert!(rt; place == 0 && variant.is_bare()),
        Err(e) => panic!(rt; "{e}"),
    }
}

#[test]
fn a_failed_variant_leaves_the_reader_failed(rt: HostRuntime) {
    let mut de = reader(&rt, b"\xa6Circle\xa5Point");
    refused(&rt, next_shape(&mut de), INVALID_TYPE);
    refused(&rt, next_shape(&mut de), FAILED_BEFORE);
    let mut de = reader(&rt, b"\xa5Point\x2a");
    drops_variant(&rt, &mut de);
    next_refused::<u8>(&rt, &mut de, FAILED_BEFORE);
}

// A shape by a reader with this limit.
fn within(mut de: SliceReader, limit: usize) -> Result<Shape, Error> {
    de.set_max_depth(limit);
    Shape::deserialize(&mut de)
}

#[test]
fn maps_of_variants_count_for_the_limit(rt: HostRuntime) {
    let named = b"\x81\x02\x92\xa1b\x07";
    is(&rt, within(reader(&rt, named), 3), ("Named", "b", 7, 0));
    refused(&rt, within(reader(&rt, named), 2), TOO_DEEP);
    refused(&rt, within(reader(&rt, b"\x81\x00\xc0"), 1), TOO_DEEP);
    refused(
        &rt,
        within(reader(&rt, b"\x82\x00\xc0\x00\xc0"), 1),
        "array had incorrect length, expected 2",
    );
    is(&rt, within(reader(&rt, b"\x00"), 0), POINT);
}

fn reads_two(rt: &(impl Abort + AllocGlobal), input: &[u8]) {
    match from_slice::<Vec<Shape>>(rt.alloc(), input) {
        Ok(shapes) => assert_eq!(rt; shapes.len(), 2),
        Err(e) => panic!(rt; "{e}"),
    }
}

#[test]
fn bytes_as_a_list_of_variants(rt: HostRuntime) {
    reads_two(&rt, b"\xc4\x02\x00\x00");
    refuses::<Vec<Shape>>(&rt, b"\xc4\x01\x04", "unknown variant");
}

#[test]
fn strict_reading_of_variants(rt: HostRuntime) {
    reads_strictly(&rt, b"\xa5Point", POINT);
    reads_strictly(&rt, b"\x81\x01\x05", ("Circle", "", 5, 0));
    for input in [
        b"\xd9\x05Point".as_slice(),
        b"\xde\x00\x01\x01\x05",
        b"\x81\xcc\x01\x05",
        b"\x81\x01\xcc\x05",
    ] {
        refuses_strictly::<Shape>(&rt, input, NOT_CANONICAL);
    }
}
