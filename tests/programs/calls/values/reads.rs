//! What is read as a value, and what is refused.
use rmp_serde::decode::{Deserialize, Error, Text};
use rmp_serde::{Deserializer, Kind, Value, ValueRef, from_slice, from_slice_strict, to_vec};
use std::alloc::{AllocError, Global};
use std::process::Abort;

// Writes a part of a value in a notation of this test alone.
fn show(out: &mut String, part: ValueRef<'_>) -> Result<(), AllocError> {
    match part.kind() {
        Kind::List => {
            write!(out, "[")?;
            for i in 0..part.len() {
                if let Some(item) = part.item(i) {
                    show(out, item)?;
                    write!(out, ";")?;
                }
            }
            write!(out, "]")
        }
        Kind::Map => {
            write!(out, "{{")?;
            for i in 0..part.len() {
                if let Some((key, value)) = part.pair(i) {
                    show(out, key)?;
                    write!(out, ":")?;
                    show(out, value)?;
                    write!(out, ";")?;
                }
            }
            write!(out, "}}")
        }
        _ => show_leaf(out, part),
    }
}

// Writes a part that has no parts.
fn show_leaf(out: &mut String, leaf: ValueRef<'_>) -> Result<(), AllocError> {
    if let Some(truth) = leaf.as_bool() {
        write!(out, "{truth}")
    } else if let Some(number) = leaf.as_whole() {
        write!(out, "{number}")
    } else if let Some(bits) = leaf.as_f32_bits() {
        write!(out, "f32 {bits:x}")
    } else if let Some(bits) = leaf.as_f64_bits() {
        write!(out, "f64 {bits:x}")
    } else if let Some(text) = leaf.as_str() {
        write!(out, "'{text}'")
    } else if let Some(bytes) = leaf.as_bytes() {
        write!(out, "bytes {bytes:?}")
    } else if let Some((tag, bytes)) = leaf.as_ext() {
        write!(out, "ext {tag} {bytes:?}")
    } else {
        write!(out, "nil")
    }
}

// What a read answered: the value, or the error's text.
fn told(alloc: Global, read: Result<Value, Error>) -> Result<String, AllocError> {
    let mut out = String::new(alloc);
    match read {
        Ok(value) => show(&mut out, value.root())?,
        Err(e) => write!(out, "{e}")?,
    }
    Ok(out)
}

fn shown(alloc: Global, input: &[u8]) -> Result<String, AllocError> {
    told(alloc, from_slice(alloc, input))
}

// A read gives this text, with memory at hand.
fn is(rt: &impl Abort, read: Result<String, AllocError>, want: &str) {
    match read {
        Ok(text) => assert_eq!(rt; text.as_str(), want),
        Err(_) => panic!(rt; "no memory"),
    }
}

// The input gives this text, by either call that reads a value.
fn gives(rt: &(impl Abort + AllocGlobal), input: &[u8], want: &str) {
    is(rt, shown(rt.alloc(), input), want);
    is(
        rt,
        told(rt.alloc(), Value::from_slice(rt.alloc(), input)),
        want,
    );
}

#[test]
fn reads_in_any_widths(rt: HostRuntime) {
    let rows: [(&[u8], &str); 32] = [
        (&[0xc0], "nil"),
        (&[0xc2], "false"),
        (&[0xc3, 0xc1], "true"),
        (&[0x7f], "127"),
        (&[0xe0], "-32"),
        (&[0xcc, 0x05], "5"),
        (&[0xcf, 0, 0, 0, 0, 0, 0, 1, 0], "256"),
        (
            &[0xcf, 0xff, 0xff, 0xff, 0xff, 0xff, 0xff, 0xff, 0xff],
            "18446744073709551615",
        ),
        (&[0xd0, 0x80], "-128"),
        (&[0xd1, 0x00, 0x01], "1"),
        (&[0xd2, 0xff, 0xff, 0xff, 0xfe], "-2"),
        (
            &[0xd3, 0xff, 0xff, 0xff, 0xff, 0xff, 0xff, 0xff, 0xff],
            "-1",
        ),
        (&[0xd3, 0x80, 0, 0, 0, 0, 0, 0, 0], "-9223372036854775808"),
        (&[0xca, 0x7f, 0x7f, 0xff, 0xff], "f32 7f7fffff"),
        (
            &[0xcb, 0x40, 0x09, 0x21, 0xfb, 0x54, 0x44, 0x2d, 0x18],
            "f64 400921fb54442d18",
        ),
        (&[0xa0], "''"),
        (&[0xd9, 0x00], "''"),
        (&[0xda, 0x00, 0x02, 0xc3, 0xa9], "'é'"),
        (&[0xdb, 0, 0, 0, 1, 0x61], "'a'"),
        (&[0xc4, 0x01, 0x00], "bytes [0]"),
        (&[0xc5, 0x00, 0x02, 0x01, 0xff], "bytes [1, 255]"),
        (&[0xc6, 0, 0, 0, 0], "bytes []"),
        (&[0xd4, 0xff, 0x07], "ext -1 [7]"),
        (&[0xd5, 0x05, 1, 2], "ext 5 [1, 2]"),
        (&[0xc7, 0x03, 0x05, 0x01, 0x02, 0x03], "ext 5 [1, 2, 3]"),
        (&[0xc8, 0x00, 0x01, 0xff, 0x05], "ext -1 [5]"),
        (&[0xdc, 0x00, 0x00], "[]"),
        (&[0xdd, 0, 0, 0, 1, 0x90], "[[];]"),
        (&[0x92, 0xcd, 0x00, 0x05, 0xd9, 0x01, 0x61], "[5;'a';]"),
        (&[0x80], "{}"),
        (&[0xde, 0x00, 0x01, 0x01, 0xc2], "{1:false;}"),
        (
            &[0x82, 0xa1, 0x6b, 0xd1, 0xff, 0xff, 0x02, 0xc4, 0x01, 0x00],
            "{'k':-1;2:bytes [0];}",
        ),
    ];
    for (input, want) in rows {
        gives(&rt, input, want);
    }
    // The keys keep the order that they have in the message, and one may come twice.
    gives(&rt, &[0x83, 2, 0, 1, 0, 2, 1], "{2:0;1:0;2:1;}");
}

#[test]
fn refuses(rt: HostRuntime) {
    const NO_MARKER: &str = "IO error while reading marker: unexpected end of file";
    const NO_DATA: &str = "IO error while reading data: unexpected end of file";
    let rows: [(&[u8], &str); 21] = [
        (&[], NO_MARKER),
        (&[0x92], NO_MARKER),
        (&[0x92, 0x01], NO_MARKER),
        (&[0x81, 0x01], NO_MARKER),
        (&[0xdf, 0xff, 0xff, 0xff, 0xff], NO_MARKER),
        (&[0xdd, 0xff, 0xff, 0xff, 0xff, 0x01], NO_MARKER),
        (&[0xcd, 0x00], NO_DATA),
        (&[0xd3, 0, 0, 0, 0, 0, 0, 0], NO_DATA),
        (&[0xc7, 0x02], NO_DATA),
        (&[0xc8, 0x00], NO_DATA),
        (&[0xc7, 0x02, 0x05, 0x01], NO_DATA),
        (&[0xa2, 0x61], NO_DATA),
        (&[0xdd, 0xff], NO_DATA),
        (&[0xc6, 0xff, 0xff, 0xff, 0xff, 0x61], NO_DATA),
        (&[0xdb, 0xff, 0xff, 0xff, 0xff, 0x61, 0x62], NO_DATA),
        (&[0xc9, 0xff, 0xff, 0xff, 0xff, 0x05], NO_DATA),
        (&[0xc1], "wrong msgpack marker Reserved"),
        (&[0x92, 0xc0, 0xc1], "wrong msgpack marker Reserved"),
        (
            &[0xa1, 0xff],
            "string found to be invalid utf8: invalid utf-8 sequence of 1 bytes from index 0",
        ),
        // A text that is cut isn't looked at.
        (&[0xa2, 0xff], NO_DATA),
        // The first thing that is wrong is told.
        (
            &[0x92, 0xa1, 0xff, 0xc1],
            "string found to be invalid utf8: invalid utf-8 sequence of 1 bytes from index 0",
        ),
    ];
    for (input, want) in rows {
        gives(&rt, input, want);
    }
}

// So many times the opening, and then the end.
fn nested(alloc: Global, times: usize, opening: &[u8], end: &[u8]) -> Result<Vec<u8>, AllocError> {
    let mut bytes = Vec::new(alloc);
    for _ in 0..times {
        bytes.extend_from_slice(opening)?;
    }
    bytes.extend_from_slice(end)?;
    Ok(bytes)
}

// What is shown of so many parts in one another.
fn shown_nested(
    alloc: Global,
    times: usize,
    opening: &[u8],
    end: &[u8],
) -> Result<String, AllocError> {
    let input = nested(alloc, times, opening, end)?;
    shown(alloc, &input)
}

// Whether so many parts in one another are read.
fn is_read(alloc: Global, times: usize, opening: &[u8], end: &[u8]) -> bool {
    match nested(alloc, times, opening, end) {
        Ok(input) => from_slice::<Value>(alloc, &input).is_ok(),
        Err(_) => false,
    }
}

#[test]
fn keeps_the_limit(rt: HostRuntime) {
    const TOO_DEEP: &str = "depth limit exceeded";
    let alloc = rt.alloc();
    let rows: [(&[u8], &[u8]); 4] = [
        (&[0x91], &[0x90]),
        (&[0x91], &[0x80]),
        (&[0x81, 0xc0], &[0x90]),
        (&[0x81, 0x90], &[0x80]),
    ];
    for (opening, end) in rows {
        assert!(rt; is_read(alloc, 1022, opening, end), "at {opening:?}");
        is(&rt, shown_nested(alloc, 1023, opening, end), TOO_DEEP);
    }
    // A leaf has no depth, and what a list holds isn't looked at where the list is too deep.
    assert!(rt; is_read(alloc, 1023, &[0x91], &[0xc4, 0x00]));
    is(
        &rt,
        shown_nested(alloc, 1023, &[0x91], &[0x91, 0xc1]),
        TOO_DEEP,
    );
    // Its head is.
    is(
        &rt,
        shown_nested(alloc, 1023, &[0x91], &[0xdc, 0x00]),
        "IO error while reading data: unexpected end of file",
    );
}

// Reads a value under a limit on nesting.
fn read_below(alloc: Global, input: &[u8], limit: usize) -> Result<Value, Error> {
    let mut de = Deserializer::from_read_ref(alloc, input);
    de.set_max_depth(limit);
    Value::read(&mut de)
}

// Whether a value is written as these bytes.
fn is_written(alloc: Global, value: &Value, want: &[u8]) -> bool {
    match to_vec(alloc, value) {
        Ok(bytes) => *bytes.as_slice() == *want,
        Err(_) => false,
    }
}

#[test]
fn sixty_thousand_levels_take_no_stack(rt: HostRuntime) -> Result<(), Error> {
    let alloc = rt.alloc();
    let input = nested(alloc, 65000, &[0x81, 0x05], &[0xa1, 0x61])?;
    let value = read_below(alloc, &input, 65001)?;
    assert!(rt; is_written(alloc, &value, &input));
    assert!(rt; read_below(alloc, &input, 65001)? == value);
    match read_below(alloc, &input, 65000) {
        Err(Error::DepthLimitExceeded) => Ok(()),
        _ => panic!(rt; "a level too many is read"),
    }
}

// What a strict read of the input answers.
fn strictly(alloc: Global, input: &[u8]) -> Result<String, AllocError> {
    told(alloc, from_slice_strict(alloc, input))
}

#[test]
fn only_canonical_heads_are_read_strictly(rt: HostRuntime) {
    let alloc = rt.alloc();
    is(&rt, strictly(alloc, &[0x92, 0x05, 0xa1, 0x61]), "[5;'a';]");
    for input in [
        &[0xde, 0, 0][..],
        &[0xd0, 0x05],
        &[0xc7, 0x01, 0x02, 0x05],
        &[0x92, 0x05, 0xd9, 0x01, 0x61],
        &[0xd1, 0x01, 0x2c],
        &[0x81, 0xa1, 0x61, 0x91, 0xcc, 0x05],
        &[0xdc, 0, 0],
        &[0xc5, 0, 0],
    ] {
        is(&rt, strictly(alloc, input), "not canonical");
        assert!(rt; is_read(alloc, 0, &[], input));
    }
}

#[test]
fn a_text_that_is_no_utf8_fails_the_reader(rt: HostRuntime) {
    let mut de = Deserializer::from_read_ref(rt.alloc(), b"\xa1\xff\x2a");
    let value: Result<Value, Error> = Deserialize::deserialize(&mut de);
    assert!(rt; matches!(&value, Err(Error::Utf8Error(_))));
    let number: Result<u8, Error> = Deserialize::deserialize(&mut de);
    assert!(rt; matches!(&number, Err(Error::Uncategorized(Text::FailedBefore))));
}
