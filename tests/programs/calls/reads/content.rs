//! Texts, bytes and what isn't lent.
use super::rows::{INVALID_TYPE, INVALID_VALUE, NO_DATA, NO_UTF8, gives_text, refused, refuses};
use rmp_decode::{Deserializer, Error};
use rmp_wire::ReadReader;
use rmp_wire::config::DefaultConfig;

// Reads a slice by a source that lends none of it.
fn by_copying<'a>(
    rt: &impl AllocGlobal,
    input: &'a [u8],
) -> Deserializer<ReadReader<&'a [u8]>, DefaultConfig> {
    Deserializer::new(rt.alloc(), input)
}

// What is lent of a text, or of bytes, whose reader lends nothing: how long it is.
fn lent_text(rt: &impl AllocGlobal, input: &[u8]) -> Result<usize, Error> {
    match by_copying(rt, input).deserialize_str() {
        Ok(text) => Ok(text.len()),
        Err(e) => Err(e),
    }
}

fn lent_bytes(rt: &impl AllocGlobal, input: &[u8]) -> Result<usize, Error> {
    match by_copying(rt, input).deserialize_bytes() {
        Ok(bytes) => Ok(bytes.len()),
        Err(e) => Err(e),
    }
}

fn copied_text(rt: &impl AllocGlobal, input: &[u8]) -> Result<String, Error> {
    by_copying(rt, input).deserialize_string()
}

#[test]
fn cut_content(rt: HostRuntime) {
    for input in [[0xa3u8, 0x61].as_slice(), &[0xd9, 2, 0xff], &[0xda, 0]] {
        refuses::<char>(&rt, input, NO_DATA);
        refuses::<String>(&rt, input, NO_DATA);
        refuses::<&str>(&rt, input, NO_DATA);
        refuses::<&[u8]>(&rt, input, NO_DATA);
        refused(&rt, lent_text(&rt, input), NO_DATA);
    }
}

#[test]
fn kinds_that_are_no_text(rt: HostRuntime) {
    for input in [[0xc0u8].as_slice(), &[0xc4, 0], &[0x90], &[0xd4, 1, 2]] {
        refuses::<char>(&rt, input, INVALID_TYPE);
    }
    for input in [[0xc3u8].as_slice(), &[0x01], &[0x80], &[0xc7, 0, 1]] {
        refuses::<String>(&rt, input, INVALID_TYPE);
        refuses::<&[u8]>(&rt, input, INVALID_TYPE);
    }
}

#[test]
fn texts_that_are_no_utf8(rt: HostRuntime) {
    refuses::<char>(&rt, &[0xa1, 0xff], NO_UTF8);
    refuses::<&str>(&rt, &[0xa1, 0xff], NO_UTF8);
    refuses::<&str>(&rt, &[0xc4, 1, 0xff], INVALID_VALUE);
}

#[test]
fn texts_that_are_not_lent(rt: HostRuntime) {
    for (input, why) in [
        ([0xa1u8, 0x61].as_slice(), INVALID_TYPE),
        (&[0xc4, 1, 0x61], INVALID_TYPE),
        (&[0xc4, 1, 0xff], INVALID_TYPE),
        (&[0xa1, 0xff], NO_UTF8),
    ] {
        refused(&rt, lent_text(&rt, input), why);
        refused(&rt, lent_bytes(&rt, input), why);
    }
    gives_text(&rt, copied_text(&rt, &[0xa1, 0x61]), "a");
}
