//! The names of fields and variants.
use super::rows::{
    FAILED_BEFORE, INVALID_TYPE, NO_DATA, NOT_CANONICAL, RESERVED, SliceReader, ahead, gives,
    reader, refused,
};
use rmp_decode::Error;

const NAMES: [&str; 3] = ["name", "age", ""];

fn name(de: &mut SliceReader) -> Result<Option<usize>, Error> {
    de.deserialize_identifier(&NAMES)
}

#[test]
fn names(rt: HostRuntime) {
    let mut de = reader(
        &rt,
        b"\xa3age\xc4\x04name\xa0\xa3Age\xd9\x03age\x02\x03\xcd\x00\x00\x2a",
    );
    for want in [
        Some(1),
        Some(0),
        Some(2),
        None,
        Some(1),
        Some(2),
        None,
        Some(0),
    ] {
        gives(&rt, name(&mut de), want);
    }
    ahead(&rt, &de, &[0x2a]);
}

#[test]
fn what_is_no_name(rt: HostRuntime) {
    for (input, why) in [
        (&b"\xff"[..], INVALID_TYPE),
        (b"\xc0", INVALID_TYPE),
        (b"\xc3", INVALID_TYPE),
        (b"\x90", INVALID_TYPE),
        (b"\x80", INVALID_TYPE),
        (b"\xca\x00\x00\x00\x00", INVALID_TYPE),
        (b"\xc1", RESERVED),
        (b"\xa3ag", NO_DATA),
    ] {
        let mut de = reader(&rt, input);
        refused(&rt, name(&mut de), why);
        refused(&rt, name(&mut de), FAILED_BEFORE);
    }
    let mut de = reader(&rt, b"\xd9\x03age");
    de.set_strict(true);
    refused(&rt, name(&mut de), NOT_CANONICAL);
}
