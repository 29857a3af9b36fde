//! How values are printed.
use rmp_serde::decode::Error;
use rmp_serde::{Deserializer, Value, ValueRef, from_slice};
use std::alloc::{AllocError, Global};

// What a message is printed as.
fn shown(alloc: Global, input: &[u8]) -> Result<String, Error> {
    let value = from_slice::<Value>(alloc, input)?;
    Ok(format!(in alloc; "{value:?}")?)
}

// What a part is printed as, if it is there.
fn part_shown(alloc: Global, part: Option<ValueRef<'_>>) -> Result<String, AllocError> {
    match part {
        Some(part) => format!(in alloc; "{part:?}"),
        None => format!(in alloc; "none"),
    }
}

// So many lists in one another, the innermost of which holds nil.
fn lists(alloc: Global, times: usize) -> Result<Value, Error> {
    let mut bytes = vec![in alloc; 0x91; times]?;
    bytes.push(0xc0)?;
    let mut de = Deserializer::from_read_ref(alloc, bytes.as_slice());
    de.set_max_depth(times + 1);
    Value::read(&mut de)
}

#[test]
fn each_kind_has_its_text(rt: HostRuntime) -> Result<(), Error> {
    let rows: [(&[u8], &str); 14] = [
        (b"\xc0", "nil"),
        (b"\xc2", "false"),
        (b"\xc3", "true"),
        (b"\xcd\x00\x05", "5"),
        (
            b"\xcf\xff\xff\xff\xff\xff\xff\xff\xff",
            "18446744073709551615",
        ),
        (
            b"\xd3\x80\x00\x00\x00\x00\x00\x00\x00",
            "-9223372036854775808",
        ),
        (b"\xca\x3f\x80\x00\x00", "f32:3f800000"),
        (
            b"\xcb\x3f\xf0\x00\x00\x00\x00\x00\x01",
            "f64:3ff0000000000001",
        ),
        (b"\xa2a\n", "t:610a"),
        (b"\xc4\x00", "b:"),
        (b"\xd4\xfb\xab", "x(-5):ab"),
        (b"\x90", "[]"),
        (b"\x93\x05\x80\x92\xc2\xa0", "[5,{},[false,t:]]"),
        (
            b"\x82\xa1a\x91\x01\x90\x81\xc0\xc0",
            "{t:61=[1],[]={nil=nil}}",
        ),
    ];
    for (input, text) in rows {
        assert_eq!(rt; shown(rt.alloc(), input)?.as_str(), text);
    }
    Ok(())
}

#[test]
fn a_part_is_printed_alone(rt: HostRuntime) -> Result<(), Error> {
    let alloc = rt.alloc();
    let value = from_slice::<Value>(alloc, b"\x92\x92\x01\x02\x81\x03\x04")?;
    let list = value.root();
    assert_eq!(rt; part_shown(alloc, list.item(0))?.as_str(), "[1,2]");
    assert_eq!(rt; part_shown(alloc, list.item(1))?.as_str(), "{3=4}");
    assert_eq!(rt; part_shown(alloc, list.item(2))?.as_str(), "none");
    Ok(())
}

#[test]
fn options_change_nothing(rt: HostRuntime) -> Result<(), Error> {
    let value = from_slice::<Value>(rt.alloc(), b"\x92\x05\x81\x01\xc3")?;
    let laid_out = format!(in rt.alloc(); "{value:#?}")?;
    assert_eq!(rt; laid_out.as_str(), "[5,{1=true}]");
    Ok(())
}

#[test]
fn long_bytes_have_all_their_digits(rt: HostRuntime) -> Result<(), Error> {
    let alloc = rt.alloc();
    for len in [63, 64, 65, 128, 200] {
        let mut input = vec![in alloc; 0xc4, len]?;
        let mut text = format!(in alloc; "b:")?;
        for byte in 0..len {
            input.push(byte)?;
            write!(text, "{byte:02x}")?;
        }
        assert_eq!(rt; shown(alloc, input.as_slice())?.as_str(), text.as_str());
    }
    Ok(())
}

#[test]
fn deep_nesting_is_printed(rt: HostRuntime) -> Result<(), Error> {
    const TIMES: usize = 60_000;
    let alloc = rt.alloc();
    let value = lists(alloc, TIMES)?;
    let text = format!(in alloc; "{value:?}")?;
    assert_eq!(rt; text.len(), 2 * TIMES + 3);
    assert!(rt; text.as_str().starts_with("[[[["));
    assert!(rt; text.as_str().contains("[[nil]]"));
    assert!(rt; text.as_str().ends_with("]]]]"));
    Ok(())
}
