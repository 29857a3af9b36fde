//! What the calls of the example `example_records` come to: records, and a cut one.
use example_records::{Records, Tail, explain_tail, replay, tail_of};
use rmp_serde::Value;
use rmp_serde::decode::Error;
use std::test::Fail;

#[test]
fn whole_records_come_back_in_order(rt: HostRuntime) -> Result<(), Error> {
    let alloc = rt.alloc();
    let first = Value::from_slice(alloc, &[0x92, 0x2a, 0xa2, 0x69, 0x74])?;
    let second = Value::from_slice(alloc, &[0xcd, 0x01, 0x2c])?;
    let mut records = Records::new(alloc);
    assert!(rt; records.append(alloc, &first).is_ok());
    assert!(rt; records.append(alloc, &second).is_ok());
    assert!(rt; records.append(alloc, &first).is_ok());
    let log = records.as_slice();
    // the last record has lost its last byte
    let (read, rest) = replay(alloc, log.get(..12).unwrap_or(log))?;
    assert!(rt; read.as_slice() == [first, second].as_slice());
    assert_eq!(rt; rest.len(), 4);
    Ok(())
}

#[test]
fn a_cut_tail_is_told_from_a_broken_one(rt: HostRuntime) {
    assert_eq!(rt; tail_of(b""), Tail::Clean);
    assert_eq!(rt; tail_of(b"\x92\x2a\xa2i"), Tail::Cut);
    assert_eq!(rt; tail_of(b"\x92\x2a\xc1"), Tail::Broken);
}

#[test]
fn what_is_no_record_is_explained(rt: HostRuntime) -> Result<(), Fail> {
    let alloc = rt.alloc();
    // [42, c1]
    let Some(broken) = explain_tail(alloc, b"\x92\x2a\xc1") else {
        return Err(Fail::from("a record"));
    };
    let line = format!(in alloc; "{broken}")?;
    assert_eq!(rt;
        line.as_str(),
        "wrong msgpack marker Reserved at [1] (byte 2)"
    );
    // {"note": "a", "by": a text of two bytes, of which one is there}
    let Some(cut) = explain_tail(alloc, b"\x82\xa4note\xa1a\xa2by\xa2x") else {
        return Err(Fail::from("a record"));
    };
    let line = format!(in alloc; "{cut}")?;
    assert_eq!(rt;
        line.as_str(),
        "IO error while reading data: unexpected end of file at .by (byte 11): a text of 2 bytes"
    );
    assert!(rt; explain_tail(alloc, b"\x92\x2a\xc0").is_none());
    Ok(())
}
