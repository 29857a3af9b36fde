//! What the calls of the example `example_frames` come to: peers that keep to the protocol, and hostile ones.
use example_frames::{Refusal, Request, explain_request, next_request, write_request};
use rmp_serde::Value;
use rmp_serde::decode::{Error, Text};
use rmp_wire::Marker;
use std::test::Fail;

/// How long a frame may be in these tests.
const LIMIT: u32 = 1 << 20;

#[test]
fn requests_in_a_row(rt: HostRuntime) -> Result<(), Fail> {
    let alloc = rt.alloc();
    let value = Value::from_slice(alloc, b"\x92\xa5Bobby\x08")?;
    let mut bytes = write_request(alloc, &Request::Put(300, value))?;
    assert_eq!(rt;
        bytes.as_slice(),
        b"\x00\x00\x00\x11\x81\xa3Put\x92\xcd\x01\x2c\x92\xa5Bobby\x08".as_slice()
    );
    bytes.extend_from_slice(write_request(alloc, &Request::Get(300))?.as_slice())?;
    bytes.extend_from_slice(write_request(alloc, &Request::Ping)?.as_slice())?;
    let (put, rest) = next_request(alloc, bytes.as_slice(), 17)?;
    assert!(rt; matches!(put, Request::Put(300, _)));
    let (get, rest) = next_request(alloc, rest, 17)?;
    assert!(rt; matches!(get, Request::Get(300)));
    let (ping, rest) = next_request(alloc, rest, 17)?;
    assert!(rt; matches!(ping, Request::Ping));
    assert!(rt; rest.is_empty());
    let refused = next_request(alloc, bytes.as_slice(), 16);
    assert!(rt; matches!(refused, Err(Refusal::TooLong(17))));
    Ok(())
}

#[test]
fn a_frame_that_is_cut(rt: HostRuntime) -> Result<(), Fail> {
    let alloc = rt.alloc();
    let frame = write_request(alloc, &Request::Get(300))?;
    for len in 0..frame.len() {
        let refused = next_request(alloc, frame.as_slice().get(..len).unwrap_or(b""), LIMIT);
        assert!(rt; matches!(refused, Err(Refusal::Cut)));
    }
    Ok(())
}

// A length of 4 GB is within any limit, and past this one.
#[test]
fn a_huge_length(rt: HostRuntime) {
    let alloc = rt.alloc();
    let huge = b"\xff\xff\xff\xff\xa4Ping";
    let refused = next_request(alloc, huge, u32::MAX);
    assert!(rt; matches!(refused, Err(Refusal::Cut)));
    let refused = next_request(alloc, huge, LIMIT);
    assert!(rt; matches!(refused, Err(Refusal::TooLong(u32::MAX))));
}

// A value claims 4 GB of bytes, or as many items.
#[test]
fn a_huge_claim(rt: HostRuntime) {
    let alloc = rt.alloc();
    let refused = next_request(
        alloc,
        b"\0\0\0\x0c\x81\xa3Put\x92\x01\xc6\xff\xff\xff\xff",
        LIMIT,
    );
    assert!(rt; matches!(refused, Err(Refusal::NotRequest(Error::InvalidDataRead(_)))));
    let refused = next_request(
        alloc,
        b"\0\0\0\x0c\x81\xa3Put\x92\x01\xdd\xff\xff\xff\xff",
        LIMIT,
    );
    assert!(rt;
        matches!(
            refused,
            Err(Refusal::NotRequest(Error::InvalidMarkerRead(_)))
        )
    );
}

// The byte that opens no message, a message of another kind, another name, and nothing.
#[test]
fn what_is_no_request(rt: HostRuntime) {
    let alloc = rt.alloc();
    let refused = next_request(alloc, b"\0\0\0\x01\xc1", LIMIT);
    assert!(rt;
        matches!(
            refused,
            Err(Refusal::NotRequest(Error::TypeMismatch(Marker::Reserved)))
        )
    );
    let refused = next_request(alloc, b"\0\0\0\x01\xc0", LIMIT);
    assert!(rt;
        matches!(
            refused,
            Err(Refusal::NotRequest(Error::Syntax(Text::InvalidType)))
        )
    );
    let refused = next_request(alloc, b"\0\0\0\x05\xa4Pong", LIMIT);
    assert!(rt;
        matches!(
            refused,
            Err(Refusal::NotRequest(Error::Syntax(Text::UnknownVariant)))
        )
    );
    let refused = next_request(alloc, b"\0\0\0\0", LIMIT);
    assert!(rt;
        matches!(
            refused,
            Err(Refusal::NotRequest(Error::InvalidMarkerRead(_)))
        )
    );
}

#[test]
fn a_request_and_a_byte_more(rt: HostRuntime) {
    let alloc = rt.alloc();
    let refused = next_request(alloc, b"\0\0\0\x06\xa4Ping\xc0", LIMIT);
    assert!(rt; matches!(refused, Err(Refusal::Longer)));
}

#[test]
fn nested_lists(rt: HostRuntime) -> Result<(), Fail> {
    let alloc = rt.alloc();
    // a map and a list are around the value
    for (deep, fits) in [(13, true), (14, false), (100_000, false)] {
        let len: u32 = 7 + deep;
        let mut bytes = Vec::new(alloc);
        bytes.extend_from_slice(&len.to_be_bytes())?;
        bytes.extend_from_slice(b"\x81\xa3Put\x92\x01")?;
        for _ in 1..deep {
            bytes.push(0x91)?;
        }
        bytes.push(0x90)?;
        match next_request(alloc, bytes.as_slice(), LIMIT) {
            Ok(_) => assert!(rt; fits),
            Err(Refusal::NotRequest(Error::DepthLimitExceeded)) => assert!(rt; !fits),
            Err(_) => return Err(Fail::from("another refusal")),
        }
    }
    Ok(())
}

#[test]
fn what_is_no_request_is_explained(rt: HostRuntime) -> Result<(), Fail> {
    let alloc = rt.alloc();
    // {"Put": ["a", nil]}
    let frame = b"\x00\x00\x00\x09\x81\xa3Put\x92\xa1a\xc0";
    let refused = next_request(alloc, frame, LIMIT);
    assert!(rt;
        matches!(
            refused,
            Err(Refusal::NotRequest(Error::TypeMismatch(Marker::FixStr(1))))
        )
    );
    let content = frame.get(4..).unwrap_or(b"");
    let Some(why) = explain_request(alloc, content) else {
        return Err(Fail::from("a request"));
    };
    let line = format!(in alloc; "{why}")?;
    assert_eq!(rt;
        line.as_str(),
        "wrong msgpack marker FixStr(1) at .Put[0] (byte 6): a text of 1 byte"
    );
    // {"Get": sixteen nested lists}, which is refused at the one that nests too deep
    let deep = b"\x81\xa3Get\x91\x91\x91\x91\x91\x91\x91\x91\x91\x91\x91\x91\x91\x91\x91\x91";
    assert!(rt; explain_request(alloc, deep).is_some());
    assert!(rt; explain_request(alloc, b"\xa4Ping").is_none());
    Ok(())
}
