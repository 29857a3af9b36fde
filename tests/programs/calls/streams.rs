//! What the second form of the example `example_frames` comes to: requests one after another, in pieces of any size.
use example_frames::{Incoming, Request, StreamRefusal, write_bare};
use rmp_serde::Value;
use rmp_serde::decode::{Error, Text};
use std::alloc::Global;
use std::test::Fail;

// How many bytes a request may have in these tests.
const LIMIT: usize = 1 << 20;

// What came: P for a ping, G for a get and U for a put, in order, from pieces of this size.
fn answer(
    alloc: Global,
    incoming: &mut Incoming,
    bytes: &[u8],
    size: usize,
) -> Result<String, Fail> {
    let mut answers = String::new(alloc);
    let mut start = 0;
    while start < bytes.len() {
        let end = (start + size).min(bytes.len());
        let mut piece = &bytes[start..end];
        while !piece.is_empty() {
            match incoming.next(alloc, piece)? {
                Some((request, rest)) => {
                    answers.push(match request {
                        Request::Ping => 'P',
                        Request::Get(_) => 'G',
                        Request::Put(_, _) => 'U',
                    })?;
                    piece = rest;
                }
                None => break,
            }
        }
        start = end;
    }
    Ok(answers)
}

// A put of a list with a text, a get and a ping.
fn three_requests(alloc: Global) -> Result<Vec<u8>, Fail> {
    let value = Value::from_slice(alloc, b"\x92\xa5Bobby\x08")?;
    let mut bytes = write_bare(alloc, &Request::Put(300, value))?;
    bytes.extend_from_slice(write_bare(alloc, &Request::Get(300))?.as_slice())?;
    bytes.extend_from_slice(write_bare(alloc, &Request::Ping)?.as_slice())?;
    Ok(bytes)
}

#[test]
fn requests_in_pieces_of_any_size(rt: HostRuntime) -> Result<(), Fail> {
    let alloc = rt.alloc();
    let bytes = three_requests(alloc)?;
    assert_eq!(rt;
        bytes.as_slice(),
        b"\x81\xa3Put\x92\xcd\x01\x2c\x92\xa5Bobby\x08\x81\xa3Get\xcd\x01\x2c\xa4Ping".as_slice()
    );
    for size in 1..bytes.len() + 1 {
        let mut incoming = Incoming::new(alloc, 17);
        let answers = answer(alloc, &mut incoming, bytes.as_slice(), size)?;
        assert_eq!(rt; answers.as_str(), "UGP");
        assert!(rt; incoming.is_between());
    }
    Ok(())
}

// A peer that sends half and leaves.
#[test]
fn a_request_that_is_half_sent(rt: HostRuntime) -> Result<(), Fail> {
    let alloc = rt.alloc();
    let bytes = three_requests(alloc)?;
    for len in 0..18 {
        let mut incoming = Incoming::new(alloc, LIMIT);
        let answers = answer(alloc, &mut incoming, &bytes.as_slice()[..len], 3)?;
        assert_eq!(rt; answers.as_str(), if len < 17 { "" } else { "U" });
        assert_eq!(rt; incoming.is_between(), len == 0 || len == 17);
    }
    Ok(())
}

// A claim is refused before its payload comes, and then everything is.
#[test]
fn a_claim_past_the_limit(rt: HostRuntime) -> Result<(), Fail> {
    let alloc = rt.alloc();
    for claim in [
        b"\x81\xa3Put\x92\x01\xc6\xff\xff\xff\xff",
        b"\x81\xa3Put\x92\x01\xdd\xff\xff\xff\xff",
    ] {
        let mut incoming = Incoming::new(alloc, LIMIT);
        let found = incoming.next(alloc, claim);
        assert!(rt; matches!(found, Err(StreamRefusal::TooLong)));
        let found = incoming.next(alloc, b"\xa4Ping");
        assert!(rt; matches!(found, Err(StreamRefusal::Closed)));
    }
    let bytes = three_requests(alloc)?;
    let mut incoming = Incoming::new(alloc, 16);
    let found = incoming.next(alloc, bytes.as_slice());
    assert!(rt; matches!(found, Err(StreamRefusal::TooLong)));
    Ok(())
}

// The byte that opens no message, at the front and inside, and messages that are no requests.
#[test]
fn what_is_no_request_on_a_stream(rt: HostRuntime) -> Result<(), Fail> {
    let alloc = rt.alloc();
    for bytes in [b"\xc1".as_slice(), b"\x81\xa3Put\x92\x01\x92\x05\xc1"] {
        let mut incoming = Incoming::new(alloc, LIMIT);
        let found = incoming.next(alloc, bytes);
        assert!(rt; matches!(found, Err(StreamRefusal::Reserved)));
    }
    let mut incoming = Incoming::new(alloc, LIMIT);
    let found = incoming.next(alloc, b"\xc0");
    assert!(rt;
        matches!(
            found,
            Err(StreamRefusal::NotRequest(Error::Syntax(Text::InvalidType)))
        )
    );
    let mut incoming = Incoming::new(alloc, LIMIT);
    let found = incoming.next(alloc, b"\xa4Pong");
    assert!(rt;
        matches!(
            found,
            Err(StreamRefusal::NotRequest(Error::Syntax(Text::UnknownVariant)))
        )
    );
    Ok(())
}

// 100,000 lists, a byte at a time: the scanner takes any depth, and the read refuses the request once it is there.
#[test]
fn nested_lists_on_a_stream(rt: HostRuntime) -> Result<(), Fail> {
    let alloc = rt.alloc();
    let mut incoming = Incoming::new(alloc, LIMIT);
    let mut found = incoming.next(alloc, b"\x81\xa3Put\x92\x01");
    for _ in 0..100_000 {
        found = incoming.next(alloc, b"\x91");
    }
    assert!(rt; matches!(found, Ok(None)));
    found = incoming.next(alloc, b"\xc0");
    assert!(rt;
        matches!(
            found,
            Err(StreamRefusal::NotRequest(Error::DepthLimitExceeded))
        )
    );
    Ok(())
}
