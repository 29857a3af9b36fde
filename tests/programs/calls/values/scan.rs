//! Messages that arrive in pieces, cut ones and ones with the byte c1.
use rmp_serde::decode::Error;
use rmp_serde::{Scan, Scanner, message_len};
use std::process::Abort;

// A message for each marker, and lists and maps of several.
const MESSAGES: &[&[u8]] = &[
    b"\x05",
    b"\xe0",
    b"\xc0",
    b"\xc2",
    b"\xc3",
    b"\xcc\x80",
    b"\xcd\x01\x00",
    b"\xce\x00\x01\x00\x00",
    b"\xcf\xc1\xc1\xc1\xc1\xc1\xc1\xc1\xc1",
    b"\xd0\xc1",
    b"\xd1\xc1\xc1",
    b"\xd2\xc1\xc1\xc1\xc1",
    b"\xd3\xc1\xc1\xc1\xc1\xc1\xc1\xc1\xc1",
    b"\xca\x3f\x80\x00\x00",
    b"\xcb\x3f\xf0\x00\x00\x00\x00\x00\x00",
    b"\xa0",
    b"\xa5hello",
    b"\xd9\x05hello",
    b"\xda\x00\x05hello",
    b"\xdb\x00\x00\x00\x05hello",
    b"\xc4\x00",
    b"\xc4\x02\xc1\xc1",
    b"\xc5\x00\x02\xc1\xc1",
    b"\xc6\x00\x00\x00\x02\xc1\xc1",
    b"\xd4\xc1\xc1",
    b"\xd5\x01ab",
    b"\xd6\x01abcd",
    b"\xd7\x01abcdefgh",
    b"\xd8\x01abcdefghijklmnop",
    b"\xc7\x03\x01abc",
    b"\xc8\x00\x03\x01abc",
    b"\xc9\x00\x00\x00\x03\x01abc",
    b"\xc9\x00\x00\x00\x00\x01",
    b"\x90",
    b"\x80",
    b"\xdc\x00\x00",
    b"\xdf\x00\x00\x00\x00",
    b"\x93\x01\x92\x02\xa1a\xc0",
    b"\x82\xa1k\x91\xc3\xa1l\x80",
    b"\xdc\x00\x02\x91\x90\x05",
    b"\xdd\x00\x00\x00\x02\xdc\x00\x01\x05\xc2",
    b"\xde\x00\x01\xcc\x01\xd9\x01x",
    b"\xdf\x00\x00\x00\x01\x05\x92\x81\x01\x02\xd4\x01\x00",
];

// Ends at this length: the scanner was fed pieces of so many bytes.
fn scanned(rt: &impl Abort, input: &[u8], piece: usize) -> usize {
    let mut scanner = Scanner::new();
    let mut at = 0;
    for part in input.chunks(piece) {
        match scanner.scan(part) {
            Ok(Scan::Whole { used }) => return at + used,
            Ok(Scan::More) => at += part.len(),
            Err(e) => panic!(rt; "refused at {at}: {e}"),
        }
    }
    panic!(rt; "it has no end")
}

#[test]
fn whole_messages_have_their_length(rt: HostRuntime) -> Result<(), Error> {
    for message in MESSAGES {
        assert_eq!(rt; message_len(message)?, Some(message.len()));
        let mut more = Vec::new(rt.alloc());
        more.extend_from_slice(message)?;
        more.extend_from_slice(b"\xc1\x05")?;
        assert_eq!(rt; message_len(&more)?, Some(message.len()));
    }
    Ok(())
}

#[test]
fn cut_messages_are_beginnings(rt: HostRuntime) -> Result<(), Error> {
    for message in MESSAGES {
        for end in 0..message.len() {
            assert_eq!(rt; message_len(&message[..end])?, None);
        }
    }
    Ok(())
}

#[test]
fn pieces_of_any_size_end_alike(rt: HostRuntime) -> Result<(), Error> {
    for message in MESSAGES {
        let mut more = Vec::new(rt.alloc());
        more.extend_from_slice(message)?;
        more.extend_from_slice(b"\xc1\x05")?;
        for piece in [1, 2, 3, 7, 64] {
            assert_eq!(rt; scanned(&rt, &more, piece), message.len());
        }
    }
    Ok(())
}

#[test]
fn a_scanner_is_new_after_each_message(rt: HostRuntime) -> Result<(), Error> {
    let mut stream = Vec::new(rt.alloc());
    for message in MESSAGES {
        stream.extend_from_slice(message)?;
    }
    for piece in [1, 2, 3, 7, 64] {
        let mut scanner = Scanner::new();
        let mut ended = 0;
        for part in stream.chunks(piece) {
            let mut left = part;
            while let Scan::Whole { used } = scanner.scan(left)? {
                left = &left[used..];
                ended += 1;
            }
        }
        assert_eq!(rt; ended, MESSAGES.len());
    }
    Ok(())
}

#[test]
fn the_reserved_byte_is_refused_where_a_message_is_wanted(rt: HostRuntime) {
    let mut scanner = Scanner::new();
    assert!(rt; matches!(scanner.scan(b"\x92\x05"), Ok(Scan::More)));
    match scanner.scan(b"\xc1\x00") {
        Err(e) => assert_eq!(rt;
            format!(in rt.alloc(); "{e}").expect(&rt, "memory").as_str(),
            "wrong msgpack marker Reserved"
        ),
        Ok(scan) => panic!(rt; "{scan:?}"),
    }
    assert_eq!(rt; scanner.reserved_at(), Some(0));
    assert!(rt; scanner.scan(b"\x00").is_err());
    assert!(rt; message_len(b"\x93\x05\xa1\xc1\xc1").is_err());
    assert!(rt; matches!(message_len(b"\x92\x05\xa1\xc1\xc1"), Ok(Some(4))));
}

#[test]
fn a_claimed_length_is_refused_at_its_head(rt: HostRuntime) {
    let mut scanner = Scanner::new();
    scanner.limit_bytes(1024);
    // 4 GB of bytes are claimed.
    assert!(rt; matches!(scanner.scan(b"\xc6\xff\xff\xff"), Ok(Scan::More)));
    assert!(rt; scanner.scan(b"\xff").is_err());
    let mut exact = Scanner::new();
    exact.limit_bytes(7);
    assert!(rt; matches!(exact.scan(b"\xd9\x05hel"), Ok(Scan::More)));
    assert!(rt; matches!(exact.scan(b"lo\x00"), Ok(Scan::Whole { used: 2 })));
    let mut short = Scanner::new();
    short.limit_bytes(6);
    assert!(rt; short.scan(b"\xd9\x05").is_err());
}

// Messages, and the offsets of their heads.
const HEADS: &[(&[u8], &[usize])] = &[
    (b"\x93\x01\x92\x02\xa1a\xc0", &[0, 1, 2, 3, 4, 6]),
    (b"\x82\xa1k\x91\xc3\xa1l\x80", &[0, 1, 3, 4, 5, 7]),
    (b"\xdd\x00\x00\x00\x02\xdc\x00\x01\x05\xc2", &[0, 5, 8, 9]),
    (b"\xde\x00\x01\xcc\x01\xd9\x01x", &[0, 3, 5]),
    (
        b"\xdf\x00\x00\x00\x01\x05\x92\x81\x01\x02\xd4\x01\x00",
        &[0, 5, 6, 7, 8, 9, 10],
    ),
    (
        b"\x92\xc9\x00\x00\x00\x03\x01abc\xcf\x00\x00\x00\x00\x00\x00\x00\x00",
        &[0, 1, 10],
    ),
];

#[test]
fn the_reserved_byte_is_refused_at_each_head_and_nowhere_else(
    rt: HostRuntime,
) -> Result<(), Error> {
    for (message, heads) in HEADS {
        for at in 0..message.len() {
            let mut spoiled = Vec::new(rt.alloc());
            spoiled.extend_from_slice(&message[..at])?;
            spoiled.push(0xc1)?;
            assert_eq!(rt; message_len(&spoiled).is_err(), heads.contains(&at));
        }
    }
    Ok(())
}

#[test]
fn pieces_of_random_sizes_end_alike(rt: HostRuntime) -> Result<(), Error> {
    let mut stream = Vec::new(rt.alloc());
    for message in MESSAGES {
        stream.extend_from_slice(message)?;
    }
    let mut seed: u32 = 1;
    for _ in 0..200 {
        let mut scanner = Scanner::new();
        let mut at = 0;
        let mut ended = 0;
        while at < stream.len() {
            seed = seed.wrapping_mul(1664525).wrapping_add(1013904223);
            let end = stream.len().min(at + 1 + (seed >> 27) as usize);
            match scanner.scan(&stream[at..end])? {
                Scan::Whole { used } => {
                    ended += 1;
                    at += used;
                }
                Scan::More => at = end,
            }
        }
        assert_eq!(rt; ended, MESSAGES.len());
    }
    Ok(())
}
