//! Messages that are read, changed and written, and one that is written canonically.
use test_derived::{older, restocked};
use test_lines::canonical;

#[test]
fn example(rt: HostRuntime) {
    let wide = b"\xdd\x00\x00\x00\x01\xdc\x00\x02\xd9\x01a\xcd\x00\x05";
    match restocked(rt.alloc(), wide) {
        Some(bytes) => assert_eq!(rt; bytes.as_slice(), b"\x91\x92\xa1a\x06".as_slice()),
        None => assert!(rt; false),
    }
    match canonical(rt.alloc(), wide) {
        Some(bytes) => assert_eq!(rt; bytes.as_slice(), b"\x91\x92\xa1a\x05".as_slice()),
        None => assert!(rt; false),
    }
    match older(rt.alloc(), b"\x92\xa5Bobby\xcd\x00\x08") {
        Some(bytes) => assert_eq!(rt; bytes.as_slice(), b"\x92\xa5Bobby\x09".as_slice()),
        None => assert!(rt; false),
    }
    assert!(rt; restocked(rt.alloc(), b"\xc0").is_none());
}
