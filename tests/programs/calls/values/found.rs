//! What is found in values by keys and by pointers.
use rmp_serde::decode::Error;
use rmp_serde::{Value, ValueRef};

// The number that a part is, if it is there and one.
fn number(part: Option<ValueRef<'_>>) -> Option<u64> {
    part.and_then(|part| part.as_u64())
}

#[test]
fn whole_numbers_have_two_types(rt: HostRuntime) -> Result<(), Error> {
    let rows: [(&[u8], Option<u64>, Option<i64>); 9] = [
        (&[0], Some(0), Some(0)),
        (&[0xd1, 0, 1], Some(1), Some(1)),
        (&[0xe0], None, Some(-32)),
        (
            &[0xcf, 0x7f, 0xff, 0xff, 0xff, 0xff, 0xff, 0xff, 0xff],
            Some(9_223_372_036_854_775_807),
            Some(9_223_372_036_854_775_807),
        ),
        (
            &[0xcf, 0x80, 0, 0, 0, 0, 0, 0, 0],
            Some(9_223_372_036_854_775_808),
            None,
        ),
        (
            &[0xcf, 0xff, 0xff, 0xff, 0xff, 0xff, 0xff, 0xff, 0xff],
            Some(18_446_744_073_709_551_615),
            None,
        ),
        (
            &[0xd3, 0x80, 0, 0, 0, 0, 0, 0, 0],
            None,
            Some(-9_223_372_036_854_775_808),
        ),
        (&[0xca, 0, 0, 0, 0], None, None),
        (&[0xc2], None, None),
    ];
    for (input, unsigned, signed) in rows {
        let value = Value::from_slice(rt.alloc(), input)?;
        assert_eq!(rt; value.root().as_u64(), unsigned, "{input:?}");
        assert_eq!(rt; value.root().as_i64(), signed, "{input:?}");
    }
    Ok(())
}

#[test]
fn only_nil_is_nil(rt: HostRuntime) -> Result<(), Error> {
    assert!(rt; Value::from_slice(rt.alloc(), &[0xc0])?.root().is_nil());
    for input in [&[0xc2][..], &[0], &[0xa0], &[0x90], &[0x91, 0xc0]] {
        assert!(rt; !Value::from_slice(rt.alloc(), input)?.root().is_nil());
    }
    Ok(())
}

#[test]
fn a_key_has_the_value_of_its_first_pair(rt: HostRuntime) -> Result<(), Error> {
    // {5: 0, <61>: 1, "b": 2, "a": 3, "a": 4, "": 5}
    let input = b"\x86\x05\x00\xc4\x01a\x01\xa1b\x02\xa1a\x03\xa1a\x04\xa0\x05";
    let map = Value::from_slice(rt.alloc(), input)?;
    assert_eq!(rt; number(map.get("a")), Some(3));
    assert_eq!(rt; number(map.get("b")), Some(2));
    assert_eq!(rt; number(map.get("")), Some(5));
    assert!(rt; map.get("5").is_none());
    assert!(rt; map.get("ab").is_none());
    assert_eq!(rt; number(map.root().get("a")), Some(3));
    Ok(())
}

#[test]
fn only_maps_have_keys(rt: HostRuntime) -> Result<(), Error> {
    let list = Value::from_slice(rt.alloc(), b"\x93\xa1a\x01\x80")?;
    assert!(rt; list.get("a").is_none());
    assert!(rt;
        list.root()
            .item(0)
            .is_some_and(|text| text.get("a").is_none())
    );
    assert!(rt;
        list.root()
            .item(2)
            .is_some_and(|map| map.get("a").is_none())
    );
    Ok(())
}

// The document of RFC 6901, section 5.
const DOCUMENT: &[u8] =
    b"\x8a\xa3foo\x92\xa3bar\xa3baz\xa0\x00\xa3a/b\x01\xa3c%d\x02\xa3e^f\x03\xa3g|h\x04\xa3i\\j\x05\xa3k\"l\x06\xa1 \x07\xa3m~n\x08";

#[test]
fn the_pointers_of_the_standard(rt: HostRuntime) -> Result<(), Error> {
    let document = Value::from_slice(rt.alloc(), DOCUMENT)?;
    let rows = [
        ("/", 0),
        ("/a~1b", 1),
        ("/c%d", 2),
        ("/e^f", 3),
        ("/g|h", 4),
        ("/i\\j", 5),
        ("/k\"l", 6),
        ("/ ", 7),
        ("/m~0n", 8),
    ];
    for (pointer, want) in rows {
        assert_eq!(rt; number(document.pointer(pointer)), Some(want), "{pointer}");
    }
    assert!(rt; document.pointer("").is_some_and(|whole| whole.len() == 10));
    assert!(rt; document.pointer("/foo").is_some_and(|list| list.len() == 2));
    let first = document.pointer("/foo/0");
    assert!(rt; first.is_some_and(|text| matches!(text.as_str(), Some("bar"))));
    Ok(())
}

#[test]
fn an_index_is_digits_without_a_0_before_others(rt: HostRuntime) -> Result<(), Error> {
    let list = Value::from_slice(
        rt.alloc(),
        b"\x9b\x00\x01\x02\x03\x04\x05\x06\x07\x08\x09\x0a",
    )?;
    assert_eq!(rt; number(list.pointer("/0")), Some(0));
    assert_eq!(rt; number(list.pointer("/9")), Some(9));
    assert_eq!(rt; number(list.pointer("/10")), Some(10));
    for pointer in [
        "/11",
        "/00",
        "/01",
        "/+1",
        "/-1",
        "/-",
        "/",
        "/1a",
        "/a",
        "/ 1",
        "/1/",
        "0",
        "/0/0",
        "/18446744073709551616",
        "/18446744073709551617",
    ] {
        assert!(rt; list.pointer(pointer).is_none(), "{pointer}");
    }
    Ok(())
}

#[test]
fn pointers_go_from_part_to_part(rt: HostRuntime) -> Result<(), Error> {
    // {"a": [{"b": 1, "~1": 2}, [3]], "/": {"~": 4, "~2": 5, "0": 6}}
    let input =
        b"\x82\xa1a\x92\x82\xa1b\x01\xa2~1\x02\x91\x03\xa1/\x83\xa1~\x04\xa2~2\x05\xa10\x06";
    let value = Value::from_slice(rt.alloc(), input)?;
    let rows = [
        ("/a/0/b", Some(1)),
        ("/a/0/~01", Some(2)),
        ("/a/1/0", Some(3)),
        ("/~1/~0", Some(4)),
        ("/~1/~", Some(4)),
        ("/~1/~2", Some(5)),
        ("/~1/0", Some(6)),
        ("/a/0/~1", None),
        ("/a/2", None),
        ("/a/b", None),
        ("/a/0/b/", None),
        ("a/0/b", None),
        ("/b", None),
        ("//~", None),
    ];
    for (pointer, want) in rows {
        assert_eq!(rt; number(value.pointer(pointer)), want, "{pointer}");
    }
    // A key is taken as it is.
    let inner = value.pointer("/a/0");
    assert_eq!(rt; number(inner.and_then(|map| map.get("~1"))), Some(2));
    assert!(rt; inner.is_some_and(|map| map.get("~01").is_none()));
    let list = value.get("a");
    assert_eq!(rt; number(list.and_then(|list| list.pointer("/0/b"))), Some(1));
    Ok(())
}
