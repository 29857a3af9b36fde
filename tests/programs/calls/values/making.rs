//! Values that are made, copied, and turned into other types and back.
use rmp_serde::{
    Raw, Value, decode, encode, from_slice, from_value, to_value, to_value_named, to_vec,
};
use std::alloc::Global;
use std::test::Fail;
use test_derived::Dog;

fn text(alloc: Global, text: &str) -> Result<Value, encode::Error> {
    Value::from_text(alloc, text)
}

#[test]
fn each_leaf_is_made(rt: HostRuntime) -> Result<(), Fail> {
    let alloc = rt.alloc();
    let made: [(Value, &[u8]); 12] = [
        (Value::nil(alloc), b"\xc0"),
        (Value::from_bool(alloc, true), b"\xc3"),
        (Value::from_bool(alloc, false), b"\xc2"),
        (
            Value::from_u64(alloc, u64::MAX),
            b"\xcf\xff\xff\xff\xff\xff\xff\xff\xff",
        ),
        (Value::from_i64(alloc, 300), b"\xcd\x01\x2c"),
        (Value::from_i64(alloc, -33), b"\xd0\xdf"),
        (
            Value::from_f32_bits(alloc, 0x3f80_0000),
            b"\xca\x3f\x80\x00\x00",
        ),
        (
            Value::from_f64_bits(alloc, 0x3ff0_0000_0000_0001),
            b"\xcb\x3f\xf0\x00\x00\x00\x00\x00\x01",
        ),
        (text(alloc, "")?, b"\xa0"),
        (text(alloc, "it")?, b"\xa2it"),
        (Value::from_bytes(alloc, b"\x01\xff")?, b"\xc4\x02\x01\xff"),
        (Value::from_ext(alloc, -7, b"ab")?, b"\xd5\xf9ab"),
    ];
    for (value, bytes) in &made {
        assert_eq!(rt; to_vec(alloc, value)?.as_slice(), *bytes);
        assert!(rt; from_slice::<Value>(alloc, bytes)? == *value);
    }
    Ok(())
}

#[test]
fn floats_are_made_and_answered(rt: HostRuntime) -> Result<(), Fail> {
    let alloc = rt.alloc();
    for x in [
        0.0,
        -0.0,
        1.5,
        -0.1,
        5e-324,
        f64::MAX,
        f64::INFINITY,
        f64::NEG_INFINITY,
    ] {
        let made = Value::from_f64(alloc, x);
        assert_eq!(rt; made.root().as_f64_bits(), Some(x.to_bits()));
        assert_eq!(rt;
            made.root().as_f64().map(|y| y.to_bits()),
            Some(x.to_bits())
        );
        assert_eq!(rt; made.root().as_f32(), None);
    }
    for x in [
        0.0f32,
        -0.0,
        1.5,
        -0.1,
        1e-45,
        f32::MAX,
        f32::INFINITY,
        f32::NEG_INFINITY,
    ] {
        let made = Value::from_f32(alloc, x);
        assert_eq!(rt; made.root().as_f32_bits(), Some(x.to_bits()));
        assert_eq!(rt;
            made.root().as_f32().map(|y| y.to_bits()),
            Some(x.to_bits())
        );
        let wide = f64::from(x).to_bits();
        assert_eq!(rt; made.root().as_f64().map(|y| y.to_bits()), Some(wide));
    }
    let (nan, small_nan) = (
        Value::from_f64(alloc, f64::NAN),
        Value::from_f32(alloc, f32::NAN),
    );
    assert_eq!(rt; nan.root().as_f64_bits(), Some(0x7ff8_0000_0000_0000));
    assert_eq!(rt; small_nan.root().as_f32_bits(), Some(0x7fc0_0000));
    assert!(rt; nan.root().as_f64().is_some_and(|x| x.is_nan()));
    assert!(rt; small_nan.root().as_f32().is_some_and(|x| x.is_nan()));
    assert!(rt; small_nan.root().as_f64().is_some_and(|x| x.is_nan()));
    Ok(())
}

#[test]
fn numbers_are_doubles_where_one_holds_them(rt: HostRuntime) -> Result<(), Fail> {
    let alloc = rt.alloc();
    let whole = |number: i64| Value::from_i64(alloc, number).root().as_f64();
    assert_eq!(rt; whole(0).map(|x| x.to_bits()), Some(0));
    assert_eq!(rt; whole(-1), Some(-1.0));
    assert_eq!(rt; whole(9_007_199_254_740_992), Some(9_007_199_254_740_992.0));
    assert_eq!(rt; whole(9_007_199_254_740_993), None);
    assert_eq!(rt; whole(-9_007_199_254_740_993), None);
    assert_eq!(rt; whole(i64::MIN), Some(-9_223_372_036_854_775_808.0));
    assert_eq!(rt; Value::from_u64(alloc, u64::MAX).root().as_f64(), None);
    for bytes in [
        b"\xc0".as_slice(),
        b"\xc3",
        b"\xa11",
        b"\xc4\x01\x01",
        b"\x91\x01",
        b"\x80",
        b"\xd4\x01\x01",
    ] {
        let value: Value = from_slice(alloc, bytes)?;
        assert_eq!(rt; value.root().as_f64(), None);
        assert_eq!(rt; value.root().as_f32(), None);
    }
    Ok(())
}

// {"name": ["it", b"\x07", 5], nil: {}}
fn sample(alloc: Global) -> Result<Value, encode::Error> {
    let list = Value::from_items(
        alloc,
        &[
            text(alloc, "it")?,
            Value::from_bytes(alloc, b"\x07")?,
            Value::from_u64(alloc, 5),
        ],
    )?;
    let none = Value::from_pairs(alloc, &[])?;
    Value::from_pairs(
        alloc,
        &[(text(alloc, "name")?, list), (Value::nil(alloc), none)],
    )
}

const SAMPLE: &[u8] = b"\x82\xa4name\x93\xa2it\xc4\x01\x07\x05\xc0\x80";

#[test]
fn lists_and_maps_are_made(rt: HostRuntime) -> Result<(), Fail> {
    let alloc = rt.alloc();
    let made = sample(alloc)?;
    assert_eq!(rt; to_vec(alloc, &made)?.as_slice(), SAMPLE);
    assert!(rt; from_slice::<Value>(alloc, SAMPLE)? == made);
    let second = made.root().pair(1);
    assert_eq!(rt; second.map(|pair| pair.1.len()), Some(0));
    let list = made.root().pair(0).map(|pair| pair.1);
    let last = list.and_then(|list| list.item(2));
    assert_eq!(rt; last.and_then(|it| it.as_whole()), Some(5));
    let none = Value::from_items(alloc, &[])?;
    assert_eq!(rt; to_vec(alloc, &none)?.as_slice(), b"\x90".as_slice());
    Ok(())
}

#[test]
fn a_clone_has_the_same_tree(rt: HostRuntime) -> Result<(), Fail> {
    let made = sample(rt.alloc())?;
    let copy = made.clone()?;
    drop(made);
    assert_eq!(rt; to_vec(rt.alloc(), &copy)?.as_slice(), SAMPLE);
    let second = copy.root().pair(1);
    assert!(rt; second.is_some_and(|pair| pair.0.kind() == rmp_serde::Kind::Nil));
    Ok(())
}

#[test]
fn a_part_becomes_a_value(rt: HostRuntime) -> Result<(), Fail> {
    let made = sample(rt.alloc())?;
    let whole = made.root().to_value(rt.alloc())?;
    assert!(rt; whole == made);
    let parts: [&[u8]; 4] = [b"\xa4name", b"\x93\xa2it\xc4\x01\x07\x05", b"\xc0", b"\x80"];
    for (part, bytes) in made.root().parts().zip(parts) {
        let value = part.to_value(rt.alloc())?;
        assert_eq!(rt; to_vec(rt.alloc(), &value)?.as_slice(), bytes);
    }
    Ok(())
}

fn bobby(alloc: Global) -> Result<Dog, Fail> {
    Ok(from_slice(alloc, b"\x92\xa5Bobby\x08")?)
}

#[test]
fn types_become_values_and_come_back(rt: HostRuntime) -> Result<(), Fail> {
    let alloc = rt.alloc();
    let dog = bobby(alloc)?;
    let listed = to_value(alloc, &dog)?;
    assert_eq!(rt; listed.root().item(1).and_then(|it| it.as_whole()), Some(8));
    let named = to_value_named(alloc, &dog)?;
    let name = named.root().pair(0);
    assert_eq!(rt; name.and_then(|pair| pair.0.as_str()), Some("name"));
    assert_eq!(rt; name.and_then(|pair| pair.1.as_str()), Some("Bobby"));
    for value in [listed, named] {
        let again: Dog = from_value(alloc, &value)?;
        assert_eq!(rt; again.name.as_str(), "Bobby");
        assert_eq!(rt; again.age, 8);
    }
    Ok(())
}

// A list that nests so deep.
fn nested(alloc: Global, depth: u32) -> Result<Value, encode::Error> {
    let mut value = Value::from_items(alloc, &[])?;
    for _ in 1..depth {
        value = Value::from_items(alloc, &[value])?;
    }
    Ok(value)
}

#[test]
fn what_is_no_such_value_is_refused(rt: HostRuntime) -> Result<(), Fail> {
    let alloc = rt.alloc();
    let short = Value::from_items(alloc, &[text(alloc, "Bobby")?])?;
    let refused: Result<Dog, decode::Error> = from_value(alloc, &short);
    assert!(rt; refused.is_err());
    let number: Result<u8, decode::Error> = from_value(alloc, &Value::from_u64(alloc, 256));
    assert!(rt; matches!(number, Err(decode::Error::Syntax(_))));

    let fits = nested(alloc, 1023)?;
    assert!(rt; from_value::<Value>(alloc, &fits)? == fits);
    assert!(rt; to_value(alloc, &fits)? == fits);
    let deep = nested(alloc, 1024)?;
    let refused: Result<Value, decode::Error> = from_value(alloc, &deep);
    assert!(rt; matches!(refused, Err(decode::Error::DepthLimitExceeded)));
    assert!(rt;
        matches!(
            to_value(alloc, &deep),
            Err(encode::Error::Syntax("nests too deep"))
        )
    );
    Ok(())
}
