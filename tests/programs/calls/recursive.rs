//! What types that lead back to themselves are written as and read from.
use rmp_decode::{Deserialize, Deserializer, Error, from_slice_strict};
use rmp_encode::{Serialize, to_vec, to_vec_named};
use rmp_wire::ReadRefReader;
use std::alloc::Global;
use std::collections::BTreeMap;
use std::process::Abort;
use std::test::Fail;
use test_json::Json;
use test_nodes::Rose;
use test_recursive::{Nested, Term, Tree};

const TREE: &[u8] = b"\x81\xa4Node\x92\x81\xa4Leaf\x01\x81\xa4Node\x90";

const CHAIN: &[u8] = b"\x81\xa4Next\x81\xa4Next\xc0";

const LISTED: &[u8] = b"\x91\x91\x91\x90";

const NAMED: &[u8] = b"\x81\xa4kids\x91\x81\xa4kids\x90";

pub(crate) const TOO_DEEP: &str = "depth limit exceeded";

pub(crate) fn read<'de, T: Deserialize<'de, ReadRefReader<'de>>>(
    alloc: Global,
    limit: usize,
    input: &'de [u8],
) -> Result<T, Error> {
    let mut de = Deserializer::from_read_ref(alloc, input);
    de.set_max_depth(limit);
    T::deserialize(&mut de)
}

// The value is written as these bytes, with its fields' names or without them.
pub(crate) fn writes<T: Serialize>(
    rt: &impl Abort,
    alloc: Global,
    value: &T,
    is_named: bool,
    want: &[u8],
) {
    let written = if is_named {
        to_vec_named(alloc, value)
    } else {
        to_vec(alloc, value)
    };
    match written {
        Ok(bytes) => assert_eq!(rt; bytes.as_slice(), want),
        Err(e) => panic!(rt; "{want:?} is refused: {e}"),
    }
}

// The input is read under a limit, as the value that is written as these bytes.
pub(crate) fn reads<'de, T: Deserialize<'de, ReadRefReader<'de>> + Serialize + Drop>(
    rt: &impl Abort,
    alloc: Global,
    limit: usize,
    input: &'de [u8],
    is_named: bool,
    want: &[u8],
) {
    match read::<T>(alloc, limit, input) {
        Ok(value) => writes(rt, alloc, &value, is_named, want),
        Err(e) => panic!(rt; "{want:?} is refused: {e}"),
    }
}

// A read was refused, in these words.
pub(crate) fn refused<T: Drop>(rt: &impl Abort, alloc: Global, read: Result<T, Error>, why: &str) {
    match read {
        Ok(_) => panic!(rt; "a value, and not: {why}"),
        Err(e) => {
            let words = format!(in alloc; "{e}").expect(rt, "memory");
            assert_eq!(rt; words.as_str(), why);
        }
    }
}

// Each proper beginning of these bytes is refused for its end.
pub(crate) fn cut<'de, T: Deserialize<'de, ReadRefReader<'de>> + Drop>(
    rt: &impl Abort,
    alloc: Global,
    input: &'de [u8],
) {
    for len in 0..input.len() {
        match read::<T>(alloc, 1024, &input[..len]) {
            Ok(_) => panic!(rt; "a value of {len} bytes of {input:?}"),
            Err(e) => assert!(rt; e.is_incomplete()),
        }
    }
}

// Both forms are read, strictly too, as the value that is written as these bytes, and each beginning of them is cut.
pub(crate) fn reads_both<'de, T: Deserialize<'de, ReadRefReader<'de>> + Serialize + Drop>(
    rt: &impl Abort,
    alloc: Global,
    listed: &'de [u8],
    named: &'de [u8],
) {
    for input in [listed, named] {
        reads::<T>(rt, alloc, 1024, input, false, listed);
        reads::<T>(rt, alloc, 1024, input, true, named);
        assert!(rt; strictly::<T>(alloc, input).is_ok());
        cut::<T>(rt, alloc, input);
    }
}

pub(crate) fn strictly<'de, T: Deserialize<'de, ReadRefReader<'de>>>(
    alloc: Global,
    input: &'de [u8],
) -> Result<T, Error> {
    from_slice_strict(alloc, input)
}

// An object whose keys are in order, and one with the keys in another order, one of them twice.
const OBJECT: &[u8] =
    b"\x81\xa6Object\x82\xa1a\x81\xa4List\x92\xa4Null\x81\xa4Bool\xc3\xa1b\x81\xa6Object\x81\xa0\x81\xa6Number\xff";

const UNORDERED: &[u8] =
    b"\x81\xa6Object\x83\xa1b\xa4Null\xa1a\x81\xa4List\x92\xa4Null\x81\xa4Bool\xc3\xc4\x01b\x81\xa6Object\x81\xa0\x81\xa6Number\xff";

#[test]
fn objects_written(rt: HostRuntime) -> Result<(), Fail> {
    let mut inner = BTreeMap::new(rt.alloc());
    inner.insert(String::new(rt.alloc()), Json::Number(-1))?;
    let items = vec![in rt.alloc(); Json::Null, Json::Bool(true)]?;
    let mut entries = BTreeMap::new(rt.alloc());
    entries.insert(String::from_str(rt.alloc(), "b")?, Json::Object(inner))?;
    entries.insert(String::from_str(rt.alloc(), "a")?, Json::List(items))?;
    writes(&rt, rt.alloc(), &Json::Object(entries), false, OBJECT);
    Ok(())
}

// The keys may come in any order, and of a key that is there twice the later value stays, as where the library itself reads a map.
#[test]
fn objects(rt: HostRuntime) {
    let empty = b"\x81\xa6Object\x80".as_slice();
    let wide = b"\xde\x00\x01\x05\xdf\x00\x00\x00\x00".as_slice();
    for (input, want) in [
        (OBJECT, OBJECT),
        (UNORDERED, OBJECT),
        (empty, empty),
        (wide, empty),
    ] {
        reads::<Json>(&rt, rt.alloc(), 1024, input, false, want);
    }
    reads::<Json>(&rt, rt.alloc(), 6, OBJECT, false, OBJECT);
    refused::<Json>(&rt, rt.alloc(), read(rt.alloc(), 5, OBJECT), TOO_DEEP);
    assert!(rt; strictly::<Json>(rt.alloc(), OBJECT).is_ok());
    refused::<Json>(&rt, rt.alloc(), strictly(rt.alloc(), wide), "not canonical");
    for (input, why) in [
        (b"\x81\xa6Object\x90".as_slice(), "invalid type"),
        (b"\x81\xa6Object\x81\x01\xa4Null", "invalid type"),
        (b"\x81\xa6Object\x81\xa1a\xa6Object", "invalid type"),
        (b"\x81\xa6Object\x81\xa1a\xa3All", "unknown variant"),
    ] {
        refused::<Json>(&rt, rt.alloc(), read(rt.alloc(), 1024, input), why);
    }
    cut::<Json>(&rt, rt.alloc(), OBJECT);
}

#[test]
fn trees_written(rt: HostRuntime) -> Result<(), Fail> {
    let trees = vec![in rt.alloc(); Tree::Leaf(1), Tree::Node(Vec::new(rt.alloc()))]?;
    writes(&rt, rt.alloc(), &Tree::Node(trees), false, TREE);
    Ok(())
}

#[test]
fn trees(rt: HostRuntime) {
    let wide = b"\xde\x00\x01\xc4\x04Node\xdc\x00\x02\x81\x00\xcc\x01\x81\x01\xc4\x00";
    for (limit, input) in [(5, TREE), (5, wide.as_slice()), (1024, TREE)] {
        reads::<Tree>(&rt, rt.alloc(), limit, input, false, TREE);
    }
    refused::<Tree>(&rt, rt.alloc(), read(rt.alloc(), 4, TREE), TOO_DEEP);
    refused::<Tree>(&rt, rt.alloc(), strictly(rt.alloc(), wide), "not canonical");
    assert!(rt; strictly::<Tree>(rt.alloc(), TREE).is_ok());
    let other = b"\x81\xa4Node\xc4\x01\x7f";
    refused::<Tree>(
        &rt,
        rt.alloc(),
        read(rt.alloc(), 1024, other),
        "unknown variant",
    );
}

#[test]
fn terms(rt: HostRuntime) {
    let sum = b"\x81\xa3Sum\x93\xa7Nothing\x81\xa3Not\x81\xa5Truth\xc3\x81\xa4Name\xa1x".as_slice();
    let of_numbers =
        b"\x81\xa3Sum\x94\x81\xa6Number\xd1\xff\x00\x81\xa4Size\x07\x81\xa6Offset\xfe\x81\xa3Sum\x90".as_slice();
    let of_others =
        b"\x81\xa3Sum\x93\x81\xa6Letter\xa2\xc3\xa9\x81\xa4Half\xca\x3f\x80\x00\x00\x81\xa5Bytes\xc4\x02\x01\xff".as_slice();
    for written in [sum, of_numbers, of_others] {
        reads::<Term>(&rt, rt.alloc(), 1024, written, false, written);
        refused::<Term>(&rt, rt.alloc(), read(rt.alloc(), 2, written), TOO_DEEP);
        assert!(rt; strictly::<Term>(rt.alloc(), written).is_ok());
        cut::<Term>(&rt, rt.alloc(), written);
    }
    for (input, why) in [
        (b"\x81\xa3Not\xa3All".as_slice(), "unknown variant"),
        (b"\x81\xa3Not\xa3Not", "invalid type"),
        (b"\xa3Sum", "invalid type"),
        (b"\x81\xa4Size\xff", "invalid value"),
        (b"\x81\xa6Letter\xa2de", "invalid value"),
    ] {
        refused::<Term>(&rt, rt.alloc(), read(rt.alloc(), 1024, input), why);
    }
}

#[test]
fn chains_written(rt: HostRuntime) -> Result<(), Fail> {
    let next = Box::new(rt.alloc(), Term::Next(None))?;
    writes(&rt, rt.alloc(), &Term::Next(Some(next)), false, CHAIN);
    Ok(())
}

#[test]
fn chains(rt: HostRuntime) {
    let wide = b"\xde\x00\x01\xc4\x04Next\x81\x0d\xc0";
    for (limit, input) in [(3, CHAIN), (3, wide.as_slice()), (1024, CHAIN)] {
        reads::<Term>(&rt, rt.alloc(), limit, input, false, CHAIN);
    }
    refused::<Term>(&rt, rt.alloc(), read(rt.alloc(), 2, CHAIN), TOO_DEEP);
    refused::<Term>(&rt, rt.alloc(), strictly(rt.alloc(), wide), "not canonical");
    assert!(rt; strictly::<Term>(rt.alloc(), CHAIN).is_ok());
    let number = b"\x81\xa6Number\xc0";
    refused::<Term>(
        &rt,
        rt.alloc(),
        read(rt.alloc(), 1024, number),
        "invalid type",
    );
}

#[test]
fn a_hundred_links(rt: HostRuntime) -> Result<(), Error> {
    let first = b"\x81\xa4Next";
    let deepest = nested(rt.alloc(), first, 99, b"\xc0")?;
    reads::<Term>(&rt, rt.alloc(), 100, &deepest, false, &deepest);
    let deeper = nested(rt.alloc(), first, 100, b"\xc0")?;
    refused::<Term>(&rt, rt.alloc(), read(rt.alloc(), 100, &deeper), TOO_DEEP);
    Ok(())
}

#[test]
fn lists(rt: HostRuntime) {
    let nested = b"\x92\x91\x90\x90".as_slice();
    for input in [nested, b"\xdc\x00\x02\x91\xc4\x00\xdd\x00\x00\x00\x00"] {
        reads::<Nested>(&rt, rt.alloc(), 4, input, false, nested);
    }
    refused::<Nested>(&rt, rt.alloc(), read(rt.alloc(), 3, nested), TOO_DEEP);
    refused::<Nested>(
        &rt,
        rt.alloc(),
        read(rt.alloc(), 0, b"\xc4\x01\x00"),
        "invalid type",
    );
    refused::<Nested>(
        &rt,
        rt.alloc(),
        strictly(rt.alloc(), b"\x91\xdc\x00\x00"),
        "not canonical",
    );
}

// So many times the first bytes, and then the last.
pub(crate) fn nested(
    alloc: Global,
    each: &[u8],
    times: usize,
    last: &[u8],
) -> Result<Vec<u8>, Error> {
    let mut input = Vec::new(alloc);
    for _ in 0..times {
        input.extend_from_slice(each)?;
    }
    input.extend_from_slice(last)?;
    Ok(input)
}

#[test]
fn a_hundred_lists(rt: HostRuntime) -> Result<(), Error> {
    let deepest = nested(rt.alloc(), b"\x91", 98, b"\x90")?;
    reads::<Nested>(&rt, rt.alloc(), 100, &deepest, false, &deepest);
    for (times, last) in [(99, b"\x90".as_slice()), (100, b"")] {
        let deeper = nested(rt.alloc(), b"\x91", times, last)?;
        refused::<Nested>(&rt, rt.alloc(), read(rt.alloc(), 100, &deeper), TOO_DEEP);
    }
    Ok(())
}

#[test]
fn roses(rt: HostRuntime) -> Result<(), Fail> {
    let kids = vec![in rt.alloc();
        Rose {
            kids: Vec::new(rt.alloc())
        },
    ]?;
    let rose = Rose { kids };
    writes(&rt, rt.alloc(), &rose, false, LISTED);
    writes(&rt, rt.alloc(), &rose, true, NAMED);
    Ok(())
}

#[test]
fn roses_read(rt: HostRuntime) {
    let mixed = b"\x82\xa4more\x93\x01\x02\x03\xc4\x04kids\xdc\x00\x01\x81\x00\x90";
    for (limit, input) in [
        (5, LISTED),
        (5, NAMED),
        (1024, NAMED),
        (5, mixed.as_slice()),
    ] {
        reads::<Rose>(&rt, rt.alloc(), limit, input, true, NAMED);
    }
    for input in [LISTED, NAMED] {
        refused::<Rose>(&rt, rt.alloc(), read(rt.alloc(), 4, input), TOO_DEEP);
        assert!(rt; strictly::<Rose>(rt.alloc(), input).is_ok());
    }
    refused::<Rose>(
        &rt,
        rt.alloc(),
        strictly(rt.alloc(), mixed),
        "not canonical",
    );
}

#[test]
fn roses_refused(rt: HostRuntime) {
    for (input, why) in [
        (b"\x80".as_slice(), "missing field"),
        (b"\x90", "invalid length"),
        (b"\x92\x90\x90", "array had incorrect length, expected 1"),
        (b"\x82\xa4kids\x90\xa4kids\x90", "duplicate field"),
        (b"\xc4\x01\x90", "invalid type"),
    ] {
        refused::<Rose>(&rt, rt.alloc(), read(rt.alloc(), 1024, input), why);
    }
}
