//! What the jobs do. None of them allocates for what it prints.
use crate::job::{Fault, Kept, Kind};
use rmp_decode::{Deserialize, Deserializer, from_slice};
use rmp_encode::{Error, Serialize, Serializer, to_vec, to_vec_named};
use rmp_serde::{Canon, Raw, Value, check_canonical, from_value, to_value};
use rmp_wire::config::BytesMode;
use rmp_wire::{ByteBuf, Ext, ReadRefReader};
use std::alloc::Global;
use std::collections::{BTreeMap, BTreeSet, VecDeque};
use test_derived::{Counted, Dog, Four, Proxy};
use test_nodes::Rose;
use test_recursive::{Nested as Lists, Tree};
use test_types::{UnkMap, UnkSeq};

/// Lists in maps in a list, and texts.
pub type Nested = Vec<BTreeMap<String, Vec<Vec<u16>>>>;

/// Lists and pairs in maps in a list, none of which tells its length.
pub type NestedUnknown = UnkSeq<UnkMap<&'static str, UnkSeq<(u8, u8)>>>;

/// `[{"a": [[1, 300], []], "bc": [[65535]]}, {}]`.
pub fn nested(alloc: Global) -> Result<Nested, Fault> {
    let mut map = BTreeMap::new(alloc);
    let lists = vec![in alloc; vec![in alloc; 1u16, 300]?, Vec::new(alloc)]?;
    map.insert(String::from_str(alloc, "a")?, lists)?;
    let lists = vec![in alloc; vec![in alloc; 65535u16]?]?;
    map.insert(String::from_str(alloc, "bc")?, lists)?;
    Ok(vec![in alloc; map, BTreeMap::new(alloc)]?)
}

/// `[{"a": [(1, 200), (3, 4)], "b": []}]`.
pub fn nested_unknown(alloc: Global) -> Result<NestedUnknown, Fault> {
    let mut entries = BTreeMap::new(alloc);
    let items = vec![in alloc; (1u8, 200u8), (3u8, 4u8)]?;
    entries.insert("a", UnkSeq { items })?;
    let items = Vec::new(alloc);
    entries.insert("b", UnkSeq { items })?;
    let items = vec![in alloc; UnkMap { entries }]?;
    Ok(UnkSeq { items })
}

// Prints the bytes of a write in hex, or its error.
fn print_written(rt: &impl Print, written: Result<Vec<u8>, Error>) -> Result<(), Fault> {
    match written {
        Ok(bytes) => {
            for byte in &bytes {
                print!(rt; "{byte:02x}")?;
            }
            println!(rt; "")?;
        }
        Err(e) => println!(rt; "{e}")?,
    }
    Ok(())
}

/// Writes, and prints the bytes or the error.
pub fn write(rt: &(impl Print + AllocGlobal), value: &Nested) -> Result<(), Fault> {
    print_written(rt, to_vec(rt.alloc(), value))
}

// What a value is written as where bytes are made of all that may be bytes.
fn forced<T: Serialize>(alloc: Global, value: &T) -> Result<Vec<u8>, Error> {
    let mut se = Serializer::new(alloc, Vec::new(alloc)).with_bytes(BytesMode::ForceAll);
    value.serialize(&mut se)?;
    Ok(se.into_inner())
}

/// The same, where bytes are made of all that may be bytes.
pub fn write_unknown(rt: &(impl Print + AllocGlobal), value: &NestedUnknown) -> Result<(), Fault> {
    print_written(rt, forced(rt.alloc(), value))
}

// `{"f1": 0, "f2": (8, 13), "f4": 21, "f5": 34}`, whose length isn't told, in a vector.
fn unknown_map(alloc: Global) -> Result<Vec<u8>, Error> {
    let mut se = Serializer::new(alloc, Vec::new(alloc));
    let mut map = se.serialize_map(None)?;
    map.serialize_key(&"f1")?;
    map.serialize_value(&0u8)?;
    map.serialize_key(&"f2")?;
    map.serialize_value(&Counted {
        value: 8u8,
        count: 13,
    })?;
    map.serialize_key(&"f4")?;
    map.serialize_value(&21u8)?;
    map.serialize_key(&"f5")?;
    map.serialize_value(&34u8)?;
    map.end()?;
    Ok(se.into_inner())
}

// `[(1, 200), 5]`, whose length isn't told, in a vector where bytes are made of all that may be bytes.
fn unknown_list(alloc: Global) -> Result<Vec<u8>, Error> {
    let mut se = Serializer::new(alloc, Vec::new(alloc)).with_bytes(BytesMode::ForceAll);
    let mut list = se.serialize_seq(None)?;
    list.serialize_element(&(1u8, 200u8))?;
    list.serialize_element(&5u8)?;
    list.end()?;
    Ok(se.into_inner())
}

/// Writes what takes memory until it ends, and prints the bytes or the error.
pub fn write_kept(rt: &(impl Print + AllocGlobal), kept: Kept) -> Result<(), Fault> {
    let written = match kept {
        Kept::Map => unknown_map(rt.alloc()),
        Kept::Pair => forced(rt.alloc(), &([1u8, 200u8], 3u8)),
        Kept::List => unknown_list(rt.alloc()),
    };
    print_written(rt, written)
}

/// Reads a list of maps from texts to lists, in wide spellings, and prints it or the error.
pub fn read(rt: &(impl Print + AllocGlobal)) -> Result<(), Fault> {
    let input =
        b"\xdd\x00\x00\x00\x02\xde\x00\x01\xd9\x02ab\xdc\x00\x02\x01\xcd\x01\x2c\x82\xa1c\xc4\x01\xc8\xa1d\x90";
    let read: Result<Vec<BTreeMap<String, Vec<u16>>>, rmp_decode::Error> = from_slice(
        rt.alloc(),
        input,
    );
    match read {
        Ok(maps) => println!(rt; "{maps:?}")?,
        Err(e) => println!(rt; "{e}")?,
    }
    Ok(())
}

/// Reads a list of numbers whose head claims more than there is, and prints it or the error.
pub fn read_claim(rt: &(impl Print + AllocGlobal)) -> Result<(), Fault> {
    let read: Result<Vec<u8>, rmp_decode::Error> = from_slice(rt.alloc(), b"\xdd\xff\xff\xff\xff");
    match read {
        Ok(items) => println!(rt; "{items:?}")?,
        Err(e) => println!(rt; "{e}")?,
    }
    Ok(())
}

/// Passes over the message at the front of the input, and prints what is left in hex, or the error.
pub fn skip(rt: &(impl Print + AllocGlobal), input: &[u8]) -> Result<(), Fault> {
    let mut de = Deserializer::from_read_ref(rt.alloc(), input);
    match de.deserialize_ignored_any() {
        Ok(()) => println!(rt; "{} left", de.remaining_slice().len())?,
        Err(e) => println!(rt; "{e}")?,
    }
    Ok(())
}

/// Checks lists in one another, and prints what comes of it.
pub fn check(rt: &(impl Print + AllocGlobal)) -> Result<(), Fault> {
    match check_canonical(rt.alloc(), b"\x92\x91\x91\x05\x92\xa1a\xd9\x01b") {
        Ok(Canon::Whole(len)) => println!(rt; "canonical {len}")?,
        Ok(Canon::Fault(at)) => println!(rt; "fault at {at}")?,
        Err(e) => println!(rt; "{e}")?,
    }
    Ok(())
}

// Makes `{"k": [5, "a"]}`, copies it, copies its key, reads a map of a type from it, and makes a value of that map.
fn made(alloc: Global) -> Result<Vec<u8>, Error> {
    let items = [Value::from_u64(alloc, 5), Value::from_text(alloc, "a")?];
    let list = Value::from_items(alloc, &items)?;
    let map = Value::from_pairs(alloc, &[(Value::from_text(alloc, "k")?, list)])?;
    let copy = map.clone()?;
    for part in copy.root().parts() {
        let _part = part.to_value(alloc)?;
    }
    let read: Result<BTreeMap<String, (u8, String)>, rmp_decode::Error> = from_value(alloc, &copy);
    match read {
        Ok(typed) => to_vec(alloc, &to_value(alloc, &typed)?),
        Err(rmp_decode::Error::OutOfMemory) => Err(Error::OutOfMemory),
        Err(_) => Err(Error::Syntax("not read")),
    }
}

/// Makes a value, and prints its bytes or the error.
pub fn make(rt: &(impl Print + AllocGlobal)) -> Result<(), Fault> {
    print_written(rt, made(rt.alloc()))
}

// Reads a message as a value of the type and writes the value, structs by names, and prints the bytes, or the error of the read or the write.
fn again<'de, T: Deserialize<'de, ReadRefReader<'de>> + Serialize>(
    rt: &(impl Print + AllocGlobal),
    input: &'de [u8],
) -> Result<(), Fault> {
    let read: Result<T, rmp_decode::Error> = from_slice(rt.alloc(), input);
    match read {
        Ok(value) => print_written(rt, to_vec_named(rt.alloc(), &value)),
        Err(e) => {
            println!(rt; "{e}")?;
            Ok(())
        }
    }
}

/// Reads a message as a value of the type, writes the value, and prints the bytes or the error.
pub fn again_as(rt: &(impl Print + AllocGlobal), kind: Kind) -> Result<(), Fault> {
    match kind {
        Kind::Value => again::<Value>(
            rt,
            b"\xdc\x00\x03\x81\xa1a\xc4\x01\x07\xd9\x01b\xc7\x01\x05\x09",
        ),
        Kind::Pair => again::<Value>(rt, b"\x92\xcd\x00\x05\xd9\x01a"),
        Kind::Raw => again::<Raw>(rt, b"\xd9\x03\xffab"),
        Kind::Options => again::<Vec<Option<String>>>(rt, b"\xdc\x00\x02\xc0\xd9\x01a"),
        Kind::Wide => again::<Vec<(u128, i128)>>(rt, b"\xdc\x00\x01\x92\xcd\x00\x05\xd1\xff\xff"),
        Kind::Tree => again::<Tree>(
            rt,
            b"\x81\xd9\x04Node\x92\x81\xa4Leaf\xcc\x01\x81\xa4Node\x91\x81\xa4Leaf\x02",
        ),
        Kind::Texts => again::<BTreeMap<String, String>>(
            rt,
            b"\xde\x00\x02\xd9\x01a\xa1b\xa1c\xa0",
        ),
        Kind::Dog => again::<Dog>(rt, b"\xde\x00\x02\xd9\x03age\x05\xa4name\xd9\x03Rex"),
        Kind::Proxy => again::<Proxy>(rt, b"\x80"),
        Kind::Among => again::<Dog>(rt, b"\x83\xa1x\x81\x05\x90\xa3age\x08\xa4name\xa5Bobby"),
        _ => again_in_others(rt, kind),
    }
}

// The same of the types of std, and of those that a user writes.
fn again_in_others(rt: &(impl Print + AllocGlobal), kind: Kind) -> Result<(), Fault> {
    const TEXTS: &[u8] = b"\xdc\x00\x02\xa1a\xd9\x01b";
    const NUMBERS: &[u8] = b"\xdc\x00\x280123456789@ABCDEFGHIJKLMNOPQRSTUVWXYZabc";
    match kind {
        Kind::Queue => again::<VecDeque<String>>(rt, TEXTS),
        Kind::Set => again::<BTreeSet<String>>(rt, TEXTS),
        Kind::LargeSet => again::<BTreeSet<u8>>(rt, NUMBERS),
        Kind::Array => again::<[String; 2]>(rt, TEXTS),
        Kind::Boxes => again::<Box<Vec<Box<u16>>>>(rt, b"\x92\xcd\x00\x05\x01"),
        Kind::Buffers => again::<(ByteBuf, Ext, Raw)>(
            rt,
            b"\x93\xc5\x00\x01\x07\xc7\x01\x05\x09\xd9\x01a",
        ),
        Kind::Variants => again::<Vec<Four>>(rt, b"\x92\xa4Unit\x81\xa3Str\x92\x01\xd9\x01q"),
        Kind::Rose => again::<Rose>(rt, b"\x91\x91\x91\x90"),
        _ => again::<Lists>(rt, b"\x92\x91\x90\x90"),
    }
}
