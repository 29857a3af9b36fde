//! Structs whose fields are read one after another.
use super::rows::{
    FAILED_BEFORE, INVALID_LENGTH, INVALID_TYPE, NO_MARKER, NOT_CANONICAL, ahead, gives, next,
    next_refused, reader, refused, refuses, refuses_strictly,
};
use rmp_decode::{Deserializer, Error, Text, from_slice, from_slice_strict};
use rmp_wire::config::SerializerConfig;
use rmp_wire::{Marker, Source};
use std::process::Abort;
use test_types::Pup;

fn small<R: Source, C: SerializerConfig>(de: &mut Deserializer<R, C>) -> Result<u8, Error> {
    de.deserialize_u8()
}

// Answers whatever is there, and leaves its reader failed where that is no truth.
fn swallowed<R: Source, C: SerializerConfig>(de: &mut Deserializer<R, C>) -> Result<u8, Error> {
    match de.deserialize_bool() {
        Ok(_) => Ok(1),
        Err(_) => Ok(0),
    }
}

// The read gave this pup.
fn is(rt: &impl Abort, read: Result<Pup, Error>, name: &str, grams: u32) {
    match read {
        Ok(pup) => assert_eq!(rt; (pup.name.as_str(), pup.weight.grams), (name, grams)),
        Err(e) => panic!(rt; "{name} is refused: {e}"),
    }
}

fn reads(rt: &(impl Abort + AllocGlobal), input: &[u8], name: &str, grams: u32) {
    is(rt, from_slice(rt.alloc(), input), name, grams);
}

fn reads_strictly(rt: &(impl Abort + AllocGlobal), input: &[u8], name: &str, grams: u32) {
    is(rt, from_slice_strict(rt.alloc(), input), name, grams);
}

#[test]
fn from_a_map(rt: HostRuntime) {
    // in another order, with a name that is unknown
    let input = b"\x83\xa6weight\x01\xa1\x78\x81\x05\x90\xa4name\xa5Bobby";
    reads(&rt, input, "Bobby", 1);
    // places and bytes for names
    reads(&rt, b"\x82\x01\x08\xc4\x04name\xa1A", "A", 8);
    // one that isn't there, that has a default, and one that has none
    reads(&rt, b"\x81\x00\xa1A", "A", 7);
    refuses::<Pup>(&rt, b"\x81\x01\x08", "missing field");
    refuses::<Pup>(&rt, b"\x82\x01\x08\x01\xc0", "duplicate field");
    refuses::<Pup>(&rt, b"\x81\xff\x08", INVALID_TYPE);
    refuses::<Pup>(&rt, b"\x81\x01\xc3", INVALID_TYPE);
    refuses::<Pup>(&rt, b"\x82\x01\x08", NO_MARKER);
    refuses::<Pup>(&rt, b"\xc0", INVALID_TYPE);
}

#[test]
fn from_a_list(rt: HostRuntime) {
    reads(&rt, b"\x92\xa5Bobby\x08", "Bobby", 8);
    refuses::<Pup>(&rt, b"\x91\xa5Bobby", INVALID_LENGTH);
    refuses::<Pup>(
        &rt,
        b"\x93\xa5Bobby\x08\x07",
        "array had incorrect length, expected 2",
    );
    refuses::<Pup>(&rt, b"\x90", INVALID_LENGTH);
}

#[test]
fn strictly(rt: HostRuntime) {
    let wide = b"\xdc\x00\x02\xa1A\x08";
    reads(&rt, wide, "A", 8);
    refuses_strictly::<Pup>(&rt, wide, NOT_CANONICAL);
    reads_strictly(&rt, b"\x82\x01\x08\xa4name\xa1A", "A", 8);
}

#[test]
fn bytes_are_numbers(rt: HostRuntime) {
    let mut de = reader(&rt, &[0xc4, 2, 5, 200, 7]);
    match de.deserialize_struct("Both", &["first", "second"]) {
        Ok(mut fields) => {
            assert_eq!(rt; fields.left(), 2);
            assert!(rt; matches!(fields.next_field(), Ok(Some(0))));
            assert!(rt; fields.owes_value());
            let value: Result<u8, Error> = fields.next_value();
            assert!(rt; matches!(value, Ok(5)));
            assert!(rt; matches!(fields.next_field(), Ok(Some(1))));
            let value: Result<u8, Error> = fields.next_value();
            assert!(rt; matches!(value, Ok(200)));
            assert!(rt; matches!(fields.next_field(), Ok(None)));
            let missing: Result<Option<u8>, Error> = fields.missing_field("x");
            assert!(rt; matches!(missing, Err(Error::Syntax(Text::MissingField(_)))));
            refused(&rt, fields.end(), FAILED_BEFORE);
        }
        Err(_) => assert!(rt; false),
    }
    ahead(&rt, &de, &[7]);
}

#[test]
fn an_access_that_is_dropped_leaves_the_reader_failed(rt: HostRuntime) {
    let mut de = reader(&rt, &[0x80, 7]);
    match de.deserialize_struct("None", &[]) {
        Ok(fields) => drop(fields),
        Err(_) => assert!(rt; false),
    }
    next_refused::<u8>(&rt, &mut de, FAILED_BEFORE);
}

#[test]
fn as_the_content_of_a_variant(rt: HostRuntime) {
    let mut de = reader(&rt, b"\x81\xa1A\x81\xa1x\x05\x07");
    match de.deserialize_enum(&["A"]) {
        Ok((_, variant)) => match variant.struct_variant(&["x"]) {
            Ok(mut fields) => {
                assert!(rt; matches!(fields.next_field(), Ok(Some(0))));
                let value: Result<u8, Error> = fields.next_value();
                assert!(rt; matches!(value, Ok(5)));
                assert!(rt; matches!(fields.next_field(), Ok(None)));
                let missing: Result<Option<u8>, Error> = fields.missing_field("x");
                assert!(rt; matches!(missing, Ok(None)));
                gives(&rt, fields.end(), ());
            }
            Err(_) => assert!(rt; false),
        },
        Err(_) => assert!(rt; false),
    }
    next(&rt, &mut de, 7u8);
}

#[test]
fn a_name_alone_has_no_fields(rt: HostRuntime) {
    let mut de = reader(&rt, b"\xa1A");
    match de.deserialize_enum(&["A"]) {
        Ok((_, variant)) => match variant.struct_variant(&["x"]) {
            Ok(_) => assert!(rt; false),
            Err(e) => assert!(rt; matches!(e, Error::Syntax(Text::InvalidType))),
        },
        Err(_) => assert!(rt; false),
    }
}

#[test]
fn values_by_a_function(rt: HostRuntime) {
    for input in [
        b"\x91\xcc\xc8\x07".as_slice(),
        b"\xc4\x01\xc8\x07",
        b"\x81\xa1x\xcc\xc8\x07",
    ] {
        let mut de = reader(&rt, input);
        match de.deserialize_struct("One", &["x"]) {
            Ok(mut fields) => {
                assert!(rt; matches!(fields.next_field(), Ok(Some(0))));
                assert!(rt; matches!(&fields.next_value_with(small), Ok(200)));
                assert!(rt; !fields.owes_value());
                gives(&rt, fields.end(), ());
            }
            Err(_) => assert!(rt; false),
        }
        next(&rt, &mut de, 7u8);
    }
}

#[test]
fn failures_of_the_function(rt: HostRuntime) {
    let mut de = reader(&rt, b"\x92\xa0\x01");
    match de.deserialize_struct("One", &["x"]) {
        Ok(mut fields) => {
            assert!(rt; matches!(fields.next_field(), Ok(Some(0))));
            let value = fields.next_value_with(small);
            assert!(rt; matches!(&value, Err(Error::TypeMismatch(Marker::FixStr(0)))));
            let next = fields.next_value_with(small);
            assert!(rt; matches!(&next, Err(Error::Uncategorized(Text::FailedBefore))));
        }
        Err(_) => assert!(rt; false),
    }
}

#[test]
fn a_value_whose_failure_is_swallowed(rt: HostRuntime) {
    let mut de = reader(&rt, b"\x81\xa1x\x01");
    match de.deserialize_struct("One", &["x"]) {
        Ok(mut fields) => {
            assert!(rt; matches!(fields.next_field(), Ok(Some(0))));
            let value = fields.next_value_with(swallowed);
            assert!(rt; matches!(&value, Err(Error::Uncategorized(Text::FailedBefore))));
        }
        Err(_) => assert!(rt; false),
    }
}

#[test]
fn a_number_that_is_cut(rt: HostRuntime) {
    let mut de = reader(&rt, b"\xc4\x01");
    match de.deserialize_struct("One", &["x"]) {
        Ok(mut fields) => {
            assert!(rt; matches!(fields.next_field(), Ok(Some(0))));
            let value = fields.next_value_with(small);
            assert!(rt; matches!(&value, Err(Error::InvalidDataRead(_))));
        }
        Err(_) => assert!(rt; false),
    }
}
