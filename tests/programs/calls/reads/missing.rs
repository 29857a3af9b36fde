//! Which field an error says is missing.
use super::rows::{INVALID_LENGTH, INVALID_TYPE, reader, refuses};
use rmp_decode::{EightThen, Error, ReadFields, SixteenThen, Text, from_slice};
use rmp_wire::ReadRefReader;
use std::process::Abort;
use std::test::Fail;
use test_derived::{Mixed, Server};
use test_nodes::List;
use test_recursive::Task;
use test_types::Pup;
use test_types::structs::Dog;
use test_wide::Manifest;

// The read was refused, since the field of this name is missing.
fn lacks<T: Drop>(rt: &impl Abort, read: Result<T, Error>, name: &str) {
    match read {
        Ok(_) => panic!(rt; "it is read, and {name} is missing"),
        Err(e) => {
            assert_eq!(rt; e.field(), Some(name));
            assert!(rt; matches!(&e, Error::Syntax(text) if text.as_str() == "missing field"));
        }
    }
}

type Twenty = SixteenThen<
    u8,
    u8,
    u8,
    u8,
    u8,
    u8,
    u8,
    u8,
    u8,
    u8,
    u8,
    u8,
    u8,
    u8,
    u8,
    u8,
    (u8, u8, u8, u8, ()),
>;

// A map from the places of so many fields, but one.
fn all_but(missing: u8, count: u8, pairs: &mut [u8; 41]) -> &[u8] {
    pairs[0] = 0xde;
    pairs[2] = count - 1;
    let mut at = 3;
    for place in 0..count {
        if place != missing {
            pairs[at] = place;
            at += 2;
        }
    }
    &pairs[..at]
}

// The fields are read by these names.
fn fields<'de, F: ReadFields<'de, ReadRefReader<'de>>>(
    rt: &impl AllocGlobal,
    input: &'de [u8],
    names: &[&str],
) -> Result<F, Error> {
    let mut de = reader(rt, input);
    de.deserialize_fields(names)
}

#[test]
fn the_first_that_no_key_names(rt: HostRuntime) {
    for (input, name) in [
        (b"\x80".as_slice(), "name"),
        (b"\x81\xa6weight\x01", "name"),
        (b"\x82\xa3age\x08\xa6weight\x01", "name"),
        (b"\x81\xa4name\xa1A", "age"),
        (b"\x82\xa6weight\x01\x00\xa1A", "age"),
        (b"\x83\xa1x\x81\xa3age\x08\xa4name\xa1A\xa3AGE\x08", "age"),
    ] {
        lacks(&rt, from_slice::<Dog>(rt.alloc(), input), name);
    }
}

// A field that has a default isn't said to be missing, wherever it is.
#[test]
fn fields_with_defaults_are_passed(rt: HostRuntime) {
    let names = ["first", "second", "third", "fourth"];
    for (input, name) in [
        (b"\x80".as_slice(), "second"),
        (b"\x81\x00\x01", "second"),
        (b"\x81\x01\x01", "fourth"),
        (b"\x82\x02\x01\x01\x01", "fourth"),
        (b"\x83\x03\x01\x00\x01\x02\x01", "second"),
    ] {
        let read: Result<(Option<u8>, (u8, (Option<u8>, (u8, ())))), Error> = fields(
            &rt, input, &names,
        );
        lacks(&rt, read, name);
        let read: Result<(Option<u8>, u8, Option<u8>, u8, ()), Error> = fields(&rt, input, &names);
        lacks(&rt, read, name);
    }
}

#[test]
fn of_derived_types(rt: HostRuntime) {
    lacks(
        &rt,
        from_slice::<Server>(rt.alloc(), b"\x81\xa4port\x01"),
        "host",
    );
    // a variant's fields, of which the first may be missing, and a struct in them
    for (input, name) in [
        (b"\x81\xa4Kept\x80".as_slice(), "dog"),
        (b"\x81\xa4Kept\x81\xa3dog\x81\xa3age\x08", "name"),
        (b"\x81\xa4Kept\x81\xa3dog\x81\xa4name\xa1A", "age"),
    ] {
        lacks(&rt, from_slice::<Mixed<bool>>(rt.alloc(), input), name);
    }
    // one field after another, by hand
    lacks(&rt, from_slice::<Pup>(rt.alloc(), b"\x81\x01\x08"), "name");
    // recursive types: the first three fields of a list may be missing
    lacks(&rt, from_slice::<List>(rt.alloc(), b"\x80"), "places");
    for (input, name) in [
        (b"\x81\xa3Run\x80".as_slice(), "order"),
        (b"\x81\xa3Run\x81\xa5order\xa8Together", "span"),
        (b"\x81\xa3Run\x81\xa4span\x81\xa4last\x01", "first"),
        // by the name in the message
        (b"\x81\xa4Wait\x80", "atLeast"),
        (b"\x81\xa4Wait\x81\xa7atLeast\x01", "thenCall"),
    ] {
        lacks(&rt, from_slice::<Task>(rt.alloc(), input), name);
    }
}

#[test]
fn of_many_fields(rt: HostRuntime) {
    lacks(&rt, from_slice::<Manifest>(rt.alloc(), b"\x80"), "ship");
    let names = [
        "a", "b", "c", "d", "e", "f", "g", "h", "i", "j", "k", "l", "m", "n", "o", "p", "q", "r",
        "s", "t",
    ];
    for missing in 0..20 {
        let mut pairs = [0; 41];
        let read: Result<Twenty, Error> = fields(&rt, all_but(missing, 20, &mut pairs), &names);
        lacks(&rt, read, names[missing as usize]);
    }
    for missing in 0..8 {
        let mut pairs = [0; 41];
        let input = all_but(missing, 8, &mut pairs);
        let read: Result<EightThen<u8, u8, u8, u8, u8, u8, u8, u8, ()>, Error> = fields(
            &rt,
            input,
            &names[..8],
        );
        lacks(&rt, read, names[missing as usize]);
    }
}

#[test]
fn as_much_of_a_name_as_fits(rt: HostRuntime) {
    for (name, fits) in [
        ("", ""),
        ("é", "é"),
        (
            "as many bytes as there are: 30",
            "as many bytes as there are: 30",
        ),
        (
            "one byte more than there are 31",
            "one byte more than there are 3",
        ),
        (
            "letters of two bytes end it 30é",
            "letters of two bytes end it 30",
        ),
        (
            "letters of two bytes cut it: 3é",
            "letters of two bytes cut it: 3",
        ),
        (
            "letters of two bytes fit in: é",
            "letters of two bytes fit in: ",
        ),
        (
            "and so with a wide letter: 3é",
            "and so with a wide letter: 3é",
        ),
    ] {
        let error = Error::missing_field(name);
        assert_eq!(rt; error.field(), Some(fits));
        lacks(&rt, fields::<(u8, ())>(&rt, b"\x80", &[name]), fits);
    }
}

#[test]
fn other_errors_name_none(rt: HostRuntime) -> Result<(), Fail> {
    refuses::<Dog>(&rt, b"\x92\xa1A\x08", INVALID_LENGTH);
    refuses::<Dog>(&rt, b"\xc0", INVALID_TYPE);
    for error in [
        Error::Syntax(Text::DuplicateField),
        Error::Syntax(Text::new("missing field")),
        Error::OutOfMemory,
    ] {
        assert_eq!(rt; error.field(), None);
    }
    let error = Error::missing_field("name");
    assert_eq!(rt;
        format!(in rt.alloc(); "{error}")?.as_str(),
        "missing field"
    );
    Ok(())
}
