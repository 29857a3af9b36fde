//! What lists, maps and messages of any kind give one after another.
use super::rows::{
    FAILED_BEFORE, INVALID_TYPE, NO_DATA, NO_MARKER, RESERVED, SliceReader, TOO_DEEP, ahead, gives,
    gives_items, next, next_refused, reader, refused,
};
use rmp_decode::{Any, Deserializer, Error, SeqAccess, Slices, Text};
use rmp_wire::config::{DefaultConfig, SerializerConfig};
use rmp_wire::{ReadRefReader, Source};
use std::process::Abort;

fn small<R: Source, C: SerializerConfig>(de: &mut Deserializer<R, C>) -> Result<u8, Error> {
    de.deserialize_u8()
}

// Answers whatever is there, and leaves its reader failed where that is no truth.
fn swallowed<R: Source, C: SerializerConfig>(de: &mut Deserializer<R, C>) -> Result<u8, Error> {
    match de.deserialize_bool() {
        Ok(_) => Ok(1),
        Err(_) => Ok(0),
    }
}

fn element<R: Source, C: SerializerConfig>(
    seq: &mut SeqAccess<'_, R, C>,
) -> Result<Option<u8>, Error> {
    seq.next_element_with(small)
}

fn swallowed_element<R: Source, C: SerializerConfig>(
    seq: &mut SeqAccess<'_, R, C>,
) -> Result<Option<u8>, Error> {
    seq.next_element_with(swallowed)
}

fn end<R: Source, C: SerializerConfig>(seq: SeqAccess<'_, R, C>) -> Result<(), Error> {
    seq.end()
}

// Opens the list that is ahead.
fn list<'x, R: Source, C: SerializerConfig>(
    rt: &impl Abort,
    de: &'x mut Deserializer<R, C>,
) -> SeqAccess<'x, R, C> {
    match de.deserialize_seq() {
        Ok(seq) => seq,
        Err(e) => panic!(rt; "no list: {e}"),
    }
}

#[test]
fn elements_by_a_function(rt: HostRuntime) {
    for input in [[0x92u8, 1, 0xcc, 200].as_slice(), &[0xc4, 2, 1, 200]] {
        let mut de = reader(&rt, input);
        let mut seq = list(&rt, &mut de);
        gives(&rt, element(&mut seq), Some(1));
        gives(&rt, element(&mut seq), Some(200));
        gives(&rt, element(&mut seq), None);
        gives(&rt, end(seq), ());
    }
}

#[test]
fn elements_that_are_left(rt: HostRuntime) {
    let mut de = reader(&rt, &[0x93, 1, 2, 3]);
    let mut seq = list(&rt, &mut de);
    let first: Result<Option<u8>, Error> = seq.next_element();
    gives(&rt, first, Some(1));
    assert_eq!(rt; seq.left(), 2);
    refused(&rt, end(seq), "array had incorrect length, expected 1");
    next_refused::<u8>(&rt, &mut de, FAILED_BEFORE);
}

#[test]
fn failures_of_the_function(rt: HostRuntime) {
    let mut de = reader(&rt, &[0x92, 0xa0, 1]);
    let mut seq = list(&rt, &mut de);
    refused(&rt, element(&mut seq), "wrong msgpack marker FixStr(0)");
    refused(&rt, element(&mut seq), FAILED_BEFORE);
    let mut de = reader(&rt, &[0xc4, 1]);
    refused(&rt, element(&mut list(&rt, &mut de)), NO_DATA);
}

#[test]
fn a_function_that_swallows_a_failure(rt: HostRuntime) {
    let mut de = reader(&rt, &[0x92, 0xc3, 1]);
    let mut seq = list(&rt, &mut de);
    gives(&rt, swallowed_element(&mut seq), Some(1));
    refused(&rt, swallowed_element(&mut seq), FAILED_BEFORE);
}

fn pass_over(de: &mut SliceReader) -> Result<(), Error> {
    de.deserialize_ignored_any()
}

#[test]
fn messages_are_passed_over(rt: HostRuntime) {
    let inputs = [
        [0xc0u8, 7].as_slice(),
        &[0xd9, 2, 0xff, 0xfe, 7],
        &[0xc7, 1, 5, 9, 7],
        &[0x92, 1, 0x91, 0xa1, 0xff, 7],
        &[0x82, 1, 2, 0xc0, 0x90, 7],
        &[0xdf, 0, 0, 0, 1, 0x80, 0xc4, 1, 0, 7],
        &[0x92, 0x81, 0x05, 0x90, 0xc0, 7],
    ];
    for input in inputs {
        let mut de = reader(&rt, input);
        gives(&rt, pass_over(&mut de), ());
        next(&rt, &mut de, 7u8);
    }
}

#[test]
fn what_cannot_be_passed_over(rt: HostRuntime) {
    let rows = [
        ([0x82u8, 1, 2, 3].as_slice(), NO_MARKER),
        (&[0x91, 0xc5, 0, 9, 1], NO_DATA),
        (&[0x91, 0xc1], RESERVED),
        (&[0x92, 0x91, 0x91, 0xc0, 0xc1], RESERVED),
        (&[0xdf, 0xff, 0xff, 0xff, 0xff], NO_MARKER),
    ];
    for (input, why) in rows {
        let mut de = reader(&rt, input);
        refused(&rt, pass_over(&mut de), why);
        refused(&rt, pass_over(&mut de), FAILED_BEFORE);
    }
}

// So many lists of one in one another, the innermost of which is empty, after what comes first.
fn nested(rt: &(impl Abort + AllocGlobal), first: &[u8], times: usize) -> Vec<u8> {
    let mut input = Vec::new(rt.alloc());
    assert!(rt; input.extend_from_slice(first).is_ok());
    for _ in 0..times {
        assert!(rt; input.push(0x91).is_ok());
    }
    assert!(rt; input.push(0x90).is_ok());
    input
}

#[test]
fn how_deep_is_passed_over(rt: HostRuntime) {
    let deepest = nested(&rt, &[], 1022);
    gives(&rt, pass_over(&mut reader(&rt, &deepest)), ());
    let deeper = nested(&rt, &[0x81, 0x01], 1022);
    refused(&rt, pass_over(&mut reader(&rt, &deeper)), TOO_DEEP);
}

// The leaf that is ahead, by its kind. A number of 32 bits is refused.
fn leaf(de: &mut SliceReader) -> Result<(&'static str, i128), Error> {
    match de.deserialize_any() {
        Ok(Any::Nil(leaf)) => {
            leaf.value();
            Ok(("nil", 0))
        }
        Ok(Any::Truth(leaf)) => Ok(("truth", i128::from(leaf.value()))),
        Ok(Any::Whole(leaf)) => Ok(("whole", leaf.value())),
        Ok(Any::F32Bits(leaf)) => Err(leaf.refuse(Error::Syntax(Text::InvalidType))),
        Ok(_) => Err(Error::Syntax(Text::new("no leaf"))),
        Err(e) => Err(e),
    }
}

#[test]
fn leaves_of_any_kind(rt: HostRuntime) {
    let input = [0xc0, 0xc3, 0xd1, 0xff, 0x00, 0xca, 0x7f, 0x7f, 0xff, 0xff];
    let mut de = reader(&rt, &input);
    gives(&rt, leaf(&mut de), ("nil", 0));
    gives(&rt, leaf(&mut de), ("truth", 1));
    gives(&rt, leaf(&mut de), ("whole", -256));
    refused(&rt, leaf(&mut de), INVALID_TYPE);
    next_refused::<bool>(&rt, &mut de, FAILED_BEFORE);
}

// The bytes of the text that is ahead.
fn text<'de>(rt: &impl Abort, de: &mut SliceReader<'de>, size: u32) -> Result<&'de [u8], Error> {
    match de.deserialize_any() {
        Ok(Any::Text(raw)) => {
            assert!(rt; raw.size() == size);
            raw.lend()
        }
        _ => panic!(rt; "no text"),
    }
}

// The bytes that are ahead.
fn bytes(rt: &impl Abort, de: &mut SliceReader) -> Result<Vec<u8>, Error> {
    match de.deserialize_any() {
        Ok(Any::Bytes(raw)) => raw.take::<Slices<'_>>(),
        _ => panic!(rt; "no bytes"),
    }
}

// The content of the extension that is ahead.
fn extension<'de>(rt: &impl Abort, de: &mut SliceReader<'de>, tag: i8) -> Result<&'de [u8], Error> {
    match de.deserialize_any() {
        Ok(Any::Ext(raw)) => {
            assert!(rt; raw.tag() == tag);
            raw.lend()
        }
        _ => panic!(rt; "no extension"),
    }
}

#[test]
fn contents_of_any_kind(rt: HostRuntime) {
    let input = [0xa2u8, 0xff, 0x41, 0xc4, 1, 7, 0xd4, 0xff, 9, 0xd9, 5, 1];
    let mut de = reader(&rt, &input);
    gives(&rt, text(&rt, &mut de, 2), [0xffu8, 0x41].as_slice());
    gives_items(&rt, bytes(&rt, &mut de), &[7]);
    gives(&rt, extension(&rt, &mut de, -1), [9u8].as_slice());
    refused(&rt, text(&rt, &mut de, 5), NO_DATA);
}

// Opens the list that is ahead, whatever it is.
fn any_list<'x, 'de>(
    rt: &impl Abort,
    de: &'x mut SliceReader<'de>,
) -> SeqAccess<'x, ReadRefReader<'de>, DefaultConfig> {
    match de.deserialize_any() {
        Ok(Any::Seq(seq)) => seq,
        _ => panic!(rt; "no list"),
    }
}

#[test]
fn lists_of_any_kind(rt: HostRuntime) {
    let mut de = reader(&rt, &[0x91, 5, 0x91, 0x90]);
    let mut seq = any_list(&rt, &mut de);
    gives(&rt, element(&mut seq), Some(5));
    gives(&rt, end(seq), ());
    refused(
        &rt,
        end(any_list(&rt, &mut de)),
        "array had incorrect length, expected 0",
    );
}

#[test]
fn maps_of_any_kind(rt: HostRuntime) {
    let mut de = reader(&rt, &[0x81, 6, 7]);
    let Ok(Any::Map(mut map)) = de.deserialize_any() else {
        panic!(rt; "no map");
    };
    assert!(rt; matches!(&map.next_key_with(small), Ok(Some(6))));
    assert!(rt; matches!(&map.next_value_with(small), Ok(7)));
    assert!(rt; matches!(&map.next_key_with(small), Ok(None)));
    gives(&rt, map.end(), ());
    ahead(&rt, &de, &[]);
}
