//! Values from sources that lend nothing: one that gives a byte a pull, and cursors.
use super::rows::{
    FAILED_BEFORE, INVALID_TYPE, NO_DATA, NO_MARKER, gives, gives_items, gives_text, refused,
};
use faulty_io::Drip;
use rmp_decode::{Deserialize, Deserializer, Error, from_read, from_slice, read};
use rmp_wire::{AheadSource, ByteBuf, Ext, ReadReader};
use std::alloc::Global;
use std::collections::{BTreeMap, BTreeSet, VecDeque};
use std::io::Cursor;
use std::process::Abort;
use test_types::structs::Dog;

// A value from a source that gives one byte a pull.
fn dripped<'a, T: Deserialize<'a, ReadReader<Drip<'a>>>>(
    rt: &impl AllocGlobal,
    bytes: &'a [u8],
) -> Result<T, Error> {
    from_read(rt.alloc(), Drip::new(bytes, 1000))
}

type OverCursor<'a> = Deserializer<ReadReader<Cursor<&'a [u8]>>>;

fn over_cursor<'a>(rt: &impl AllocGlobal, input: &'a [u8]) -> OverCursor<'a> {
    Deserializer::new(rt.alloc(), Cursor::new(input))
}

fn buffers(de: &mut OverCursor) -> Result<(ByteBuf, ByteBuf), Error> {
    Deserialize::deserialize(de)
}

fn small(de: &mut OverCursor) -> Result<u8, Error> {
    de.deserialize_u8()
}

fn unit(de: &mut OverCursor) -> Result<(), Error> {
    de.deserialize_unit()
}

// So many bytes were read.
fn is_at(rt: &impl Abort, de: &OverCursor, position: u64) {
    assert_eq!(rt; de.position(), position);
}

fn are(read: &Result<(ByteBuf, ByteBuf), Error>, first: &[u8], second: &[u8]) -> bool {
    match read {
        Ok((one, other)) => one.as_bytes() == first && other.as_bytes() == second,
        Err(_) => false,
    }
}

#[test]
fn byte_buffers_over_a_cursor(rt: HostRuntime) {
    let mut de = over_cursor(&rt, b"\x92\xc4\x04quux\xc4\x03bar\x2a");
    is_at(&rt, &de, 0);
    assert!(rt; are(&buffers(&mut de), b"quux", b"bar"));
    is_at(&rt, &de, 12);
    gives(&rt, small(&mut de), 42);
    assert_eq!(rt; de.into_inner().position(), 13);
}

type Options = (Option<Option<u32>>, Option<Option<u32>>);

// The pair of options that a cursor over owned bytes gives, and its position then.
fn options(alloc: Global, input: &[u8]) -> Result<(Options, u64), Error> {
    let mut bytes = Vec::new(alloc);
    bytes.extend_from_slice(input)?;
    let mut de = Deserializer::new(alloc, Cursor::new(bytes));
    match Deserialize::deserialize(&mut de) {
        Ok(read) => Ok((read, de.position())),
        Err(e) => Err(e),
    }
}

#[test]
fn options_over_a_cursor(rt: HostRuntime) {
    let read = options(rt.alloc(), &[0x92, 0xc0, 0x0d]);
    gives(&rt, read, ((None, Some(Some(13))), 3));
}

#[test]
fn a_kept_byte_counts_as_read(rt: HostRuntime) {
    let mut de = over_cursor(&rt, &[0x0d, 0x2a]);
    let mut inside = 0;
    let read = de.deserialize_option_with(|de| {
        inside = de.position();
        de.deserialize_u8()
    });
    gives(&rt, read, Some(13));
    assert_eq!(rt; inside, 1);
    is_at(&rt, &de, 1);
}

// Sets the source's position.
fn set_position(de: &mut OverCursor, position: u64) {
    de.get_mut().set_position(position);
}

#[test]
fn the_source_is_shown_and_changed(rt: HostRuntime) {
    let mut de = over_cursor(&rt, &[0xc0]);
    gives(&rt, unit(&mut de), ());
    assert_eq!(rt; de.get_ref().position(), 1);
    set_position(&mut de, 0);
    gives(&rt, unit(&mut de), ());
    is_at(&rt, &de, 1);
    refused(&rt, unit(&mut de), NO_MARKER);
    // what has failed stays so, whatever the source has ahead then
    set_position(&mut de, 0);
    refused(&rt, unit(&mut de), FAILED_BEFORE);
    is_at(&rt, &de, 0);
}

fn text_from(rt: &impl AllocGlobal, source: &mut Drip) -> Result<String, Error> {
    from_read(rt.alloc(), source)
}

fn number_from(rt: &impl AllocGlobal, source: &mut Drip) -> Result<u8, Error> {
    from_read(rt.alloc(), source)
}

fn truth_from(rt: &impl AllocGlobal, source: &mut Drip) -> Result<bool, Error> {
    from_read(rt.alloc(), source)
}

#[test]
fn what_follows_stays_in_the_source(rt: HostRuntime) {
    let mut source = Drip::new(b"\xa3abc\x05\xc3\x07", 1000);
    gives_text(&rt, text_from(&rt, &mut source), "abc");
    gives(&rt, number_from(&rt, &mut source), 5);
    gives(&rt, truth_from(&rt, &mut source), true);
    assert_eq!(rt; source.rest, b"\x07".as_slice());
}

enum Wanted {
    Truth,
    Number,
    Owned,
    Lent,
    Character,
    Extension,
    Buffer,
}

// Reads what isn't there, and says how far the cursor was read.
fn passed(rt: &impl AllocGlobal, input: &[u8], wanted: Wanted) -> u64 {
    let mut de = over_cursor(rt, input);
    let is_read = match wanted {
        Wanted::Truth => de.deserialize_bool().is_ok(),
        Wanted::Number => de.deserialize_u32().is_ok(),
        Wanted::Owned => de.deserialize_string().is_ok(),
        Wanted::Lent => de.deserialize_str().is_ok(),
        Wanted::Character => de.deserialize_char().is_ok(),
        Wanted::Extension => de.deserialize_ext().is_ok(),
        Wanted::Buffer => de.deserialize_byte_buf().is_ok(),
    };
    if is_read { 0 } else { de.position() }
}

#[test]
fn a_refusal_leaves_what_follows(rt: HostRuntime) {
    assert_eq!(rt; passed(&rt, &[0xcd, 0x01, 0x00, 0xc3], Wanted::Truth), 3);
    assert_eq!(rt; passed(&rt, &[0xd0, 0xff, 0xc3], Wanted::Number), 2);
    assert_eq!(rt; passed(&rt, b"\xa2it\xc3", Wanted::Number), 1);
    assert_eq!(rt; passed(&rt, &[0xa2, 0x61, 0xff, 0xc3], Wanted::Owned), 3);
    assert_eq!(rt; passed(&rt, &[0xc4, 0x01, 0xff, 0xc3], Wanted::Owned), 3);
    assert_eq!(rt; passed(&rt, &[0x92, 0xc3, 0xc3], Wanted::Owned), 1);
    assert_eq!(rt; passed(&rt, b"\xa2it\xc3", Wanted::Lent), 3);
    assert_eq!(rt; passed(&rt, b"\xa2it\xc3", Wanted::Character), 3);
    assert_eq!(rt;
        passed(&rt, &[0xc4, 0x01, 0xff, 0xc3], Wanted::Extension),
        2
    );
    assert_eq!(rt; passed(&rt, &[0xc0, 0xc3], Wanted::Buffer), 1);
}

#[test]
fn a_refused_list_leaves_what_follows_the_item(rt: HostRuntime) {
    assert_eq!(rt;
        passed(&rt, &[0x93, 0x01, 0xcd, 0x01, 0x00, 0x05], Wanted::Buffer),
        5
    );
    assert_eq!(rt;
        passed(&rt, &[0x92, 0xa2, 0x61, 0x62, 0x05], Wanted::Buffer),
        2
    );
}

#[test]
fn no_more_than_the_byte_c1_is_consumed(rt: HostRuntime) {
    assert_eq!(rt; passed(&rt, &[0xc1, 0xc3], Wanted::Truth), 1);
    assert_eq!(rt; passed(&rt, &[0xc1, 0xc3], Wanted::Extension), 1);
    assert_eq!(rt; passed(&rt, &[0x92, 0x01, 0xc1, 0xc3], Wanted::Buffer), 3);
    // The byte was kept back, and what follows is buffered.
    let cursor = Cursor::new(b"\xc1\xc3".as_slice());
    let mut de = Deserializer::new(rt.alloc(), AheadSource::new(rt.alloc(), cursor));
    assert!(rt; de.next::<bool>().is_err());
    assert_eq!(rt; de.get_ref().buffer(), b"\xc3".as_slice());
}

fn queue_of(rt: &impl AllocGlobal, bytes: &[u8]) -> Result<(usize, Option<Option<bool>>), Error> {
    match dripped::<VecDeque<Option<bool>>>(rt, bytes) {
        Ok(queue) => Ok((queue.len(), queue.get(2).copied())),
        Err(e) => Err(e),
    }
}

fn map_of(rt: &impl AllocGlobal, bytes: &[u8]) -> Result<(usize, Option<i16>), Error> {
    match dripped::<BTreeMap<String, i16>>(rt, bytes) {
        Ok(map) => Ok((map.len(), map.get("b").copied())),
        Err(e) => Err(e),
    }
}

fn size_of_set(rt: &impl AllocGlobal, bytes: &[u8]) -> Result<usize, Error> {
    match dripped::<BTreeSet<u8>>(rt, bytes) {
        Ok(set) => Ok(set.len()),
        Err(e) => Err(e),
    }
}

fn number_of_lists(rt: &impl AllocGlobal, bytes: &[u8]) -> Result<usize, Error> {
    match dripped::<Vec<Vec<u16>>>(rt, bytes) {
        Ok(lists) => Ok(lists.len()),
        Err(e) => Err(e),
    }
}

#[test]
fn lists_and_maps_by_the_byte(rt: HostRuntime) {
    gives_items(
        &rt,
        dripped(&rt, b"\x93\x01\xcd\x01\x00\xce\x00\x01\x00\x00"),
        &[1u32, 256, 65536],
    );
    gives_items(&rt, dripped(&rt, b"\xc4\x03abc"), b"abc");
    gives(
        &rt,
        queue_of(&rt, b"\x93\xc2\xc0\xc3"),
        (3, Some(Some(true))),
    );
    gives(
        &rt,
        map_of(&rt, b"\x82\xa1a\xff\xa1b\xd1\x80\x00"),
        (2, Some(-32768)),
    );
    gives(&rt, size_of_set(&rt, b"\x93\x03\x01\x03"), 2);
    gives(&rt, dripped(&rt, b"\xc4\x02\x07\x08"), [7u8, 8]);
    gives(&rt, number_of_lists(&rt, b"\x92\x91\x07\x90"), 2);
}

// The text after the number 42.
fn text_of(rt: &impl AllocGlobal, bytes: &[u8]) -> Result<String, Error> {
    match dripped::<(u32, String)>(rt, bytes) {
        Ok((42, text)) => Ok(text),
        Ok(_) => Err(Error::OutOfRange),
        Err(e) => Err(e),
    }
}

fn is_bobby(read: &Result<Dog, Error>) -> bool {
    matches!(read, Ok(dog) if dog.name.as_str() == "Bobby" && dog.age == 8 && dog.weight.grams == 1)
}

fn is_ext(read: &Result<Ext, Error>, tag: i8, content: &[u8]) -> bool {
    matches!(read, Ok(ext) if ext.tag() == tag && ext.as_bytes() == content)
}

fn boxed(rt: &impl AllocGlobal, bytes: &[u8]) -> Result<char, Error> {
    match dripped::<Box<char>>(rt, bytes) {
        Ok(c) => Ok(*c),
        Err(e) => Err(e),
    }
}

#[test]
fn texts_and_structs_by_the_byte(rt: HostRuntime) {
    gives_text(&rt, text_of(&rt, b"\x92\x2a\xa3the"), "the");
    let dog = b"\x84\xa1\x78\x81\x05\x90\xa3age\x08\xa6weight\x01\xa4name\xa5Bobby";
    assert!(rt; is_bobby(&dripped(&rt, dog)));
    assert!(rt; is_ext(&dripped(&rt, b"\xd5\xff\x01\x02"), -1, &[1, 2]));
    gives(&rt, boxed(&rt, b"\xa2\xc3\xa9"), 'é');
    let wide = b"\xc4\x10\xff\xff\xff\xff\xff\xff\xff\xff\xff\xff\xff\xff\xff\xff\xff\xfe";
    gives(&rt, dripped(&rt, wide), -2i128);
}

fn length_of_text(rt: &impl AllocGlobal, bytes: &[u8]) -> Result<usize, Error> {
    match dripped::<String>(rt, bytes) {
        Ok(text) => Ok(text.len()),
        Err(e) => Err(e),
    }
}

// Longer than one pull of a piece.
#[test]
fn a_long_text_by_the_byte(rt: HostRuntime) {
    let mut long = [b'x'; 303];
    long[0] = 0xda;
    long[1] = 0x01;
    long[2] = 0x2c;
    gives(&rt, length_of_text(&rt, &long), 300);
}

#[test]
fn what_lends_nothing_refuses_what_borrows(rt: HostRuntime) {
    refused::<&str>(&rt, dripped(&rt, b"\xa1a"), INVALID_TYPE);
    refused::<(u8, &str)>(&rt, dripped(&rt, b"\x92\x05\xa1a"), INVALID_TYPE);
}

const LATE_MARKER: &str = "IO error while reading marker: timed out";

const LATE_DATA: &str = "IO error while reading data: timed out";

fn pair(rt: &impl AllocGlobal, bytes: &[u8]) -> Result<(u16, String), Error> {
    dripped(rt, bytes)
}

fn pair_from(rt: &impl AllocGlobal, source: &mut Drip) -> Result<(u16, String), Error> {
    from_read(rt.alloc(), source)
}

#[test]
fn ends_and_faults_are_distinct(rt: HostRuntime) {
    let whole = b"\x92\xcd\x01\x02\xa2hi".as_slice();
    for n in 0..whole.len() {
        let (ended, late) = if n < 2 || n == 4 {
            (NO_MARKER, LATE_MARKER)
        } else {
            (NO_DATA, LATE_DATA)
        };
        refused(&rt, pair(&rt, &whole[..n]), ended);
        let mut source = Drip::new(whole, n);
        refused(&rt, pair_from(&rt, &mut source), late);
        assert_eq!(rt; source.faults, 1);
    }
}

fn from_the_slice(rt: &impl AllocGlobal, row: &[u8]) -> Result<Vec<u8>, Error> {
    from_slice(rt.alloc(), row)
}

// The two reads answer the same.
fn are_alike(
    rt: &(impl Abort + AllocGlobal),
    lent: Result<Vec<u8>, Error>,
    copied: Result<Vec<u8>, Error>,
) {
    match lent {
        Ok(items) => gives_items(rt, copied, &items),
        Err(e) => {
            let why = format!(in rt.alloc(); "{e}").expect(rt, "memory");
            refused(rt, copied, why.as_str());
        }
    }
}

#[test]
fn a_reader_answers_as_the_slice_does(rt: HostRuntime) {
    for row in [
        b"\x93\x01\x02\x03".as_slice(),
        b"\x92\x05\xcc\xff",
        b"\xc4\x02\x01\xff",
        b"\x91\xc1",
        b"\x92\x05",
        b"\x91\xcd\x01\x00",
        b"\xa1a",
        b"\xdd\xff\xff\xff\xff\x01",
    ] {
        are_alike(&rt, from_the_slice(&rt, row), dripped(&rt, row));
    }
}

// A value that lives on when the reader is gone.
fn owned(alloc: Global, bytes: &[u8]) -> Result<String, Error> {
    let mut de = Deserializer::new(alloc, Cursor::new(bytes));
    let read: Result<String, Error> = Deserialize::deserialize(&mut de);
    read
}

#[test]
fn a_text_outlives_the_reader(rt: HostRuntime) {
    gives_text(&rt, owned(rt.alloc(), b"\xa2hi"), "hi");
}

// A pair whose text lives on when the reader is gone, as long as the bytes that it is lent from.
fn lent(alloc: Global, bytes: &[u8]) -> Result<(u8, &str), Error> {
    let mut de = Deserializer::from_read_ref(alloc, bytes);
    Deserialize::deserialize(&mut de)
}

#[test]
fn a_lent_text_outlives_the_reader(rt: HostRuntime) {
    gives(&rt, lent(rt.alloc(), b"\x92\x05\xa2hi"), (5, "hi"));
}

// A source that is lent is left at the byte after each message, and a refusal takes nothing past what it read.
#[test]
fn a_lent_source_is_left_after_each_message(rt: HostRuntime) {
    let mut messages = b"\x2a\xa2it\xc3\xc0".as_slice();
    gives::<u8>(&rt, read(rt.alloc(), &mut messages), 42);
    gives_text(&rt, read(rt.alloc(), &mut messages), "it");
    refused::<u8>(&rt, read(rt.alloc(), &mut messages), INVALID_TYPE);
    assert_eq!(rt; messages, b"\xc0".as_slice());
}
