//! Each pull of each read failed in turn, each input cut after each of its bytes, and the byte c1 where each head begins.
use super::rows::{FAILED_BEFORE, NO_DATA, NO_MARKER, RESERVED, refused};
use faulty_io::Drip;
use rmp_decode::{Any, Deserialize, Deserializer, Error};
use rmp_serde::{Raw, Value};
use rmp_wire::{ReadReader, ReadSlice};
use std::alloc::Global;
use std::collections::{BTreeMap, BTreeSet};
use std::io::Cursor;
use std::process::Abort;
use test_derived::{Dog, V12};

const LATE_MARKER: &str = "IO error while reading marker: timed out";

const LATE_DATA: &str = "IO error while reading data: timed out";

// What each of the reads below takes, and where its heads begin.
const TAKEN: [(&[u8], &[usize]); 44] = [
    (b"\xc0", &[0]),
    (b"\xc3", &[0]),
    (b"\xcc\xc8", &[0]),
    (b"\xcd\x01\x2c", &[0]),
    (b"\xce\x00\x01\x88\x94", &[0]),
    (b"\xcf\x00\x00\x00\x01\x00\x00\x00\x00", &[0]),
    (b"\xd0\xdf", &[0]),
    (b"\xd1\xff\x7f", &[0]),
    (b"\xd2\xff\xff\x7f\xff", &[0]),
    (b"\xd3\xff\xff\xff\xff\x7f\xff\xff\xff", &[0]),
    (b"\xca\x3f\xc0\x00\x00", &[0]),
    (b"\xcb\x40\x45\x00\x00\x00\x00\x00\x00", &[0]),
    (
        b"\xc4\x10\xff\xff\xff\xff\xff\xff\xff\xff\xff\xff\xff\xff\xff\xff\xff\xfe",
        &[0],
    ),
    (
        b"\xc4\x10\x00\x00\x00\x00\x00\x00\x00\x00\x00\x00\x00\x00\x00\x00\x01\x2c",
        &[0],
    ),
    (b"\xcd\x01\x2c", &[0]),
    (b"\xa2\xc3\xa9", &[0]),
    (b"\xaathe Answer", &[0]),
    (b"\xc4\x03\x00\xc1\xff", &[0]),
    (b"\x92\xcc\xc8\x05", &[0, 1, 3]),
    (b"\xa2\xff\xfe", &[0]),
    (b"\xc7\x03\x02\x01\x02\x03", &[0]),
    (b"\x90", &[0]),
    (b"\xcd\x01\x2c", &[0]),
    (b"\xcd\x01\x2c", &[0]),
    (b"\xcd\x01\x2c", &[0]),
    (b"\xa3age", &[0]),
    (b"\x92\x81\x05\xa1a\xd5\x01\x02\x03", &[0, 1, 2, 3, 5]),
    (b"\x92\xcd\x01\x2c\x05", &[0, 1, 4]),
    (b"\xc4\x02\x01\xc8", &[0]),
    (b"\x92\xcd\x01\x2c\xcd\x01\x2c", &[0, 1, 4]),
    (b"\x92\xcd\x01\x2c\xcd\x01\x2c", &[0, 1, 4]),
    (b"\x81\xa1a\xcd\x01\x2c", &[0, 1, 3]),
    (b"\x81\xa1a\xcd\x01\x2c", &[0, 1, 3]),
    (b"\x82\xa1x\x91\x05\xa1a\xcd\x01\x2c", &[0, 1, 3, 4, 5, 7]),
    (b"\x91\xcd\x01\x2c", &[0, 1]),
    (
        b"\xa2V1\x81\xa2V2\x92\x2a\xce\x00\x01\x88\x94",
        &[0, 3, 4, 7, 8, 9],
    ),
    (
        b"\x83\xa1x\x81\x05\x90\xa3age\x08\xa4name\xa5Bobby",
        &[0, 1, 3, 4, 5, 6, 10, 11, 16],
    ),
    (b"\x92\x2a\xaathe Answer", &[0, 1, 2]),
    (b"\x92\xcd\x01\x2c\x05", &[0, 1, 4]),
    (b"\x92\x05\xcd\x01\x2c", &[0, 1, 2]),
    (b"\x92\x05\xcd\x01\x2c", &[0, 1, 2]),
    (b"\x82\x05\xa1a\x06\xa1b", &[0, 1, 2, 4, 5]),
    (
        b"\x93\xca\x00\x00\x00\x01\xc4\x01\x07\x81\xa1a\xd5\x05\x01\x02",
        &[0, 1, 6, 9, 10, 12],
    ),
    (b"\xa2\xff\xfe", &[0]),
];

// What a read answers, but for the value.
fn done<T: Drop>(read: Result<T, Error>) -> Result<(), Error> {
    match read {
        Ok(_) => Ok(()),
        Err(e) => Err(e),
    }
}

fn value<'de, R: ReadSlice<'de>, T: Deserialize<'de, R> + Drop>(
    de: &mut Deserializer<R>,
) -> Result<(), Error> {
    done(T::deserialize(de))
}

fn take<'de, R: ReadSlice<'de>>(de: &mut Deserializer<R>, at: usize) -> Result<(), Error> {
    match at {
        0 => de.deserialize_unit(),
        1 => done(de.deserialize_bool()),
        2 => done(de.deserialize_u8()),
        3 => done(de.deserialize_u16()),
        4 => done(de.deserialize_u32()),
        5 => done(de.deserialize_u64()),
        6 => done(de.deserialize_i8()),
        7 => done(de.deserialize_i16()),
        8 => done(de.deserialize_i32()),
        9 => done(de.deserialize_i64()),
        10 => done(de.deserialize_f32_bits()),
        11 => done(de.deserialize_f64_bits()),
        12 => done(de.deserialize_i128()),
        13 => done(de.deserialize_u128()),
        14 => done(de.deserialize_u128()),
        15 => done(de.deserialize_char()),
        16 => done(de.deserialize_string()),
        17 => done(de.deserialize_byte_buf()),
        18 => done(de.deserialize_byte_buf()),
        19 => done(de.deserialize_raw()),
        20 => done(de.deserialize_ext()),
        _ => take_more(de, at),
    }
}

fn take_more<'de, R: ReadSlice<'de>>(de: &mut Deserializer<R>, at: usize) -> Result<(), Error> {
    match at {
        21 => de.deserialize_unit_struct("Nothing"),
        22 => done(de.deserialize_newtype_struct::<u64>("Meters")),
        23 => done(de.deserialize_option::<u16>()),
        24 => done(de.deserialize_option_with(|de| de.deserialize_u16())),
        25 => done(de.deserialize_identifier(&["name", "age"])),
        26 => de.deserialize_ignored_any(),
        27 | 28 => take_elements(de),
        29 => take_tuple(de),
        30 => take_any_list(de),
        31 => take_map(de),
        32 => take_map_with(de),
        33 | 34 => take_fields(de),
        35 => {
            value::<R, V12>(de)?;
            value::<R, V12>(de)
        }
        36 => value::<R, Dog>(de),
        37 => value::<R, (u32, String)>(de),
        38 => value::<R, Vec<u16>>(de),
        39 => value::<R, [u16; 2]>(de),
        40 => value::<R, BTreeSet<u16>>(de),
        41 => value::<R, BTreeMap<u8, String>>(de),
        42 => value::<R, Value>(de),
        _ => value::<R, Raw>(de),
    }
}

fn take_elements<'de, R: ReadSlice<'de>>(de: &mut Deserializer<R>) -> Result<(), Error> {
    let mut seq = de.deserialize_seq()?;
    while let Some(_) = seq.next_element::<u16>()? {}
    seq.end()
}

fn take_tuple<'de, R: ReadSlice<'de>>(de: &mut Deserializer<R>) -> Result<(), Error> {
    let mut seq = de.deserialize_tuple(2)?;
    let _: u16 = seq.element()?;
    let _ = seq.next_element_with(|de| de.deserialize_u16())?;
    seq.end()
}

fn take_any_list<'de, R: ReadSlice<'de>>(de: &mut Deserializer<R>) -> Result<(), Error> {
    match de.deserialize_any()? {
        Any::Seq(mut seq) => {
            while let Some(_) = seq.next_element::<u16>()? {}
            seq.end()
        }
        _ => Err(Error::OutOfRange),
    }
}

fn take_map<'de, R: ReadSlice<'de>>(de: &mut Deserializer<R>) -> Result<(), Error> {
    let mut map = de.deserialize_map()?;
    while let Some(_) = map.next_key::<String>()? {
        let _: u16 = map.next_value()?;
    }
    map.end()
}

fn take_map_with<'de, R: ReadSlice<'de>>(de: &mut Deserializer<R>) -> Result<(), Error> {
    let mut map = de.deserialize_map()?;
    while let Some(_) = map.next_key_with(|de| de.deserialize_raw())? {
        let _ = map.next_value_with(|de| de.deserialize_u16())?;
    }
    map.end()
}

fn take_fields<'de, R: ReadSlice<'de>>(de: &mut Deserializer<R>) -> Result<(), Error> {
    let mut fields = de.deserialize_struct("S", &["a"])?;
    while let Some(_) = fields.next_field()? {
        let _: u16 = fields.next_value()?;
    }
    fields.end()
}

// A read is refused in these words, strictly or not, and its reader has failed for good.
fn fails<'de, R: ReadSlice<'de>>(
    rt: &(impl Abort + AllocGlobal),
    de: &mut Deserializer<R>,
    at: usize,
    why: &str,
) {
    refused(rt, take(de, at), why);
    refused(rt, de.deserialize_bool(), FAILED_BEFORE);
    refused(rt, take(de, at), FAILED_BEFORE);
}

type Dripped<'a> = Deserializer<ReadReader<Drip<'a>>>;

fn dripped<'a>(alloc: Global, input: &'a [u8], pulls: usize, is_strict: bool) -> Dripped<'a> {
    let mut de = Deserializer::new(alloc, Drip::new(input, pulls));
    de.set_strict(is_strict);
    de
}

// The read is refused in these words from a slice, from a cursor and by a source that gives a byte a pull.
fn all_fail(rt: &(impl Abort + AllocGlobal), input: &[u8], at: usize, is_strict: bool, why: &str) {
    let mut de = Deserializer::from_read_ref(rt.alloc(), input);
    de.set_strict(is_strict);
    fails(rt, &mut de, at, why);
    let mut de = Deserializer::new(rt.alloc(), Cursor::new(input));
    de.set_strict(is_strict);
    fails(rt, &mut de, at, why);
    fails(
        rt,
        &mut dripped(rt.alloc(), input, usize::MAX, is_strict),
        at,
        why,
    );
}

// The source fails at this pull: the read tells of it, nothing more is pulled, and the byte that was wanted is still there.
fn pull_fails(rt: &(impl Abort + AllocGlobal), pull: usize, at: usize, is_strict: bool) {
    let (whole, heads) = TAKEN[at];
    let why = if heads.contains(&pull) {
        LATE_MARKER
    } else {
        LATE_DATA
    };
    let mut de = dripped(rt.alloc(), whole, pull, is_strict);
    fails(rt, &mut de, at, why);
    assert_eq!(rt; de.get_ref().faults, 1, "read {at} at {pull}");
    assert!(rt; de.get_ref().rest == &whole[pull..], "read {at} at {pull}");
}

// The read takes all from each of them, and the next one ends before it.
fn all_take(rt: &(impl Abort + AllocGlobal), at: usize, is_strict: bool) {
    let whole = TAKEN[at].0;
    let mut de = Deserializer::from_read_ref(rt.alloc(), whole);
    de.set_strict(is_strict);
    assert!(rt; take(&mut de, at).is_ok(), "read {at}");
    fails(rt, &mut de, at, NO_MARKER);
    let mut de = Deserializer::new(rt.alloc(), Cursor::new(whole));
    de.set_strict(is_strict);
    assert!(rt; take(&mut de, at).is_ok(), "read {at}");
    assert_eq!(rt; de.position(), whole.len() as u64, "read {at}");
    fails(rt, &mut de, at, NO_MARKER);
    let mut de = dripped(rt.alloc(), whole, whole.len(), is_strict);
    assert!(rt; take(&mut de, at).is_ok(), "read {at}");
    assert!(rt; de.get_ref().rest.is_empty(), "read {at}");
    fails(rt, &mut de, at, LATE_MARKER);
}

// The input with the byte c1 at this place.
fn spoiled(alloc: Global, input: &[u8], place: usize) -> Result<Vec<u8>, Error> {
    let mut bytes = Vec::new(alloc);
    bytes.extend_from_slice(input)?;
    bytes[place] = 0xc1;
    Ok(bytes)
}

#[test]
fn each_read_takes_all(rt: HostRuntime) {
    for at in 0..TAKEN.len() {
        all_take(&rt, at, false);
        all_take(&rt, at, true);
    }
}

#[test]
fn each_pull_of_each_read_fails(rt: HostRuntime) {
    for (at, (whole, _)) in TAKEN.iter().enumerate() {
        for pull in 0..whole.len() {
            pull_fails(&rt, pull, at, false);
            pull_fails(&rt, pull, at, true);
        }
    }
}

#[test]
fn each_beginning_is_refused(rt: HostRuntime) {
    for (at, (whole, heads)) in TAKEN.iter().enumerate() {
        for len in 0..whole.len() {
            let why = if heads.contains(&len) {
                NO_MARKER
            } else {
                NO_DATA
            };
            all_fail(&rt, &whole[..len], at, false, why);
            all_fail(&rt, &whole[..len], at, true, why);
        }
    }
}

#[test]
fn the_byte_c1_is_refused_wherever_a_head_begins(rt: HostRuntime) -> Result<(), Error> {
    for (at, (whole, heads)) in TAKEN.iter().enumerate() {
        for place in *heads {
            let input = spoiled(rt.alloc(), whole, *place)?;
            all_fail(&rt, input.as_slice(), at, false, RESERVED);
            all_fail(&rt, input.as_slice(), at, true, RESERVED);
        }
    }
    Ok(())
}
