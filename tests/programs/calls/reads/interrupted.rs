//! Readers whose calls are interrupted.
use super::rows::{
    FAILED_BEFORE, INVALID_VALUE, NO_MARKER, RESERVED, gives, gives_items, gives_text, refused,
};
use rmp_decode::{Deserialize, Deserializer, Error, from_read};
use rmp_wire::{ByteBuf, IoSource, ReadReader, Source};
use std::io;
use std::io::{ErrorKind, Read};
use test_types::structs::Dog;

// How often a call is tried again.
const RETRIES: u32 = 16;

// Gives one byte a call, and is interrupted as often as a call is tried again before each, and once more where so many are left.
#[derive(Drop)]
struct Interrupting<'a> {
    rest: &'a [u8],
    stubborn: usize,
    left: u32,
    calls: u64,
}

impl<'a> Interrupting<'a> {
    fn new(rest: &'a [u8], stubborn: usize) -> Self {
        let mut reader = Interrupting {
            rest,
            stubborn,
            left: 0,
            calls: 0,
        };
        reader.prepare();
        reader
    }

    // Sets how often it is interrupted before the next byte.
    fn prepare(&mut self) {
        self.left = if self.rest.len() == self.stubborn {
            RETRIES + 1
        } else {
            RETRIES
        };
    }
}

impl Read for Interrupting<'_> {
    fn read(&mut self, buf: &mut [u8]) -> Result<usize, io::Error> {
        self.calls = self.calls.wrapping_add(1);
        if self.left > 0 {
            self.left -= 1;
            return Err(io::Error::from(ErrorKind::Interrupted));
        }
        match (self.rest, buf) {
            ([first, rest @ ..], [place, ..]) => {
                *place = *first;
                self.rest = rest;
                self.prepare();
                Ok(1)
            }
            _ => Ok(0),
        }
    }
}

// A value whose every byte comes at the last try.
fn patient<'a, T: Deserialize<'a, ReadReader<IoSource<Interrupting<'a>>>>>(
    rt: &impl AllocGlobal,
    bytes: &'a [u8],
) -> Result<T, Error> {
    from_read(
        rt.alloc(),
        IoSource::new(Interrupting::new(bytes, usize::MAX)),
    )
}

fn text_after(number: u16, pair: Result<(u16, String), Error>) -> Result<String, Error> {
    match pair {
        Ok((n, text)) if n == number => Ok(text),
        Ok(_) => Err(Error::OutOfRange),
        Err(e) => Err(e),
    }
}

fn bytes_of(read: Result<ByteBuf, Error>) -> Result<Vec<u8>, Error> {
    match read {
        Ok(bytes) => Ok(bytes.into_vec()),
        Err(e) => Err(e),
    }
}

fn name_and_age(read: &Result<Dog, Error>) -> Option<(&str, u16)> {
    match read {
        Ok(dog) => Some((dog.name.as_str(), dog.age)),
        Err(_) => None,
    }
}

#[test]
fn interruptions_lose_nothing(rt: HostRuntime) {
    gives(&rt, patient(&rt, b"\xc0"), ());
    gives_text(
        &rt,
        text_after(258, patient(&rt, b"\x92\xcd\x01\x02\xa2hi")),
        "hi",
    );
    gives_items(
        &rt,
        patient(&rt, b"\x93\xc0\xd3\xff\xff\xff\xff\xff\xff\xff\xfe\x05"),
        &[None, Some(-2i64), Some(5)],
    );
    gives_items(
        &rt,
        bytes_of(patient(&rt, b"\xc4\x03\x00\xc1\xff")),
        &[0, 0xc1, 0xff],
    );
    let dog = patient(&rt, b"\x83\xa1\x78\x81\x05\x90\x00\xa5Bobby\x01\x08");
    assert!(rt; name_and_age(&dog) == Some(("Bobby", 8)));
}

#[test]
fn interruptions_refuse_nothing_else(rt: HostRuntime) {
    refused::<u8>(&rt, patient(&rt, b"\xcd\x01\x00"), INVALID_VALUE);
    refused::<(u8, u8)>(&rt, patient(&rt, b"\x92\x05\xc1"), RESERVED);
    refused::<(u8, u8)>(&rt, patient(&rt, b"\x92\x05"), NO_MARKER);
}

const INTERRUPTED_MARKER: &str = "IO error while reading marker: operation interrupted";

const INTERRUPTED_DATA: &str = "IO error while reading data: operation interrupted";

type Interrupted<'a> = Deserializer<ReadReader<IoSource<Interrupting<'a>>>>;

fn stubborn<'a>(rt: &impl AllocGlobal, bytes: &'a [u8], at: usize) -> Interrupted<'a> {
    let inner = Interrupting::new(bytes, bytes.len().saturating_sub(at));
    Deserializer::new(rt.alloc(), IoSource::new(inner))
}

// Reads a pair of a number and a text.
fn pair(de: &mut Interrupted) -> Result<(u16, String), Error> {
    Deserialize::deserialize(de)
}

fn small(de: &mut Interrupted) -> Result<u8, Error> {
    de.deserialize_u8()
}

fn calls(de: &Interrupted) -> u64 {
    de.get_ref().get_ref().calls
}

// The next byte of the reader's source.
fn byte_after(de: Interrupted) -> Option<u8> {
    let mut byte = [0];
    let mut source = de.into_inner();
    match source.pull(&mut byte) {
        Ok(1) => Some(byte[0]),
        _ => None,
    }
}

// One interruption more than is tried again is a fault, wherever it comes. It is told once: the reader then fails for good, and
// calls no more. The byte that was wanted is still there.
#[test]
fn the_seventeenth_is_told_once(rt: HostRuntime) {
    let whole = b"\x92\xcd\x01\x02\xa2hi".as_slice();
    for n in 0..whole.len() {
        let mut de = stubborn(&rt, whole, n);
        let why = if n < 2 || n == 4 {
            INTERRUPTED_MARKER
        } else {
            INTERRUPTED_DATA
        };
        refused(&rt, pair(&mut de), why);
        assert_eq!(rt; calls(&de), (n as u64 + 1) * 17);
        for _ in 0..3 {
            refused(&rt, small(&mut de), FAILED_BEFORE);
        }
        assert_eq!(rt; calls(&de), (n as u64 + 1) * 17);
        assert!(rt; byte_after(de) == whole.get(n).copied(), "at {n}");
    }
}

fn number_from(rt: &impl AllocGlobal, source: &mut IoSource<Interrupting>) -> Result<u8, Error> {
    from_read(rt.alloc(), source)
}

fn text_from(rt: &impl AllocGlobal, source: &mut IoSource<Interrupting>) -> Result<String, Error> {
    from_read(rt.alloc(), source)
}

fn truth_from(rt: &impl AllocGlobal, source: &mut IoSource<Interrupting>) -> Result<bool, Error> {
    from_read(rt.alloc(), source)
}

fn left_and_calls(source: &IoSource<Interrupting>) -> (usize, u64) {
    let inner = source.get_ref();
    (inner.rest.len(), inner.calls)
}

// The same by `from_read`, which gives nothing back but what the source keeps: the next one reads on.
#[test]
fn a_second_try_reads_on(rt: HostRuntime) {
    let mut source = IoSource::new(Interrupting::new(b"\x05\xa2hi\xc3", 4));
    gives(&rt, number_from(&rt, &mut source), 5);
    refused(&rt, text_from(&rt, &mut source), INTERRUPTED_MARKER);
    gives_text(&rt, text_from(&rt, &mut source), "hi");
    gives(&rt, truth_from(&rt, &mut source), true);
    // 17 calls a byte and for the message that was refused, whose first byte then comes at once
    assert_eq!(rt; left_and_calls(&source), (0, 5 * 17 + 1));
}
