//! The messages of a source up to its end, and what is said of an end inside of one.
use faulty_io::Drip;
use rmp_serde::decode::{Deserialize, Error, Text};
use rmp_serde::wire::{ByteBuf, IoFault, ReadReader, ReadRefReader, ReadSlice};
use rmp_serde::{Deserializer, Marker, Value, from_slice, message_len};
use std::collections::BTreeMap;
use std::io::{Cursor, ErrorKind};
use std::process::Abort;

// A record of 23 bytes: a map of a name, a list and a number.
const RECORD: &[u8] = b"\x83\xa4name\xa3ada\xa4list\x92\x01\xc0\xa1n\xcd\x01\x00";

// How a loop ended: at the end of the source, at an error that says that the input is incomplete, or at another.
#[derive(Clone, Copy, Debug, PartialEq)]
enum Ended {
    Clean,
    Incomplete,
    Wrong,
}

// Reads records up to the end or an error, and says how many there were, and how it ended.
fn records<'de, R: ReadSlice<'de> + Drop>(mut de: Deserializer<R>) -> (usize, Ended)
where
    Value: Deserialize<'de, R>,
{
    for count in 0..10 {
        match de.next::<Value>() {
            Ok(Some(_)) => {}
            Ok(None) => return (count, Ended::Clean),
            Err(e) if e.is_incomplete() => return (count, Ended::Incomplete),
            Err(_) => return (count, Ended::Wrong),
        }
    }
    (10, Ended::Wrong)
}

fn over_slice(rt: &impl AllocGlobal, input: &[u8]) -> (usize, Ended) {
    records(Deserializer::from_read_ref(rt.alloc(), input))
}

fn over_cursor(rt: &impl AllocGlobal, input: &[u8]) -> (usize, Ended) {
    records(Deserializer::new(rt.alloc(), Cursor::new(input)))
}

fn over_drip(rt: &impl AllocGlobal, input: &[u8], until_fault: usize) -> (usize, Ended) {
    records(Deserializer::new(rt.alloc(), Drip::new(input, until_fault)))
}

// The same by the iterator.
fn over_messages(rt: &impl AllocGlobal, input: &[u8]) -> (usize, Ended) {
    let mut de = Deserializer::from_read_ref(rt.alloc(), input);
    let mut count = 0;
    for record in de.messages::<Value>() {
        match record {
            Ok(_) => count += 1,
            Err(e) if e.is_incomplete() => return (count, Ended::Incomplete),
            Err(_) => return (count, Ended::Wrong),
        }
    }
    (count, Ended::Clean)
}

// Two records, of which the second is cut to so many bytes.
fn cut_log(rt: &(impl AllocGlobal + Abort), cut: usize) -> Vec<u8> {
    let mut log = Vec::from_slice(rt.alloc(), RECORD).expect(rt, "memory");
    log.extend_from_slice(&RECORD[..cut]).expect(rt, "memory");
    log
}

#[test]
fn each_cut_is_told_from_the_end(rt: HostRuntime) {
    for cut in 0..RECORD.len() {
        let log = cut_log(&rt, cut);
        let ended = if cut == 0 {
            (1, Ended::Clean)
        } else {
            (1, Ended::Incomplete)
        };
        assert_eq!(rt; over_slice(&rt, log.as_slice()), ended);
        assert_eq!(rt; over_messages(&rt, log.as_slice()), ended);
        assert_eq!(rt; over_cursor(&rt, log.as_slice()), ended);
        assert_eq!(rt; over_drip(&rt, log.as_slice(), 1000), ended);
    }
    let log = cut_log(&rt, RECORD.len());
    assert_eq!(rt; over_slice(&rt, log.as_slice()), (2, Ended::Clean));
    assert_eq!(rt; over_messages(&rt, log.as_slice()), (2, Ended::Clean));
    assert_eq!(rt; over_cursor(&rt, log.as_slice()), (2, Ended::Clean));
    assert_eq!(rt; over_drip(&rt, log.as_slice(), 1000), (2, Ended::Clean));
}

#[test]
fn a_fault_is_no_end(rt: HostRuntime) {
    for until_fault in 0..RECORD.len() {
        assert_eq!(rt; over_drip(&rt, RECORD, until_fault), (0, Ended::Wrong));
    }
    assert_eq!(rt; over_drip(&rt, RECORD, RECORD.len()), (1, Ended::Wrong));
}

#[test]
fn the_end_may_be_asked_for_again(rt: HostRuntime) {
    let mut de = Deserializer::new(rt.alloc(), Cursor::new([0x2a].as_slice()));
    assert!(rt; matches!(de.next::<u8>(), Ok(Some(42))));
    assert!(rt; matches!(de.next::<u8>(), Ok(None)));
    assert!(rt; matches!(de.next::<u8>(), Ok(None)));
    assert_eq!(rt; de.position(), 1);
    *de.get_mut() = Cursor::new([0x07].as_slice());
    assert!(rt; matches!(de.next::<u8>(), Ok(Some(7))));
}

#[test]
fn after_an_error_nothing_is_next(rt: HostRuntime) {
    let mut de = Deserializer::from_read_ref(rt.alloc(), b"\xc0\x01");
    assert!(rt; matches!(de.next::<u8>(), Err(Error::Syntax(Text::InvalidType))));
    assert!(rt;
        matches!(
            de.next::<u8>(),
            Err(Error::Uncategorized(Text::FailedBefore))
        )
    );
}

#[test]
fn only_an_end_is_incomplete(rt: HostRuntime) {
    let end = IoFault::from(ErrorKind::UnexpectedEof);
    let fault = IoFault::from(ErrorKind::TimedOut);
    assert!(rt; Error::InvalidMarkerRead(end).is_incomplete());
    assert!(rt; Error::InvalidDataRead(end).is_incomplete());
    assert!(rt; !Error::InvalidMarkerRead(fault).is_incomplete());
    assert!(rt; !Error::InvalidDataRead(fault).is_incomplete());
    assert!(rt; !Error::TypeMismatch(Marker::Reserved).is_incomplete());
    assert!(rt; !Error::OutOfMemory.is_incomplete());
}

// Whether a read of the type says of no beginning of these bytes that it is incomplete, but where more bytes may complete a message.
fn ends_inside<'de, T: Deserialize<'de, ReadRefReader<'de>>>(
    rt: &impl AllocGlobal,
    whole: &'de [u8],
) -> bool {
    for len in 0..=whole.len() {
        let cut = &whole[..len];
        let read: Result<T, Error> = from_slice(rt.alloc(), cut);
        let incomplete = matches!(read, Err(e) if e.is_incomplete());
        if incomplete && !matches!(message_len(cut), Ok(None)) {
            return false;
        }
    }
    true
}

#[test]
fn a_typed_read_ends_inside_of_a_message(rt: HostRuntime) {
    let messages: [&[u8]; 5] = [
        RECORD,
        b"\x93\x01\xa2it\x92\xcd\x01\x00\xc0",
        b"\xc4\x03\x01\x02\x03",
        b"\x92\xc1\x01",
        b"\x81\xa1k\x90",
    ];
    for message in messages {
        assert!(rt; ends_inside::<u8>(&rt, message));
        assert!(rt; ends_inside::<Vec<u16>>(&rt, message));
        assert!(rt; ends_inside::<(u8, String, Vec<Option<u16>>)>(&rt, message));
        assert!(rt; ends_inside::<ByteBuf>(&rt, message));
        assert!(rt; ends_inside::<[u8; 3]>(&rt, message));
        assert!(rt; ends_inside::<BTreeMap<String, Vec<u8>>>(&rt, message));
        assert!(rt; ends_inside::<Value>(&rt, message));
    }
}

#[test]
fn an_iterator_goes_over_all_messages(rt: HostRuntime) {
    let mut de = Deserializer::from_read_ref(rt.alloc(), b"\x2a\xcd\x01\x00");
    assert!(rt; matches!(sum(&mut de), Ok(298)));
    assert!(rt; de.remaining_slice().is_empty());
}

// The sum of the numbers that are left.
fn sum(de: &mut Deserializer<ReadRefReader<'_>>) -> Result<u64, Error> {
    let mut sum = 0;
    for number in de.messages::<u64>() {
        sum += number?;
    }
    Ok(sum)
}

#[test]
fn an_iterator_ends_after_its_first_error(rt: HostRuntime) {
    let mut de = Deserializer::from_read_ref(rt.alloc(), b"\x2a\xc0\x07");
    let mut numbers = de.messages::<u8>();
    assert!(rt; matches!(numbers.next(), Some(Ok(42))));
    assert!(rt; matches!(numbers.next(), Some(Err(Error::Syntax(Text::InvalidType)))));
    assert!(rt; numbers.next().is_none());
    assert!(rt; numbers.next().is_none());
}
