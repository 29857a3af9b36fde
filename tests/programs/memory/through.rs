//! Jobs that read through readers, write into other sinks, and do what the program `mpcanon` does. None of them allocates for what it
//! prints.
use crate::job::Fault;
use crate::jobs::{Nested, NestedUnknown};
use canon_lines::RunFault;
use canon_lines::check::check;
use canon_lines::run::run;
use faulty_io::{Drip, Trickle};
use rmp_decode::{Deserialize, Deserializer, from_slice};
use rmp_encode::{Error, Serialize, Serializer, write};
use rmp_serde::Value;
use rmp_wire::config::BytesMode;
use rmp_wire::{ByteBuf, ReadReader, Sink, SliceSink, Source};
use std::alloc::Global;
use std::collections::BTreeMap;
use std::io::Cursor;

/// What is read, and from what.
#[derive(Clone, Copy)]
pub enum Reading {
    /// A list of maps from texts to lists, from a cursor.
    Cursor,
    /// The same, a byte a pull.
    Drip,
    /// A message of any kind, a byte a pull.
    Value,
    /// Lists and maps in one another are passed over, a byte a pull.
    Skip,
    /// Bytes of which 2 ^ 32 - 1 are claimed, and none are there.
    Claim,
    /// The same, and forty are there.
    ClaimOfSome,
}

impl Reading {
    /// The job that a word names.
    pub fn named(name: &str) -> Option<Reading> {
        match name {
            "read-cursor" => Some(Reading::Cursor),
            "read-drip" => Some(Reading::Drip),
            "value-drip" => Some(Reading::Value),
            "skip-drip" => Some(Reading::Skip),
            "claim-drip" => Some(Reading::Claim),
            "claim-of-some" => Some(Reading::ClaimOfSome),
            _ => None,
        }
    }
}

/// What is written, and into what.
#[derive(Clone, Copy)]
pub enum Writing {
    /// A list of maps of lists and texts, into a sink that takes a byte a put, in memory.
    Trickle,
    /// The same, into a slice.
    Slice,
    /// Lists and maps of unknown length, into a slice.
    UnknownSlice,
    /// A number, into a slice from which it is read again.
    Number,
}

impl Writing {
    /// The job that a word names.
    pub fn named(name: &str) -> Option<Writing> {
        match name {
            "write-trickle" => Some(Writing::Trickle),
            "write-slice" => Some(Writing::Slice),
            "write-unknown-slice" => Some(Writing::UnknownSlice),
            "number-slice" => Some(Writing::Number),
            _ => None,
        }
    }
}

const LISTS: &[u8] =
    b"\xdd\x00\x00\x00\x02\xde\x00\x01\xd9\x02ab\xdc\x00\x02\x01\xcd\x01\x2c\x82\xa1c\xc4\x01\xc8\xa1d\x90";

// Reads a list of maps, and prints it or the error.
fn read_lists<S: Source + Drop>(
    rt: &impl Print,
    mut de: Deserializer<ReadReader<S>>,
) -> Result<(), Fault> {
    let read: Result<Vec<BTreeMap<String, Vec<u16>>>, rmp_decode::Error> = Deserialize::deserialize(
        &mut de,
    );
    match read {
        Ok(maps) => println!(rt; "{maps:?}")?,
        Err(e) => println!(rt; "{e}")?,
    }
    Ok(())
}

// Reads a message of any kind, and prints how many parts it has, or the error.
fn read_value(rt: &impl Print, mut de: Deserializer<ReadReader<Drip>>) -> Result<(), Fault> {
    let read: Result<Value, rmp_decode::Error> = Deserialize::deserialize(&mut de);
    match read {
        Ok(value) => println!(rt; "{} parts", value.root().len())?,
        Err(e) => println!(rt; "{e}")?,
    }
    Ok(())
}

// Passes over a message, and prints how many bytes were taken, or the error.
fn skip(
    rt: &impl Print,
    input: &[u8],
    mut de: Deserializer<ReadReader<Drip>>,
) -> Result<(), Fault> {
    match de.deserialize_ignored_any() {
        Ok(()) => {
            let left = de.into_inner().rest.len();
            println!(rt; "{} taken", input.len().saturating_sub(left))?;
        }
        Err(e) => println!(rt; "{e}")?,
    }
    Ok(())
}

// Reads bytes, and prints how many there are, or the error.
fn read_buffer(rt: &impl Print, mut de: Deserializer<ReadReader<Drip>>) -> Result<(), Fault> {
    let read: Result<ByteBuf, rmp_decode::Error> = Deserialize::deserialize(&mut de);
    match read {
        Ok(bytes) => println!(rt; "{} bytes", bytes.as_bytes().len())?,
        Err(e) => println!(rt; "{e}")?,
    }
    Ok(())
}

fn by_the_byte(alloc: Global, input: &[u8]) -> Deserializer<ReadReader<Drip>> {
    Deserializer::new(alloc, Drip::new(input, usize::MAX))
}

/// Reads, and prints what was read or the error.
pub fn read(rt: &(impl Print + AllocGlobal), reading: Reading) -> Result<(), Fault> {
    const SKIPPED: &[u8] = b"\x92\x81\x05\x91\xa1a\xdc\x00\x01\xc0\x2a";
    match reading {
        Reading::Cursor => read_lists(rt, Deserializer::new(rt.alloc(), Cursor::new(LISTS))),
        Reading::Drip => read_lists(rt, by_the_byte(rt.alloc(), LISTS)),
        Reading::Value => read_value(
            rt,
            by_the_byte(
                rt.alloc(),
                b"\xdc\x00\x03\x81\xa1a\xc4\x01\x07\xd9\x01b\xc7\x01\x05\x09",
            ),
        ),
        Reading::Skip => skip(rt, SKIPPED, by_the_byte(rt.alloc(), SKIPPED)),
        Reading::Claim => read_buffer(rt, by_the_byte(rt.alloc(), b"\xc6\xff\xff\xff\xff")),
        Reading::ClaimOfSome => read_buffer(
            rt,
            by_the_byte(
                rt.alloc(),
                b"\xc6\xff\xff\xff\xffforty bytes, which are no more than a line",
            ),
        ),
    }
}

// Prints bytes in hex.
fn print_bytes(rt: &impl Print, bytes: &[u8]) -> Result<(), Fault> {
    for byte in bytes {
        print!(rt; "{byte:02x}")?;
    }
    println!(rt; "")?;
    Ok(())
}

// Prints what is in a sink after a write, or the error: what is there then is a beginning.
fn print_put(
    rt: &impl Print,
    written: Result<(), Error>,
    bytes: &[u8],
    whole: &[u8],
) -> Result<(), Fault> {
    match written {
        Ok(()) => print_bytes(rt, bytes)?,
        Err(e) => {
            if whole.starts_with(bytes) {
                println!(rt; "{e}")?;
            } else {
                println!(rt; "{e}, after bytes that were not to be written")?;
            }
        }
    }
    Ok(())
}

const NESTED: &[u8] = b"\x92\x82\xa1a\x92\x92\x01\xcd\x01\x2c\x90\xa2bc\x91\x91\xcd\xff\xff\x80";

fn into_trickle(rt: &(impl Print + AllocGlobal), value: &Nested) -> Result<(), Fault> {
    let mut sink = Trickle::new(rt.alloc(), usize::MAX);
    let written = write(rt.alloc(), &mut sink, value);
    print_put(rt, written, sink.bytes.as_slice(), NESTED)
}

fn into_slice(rt: &(impl Print + AllocGlobal), value: &Nested) -> Result<(), Fault> {
    let mut room = [0u8; 20];
    let mut sink = SliceSink::new(&mut room);
    let written = write(rt.alloc(), &mut sink, value);
    let len = sink.written();
    drop(sink);
    print_put(rt, written, room.get(..len).unwrap_or_default(), NESTED)
}

// What a value is written as where bytes are made of all that may be bytes.
fn forced<W: Sink, T: Serialize>(alloc: Global, sink: &mut W, value: &T) -> Result<(), Error> {
    let mut se = Serializer::new(alloc, sink).with_bytes(BytesMode::ForceAll);
    value.serialize(&mut se)
}

fn unknown_into_slice(rt: &(impl Print + AllocGlobal), value: &NestedUnknown) -> Result<(), Fault> {
    let mut room = [0u8; 64];
    let mut sink = SliceSink::new(&mut room);
    let written = forced(rt.alloc(), &mut sink, value);
    let len = sink.written();
    drop(sink);
    let whole = b"\x91\x82\xa1a\x92\xc4\x02\x01\xc8\x92\x03\x04\xa1b\x90";
    print_put(rt, written, room.get(..len).unwrap_or_default(), whole)
}

fn number(rt: &(impl Print + AllocGlobal)) -> Result<(), Fault> {
    let mut room = [0u8; 1];
    let mut sink = SliceSink::new(&mut room);
    let written = write(rt.alloc(), &mut sink, &42u8);
    drop(sink);
    let read: Result<u8, rmp_decode::Error> = from_slice(rt.alloc(), &room);
    match read {
        Ok(42) => print_put(rt, written, &room, b"\x2a"),
        Ok(n) => {
            println!(rt; "{n} is read")?;
            Ok(())
        }
        Err(e) => {
            println!(rt; "{e}")?;
            Ok(())
        }
    }
}

/// Writes, and prints what is in the sink or the error.
pub fn put(
    rt: &(impl Print + AllocGlobal),
    writing: Writing,
    value: &Nested,
    unknown: &NestedUnknown,
) -> Result<(), Fault> {
    match writing {
        Writing::Trickle => into_trickle(rt, value),
        Writing::Slice => into_slice(rt, value),
        Writing::UnknownSlice => unknown_into_slice(rt, unknown),
        Writing::Number => number(rt),
    }
}

// Prints what a run printed, one line after another, or that memory was short: what is there then is a beginning.
fn print_lines(
    rt: &impl Print,
    ran: Result<bool, RunFault>,
    out: &[u8],
    whole: &[u8],
) -> Result<(), Fault> {
    match ran {
        Ok(true) => print_bytes(rt, out)?,
        Ok(false) => println!(rt; "refused")?,
        Err(RunFault::Memory) if whole.starts_with(out) => println!(rt; "out of memory")?,
        Err(_) => println!(rt; "another fault")?,
    }
    Ok(())
}

/// Does what `mpcanon` does with some lines, or where it checks them.
pub fn lines(rt: &(impl Print + AllocGlobal), checks: bool) -> Result<(), Fault> {
    let mut out = Trickle::new(rt.alloc(), usize::MAX);
    if checks {
        let mut source = b"9205a161c0\n2a\n".as_slice();
        let ran = check(rt.alloc(), &mut source, &mut out);
        return print_lines(
            rt,
            ran,
            out.bytes.as_slice(),
            b"canonical 4\ncanonical 1\ncanonical 1\n",
        );
    }
    let mut source = b"92cd0005d90161\n2A c3\n93c0c2d3ffffffffffffffdf\n".as_slice();
    let ran = run(rt.alloc(), &mut source, &mut out);
    let whole = b"[5,t:61] 9205a161\n42 2a\ntrue c3\n[nil,false,-33] 93c0c2d0df\n";
    print_lines(rt, ran, out.bytes.as_slice(), whole)
}
