//! Each put of a write failed in turn.
use crate::fault::Fault;
use crate::form::Form;
use crate::taker::Taker;
use faulty_io::Trickle;
use rmp_serde::config::BytesMode;
use rmp_serde::encode::{Error, Serialize, Serializer, write};
use rmp_serde::wire::{SliceSink, ValueWriteError};
use rmp_serde::{check_canonical, decode};
use std::alloc::Global;

/// Writes a value into a sink in a setting, and gives the sink back.
#[inline(never)]
pub fn put<F: Form, T: Serialize>(
    alloc: Global,
    sink: Taker,
    mode: BytesMode,
    value: &T,
) -> (Result<(), Error>, Taker) {
    let mut se = F::of(Serializer::new(alloc, sink).with_bytes(mode));
    let answer = value.serialize(&mut se);
    (answer, se.into_inner())
}

// Whether an answer tells of a sink's fault after these bytes: before a head or inside of an item, where one that is written in one
// piece may begin before them.
fn is_told(alloc: Global, answer: Result<(), Error>, written: &[u8]) -> bool {
    match answer {
        Err(Error::InvalidValueWrite(ValueWriteError::InvalidMarkerWrite(_))) => matches!(
            check_canonical(alloc, written),
            Err(decode::Error::InvalidMarkerRead(_))
        ),
        Err(Error::InvalidValueWrite(ValueWriteError::InvalidDataWrite(_))) => !written.is_empty(),
        _ => false,
    }
}

/// Puts a value into sinks that take a byte a put, each of which fails a put later, up to the last of what is written: what was taken
/// is there, and the fault is the only one.
pub fn each_put_failed(
    alloc: Global,
    mode: BytesMode,
    put: &dyn Fn(Taker, BytesMode) -> (Result<(), Error>, Taker),
    whole: &[u8],
) -> Result<(), Fault> {
    for room in 0..whole.len() {
        let (answer, sink) = put(Taker::Trickle(Trickle::new(alloc, room)), mode);
        let written = &whole[..room];
        if !is_told(alloc, answer, written) || sink.faults() != 1 || sink.bytes() != written {
            return Err(Fault::Put);
        }
    }
    Ok(())
}

/// Writes a value into a slice by the call that takes a sink.
#[inline(never)]
pub fn put_into<T: Serialize>(alloc: Global, room: &mut [u8], value: &T) -> Result<(), Error> {
    let mut sink = SliceSink::new(room);
    write(alloc, &mut sink, value)
}

/// Puts a value into slices, each of which has room for a byte more, up to the last of what is written: they are filled.
pub fn each_room_filled(
    alloc: Global,
    put_into: &dyn Fn(&mut [u8]) -> Result<(), Error>,
    whole: &[u8],
) -> Result<(), Fault> {
    for room in 0..whole.len() {
        let mut bytes = vec![in alloc; 0u8; room]?;
        let answer = put_into(bytes.as_mut_slice());
        let written = &whole[..room];
        if !is_told(alloc, answer, written) || bytes.as_slice() != written {
            return Err(Fault::Put);
        }
    }
    Ok(())
}
