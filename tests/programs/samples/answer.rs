//! What came of a read, as the sample says it, in each way in which bytes are read: from a slice, from a cursor and a byte a pull,
//! strictly and not.
use crate::fault::Fault;
use crate::given::Given;
use crate::kinds;
use faulty_io::Drip;
use rmp_serde::decode::{Deserialize, Error, Text};
use rmp_serde::encode::{self, Serialize, to_vec};
use rmp_serde::wire::ReadSlice;
use rmp_serde::{Canon, Deserializer, check_canonical};
use std::alloc::Global;
use std::io::Cursor;

/// How bytes are read: as which type, how deep values nest at most, where it isn't as ever, and how many pulls are failed in turn.
#[derive(Clone, Copy)]
pub struct How {
    pub kind: usize,
    pub depth: Option<usize>,
    pub pulls: usize,
}

/// What bytes are read as: from a slice, and from a reader, with how many bytes that took.
#[derive(Drop)]
pub struct Answer {
    pub slice: String,
    pub reader: String,
}

/// What came of reading a value: what it is written as, or why there is none.
#[derive(Drop)]
pub enum Read {
    Value(Vec<u8>),
    Unwritten(encode::Error),
    Refused(Error),
    NoType,
}

/// The own spelling of the next message's value, or the refusal. Each type is compiled for this alone, and for no more than that.
#[inline(never)]
pub fn again<'de, R: ReadSlice<'de>, T: Deserialize<'de, R> + Serialize>(
    alloc: Global,
    de: &mut Deserializer<R>,
) -> Read {
    let read: Result<T, Error> = Deserialize::deserialize(de);
    match read {
        Ok(value) => match to_vec(alloc, &value) {
            Ok(bytes) => Read::Value(bytes),
            Err(e) => Read::Unwritten(e),
        },
        Err(e) => Read::Refused(e),
    }
}

// The name of an error's variant, and what it holds but for causes.
fn refused(alloc: Global, error: &Error) -> Result<String, Fault> {
    let said = match error {
        Error::InvalidMarkerRead(_) => String::from_str(alloc, "Err InvalidMarkerRead"),
        Error::InvalidDataRead(_) => String::from_str(alloc, "Err InvalidDataRead"),
        Error::TypeMismatch(marker) => format!(in alloc; "Err TypeMismatch({marker:?})"),
        Error::OutOfRange => String::from_str(alloc, "Err OutOfRange"),
        Error::LengthMismatch(n) => format!(in alloc; "Err LengthMismatch({n})"),
        Error::Uncategorized(text) => format!(in alloc; "Err Uncategorized({text})"),
        Error::Syntax(text) => format!(in alloc; "Err Syntax({text})"),
        Error::Utf8Error(_) => String::from_str(alloc, "Err Utf8Error"),
        Error::DepthLimitExceeded => String::from_str(alloc, "Err DepthLimitExceeded"),
        Error::OutOfMemory => return Err(Fault::Memory),
        Error::NotCanonical => String::from_str(alloc, "Err NotCanonical"),
    };
    Ok(said?)
}

// What came of a read, as the sample says it.
fn said(alloc: Global, read: Read) -> Result<String, Fault> {
    match read {
        Read::Value(bytes) => {
            let digits = hex::encode(alloc, bytes.as_slice())?;
            Ok(format!(in alloc; "Ok {digits}")?)
        }
        Read::Unwritten(error) => Err(Fault::from(error)),
        Read::Refused(error) => refused(alloc, &error),
        Read::NoType => Err(Fault::NoType),
    }
}

// Whether a reader that has refused something fails from then on.
fn is_failed<'de, R: ReadSlice<'de>>(de: &mut Deserializer<R>) -> bool {
    let next = de.deserialize_bool();
    let last = de.deserialize_ignored_any();
    matches!(&next, Err(Error::Uncategorized(Text::FailedBefore)))
        && matches!(&last, Err(Error::Uncategorized(Text::FailedBefore)))
}

// The value's own spelling, or the refusal, after which the reader has failed for good.
#[inline(never)]
fn told<'de, R: ReadSlice<'de>>(
    alloc: Global,
    de: &mut Deserializer<R>,
    how: How,
    strict: bool,
) -> Result<String, Fault> {
    de.set_strict(strict);
    if let Some(depth) = how.depth {
        de.set_max_depth(depth);
    }
    let answer = said(alloc, kinds::read(alloc, how.kind, de))?;
    if answer.as_str().starts_with("Err") && !is_failed(de) {
        return Err(Fault::Reader);
    }
    Ok(answer)
}

// The answer, with how many bytes a reader took for a value.
fn with_taken(alloc: Global, answer: String, taken: u64) -> Result<String, Fault> {
    if answer.as_str().starts_with("Ok") {
        return Ok(format!(in alloc; "{answer} taken {taken}")?);
    }
    Ok(answer)
}

fn from_bytes(alloc: Global, bytes: &[u8], how: How, strict: bool) -> Result<String, Fault> {
    let mut de = Deserializer::from_read_ref(alloc, bytes);
    told(alloc, &mut de, how, strict)
}

// What comes of a source, with how many bytes it took for a value, and how many faults the source had.
fn from_source(
    alloc: Global,
    source: Given,
    len: usize,
    how: How,
    strict: bool,
) -> Result<(String, u64), Fault> {
    let mut de = Deserializer::new(alloc, source);
    let answer = told(alloc, &mut de, how, strict)?;
    let (taken, faults) = de.into_inner().taken(len);
    Ok((with_taken(alloc, answer, taken)?, faults))
}

// The same of one that gives a byte a pull and fails after so many.
fn dripped(
    alloc: Global,
    bytes: &[u8],
    pulls: usize,
    how: How,
    strict: bool,
) -> Result<(String, u64), Fault> {
    let source = Given::Drip(Drip::new(bytes, pulls));
    from_source(alloc, source, bytes.len(), how, strict)
}

// Whether an answer tells of a fault of the source, or of its end.
fn tells_of_the_source(answer: &str) -> bool {
    answer == "Err InvalidMarkerRead" || answer == "Err InvalidDataRead"
}

// Fails each of the first pulls of a source in turn: the read then tells of the source, and the fault is the only one. The first source
// that is pulled often enough gives the answer.
fn each_pull_failed(
    alloc: Global,
    bytes: &[u8],
    how: How,
    strict: bool,
    answer: &str,
) -> Result<(), Fault> {
    for pulls in 0..how.pulls.min(bytes.len()) {
        let (failed, faults) = dripped(alloc, bytes, pulls, how, strict)?;
        if faults == 0 {
            return if failed.as_str() == answer {
                Ok(())
            } else {
                Err(Fault::Pull)
            };
        }
        if faults != 1 || !tells_of_the_source(failed.as_str()) {
            return Err(Fault::Pull);
        }
    }
    Ok(())
}

// What the bytes are read as in each way, strictly or not.
fn ways(alloc: Global, bytes: &[u8], how: How, strict: bool) -> Result<Answer, Fault> {
    let slice = from_bytes(alloc, bytes, how, strict)?;
    let source = Given::Cursor(Cursor::new(bytes));
    let (reader, _) = from_source(alloc, source, bytes.len(), how, strict)?;
    let (drip, faults) = dripped(alloc, bytes, usize::MAX, how, strict)?;
    if faults != 0 || drip.as_str() != reader.as_str() {
        return Err(Fault::Reader);
    }
    each_pull_failed(alloc, bytes, how, strict, reader.as_str())?;
    Ok(Answer { slice, reader })
}

// Whether a strict read answers as it has to: as any other where no head is at fault, and else with the refusal of a head, or as any
// other where that one refuses too.
fn is_strict(at_fault: bool, answer: &str, strict: &str) -> bool {
    if at_fault {
        strict == "Err NotCanonical" || answer.starts_with("Err") && strict == answer
    } else {
        strict == answer
    }
}

/// Reads the bytes as a value of the type, and gives the value's own spelling, or the refusal. Each way to read them has the same
/// answer, and each pull that fails is told of.
pub fn row(alloc: Global, bytes: &[u8], how: How) -> Result<Answer, Fault> {
    let answer = ways(alloc, bytes, how, false)?;
    let strict = ways(alloc, bytes, how, true)?;
    let at_fault = matches!(check_canonical(alloc, bytes), Ok(Canon::Fault(_)));
    if !is_strict(at_fault, answer.slice.as_str(), strict.slice.as_str())
        || !is_strict(at_fault, answer.reader.as_str(), strict.reader.as_str())
    {
        return Err(Fault::Strict);
    }
    Ok(answer)
}
