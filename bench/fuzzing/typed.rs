//! Reads of values of many types and writes of what was read: what the exports of bench_fuzz answer, and what has to hold of it
//! whatever the type is.

use crate::model;

/// What is told beside the status.
#[repr(C)]
#[derive(Default)]
struct Told {
    left: usize,
    len: usize,
}

/// What a read and a write of a value came to.
#[derive(Clone, Debug, PartialEq, Eq)]
pub enum Answer {
    /// It was read, with so many bytes left after it, and written again.
    Whole { left: usize, written: Vec<u8> },
    /// It was read, and its write refused.
    NotWritten { left: usize },
    /// It was refused by an error of this kind, with so many bytes left.
    Refused { error: u32, left: usize },
}

type OfType = unsafe extern "C" fn(*const u8, usize, u32, u32, *mut u8, usize, &mut Told) -> u32;

unsafe extern "C" {
    fn fuzz_skip(data: *const u8, count: usize, strict: u32, told: &mut Told) -> u32;
}

macro_rules! exports {
    ($($name:ident $export:ident)*) => {
        unsafe extern "C" {
            $(fn $export(data: *const u8, count: usize, strict: u32, form: u32, out: *mut u8, room: usize, told: &mut Told) -> u32;)*
        }

        /// The types, by their names.
        pub const TYPES: &[&str] = &[$(stringify!($name)),*];

        const EXPORTS: &[OfType] = &[$($export),*];
    };
}

exports! {
    u8 fuzz_u8
    u32 fuzz_u32
    u64 fuzz_u64
    i16 fuzz_i16
    i64 fuzz_i64
    u128 fuzz_u128
    i128 fuzz_i128
    bool fuzz_bool
    char fuzz_char
    f32 fuzz_f32
    f64 fuzz_f64
    nil fuzz_nil
    text fuzz_text
    buffer fuzz_buffer
    raw fuzz_raw
    ext fuzz_ext
    bytes fuzz_bytes
    texts fuzz_texts
    options fuzz_options
    option fuzz_option
    pair fuzz_pair
    mixed fuzz_mixed
    array fuzz_array
    map fuzz_map
    named_map fuzz_named_map
    set fuzz_set
    dog fuzz_dog
    optional fuzz_optional
    point fuzz_point
    newtype fuzz_newtype
    unit fuzz_unit
    dogs fuzz_dogs
    four fuzz_four
    v12 fuzz_v12
    value fuzz_value
}

/// Reads a value of a type, strictly or not, and writes it in a form: 0 as it is written by itself, 1 with structs as maps of names, 2 with
/// lists of numbers as bytes, and 3 with tuples of them as bytes, too.
pub fn again(kind: usize, bytes: &[u8], strict: bool, form: u32) -> Answer {
    // Nothing is written longer than this: a number alone becomes 18 bytes as one of 128 bits, and a struct of three bytes 12 with names.
    let mut out = vec![0; 4 * bytes.len() + 64];
    let mut told = Told::default();
    // SAFETY: the call reads the bytes, which it is given as a pointer and a length, writes to the room, which it is given so too, and to
    // what is told, and keeps nothing.
    let status =
        unsafe { EXPORTS[kind](bytes.as_ptr(), bytes.len(), u32::from(strict), form, out.as_mut_ptr(), out.len(), &mut told) };
    match status {
        0 => {
            out.truncate(told.len);
            Answer::Whole { left: told.left, written: out }
        }
        21 => Answer::NotWritten { left: told.left },
        error => Answer::Refused { error, left: told.left },
    }
}

/// Passes over a message, which is written as nothing.
pub fn skip(bytes: &[u8], strict: bool) -> Answer {
    let mut told = Told::default();
    // SAFETY: as above.
    match unsafe { fuzz_skip(bytes.as_ptr(), bytes.len(), u32::from(strict), &mut told) } {
        0 => Answer::Whole { left: told.left, written: Vec::new() },
        error => Answer::Refused { error, left: told.left },
    }
}

/// What a strict read answers, where the other read answers this.
fn strictly(bytes: &[u8], answer: &Answer) -> Option<Answer> {
    let is_taken = !matches!(answer, Answer::Refused { .. });
    (is_taken && model::check(bytes).is_ok()).then(|| answer.clone())
}

/// Compares a strict read with the other: what is canonical is read alike, and nothing else is read.
fn compare_strict(name: &str, bytes: &[u8], answer: &Answer, strict: Answer) -> Result<(), String> {
    let told = if matches!(strict, Answer::Refused { .. }) { None } else { Some(strict) };
    crate::same(&format!("{name}, strictly"), told, strictly(bytes, answer))
}

/// What a read leaves where it takes the message at the front.
fn compare_end(name: &str, bytes: &[u8], answer: &Answer) -> Result<(), String> {
    let (Answer::Whole { left, .. } | Answer::NotWritten { left }) = answer else {
        return Ok(());
    };
    crate::same(&format!("{name}, the end"), Ok(bytes.len() - left), model::length(bytes))
}

/// Reads a type, and sees that what was written is canonical, is read again and written as it was, and that strict reads agree.
pub fn try_type(kind: usize, bytes: &[u8], form: u32) -> Result<Answer, String> {
    let name = TYPES[kind];
    let answer = again(kind, bytes, false, form);
    compare_end(name, bytes, &answer)?;
    compare_strict(name, bytes, &answer, again(kind, bytes, true, form))?;
    if let Answer::Whole { written, .. } = &answer {
        crate::same(&format!("{name}, what was written in form {form}"), model::check(written), Ok(written.len()))?;
        let wanted = Answer::Whole { left: 0, written: written.clone() };
        crate::same(&format!("{name}, read and written again in form {form}"), again(kind, written, true, form), wanted)?;
    }
    Ok(answer)
}

/// Passes over a message, and sees that strict and other calls agree with the model.
pub fn try_skip(bytes: &[u8]) -> Result<Answer, String> {
    let answer = skip(bytes, false);
    let is_taken = matches!(answer, Answer::Whole { .. });
    crate::same("fuzz_skip", is_taken, model::can_be_passed(bytes))?;
    compare_end("fuzz_skip", bytes, &answer)?;
    compare_strict("fuzz_skip", bytes, &answer, skip(bytes, true))?;
    Ok(answer)
}
