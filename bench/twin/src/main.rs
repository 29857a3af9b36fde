//! What `mpcanon` prints for lines of hex, by the crate `rmp`: each message is read into a tree, which is printed as text and as its
//! canonical spelling. Hex goes by tables, and the buffers of a line are kept for the next one. What is refused is told by the place alone.

use rmp::Marker;
use rmp::decode::{RmpRead, read_marker};
use rmp::encode;
use std::io::{self, BufWriter, Read, Write};

/// A message of any kind.
enum Tree {
    Nil,
    Truth(bool),
    Unsigned(u64),
    Signed(i64),
    Float32(u32),
    Float64(u64),
    Text(String),
    Bytes(Vec<u8>),
    List(Vec<Tree>),
    Map(Vec<(Tree, Tree)>),
    Extension(i8, Vec<u8>),
}

/// As deep as `mpcanon` reads.
const LIMIT: u32 = 1023;

fn taken(input: &mut &[u8], len: usize) -> Option<Vec<u8>> {
    let (front, rest) = input.split_at_checked(len)?;
    *input = rest;
    Some(front.to_vec())
}

fn text(input: &mut &[u8], len: usize) -> Option<Tree> {
    Some(Tree::Text(String::from_utf8(taken(input, len)?).ok()?))
}

fn bytes(input: &mut &[u8], len: usize) -> Option<Tree> {
    Some(Tree::Bytes(taken(input, len)?))
}

fn extension(input: &mut &[u8], len: usize) -> Option<Tree> {
    let tag = input.read_data_i8().ok()?;
    Some(Tree::Extension(tag, taken(input, len)?))
}

fn list(input: &mut &[u8], len: usize, room: u32) -> Option<Tree> {
    let room = room.checked_sub(1)?;
    let mut items = Vec::new();
    for _ in 0..len {
        items.push(read(input, room)?);
    }
    Some(Tree::List(items))
}

fn map(input: &mut &[u8], len: usize, room: u32) -> Option<Tree> {
    let room = room.checked_sub(1)?;
    let mut pairs = Vec::new();
    for _ in 0..len {
        let key = read(input, room)?;
        pairs.push((key, read(input, room)?));
    }
    Some(Tree::Map(pairs))
}

/// Lengths of one, two and four bytes.
fn short(input: &mut &[u8]) -> Option<usize> {
    Some(input.read_data_u8().ok()?.into())
}

fn medium(input: &mut &[u8]) -> Option<usize> {
    Some(input.read_data_u16().ok()?.into())
}

fn long(input: &mut &[u8]) -> Option<usize> {
    Some(input.read_data_u32().ok()? as usize)
}

/// What follows a marker that means a value alone, or before a number.
#[inline(always)]
fn leaf(input: &mut &[u8], marker: Marker) -> Option<Tree> {
    Some(match marker {
        Marker::Null => Tree::Nil,
        Marker::True => Tree::Truth(true),
        Marker::False => Tree::Truth(false),
        Marker::FixPos(n) => Tree::Unsigned(n.into()),
        Marker::FixNeg(n) => Tree::Signed(n.into()),
        Marker::U8 => Tree::Unsigned(input.read_data_u8().ok()?.into()),
        Marker::U16 => Tree::Unsigned(input.read_data_u16().ok()?.into()),
        Marker::U32 => Tree::Unsigned(input.read_data_u32().ok()?.into()),
        Marker::U64 => Tree::Unsigned(input.read_data_u64().ok()?),
        Marker::I8 => Tree::Signed(input.read_data_i8().ok()?.into()),
        Marker::I16 => Tree::Signed(input.read_data_i16().ok()?.into()),
        Marker::I32 => Tree::Signed(input.read_data_i32().ok()?.into()),
        Marker::I64 => Tree::Signed(input.read_data_i64().ok()?),
        Marker::F32 => Tree::Float32(input.read_data_u32().ok()?),
        Marker::F64 => Tree::Float64(input.read_data_u64().ok()?),
        _ => return None,
    })
}

/// Reads a message that nests at most so deep.
fn read(input: &mut &[u8], room: u32) -> Option<Tree> {
    match read_marker(input).ok()? {
        Marker::FixStr(n) => text(input, n.into()),
        Marker::Str8 => short(input).and_then(|n| text(input, n)),
        Marker::Str16 => medium(input).and_then(|n| text(input, n)),
        Marker::Str32 => long(input).and_then(|n| text(input, n)),
        Marker::Bin8 => short(input).and_then(|n| bytes(input, n)),
        Marker::Bin16 => medium(input).and_then(|n| bytes(input, n)),
        Marker::Bin32 => long(input).and_then(|n| bytes(input, n)),
        Marker::FixArray(n) => list(input, n.into(), room),
        Marker::Array16 => medium(input).and_then(|n| list(input, n, room)),
        Marker::Array32 => long(input).and_then(|n| list(input, n, room)),
        Marker::FixMap(n) => map(input, n.into(), room),
        Marker::Map16 => medium(input).and_then(|n| map(input, n, room)),
        Marker::Map32 => long(input).and_then(|n| map(input, n, room)),
        Marker::FixExt1 => extension(input, 1),
        Marker::FixExt2 => extension(input, 2),
        Marker::FixExt4 => extension(input, 4),
        Marker::FixExt8 => extension(input, 8),
        Marker::FixExt16 => extension(input, 16),
        Marker::Ext8 => short(input).and_then(|n| extension(input, n)),
        Marker::Ext16 => medium(input).and_then(|n| extension(input, n)),
        Marker::Ext32 => long(input).and_then(|n| extension(input, n)),
        marker => leaf(input, marker),
    }
}

/// The two digits of each byte.
const PAIRS: [[u8; 2]; 256] = {
    let digits = b"0123456789abcdef";
    let mut pairs = [[0; 2]; 256];
    let mut byte = 0;
    while byte < 256 {
        pairs[byte] = [digits[byte >> 4], digits[byte & 15]];
        byte += 1;
    }
    pairs
};

fn push_hex(text: &mut Vec<u8>, bytes: &[u8]) {
    text.reserve(2 * bytes.len());
    text.extend(bytes.iter().flat_map(|byte| PAIRS[usize::from(*byte)]));
}

/// Appends the items of a list as text.
fn print_list(items: &[Tree], text: &mut Vec<u8>) {
    text.push(b'[');
    for (i, item) in items.iter().enumerate() {
        if i > 0 {
            text.push(b',');
        }
        print(item, text);
    }
    text.push(b']');
}

/// Appends the pairs of a map as text.
fn print_map(pairs: &[(Tree, Tree)], text: &mut Vec<u8>) {
    text.push(b'{');
    for (i, (key, value)) in pairs.iter().enumerate() {
        if i > 0 {
            text.push(b',');
        }
        print(key, text);
        text.push(b'=');
        print(value, text);
    }
    text.push(b'}');
}

/// Appends the tree as text.
fn print(tree: &Tree, text: &mut Vec<u8>) {
    match tree {
        Tree::Nil => text.extend_from_slice(b"nil"),
        Tree::Truth(truth) => text.extend_from_slice(if *truth { b"true" } else { b"false" }),
        Tree::Unsigned(n) => write!(text, "{n}").unwrap(),
        Tree::Signed(n) => write!(text, "{n}").unwrap(),
        Tree::Float32(bits) => {
            text.extend_from_slice(b"f32:");
            push_hex(text, &bits.to_be_bytes());
        }
        Tree::Float64(bits) => {
            text.extend_from_slice(b"f64:");
            push_hex(text, &bits.to_be_bytes());
        }
        Tree::Text(characters) => {
            text.extend_from_slice(b"t:");
            push_hex(text, characters.as_bytes());
        }
        Tree::Bytes(bytes) => {
            text.extend_from_slice(b"b:");
            push_hex(text, bytes);
        }
        Tree::List(items) => print_list(items, text),
        Tree::Map(pairs) => print_map(pairs, text),
        Tree::Extension(tag, bytes) => {
            write!(text, "x({tag}):").unwrap();
            push_hex(text, bytes);
        }
    }
}

/// Appends the canonical spelling.
fn spell(tree: &Tree, out: &mut Vec<u8>) -> Result<(), encode::ValueWriteError> {
    match tree {
        Tree::Nil => encode::write_nil(out).map_err(encode::ValueWriteError::InvalidMarkerWrite),
        Tree::Truth(truth) => {
            encode::write_bool(out, *truth).map_err(encode::ValueWriteError::InvalidMarkerWrite)
        }
        Tree::Unsigned(n) => encode::write_uint(out, *n).map(|_| ()),
        Tree::Signed(n) => encode::write_sint(out, *n).map(|_| ()),
        Tree::Float32(bits) => encode::write_f32(out, f32::from_bits(*bits)),
        Tree::Float64(bits) => encode::write_f64(out, f64::from_bits(*bits)),
        Tree::Text(characters) => encode::write_str(out, characters),
        Tree::Bytes(bytes) => encode::write_bin(out, bytes),
        Tree::List(items) => {
            encode::write_array_len(out, items.len() as u32)?;
            items.iter().try_for_each(|item| spell(item, out))
        }
        Tree::Map(pairs) => {
            encode::write_map_len(out, pairs.len() as u32)?;
            pairs.iter().try_for_each(|(key, value)| {
                spell(key, out)?;
                spell(value, out)
            })
        }
        Tree::Extension(tag, bytes) => {
            encode::write_ext_meta(out, bytes.len() as u32, *tag)?;
            out.extend_from_slice(bytes);
            Ok(())
        }
    }
}

/// What is no digit.
const NONE: u8 = 0xFF;

/// The value of each digit.
const VALUES: [u8; 256] = {
    let mut values = [NONE; 256];
    let mut value = 0;
    while value < 16 {
        values[PAIRS[value as usize][1] as usize] = value;
        values[PAIRS[value as usize][1].to_ascii_uppercase() as usize] = value;
        value += 1;
    }
    values
};

/// Puts the bytes of pairs of digits into a buffer that is emptied, where there are only such.
fn unhex(digits: &[u8], bytes: &mut Vec<u8>) -> Option<()> {
    let (pairs, []) = digits.as_chunks::<2>() else {
        return None;
    };
    bytes.clear();
    bytes.reserve(pairs.len());
    for [high, low] in pairs {
        let (high, low) = (VALUES[usize::from(*high)], VALUES[usize::from(*low)]);
        if high | low == NONE {
            return None;
        }
        bytes.push(high << 4 | low);
    }
    Some(())
}

/// The same of a line, whose spaces and tabs, and a carriage return at its end, are dropped.
fn unhex_line(line: &[u8], bytes: &mut Vec<u8>) -> Option<()> {
    let line = line.strip_suffix(b"\r").unwrap_or(line);
    unhex(line, bytes).or_else(|| {
        let is_digit = |byte: &u8| !b" \t".contains(byte);
        let digits: Vec<u8> = line.iter().copied().filter(is_digit).collect();
        unhex(&digits, bytes)
    })
}

/// What is kept from line to line.
#[derive(Default)]
struct Buffers {
    bytes: Vec<u8>,
    spelled: Vec<u8>,
    text: Vec<u8>,
}

/// Prints a line's messages, and says whether none was refused.
fn show(line: &[u8], buffers: &mut Buffers, out: &mut impl Write) -> io::Result<bool> {
    let Buffers {
        bytes,
        spelled,
        text,
    } = buffers;
    if unhex_line(line, bytes).is_none() {
        writeln!(out, "refused: hex")?;
        return Ok(false);
    }
    let mut left = bytes.as_slice();
    while !left.is_empty() {
        let at = bytes.len() - left.len();
        let Some(tree) = read(&mut left, LIMIT) else {
            writeln!(out, "refused at {at}")?;
            return Ok(false);
        };
        spelled.clear();
        spell(&tree, spelled).map_err(io::Error::other)?;
        text.clear();
        print(&tree, text);
        text.push(b' ');
        push_hex(text, spelled);
        text.push(b'\n');
        out.write_all(text)?;
    }
    Ok(true)
}

fn main() -> io::Result<()> {
    let mut input = Vec::new();
    io::stdin().read_to_end(&mut input)?;
    let mut out = BufWriter::new(io::stdout().lock());
    let mut buffers = Buffers::default();
    let mut accepted = true;
    for line in input
        .strip_suffix(b"\n")
        .unwrap_or(&input)
        .split(|byte| *byte == b'\n')
    {
        accepted &= show(line, &mut buffers, &mut out)?;
    }
    out.flush()?;
    std::process::exit(if accepted { 0 } else { 1 })
}
