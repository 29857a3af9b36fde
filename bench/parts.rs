//! What messages are made of, and how they are spelled: from the MessagePack specification's table.

use super::measure::{Random, number, number_of_width};

/// Something that a message is made of.
#[derive(Clone)]
pub enum Part {
    Nil,
    Truth(bool),
    Number(u64),
    Negative(i64),
    Single(f32),
    Float(f64),
    Text(String),
    Bytes(Vec<u8>),
    Wide(u128),
    /// An extension of four bytes, of this type.
    Ext(i8, [u8; 4]),
    List(Vec<Part>),
    Map(Vec<(Part, Part)>),
}

/// The heads of a kind with a length: the first byte of a short one and what it counts to, if there is a short one, and the first bytes of
/// those whose length is in one, two and four bytes.
struct Heads {
    short: Option<(u8, usize)>,
    long: [Option<u8>; 3],
}

const TEXTS: Heads = Heads {
    short: Some((0xa0, 31)),
    long: [Some(0xd9), Some(0xda), Some(0xdb)],
};
const BYTES: Heads = Heads {
    short: None,
    long: [Some(0xc4), Some(0xc5), Some(0xc6)],
};
const LISTS: Heads = Heads {
    short: Some((0x90, 15)),
    long: [None, Some(0xdc), Some(0xdd)],
};
const MAPS: Heads = Heads {
    short: Some((0x80, 15)),
    long: [None, Some(0xde), Some(0xdf)],
};

/// The shortest head of a length.
fn head(out: &mut Vec<u8>, len: usize, of: Heads) {
    match of.short {
        Some((first, most)) if len <= most => return out.push(first | len as u8),
        _ => {}
    }
    match (len, of.long) {
        (0..=0xff, [Some(first), ..]) => out.extend([first, len as u8]),
        (0..=0xffff, [_, Some(first), _]) => {
            out.push(first);
            out.extend((len as u16).to_be_bytes());
        }
        (_, [.., first]) => {
            out.extend(first);
            out.extend((len as u32).to_be_bytes());
        }
    }
}

/// The shortest spelling of a number below 0.
fn negative(out: &mut Vec<u8>, z: i64) {
    let bytes = z.to_be_bytes();
    match z {
        -32.. => out.push(bytes[7]),
        -0x80.. => out.extend([0xd0, bytes[7]]),
        -0x8000.. => out.extend([0xd1, bytes[6], bytes[7]]),
        -0x8000_0000.. => {
            out.push(0xd2);
            out.extend(&bytes[4..]);
        }
        _ => {
            out.push(0xd3);
            out.extend(bytes);
        }
    }
}

/// The spelling, from the MessagePack specification's table.
pub fn spell(out: &mut Vec<u8>, part: &Part) {
    match part {
        Part::Nil => out.push(0xc0),
        Part::Truth(b) => out.push(0xc2 | u8::from(*b)),
        Part::Number(n) => number(out, *n),
        Part::Negative(z) => negative(out, *z),
        Part::Single(f) => {
            out.push(0xca);
            out.extend(f.to_bits().to_be_bytes());
        }
        Part::Float(f) => {
            out.push(0xcb);
            out.extend(f.to_bits().to_be_bytes());
        }
        Part::Text(s) => {
            head(out, s.len(), TEXTS);
            out.extend(s.as_bytes());
        }
        Part::Bytes(s) => {
            head(out, s.len(), BYTES);
            out.extend(s);
        }
        Part::Wide(n) => {
            out.extend([0xc4, 16]);
            out.extend(n.to_be_bytes());
        }
        Part::Ext(tag, bytes) => {
            out.extend([0xd6, tag.cast_unsigned()]);
            out.extend(bytes);
        }
        Part::List(items) => {
            head(out, items.len(), LISTS);
            items.iter().for_each(|item| spell(out, item));
        }
        Part::Map(pairs) => {
            head(out, pairs.len(), MAPS);
            for (key, value) in pairs {
                spell(out, key);
                spell(out, value);
            }
        }
    }
}

pub fn text(s: &str) -> Part {
    Part::Text(s.to_string())
}

pub fn spelled(items: &[Part]) -> Vec<u8> {
    let mut out = Vec::new();
    head(&mut out, items.len(), LISTS);
    items.iter().for_each(|item| spell(&mut out, item));
    out
}

/// How the fields of a struct are encoded.
#[derive(Clone, Copy)]
pub enum Form {
    List,
    Map,
    Reverse,
    Unknown,
}

/// A struct of these fields.
pub fn structure(form: Form, names: &[&str], values: Vec<Part>) -> Part {
    let mut pairs: Vec<(Part, Part)> = names
        .iter()
        .map(|name| text(name))
        .zip(values.clone())
        .collect();
    match form {
        Form::List => return Part::List(values),
        Form::Map => {}
        Form::Reverse => pairs.reverse(),
        Form::Unknown => {
            pairs.insert(1, (text("unknown"), Part::Number(7)));
            pairs.push((text("other"), text("words")));
        }
    }
    Part::Map(pairs)
}

/// Structs of these fields, each of a row of values.
pub fn structures(form: Form, names: &[&str], rows: &[Vec<Part>]) -> Vec<Part> {
    let of = |row: &Vec<Part>| structure(form, names, row.clone());
    rows.iter().map(of).collect()
}

/// A number in one of four spellings.
pub fn mixed(random: &mut Random) -> Part {
    Part::Number(number_of_width(random.below(4), random.next()))
}

/// The names of a struct of eight numbers.
pub const EIGHT: &[&str] = &[
    "alpha", "beta", "gamma", "delta", "epsilon", "zeta", "eta", "theta",
];

/// The names of a struct of nine fields of seven types.
pub const NINE: &[&str] = &[
    "number",
    "name",
    "born",
    "chip",
    "mother",
    "father",
    "weight",
    "height",
    "vaccinated",
];
