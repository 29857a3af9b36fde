//! The loads of single items, and what each must answer. The port and the original are measured by this one file.

#[path = "../measure.rs"]
mod measure;

use measure::{Answer, Load, Random, Runs, load, number};

/// How many numbers, texts or heads a load has.
const COUNT: usize = 1000;
const RUNS: Runs = Runs {
    reps: 1000,
    runs: 20,
};

/// The calls that are measured, each of which goes so many times over its input.
pub struct Calls {
    /// Writes the numbers, and answers how many bytes they came to in one round.
    pub write_uints: fn(&[u64], u32) -> usize,
    /// Writes the texts of ten bytes each that are one after the other, and answers the bytes of one round.
    pub write_texts: fn(&[u8], u32) -> usize,
    /// Reads the heads, and answers the sum of what they say over all rounds, modulo 2 ^ 64.
    pub read_heads: fn(&[u8], u32) -> u64,
}

/// A head of each kind, and what it says: a number, bits or a length, with an extension's type added to it.
const KINDS: [(&[u8], u64); 20] = [
    (&[0xc0], 0),
    (&[0xc2], 0),
    (&[0xc3], 1),
    (&[0xe5], -27_i64 as u64),
    (&[0xd0, 0x9c], -100_i64 as u64),
    (&[0xd1, 0xfc, 0x18], -1000_i64 as u64),
    (&[0xca, 0x3f, 0x80, 0, 0], 0x3f80_0000),
    (&[0xcb, 0x3f, 0xf0, 0, 0, 0, 0, 0, 1], 0x3ff0_0000_0000_0001),
    (&[0xa7], 7),
    (&[0xd9, 0x50], 0x50),
    (&[0xda, 0x12, 0x34], 0x1234),
    (&[0xc4, 9], 9),
    (&[0xc5, 0x43, 0x21], 0x4321),
    (&[0x9b], 11),
    (&[0xdc, 1, 2], 0x0102),
    (&[0x8c], 12),
    (&[0xde, 2, 1], 0x0201),
    (&[0xd6, 0x30], 4 + 0x30),
    (&[0xc7, 0x11, 0x40], 0x11 + 0x40),
    (&[0x05], 5),
];

/// The spellings of numbers, one after the other.
fn spelled(numbers: &[u64]) -> Vec<u8> {
    let mut out = Vec::new();
    numbers.iter().for_each(|n| number(&mut out, *n));
    out
}

fn loads() -> Vec<Load<Calls>> {
    let mut random = Random::new();
    let small = random.numbers(COUNT, |_| 0);
    let mixed = random.numbers(COUNT, |r| r % 5);
    let wide = random.numbers(COUNT, |_| 4);
    let kinds = (0..COUNT).map(|_| KINDS[random.below(KINDS.len() as u64) as usize]);
    let (kinds, said): (Vec<&[u8]>, Vec<u64>) = kinds.unzip();
    vec![
        writes("write_uint, small", &small),
        writes("write_uint, mixed", &mixed),
        writes("write_uint, wide", &wide),
        load(
            "write_str, 10 bytes",
            COUNT,
            |calls: &Calls| calls.write_texts,
            (b'0'..=b'9').cycle().take(10 * COUNT).collect(),
            Answer::Bytes(11 * COUNT),
        ),
        reads("head, small number", spelled(&small), &small),
        reads("head, mixed number", spelled(&mixed), &mixed),
        reads("head, wide number", spelled(&wide), &wide),
        reads("head, any kind", kinds.concat(), &said),
    ]
}

fn writes(name: &'static str, numbers: &[u64]) -> Load<Calls> {
    let answer = Answer::Bytes(spelled(numbers).len());
    load(
        name,
        COUNT,
        |calls: &Calls| calls.write_uints,
        numbers.to_vec(),
        answer,
    )
}

fn reads(name: &'static str, heads: Vec<u8>, said: &[u64]) -> Load<Calls> {
    let sum = said.iter().fold(0, |sum: u64, n| sum.wrapping_add(*n));
    load(
        name,
        COUNT,
        |calls: &Calls| calls.read_heads,
        heads,
        Answer::Sum(sum),
    )
}

pub fn main(calls: &Calls) {
    measure::main(&loads(), RUNS, calls);
}
