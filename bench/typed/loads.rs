//! The loads of typed values, and what each must answer. The port and the original are measured by this one file.

#[path = "../measure.rs"]
mod measure;

use measure::{Answer, Load, Random, Runs, load, number, number_of_width};

const RUNS: Runs = Runs { reps: 5, runs: 7 };

/// A call over numbers, and one over bytes.
pub type OfNumbers = fn(&[u32], u32) -> usize;
pub type OfBytes = fn(&[u8], u32) -> usize;

/// The calls that are measured. Each goes so many times over its input: a write answers the bytes of the last round, and a
/// read the elements of all rounds.
pub struct Calls {
    pub write_numbers: OfNumbers,
    /// The same list, whose elements are written one by one: by the wire's calls, one for the head and one for each number,
    /// with no serializer; by the serializer's calls of single values, after a head that the wire writes; as a list whose
    /// length is told, as a tuple, and as a list whose length isn't told.
    pub write_wire: OfNumbers,
    pub write_values: OfNumbers,
    pub write_counted: OfNumbers,
    pub write_tuple: OfNumbers,
    pub write_uncounted: OfNumbers,
    pub write_rows: OfNumbers,
    pub write_texts: OfBytes,
    pub write_entries: OfBytes,
    pub write_bytes: OfBytes,
    pub write_value: OfBytes,
    pub read_numbers: OfBytes,
    pub read_rows: OfBytes,
    pub read_texts: OfBytes,
    pub read_lent_texts: OfBytes,
    pub read_entries: OfBytes,
    pub read_lent_entries: OfBytes,
    /// The same reads, of which each takes canonical heads alone.
    pub strict_numbers: OfBytes,
    pub strict_rows: OfBytes,
    pub strict_texts: OfBytes,
    pub strict_lent_texts: OfBytes,
    pub strict_entries: OfBytes,
    pub strict_lent_entries: OfBytes,
    /// A whole message is passed over, and answered as one.
    pub skip: OfBytes,
    /// Whether a whole message is spelled canonically: the bytes of those that are.
    pub check: OfBytes,
}

/// The head of a list.
fn list(out: &mut Vec<u8>, len: usize) {
    match len {
        0..=15 => out.push(0x90 | len as u8),
        16..=0xffff => {
            out.push(0xdc);
            out.extend((len as u16).to_be_bytes());
        }
        _ => {
            out.push(0xdd);
            out.extend((len as u32).to_be_bytes());
        }
    }
}

fn spelled_numbers(numbers: &[u32]) -> Vec<u8> {
    let mut out = Vec::new();
    list(&mut out, numbers.len());
    numbers.iter().for_each(|n| number(&mut out, u64::from(*n)));
    out
}

fn spelled_rows(numbers: &[u32]) -> Vec<u8> {
    let mut out = Vec::new();
    list(&mut out, numbers.len() / 10);
    for row in numbers.chunks(10) {
        out.extend(spelled_numbers(row));
    }
    out
}

/// Texts of ten bytes.
fn spelled_texts(data: &[u8]) -> Vec<u8> {
    let mut out = Vec::new();
    list(&mut out, data.len() / 10);
    for text in data.chunks(10) {
        out.push(0xaa);
        out.extend(text);
    }
    out
}

/// Pairs of a text of ten bytes and a number of two.
fn spelled_entries(data: &[u8]) -> Vec<u8> {
    let mut out = Vec::new();
    list(&mut out, data.len() / 12);
    for entry in data.chunks(12) {
        out.extend([0x92, 0xaa]);
        out.extend(&entry[..10]);
        number(&mut out, u16::from_be_bytes([entry[10], entry[11]]).into());
    }
    out
}

/// A list whose items are, in turn, a number, a text, a list of two truths, a map of one pair, bytes and a float.
fn spelled_mixture(count: usize, random: &mut Random) -> Vec<u8> {
    let mut out = Vec::new();
    list(&mut out, count);
    for i in 0..count {
        match i % 6 {
            0 => number(&mut out, number_of_width(random.below(4), random.next())),
            1 => out.extend(b"\xa5hello"),
            2 => out.extend([0x92, 0xc3, 0xc2]),
            3 => out.extend([0x81, 0xa1, b'k', 0xc0]),
            4 => out.extend([0xc4, 4, 1, 2, 3, 4]),
            _ => out.extend([0xcb, 0x3f, 0xf0, 0, 0, 0, 0, 0, 1]),
        }
    }
    out
}

/// A million numbers of up to 32 bits.
fn million(random: &mut Random, pick: fn(u64) -> u64) -> Vec<u32> {
    let numbers = random.numbers(1_000_000, pick);
    numbers.into_iter().map(|n| n as u32).collect()
}

fn loads() -> Vec<Load<Calls>> {
    let mut random = Random::new();
    let small = million(&mut random, |_| 0);
    let mixed = million(&mut random, |r| r % 4);
    let wide = million(&mut random, |_| 3);
    let texts: Vec<u8> = (b'0'..=b'9').cycle().take(1_000_000).collect();
    let entries: Vec<u8> = (0..100_000)
        .flat_map(|_| {
            let number = (random.next() >> 48) as u16;
            [b"some words".as_slice(), &number.to_be_bytes()].concat()
        })
        .collect();
    let mixture = spelled_mixture(100_000, &mut random);
    let mut loads = vec![
        writes_numbers("write, small numbers", |c| c.write_numbers, &small),
        writes_numbers("write, mixed numbers", |c| c.write_numbers, &mixed),
        writes_numbers("write, wide numbers", |c| c.write_numbers, &wide),
    ];
    loads.extend(writes_of_many(&mixed, &texts, &entries, &mixture));
    loads.extend(reads_of_numbers(&small, &mixed, &wide));
    loads.extend(reads_of_texts(&texts, &entries));
    loads.extend(writes_by_parts(&small, &mixed, &wide));
    loads.extend(strict_reads(&small, &mixed, &wide, &texts, &entries));
    loads.extend(skips(&mixed, &texts, &mixture));
    loads.extend(checks(&small, &mixed, &texts, &mixture));
    loads
}

/// The reads once more, strictly.
fn strict_reads(
    small: &[u32],
    mixed: &[u32],
    wide: &[u32],
    texts: &[u8],
    entries: &[u8],
) -> Vec<Load<Calls>> {
    let (texts, entries) = (spelled_texts(texts), spelled_entries(entries));
    let numbers = |name, numbers: &[u32]| {
        let spelled = spelled_numbers(numbers);
        reads(name, |calls| calls.strict_numbers, spelled, numbers.len())
    };
    let rows = spelled_rows(mixed);
    vec![
        numbers("strict, small numbers", small),
        numbers("strict, mixed numbers", mixed),
        numbers("strict, wide numbers", wide),
        reads(
            "strict, rows of ten numbers",
            |c| c.strict_rows,
            rows,
            100_000,
        ),
        reads("strict, texts", |c| c.strict_texts, texts.clone(), 100_000),
        reads(
            "strict, lent texts",
            |c| c.strict_lent_texts,
            texts,
            100_000,
        ),
        reads(
            "strict, pairs with a text",
            |c| c.strict_entries,
            entries.clone(),
            100_000,
        ),
        reads(
            "strict, pairs with a lent text",
            |c| c.strict_lent_entries,
            entries,
            100_000,
        ),
    ]
}

/// Bytes of a hundred, of which there are so many.
fn spelled_bins(count: usize) -> Vec<u8> {
    let mut out = Vec::new();
    list(&mut out, count);
    for _ in 0..count {
        out.extend([0xc4, 100]);
        out.extend([7; 100]);
    }
    out
}

/// Lists of one item, seven in one another, of which there are so many.
fn spelled_nests(count: usize) -> Vec<u8> {
    let mut out = Vec::new();
    list(&mut out, count);
    for _ in 0..count {
        out.extend([0x91, 0x91, 0x91, 0x91, 0x91, 0x91, 0x91, 0xc0]);
    }
    out
}

fn skips(mixed: &[u32], texts: &[u8], mixture: &[u8]) -> Vec<Load<Calls>> {
    let skip = |name, count, data| load(name, count, |c: &Calls| c.skip, data, Answer::Sum(1));
    vec![
        skip("skip, mixed numbers", mixed.len(), spelled_numbers(mixed)),
        skip("skip, rows of ten numbers", 100_000, spelled_rows(mixed)),
        skip("skip, texts", 100_000, spelled_texts(texts)),
        skip("skip, bytes", 100_000, spelled_bins(100_000)),
        skip("skip, any kind", 100_000, mixture.to_vec()),
        skip(
            "skip, seven lists in one another",
            100_000,
            spelled_nests(100_000),
        ),
    ]
}

fn checks(small: &[u32], mixed: &[u32], texts: &[u8], mixture: &[u8]) -> Vec<Load<Calls>> {
    let check = |name, count, data: Vec<u8>| {
        let bytes = Answer::Sum(data.len() as u64);
        load(name, count, |c: &Calls| c.check, data, bytes)
    };
    vec![
        check("check, small numbers", small.len(), spelled_numbers(small)),
        check("check, mixed numbers", mixed.len(), spelled_numbers(mixed)),
        check("check, rows of ten numbers", 100_000, spelled_rows(mixed)),
        check("check, texts", 100_000, spelled_texts(texts)),
        check("check, bytes", 100_000, spelled_bins(100_000)),
        check("check, any kind", 100_000, mixture.to_vec()),
    ]
}

fn writes_of_many(mixed: &[u32], texts: &[u8], entries: &[u8], mixture: &[u8]) -> Vec<Load<Calls>> {
    vec![
        load(
            "write, rows of ten numbers",
            100_000,
            |calls: &Calls| calls.write_rows,
            mixed.to_vec(),
            Answer::Bytes(spelled_rows(mixed).len()),
        ),
        writes(
            "write, texts",
            |calls| calls.write_texts,
            texts,
            spelled_texts(texts).len(),
        ),
        writes(
            "write, tuple structs",
            |calls| calls.write_entries,
            entries,
            spelled_entries(entries).len(),
        ),
        load(
            "write, a megabyte",
            1_000_000,
            |calls: &Calls| calls.write_bytes,
            vec![7; 1_000_000],
            Answer::Bytes(1_000_005),
        ),
        writes(
            "write, any kind",
            |calls| calls.write_value,
            mixture,
            mixture.len(),
        ),
    ]
}

fn reads_of_numbers(small: &[u32], mixed: &[u32], wide: &[u32]) -> Vec<Load<Calls>> {
    let numbers = |name, numbers: &[u32]| {
        let spelled = spelled_numbers(numbers);
        reads(name, |calls| calls.read_numbers, spelled, numbers.len())
    };
    vec![
        numbers("read, small numbers", small),
        numbers("read, mixed numbers", mixed),
        numbers("read, wide numbers", wide),
        reads(
            "read, rows of ten numbers",
            |calls| calls.read_rows,
            spelled_rows(mixed),
            100_000,
        ),
    ]
}

fn reads_of_texts(texts: &[u8], entries: &[u8]) -> Vec<Load<Calls>> {
    let (texts, entries) = (spelled_texts(texts), spelled_entries(entries));
    vec![
        reads("read, texts", |c| c.read_texts, texts.clone(), 100_000),
        reads("read, lent texts", |c| c.read_lent_texts, texts, 100_000),
        reads(
            "read, pairs with a text",
            |c| c.read_entries,
            entries.clone(),
            100_000,
        ),
        reads(
            "read, pairs with a lent text",
            |c| c.read_lent_entries,
            entries,
            100_000,
        ),
    ]
}

/// The lists of numbers once more, element by element.
fn writes_by_parts(small: &[u32], mixed: &[u32], wide: &[u32]) -> Vec<Load<Calls>> {
    vec![
        writes_numbers("small numbers, by the wire", |c| c.write_wire, small),
        writes_numbers("small numbers, by value calls", |c| c.write_values, small),
        writes_numbers("small numbers, length told", |c| c.write_counted, small),
        writes_numbers("small numbers, tuple", |c| c.write_tuple, small),
        writes_numbers(
            "small numbers, length unknown",
            |c| c.write_uncounted,
            small,
        ),
        writes_numbers("mixed numbers, by the wire", |c| c.write_wire, mixed),
        writes_numbers("mixed numbers, by value calls", |c| c.write_values, mixed),
        writes_numbers("mixed numbers, length told", |c| c.write_counted, mixed),
        writes_numbers("mixed numbers, tuple", |c| c.write_tuple, mixed),
        writes_numbers(
            "mixed numbers, length unknown",
            |c| c.write_uncounted,
            mixed,
        ),
        writes_numbers("wide numbers, by the wire", |c| c.write_wire, wide),
        writes_numbers("wide numbers, by value calls", |c| c.write_values, wide),
        writes_numbers("wide numbers, length told", |c| c.write_counted, wide),
        writes_numbers("wide numbers, tuple", |c| c.write_tuple, wide),
        writes_numbers("wide numbers, length unknown", |c| c.write_uncounted, wide),
    ]
}

fn writes_numbers(
    name: &'static str,
    call: fn(&Calls) -> OfNumbers,
    numbers: &[u32],
) -> Load<Calls> {
    let answer = Answer::Bytes(spelled_numbers(numbers).len());
    load(name, numbers.len(), call, numbers.to_vec(), answer)
}

fn writes(
    name: &'static str,
    call: fn(&Calls) -> OfBytes,
    data: &[u8],
    bytes: usize,
) -> Load<Calls> {
    load(name, 100_000, call, data.to_vec(), Answer::Bytes(bytes))
}

fn reads(
    name: &'static str,
    call: fn(&Calls) -> OfBytes,
    data: Vec<u8>,
    count: usize,
) -> Load<Calls> {
    load(name, count, call, data, Answer::Sum(count as u64))
}

pub fn main(calls: &Calls) {
    measure::main(&loads(), RUNS, calls);
}
