//! Loads that are wide, mixed or deep: numbers of all widths, many floats, and lists in lists that are skipped. And a message in pieces, a
//! walk over one of any kind, one message a call, and types that contain themselves.
//! The port and the original are measured by this one file.

#[path = "../measure.rs"]
#[allow(dead_code)]
mod measure;
#[path = "../named.rs"]
mod named;
#[path = "../parts.rs"]
#[allow(dead_code)]
mod parts;

use measure::{Answer, Load, Random, Runs, number_of_width};
use named::call_over;
pub use named::{Calls, OfBytes};
use parts::{Form, Part, mixed, spell, spelled, structure, text};

const RUNS: Runs = Runs { reps: 20, runs: 7 };

/// How many elements a list has.
const COUNT: usize = 200;

fn many(count: usize, make: impl Fn(&mut Random) -> Part) -> Vec<Part> {
    let random = &mut Random::new();
    (0..count).map(|_| make(random)).collect()
}

/// The spellings one after another.
fn in_a_row(items: &[Part]) -> Vec<u8> {
    let mut out = Vec::new();
    items.iter().for_each(|item| spell(&mut out, item));
    out
}

/// Reads a list of these, and answers how many there are.
fn read(name: &str, call: &str, items: &[Part]) -> Load<Calls> {
    let count = Answer::Sum(items.len() as u64);
    call_over(
        format!("read, {name}"),
        call.into(),
        items.len(),
        spelled(items),
        count,
    )
}

/// Writes a list of these, which is written as a list of those.
fn write(name: &str, call: &str, items: &[Part], written: &[Part]) -> Load<Calls> {
    let bytes = Answer::Bytes(spelled(written).len());
    call_over(
        format!("write, {name}"),
        call.into(),
        items.len(),
        spelled(items),
        bytes,
    )
}

/// Passes over one message, which counts as so many elements.
fn skip(name: &str, count: usize, message: Vec<u8>) -> Load<Calls> {
    call_over(
        format!("skip, {name}"),
        "bench_skip".into(),
        count,
        message,
        Answer::Sum(1),
    )
}

/// A number of some width, with a sign or without one.
fn signed(random: &mut Random, width: u64) -> Part {
    match random.below(2) {
        0 => Part::Number(number_of_width(width, random.next()) >> u32::from(width == 4)),
        _ => Part::Negative(
            !((number_of_width(width, random.next()) >> u32::from(width == 4)) as i64),
        ),
    }
}

fn numbers(made: &mut Vec<Load<Calls>>) {
    let of_all_widths = many(COUNT, |r| {
        let width = r.below(5);
        signed(r, width)
    });
    let wide = many(COUNT, |r| signed(r, 4));
    let small = many(COUNT, |r| Part::Negative(-1 - r.below(32) as i64));
    for (name, items) in [
        ("numbers with a sign, of all widths", &of_all_widths),
        ("numbers with a sign, of nine bytes", &wide),
        ("numbers from -32 to -1", &small),
    ] {
        made.push(read(name, "bench_read_i64", items));
        made.push(write(name, "bench_write_i64", items, items));
    }
    let natural = many(COUNT, |r| {
        let width = r.below(5);
        Part::Number(number_of_width(width, r.next()))
    });
    made.push(write(
        "numbers of 64 bits, of all widths",
        "bench_write_u64",
        &natural,
        &natural,
    ));
    let doubles = many(5000, |r| Part::Float(r.next() as f64));
    made.push(read("many floats", "bench_read_f64", &doubles));
    made.push(write("many floats", "bench_write_f64", &doubles, &doubles));
}

fn deep(made: &mut Vec<Load<Calls>>) {
    let mut nested = vec![0x91; 1000];
    nested.push(0xc0);
    made.push(skip("a thousand lists of one list", 1000, nested));
    let large = in_a_row(&[Part::Bytes(vec![7; 10_000_000])]);
    made.push(skip("ten megabytes", 1, large));
}

/// A number of 32 bits in five bytes.
fn wide(random: &mut Random) -> Part {
    Part::Number(number_of_width(3, random.next()))
}

/// A list of numbers that arrives in pieces, and a walk over one of lists of ten.
fn in_pieces(made: &mut Vec<Load<Calls>>) {
    let data = spelled(&many(13_107, wide));
    for size in [1, 64, 1460] {
        made.push(call_over(
            format!("a byte in pieces of {size}"),
            format!("pieces_of_{size}"),
            data.len(),
            data.clone(),
            Answer::Sum(1),
        ));
    }
    let numbers = many(1000, wide);
    let sum = numbers.iter().map(|number| match number {
        Part::Number(n) => *n,
        _ => 0,
    });
    let sum = Answer::Sum(sum.sum());
    let rows: Vec<Part> = numbers
        .chunks(10)
        .map(|row| Part::List(row.to_vec()))
        .collect();
    made.push(call_over(
        "walk over numbers, a node".into(),
        "pieces_walk".into(),
        1101,
        spelled(&rows),
        sum,
    ));
}

/// Lists of lists of texts, that are walked over.
fn texts(made: &mut Vec<Load<Calls>>) {
    let of_texts = many(1000, |r| Part::Text("x".repeat(r.below(20) as usize)));
    let lengths = of_texts.iter().map(|text| match text {
        Part::Text(text) => text.len() as u64,
        _ => 0,
    });
    let sum = Answer::Sum(lengths.sum());
    let rows: Vec<Part> = of_texts
        .chunks(10)
        .map(|row| Part::List(row.to_vec()))
        .collect();
    made.push(call_over(
        "walk over texts, a node".into(),
        "pieces_walk_texts".into(),
        1101,
        spelled(&rows),
        sum,
    ));
}

/// Messages that are read and written by a call of their own: so many, one after another.
fn once(made: &mut Vec<Load<Calls>>) {
    let ten = |r: &mut Random| Part::Text((0..10).map(|_| char::from(b'a' + r.below(26) as u8)).collect());
    let row = |r: &mut Random| Part::List((0..3).map(|_| Part::Number(r.below(128))).collect());
    for (name, kind, items) in [
        ("a number of five bytes", "number", many(COUNT, wide)),
        ("a text of ten bytes", "text", many(COUNT, ten)),
        ("a list of three numbers", "row", many(COUNT, row)),
    ] {
        let data = in_a_row(&items);
        let (read, written) = (Answer::Sum(COUNT as u64), Answer::Bytes(data.len()));
        for (verb, call, answer) in [("from_slice", "read", read), ("to_vec", "write", written)] {
            made.push(call_over(
                format!("{verb}, {name}"),
                format!("once_{call}_{kind}"),
                COUNT,
                data.clone(),
                answer,
            ));
        }
    }
}

/// A chain of so many numbers, of lists or of maps.
fn chain(form: Form, count: usize) -> Part {
    let random = &mut Random::new();
    (0..count).fold(Part::Nil, |next, _| {
        structure(form, &["at", "next"], vec![mixed(random), next])
    })
}

/// An expression of this many levels: by turns a sum of two and what is negated.
fn expression(levels: usize) -> Part {
    let of = |name: &str, content: Part| Part::Map(vec![(text(name), content)]);
    match levels {
        0 => of("Number", Part::Number(1000)),
        _ if levels % 2 == 0 => of("Negated", expression(levels - 1)),
        _ => of("Sum", Part::List(vec![expression(levels - 1), expression(levels - 1)])),
    }
}

/// How many nodes an expression of this many levels has.
fn nodes(levels: usize) -> usize {
    match levels {
        0 => 1,
        _ if levels % 2 == 0 => 1 + nodes(levels - 1),
        _ => 1 + 2 * nodes(levels - 1),
    }
}

/// Values of types that contain themselves, for one node.
fn recursive(made: &mut Vec<Load<Calls>>) {
    let mut add = |name: &str, count: usize, part: &Part, reads: &str, writes: &str| {
        let data = in_a_row(std::slice::from_ref(part));
        let written = Answer::Bytes(data.len());
        for (verb, call, answer) in [("read", reads, Answer::Sum(1)), ("write", writes, written)] {
            made.push(call_over(
                format!("{verb}, {name}"),
                call.into(),
                count,
                data.clone(),
                answer,
            ));
        }
    };
    let (lists, maps) = (chain(Form::List, 100), chain(Form::Map, 100));
    add("a chain of lists", 100, &lists, "chain_read", "chain_write");
    add("a chain of maps", 100, &maps, "chain_read", "chain_write_named");
    add(
        "an expression",
        nodes(12),
        &expression(12),
        "expression_read",
        "expression_write",
    );
}

/// Runs what the arguments name.
pub fn main(calls: &Calls) {
    let mut made = Vec::new();
    numbers(&mut made);
    deep(&mut made);
    in_pieces(&mut made);
    texts(&mut made);
    once(&mut made);
    recursive(&mut made);
    let nothing = || {
        call_over(
            "refused, c1".into(),
            "bench_refuse_byte".into(),
            1,
            vec![0xc1],
            Answer::Sum(1),
        )
    };
    made.push(nothing());
    measure::main(&made, RUNS, calls);
}
