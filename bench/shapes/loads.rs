//! Messages that are read as values of many types, and what that must answer. The port and the original are measured by this one file.

#[path = "../measure.rs"]
#[allow(dead_code)]
mod measure;
#[path = "../named.rs"]
mod named;
#[path = "../parts.rs"]
mod parts;
mod written;

use measure::{Answer, Load, Random, Runs, number_of_width};
use named::call_over;
pub use named::{Calls, OfBytes};
use parts::{EIGHT, Form, NINE, Part, mixed, spell, spelled, structure, structures, text};
use std::ops::Range;

const RUNS: Runs = Runs { reps: 20, runs: 7 };

const TWO: &[&str] = &["id", "on"];
const FIVE: &[&str] = &["id", "name", "age", "score", "note"];
const TWELVE: &[&str] = &[
    "january",
    "february",
    "march",
    "april",
    "may",
    "june",
    "july",
    "august",
    "september",
    "october",
    "november",
    "december",
];

fn two(random: &mut Random) -> Vec<Part> {
    vec![mixed(random), Part::Truth(random.below(2) == 1)]
}

fn five(random: &mut Random) -> Vec<Part> {
    let note = match random.below(2) {
        0 => Part::Nil,
        _ => Part::Number(random.below(1 << 16)),
    };
    let score = Part::Negative(-1 - random.below(1 << 20) as i64);
    vec![
        mixed(random),
        text("some words"),
        Part::Number(random.below(128)),
        score,
        note,
    ]
}

fn numbers(random: &mut Random, count: usize) -> Vec<Part> {
    (0..count).map(|_| mixed(random)).collect()
}

/// A tree as JSON has them.
fn tree(random: &mut Random) -> Part {
    let tags = vec![text("red"), text("green"), text("blue")];
    let place = vec![
        (text("lat"), Part::Float(48.5)),
        (text("lon"), Part::Float(-2.25)),
    ];
    Part::Map(vec![
        (text("id"), mixed(random)),
        (text("name"), text("some words")),
        (text("active"), Part::Truth(true)),
        (text("score"), Part::Negative(-5)),
        (text("parent"), Part::Nil),
        (text("tags"), Part::List(tags)),
        (text("place"), Part::Map(place)),
    ])
}

/// The loads that were made.
struct Made {
    loads: Vec<Load<Calls>>,
}

impl Made {
    /// Reads a list of these by the call `bench_read_..`.
    fn reads(&mut self, name: &str, call: &str, items: &[Part]) {
        self.called(
            &format!("read, {name}"),
            &format!("bench_read_{call}"),
            items,
        );
    }

    /// Reads a list of these by a call.
    fn called(&mut self, name: &str, call: &str, items: &[Part]) {
        let data = spelled(items);
        let answer = Answer::Sum(items.len() as u64);
        self.loads.push(call_over(
            name.into(),
            call.into(),
            items.len(),
            data,
            answer,
        ));
    }

    /// Writes a list of these by the call `bench_write_..`: the message it was read from is what must be written.
    fn writes(&mut self, name: &str, call: &str, items: &[Part]) {
        self.writes_as(name, call, items, items);
    }

    /// Writes a list of these, which is written as a list of those.
    fn writes_as(&mut self, name: &str, call: &str, items: &[Part], written: &[Part]) {
        let load = call_over(
            format!("write, {name}"),
            format!("bench_write_{call}"),
            items.len(),
            spelled(items),
            Answer::Bytes(spelled(written).len()),
        );
        self.loads.push(load);
    }

    /// Reads one message by a call, which counts as one element.
    fn single(&mut self, name: &str, call: &str, data: Vec<u8>) {
        let load = call_over(name.into(), call.into(), 1, data, Answer::Sum(1));
        self.loads.push(load);
    }

    /// Passes over a list of these.
    fn skips(&mut self, name: &str, items: &[Part]) {
        let load = call_over(
            name.into(),
            "bench_skip".into(),
            items.len(),
            spelled(items),
            Answer::Sum(1),
        );
        self.loads.push(load);
    }

    /// Structs of some fields, in each form.
    fn structs(&mut self, name: &str, call: &str, names: &[&str], rows: Vec<Vec<Part>>) {
        let forms = [
            ("list", Form::List),
            ("map", Form::Map),
            ("map in reverse", Form::Reverse),
            ("map with unknown names", Form::Unknown),
        ];
        for (form_name, form) in forms {
            let items = structures(form, names, &rows);
            self.reads(&format!("{name}, {form_name}"), call, &items);
        }
    }

    /// Structs of some fields that are written, as lists and by names.
    fn written_structs(&mut self, name: &str, call: &str, names: &[&str], rows: Vec<Vec<Part>>) {
        let lists = structures(Form::List, names, &rows);
        let maps = structures(Form::Map, names, &rows);
        self.writes(&format!("structs of {name}"), call, &lists);
        let by_names = format!("structs of {name} by names");
        self.writes_as(&by_names, &format!("{call}_named"), &lists, &maps);
    }
}

/// So many elements.
fn many(count: usize, random: &mut Random, make: impl Fn(&mut Random) -> Part) -> Vec<Part> {
    (0..count).map(|_| make(random)).collect()
}

const COUNT: usize = 200;
/// How many fill a buffer more than once.
const MORE: usize = 20_000;

fn loads() -> Vec<Load<Calls>> {
    let mut made = Made { loads: Vec::new() };
    let mut random = Random::new();
    small(&mut made, &mut Random::new());
    structs(&mut made, &mut random);
    variants(&mut made, &mut random);
    leaves(&mut made, &mut random);
    numbers_and_truths(&mut made, &mut random);
    maps(&mut made, &mut random);
    rows(&mut made, &mut random);
    skipped(&mut made, &mut random);
    sources(&mut made, &mut random);
    more_leaves(&mut made, &mut random);
    more_parts(&mut made, &mut random);
    singles(&mut made);
    large(&mut made, &mut Random::new());
    written::make(&mut made, &mut random);
    made.loads
}

fn structs(made: &mut Made, random: &mut Random) {
    let rows = |random: &mut Random, make: fn(&mut Random) -> Vec<Part>| {
        (0..COUNT).map(|_| make(random)).collect()
    };
    made.structs("two fields", "two", TWO, rows(random, two));
    made.structs("five fields", "five", FIVE, rows(random, five));
    made.structs(
        "eight fields",
        "eight",
        EIGHT,
        rows(random, |r| numbers(r, 8)),
    );
    made.structs(
        "twelve fields",
        "twelve",
        TWELVE,
        rows(random, |r| numbers(r, 12)),
    );
}

fn variants(made: &mut Made, random: &mut Random) {
    let fields = |r: &mut Random| Part::List(numbers(r, 2));
    let named = |r: &mut Random| structure(Form::Map, &["a", "b"], numbers(r, 2));
    let of = |name: &str, content: Part| Part::Map(vec![(text(name), content)]);
    made.reads(
        "variant without content",
        "shape",
        &many(COUNT, random, |_| text("Empty")),
    );
    made.reads(
        "newtype variant",
        "shape",
        &many(COUNT, random, |r| of("New", mixed(r))),
    );
    made.reads(
        "tuple variant",
        "shape",
        &many(COUNT, random, |r| of("Tup", fields(r))),
    );
    let lists = many(COUNT, random, |r| of("Str", fields(r)));
    made.reads("struct variant, list", "shape", &lists);
    made.reads(
        "struct variant, map",
        "shape",
        &many(COUNT, random, |r| of("Str", named(r))),
    );
    made.reads(
        "option",
        "option",
        &many(COUNT, random, |r| {
            if r.below(2) == 0 { Part::Nil } else { mixed(r) }
        }),
    );
}

fn leaves(made: &mut Made, random: &mut Random) {
    for (len, count) in [(100, 100), (10_000, 4)] {
        let items = vec![Part::Bytes(vec![7; len]); count];
        let name = format!("bytes of {len} as a vector");
        made.reads(&name, "bytes", &items);
        made.reads(&format!("bytes of {len} as a queue"), "queue", &items);
        made.reads(&format!("bytes of {len}"), "buffer", &items);
    }
    let rows = many(500, random, |r| {
        Part::List(many(10, r, |r| Part::Number(r.below(128))))
    });
    made.reads(
        "lists of ten small numbers as vectors of bytes",
        "bytes",
        &rows,
    );
    for len in [5, 200] {
        let items = vec![text(&"x".repeat(len)); COUNT];
        made.reads(&format!("texts of {len}"), "text", &items);
        made.reads(&format!("lent texts of {len}"), "str", &items);
    }
    made.reads("characters of one byte", "char", &vec![text("x"); COUNT]);
    made.reads("characters of three bytes", "char", &vec![text("€"); COUNT]);
}

fn numbers_and_truths(made: &mut Made, random: &mut Random) {
    let signed = many(COUNT, random, |r| match r.below(2) {
        0 => Part::Number(number_of_width(r.below(4), r.next())),
        _ => Part::Negative(!(number_of_width(r.below(4), r.next()) as i64)),
    });
    made.reads("numbers with a sign", "i64", &signed);
    let small = many(COUNT, &mut Random::new(), |r| match r.below(2) {
        0 => Part::Number(r.below(128)),
        _ => Part::Negative(!(r.below(32) as i64)),
    });
    made.reads("small numbers of 16 bits with a sign", "i16", &small);
    made.reads(
        "floats",
        "f64",
        &many(COUNT, random, |r| Part::Float(r.below(1000) as f64)),
    );
    made.reads(
        "truths",
        "bool",
        &many(COUNT, random, |r| Part::Truth(r.below(2) == 0)),
    );
    made.reads(
        "numbers of 128 bits",
        "u128",
        &many(COUNT, random, |r| Part::Wide(u128::from(r.next()) << 64)),
    );
}

/// A map from so many numbers.
fn map(len: u64, random: &mut Random) -> Part {
    let pairs = (0..len).map(|n| (Part::Number(n), mixed(random)));
    Part::Map(pairs.collect())
}

/// A map from texts that end in these numbers.
fn named_map(names: Range<u64>, random: &mut Random) -> Part {
    let pairs = names.map(|n| (text(&format!("key {n}")), mixed(random)));
    Part::Map(pairs.collect())
}

/// A set of so many numbers.
fn set(len: u64, random: &mut Random) -> Part {
    let keys = (0..len).map(|n| Part::Number(100 * n + random.below(100)));
    Part::List(keys.collect())
}

fn maps(made: &mut Made, random: &mut Random) {
    let of_numbers = many(COUNT, random, |r| map(10, r));
    made.reads("maps of ten numbers", "map", &of_numbers);
    let of_texts = many(COUNT, random, |r| named_map(0..10, r));
    made.reads("maps from ten texts", "named_map", &of_texts);
}

fn large(made: &mut Made, random: &mut Random) {
    let of_numbers = many(COUNT, random, |r| map(100, r));
    made.reads("maps of a hundred numbers", "map", &of_numbers);
    let of_texts = many(COUNT, random, |r| named_map(100..200, r));
    made.reads("maps from a hundred texts", "named_map", &of_texts);
    let sets = many(COUNT, random, |r| set(100, r));
    made.reads("sets of a hundred numbers", "set", &sets);
}

fn rows(made: &mut Made, random: &mut Random) {
    made.reads("nil", "nil", &vec![Part::Nil; COUNT]);
    let pairs = many(COUNT, random, |r| Part::List(two(r)));
    made.reads("pairs of a number and a truth", "pair", &pairs);
    for (name, call) in [
        ("triples of numbers", "triple"),
        ("lists of three numbers", "nested"),
    ] {
        let items = many(COUNT, random, |r| Part::List(numbers(r, 3)));
        made.reads(name, call, &items);
    }
    let sets = many(COUNT, random, |r| set(10, r));
    made.reads("sets of ten numbers", "set", &sets);
    let bytes = many(COUNT, random, |_| Part::Bytes(vec![7; 32]));
    made.reads("bytes of 32 as arrays", "array", &bytes);
}

/// What little there is to read of, so that what is done once for each value shows.
fn small(made: &mut Made, random: &mut Random) {
    made.reads(
        "structs without fields",
        "nothing",
        &vec![Part::List(Vec::new()); COUNT],
    );
    made.reads("boxed numbers", "boxed", &numbers(random, COUNT));
    let fours = many(COUNT, random, |r| {
        Part::List(many(4, r, |r| Part::Number(r.below(1 << 16))))
    });
    made.reads("arrays of four numbers", "four", &fours);
    for (name, len) in [("no number", 0), ("one number", 1)] {
        let lists = many(COUNT, random, |r| Part::List(numbers(r, len)));
        made.reads(&format!("lists of {name}"), "nested", &lists);
    }
    for (name, len) in [("no number", 0), ("two numbers", 2)] {
        let maps = many(COUNT, random, |r| {
            Part::Map((0..len).map(|n| (Part::Number(n), mixed(r))).collect())
        });
        made.reads(&format!("maps of {name}"), "map", &maps);
    }
}

fn skipped(made: &mut Made, random: &mut Random) {
    let trees = many(COUNT, random, tree);
    made.skips("skip, trees", &trees);
    let signed = many(COUNT, random, |r| {
        Part::Negative(-1 - r.below(1 << 20) as i64)
    });
    made.skips("skip, numbers below zero", &signed);
}

fn sources(made: &mut Made, random: &mut Random) {
    let texts = vec![text("some words"); COUNT];
    made.called(
        "numbers from a cursor",
        "bench_cursor_numbers",
        &numbers(random, COUNT),
    );
    made.called("texts from a cursor", "bench_cursor_texts", &texts);
    let large = vec![Part::Bytes(vec![7; 65_536]); 4];
    made.called(
        "bytes of 65536 from a cursor",
        "bench_cursor_buffers",
        &large,
    );
    let some = numbers(random, COUNT);
    let more = numbers(&mut Random::new(), MORE);
    let more_texts = vec![text("some words"); MORE];
    for (name, of) in [("from a buffer", "buffered"), ("read ahead", "ahead")] {
        let (of_numbers, of_texts) = (format!("bench_{of}_numbers"), format!("bench_{of}_texts"));
        made.called(&format!("numbers {name}"), &of_numbers, &some);
        made.called(&format!("texts {name}"), &of_texts, &texts);
        made.called(&format!("many numbers {name}"), &of_numbers, &more);
        made.called(&format!("many texts {name}"), &of_texts, &more_texts);
    }
    made.called("many texts from a slice", "bench_read_text", &more_texts);
}

fn extensions() -> Vec<Part> {
    vec![Part::Ext(5, [7; 4]); COUNT]
}

fn more_leaves(made: &mut Made, random: &mut Random) {
    made.reads("extensions of four bytes", "ext", &extensions());
    made.reads(
        "texts as they stand",
        "raw",
        &vec![text("some words"); COUNT],
    );
    made.reads(
        "lent bytes of 5",
        "lent_bytes",
        &vec![Part::Bytes(vec![7; 5]); COUNT],
    );
    for (character, bytes) in [("é", "two"), ("語", "three")] {
        let items = vec![text(&character.repeat(66)); COUNT];
        made.reads(
            &format!("texts of 66 characters of {bytes} bytes"),
            "text",
            &items,
        );
    }
    made.reads("texts of nothing", "text", &vec![text(""); COUNT]);
    let options = many(COUNT, random, |r| match r.below(2) {
        0 => Part::Nil,
        _ => text("some words"),
    });
    made.reads("options of texts", "option_text", &options);
    let small = many(COUNT, random, |r| Part::Number(r.below(128)));
    made.reads("numbers of 128 bits in one byte", "u128", &small);
    made.skips("skip, small numbers", &small);
    made.skips("skip, extensions", &extensions());
}

fn more_parts(made: &mut Made, random: &mut Random) {
    let rows = |r: &mut Random| Part::List((0..10).map(|_| Part::List(numbers(r, 10))).collect());
    made.reads(
        "lists of ten lists of ten",
        "rows",
        &many(COUNT, random, rows),
    );
    made.reads(
        "lists of ten texts",
        "texts",
        &vec![Part::List(vec![text("some words"); 10]); COUNT],
    );
    let quads = many(COUNT, random, |r| {
        Part::List(many(4, r, |r| Part::Number(r.below(128))))
    });
    made.reads("tuples of four bytes", "quad", &quads);
    made.reads("trees of any kind", "value", &many(COUNT, random, tree));
}

/// One message a call: what is refused, and a struct from a cursor.
fn singles(made: &mut Made) {
    let spelled = |part: &Part| {
        let mut out = Vec::new();
        spell(&mut out, part);
        out
    };
    made.single("refused, nothing there", "bench_refuse_byte", Vec::new());
    made.single(
        "refused, number out of range",
        "bench_refuse_byte",
        spelled(&Part::Number(300)),
    );
    let mut cut = spelled(&Part::List(vec![Part::Number(70_000); 10]));
    cut.truncate(cut.len() - 2);
    made.single("refused, list cut short", "bench_refuse_numbers", cut);
    let two = |id: Part| structure(Form::Map, TWO, vec![id, Part::Truth(true)]);
    made.single(
        "refused, text for a field",
        "bench_refuse_two",
        spelled(&two(text("abc"))),
    );
    made.single(
        "a struct from a cursor",
        "bench_cursor_two",
        spelled(&two(Part::Number(300))),
    );
}

pub fn main(calls: &Calls) {
    measure::main(&loads(), RUNS, calls);
}
