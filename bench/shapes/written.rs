//! The loads of values that are written.

use super::{
    COUNT, Form, Made, NINE, Part, Random, many, map, mixed, named_map, number_of_width, numbers,
    structure, text, two,
};

/// Adds them all.
pub fn make(made: &mut Made, random: &mut Random) {
    leaves(made, random);
    bytes(made);
    parts(made, random);
    structs(made, random);
    variants(made, random);
}

/// Numbers of a width, with their sign or the other one.
fn wide(random: &mut Random, width: u64, below: bool) -> Part {
    let n = number_of_width(width, random.next());
    match below {
        true => Part::Negative(!((n >> u32::from(width == 4)) as i64)),
        false => Part::Number(n),
    }
}

fn leaves(made: &mut Made, random: &mut Random) {
    made.writes("nil", "nil", &vec![Part::Nil; COUNT]);
    let truths = many(COUNT, random, |r| Part::Truth(r.below(2) == 0));
    made.writes("truths", "bool", &truths);
    for (width, bytes) in [(0, "one byte"), (1, "two"), (2, "three"), (3, "five")] {
        let items = many(COUNT, random, |r| wide(r, width, false));
        made.writes(&format!("numbers of 32 bits, {bytes}"), "u32", &items);
    }
    for (width, bytes) in [
        (0, "one byte"),
        (1, "two"),
        (2, "three"),
        (3, "five"),
        (4, "nine"),
    ] {
        let items = many(COUNT, random, |r| wide(r, width, false));
        made.writes(&format!("numbers of 64 bits, {bytes}"), "u64", &items);
        let items = many(COUNT, random, |r| wide(r, width, true));
        made.writes(&format!("numbers below zero, {bytes}"), "i64", &items);
    }
    let halves = many(COUNT, random, |r| Part::Wide(u128::from(r.next()) << 64));
    made.writes("numbers of 128 bits", "u128", &halves);
    let single = many(COUNT, random, |r| Part::Single(r.below(1000) as f32));
    made.writes("floats of 32 bits", "f32", &single);
    let double = many(COUNT, random, |r| Part::Float(r.below(1000) as f64));
    made.writes("floats of 64 bits", "f64", &double);
    made.writes("characters of one byte", "char", &vec![text("x"); COUNT]);
    made.writes("characters of three bytes", "char", &vec![text("€"); COUNT]);
    for len in [5, 200] {
        made.writes(
            &format!("texts of {len}"),
            "text",
            &vec![text(&"x".repeat(len)); COUNT],
        );
        made.writes(
            &format!("bytes of {len}"),
            "buffer",
            &vec![Part::Bytes(vec![7; len]); COUNT],
        );
    }
}

fn bytes(made: &mut Made) {
    for len in [5, 200] {
        let lists = vec![Part::List(vec![Part::Number(7); len]); COUNT];
        let bytes = vec![Part::Bytes(vec![7; len]); COUNT];
        made.writes(&format!("vectors of {len} small numbers"), "bytes", &lists);
        made.writes_as(
            &format!("vectors of {len}, iterables as bytes"),
            "iterables",
            &lists,
            &bytes,
        );
        made.writes_as(
            &format!("vectors of {len}, all as bytes"),
            "forced",
            &lists,
            &bytes,
        );
    }
}

fn parts(made: &mut Made, random: &mut Random) {
    let options = many(COUNT, random, |r| match r.below(2) {
        0 => Part::Nil,
        _ => mixed(r),
    });
    made.writes("options", "option", &options);
    let rows = |r: &mut Random| Part::List((0..3).map(|_| Part::List(numbers(r, 3))).collect());
    made.writes("lists of three lists", "nested", &many(COUNT, random, rows));
    let of_numbers = many(COUNT, random, |r| map(10, r));
    made.writes("maps of ten numbers", "map", &of_numbers);
    let of_texts = many(COUNT, random, |r| named_map(0..10, r));
    made.writes("maps from ten texts", "named_map", &of_texts);
    made.writes(
        "tuples of two",
        "tuple",
        &many(COUNT, random, |r| Part::List(two(r))),
    );
}

const DOG: &[&str] = &["name", "age"];

fn dog(random: &mut Random) -> Vec<Part> {
    vec![text("some words"), Part::Number(random.below(1 << 16))]
}

fn papers(random: &mut Random) -> Vec<Part> {
    vec![
        mixed(random),
        text("some words"),
        Part::Number(random.below(1 << 16)),
        mixed(random),
        Part::Nil,
        mixed(random),
        Part::Number(random.below(128)),
        Part::Negative(-1 - random.below(100) as i64),
        Part::Truth(true),
    ]
}

fn structs(made: &mut Made, random: &mut Random) {
    let dogs: Vec<_> = (0..COUNT).map(|_| dog(random)).collect();
    made.written_structs("two fields", "dog", DOG, dogs);
    let all: Vec<_> = (0..COUNT).map(|_| papers(random)).collect();
    made.written_structs("nine fields", "papers", NINE, all);
}

fn variants(made: &mut Made, random: &mut Random) {
    let of = |name: &str, content: Part| Part::Map(vec![(text(name), content)]);
    let byte = |r: &mut Random| Part::Number(r.below(256));
    made.writes(
        "variants without content",
        "four",
        &vec![text("Unit"); COUNT],
    );
    let new = many(COUNT, random, |r| of("New", byte(r)));
    made.writes("newtype variants", "four", &new);
    let pairs = many(COUNT, random, |r| {
        of(
            "Tup",
            Part::List(vec![byte(r), Part::Number(r.below(1 << 16))]),
        )
    });
    made.writes("tuple variants", "four", &pairs);
    let fields = |r: &mut Random| vec![byte(r), text("some words")];
    let lists = many(COUNT, random, |r| of("Str", Part::List(fields(r))));
    made.writes("struct variants", "four", &lists);
    let maps = many(COUNT, random, |r| {
        of("Str", structure(Form::Map, &["a", "b"], fields(r)))
    });
    made.writes("struct variants by names", "four_named", &maps);
}
