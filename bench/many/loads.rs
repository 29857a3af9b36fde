//! Messages that are read as values of many types in one program, and written again. The port and the original are measured by this one file.

#[path = "../measure.rs"]
#[allow(dead_code)]
mod measure;
#[path = "../named.rs"]
mod named;
#[path = "../parts.rs"]
#[allow(dead_code)]
mod parts;

use measure::{Answer, Load, Random, Runs};
use named::call_over;
pub use named::{Calls, OfBytes};
use parts::Form::{List, Map};
use parts::{EIGHT, Form, NINE, Part, mixed, spelled, structure, text};

const RUNS: Runs = Runs { reps: 20, runs: 3 };

/// How many elements a list has.
const COUNT: usize = 100;

/// How a value of a kind is in a message.
type Spelling = fn(&mut Random, Form) -> Part;

/// A number with a sign, of so many bits besides it.
fn signed(r: &mut Random, bits: u32) -> Part {
    match r.below(2) {
        0 => Part::Number(r.below(1 << bits)),
        _ => Part::Negative(-1 - r.below(1 << bits) as i64),
    }
}

fn truth(r: &mut Random) -> Part {
    Part::Truth(r.below(2) == 0)
}

fn float(r: &mut Random) -> Part {
    Part::Float(r.below(1000) as f64)
}

/// A text of ten bytes.
fn words(r: &mut Random) -> Part {
    text(&format!("text {:05}", r.below(100_000)))
}

fn bytes(r: &mut Random, len: usize) -> Part {
    Part::Bytes(vec![r.below(256) as u8; len])
}

/// Nil, or the value.
fn either(r: &mut Random, of: fn(&mut Random) -> Part) -> Part {
    match r.below(2) {
        0 => Part::Nil,
        _ => of(r),
    }
}

fn several(r: &mut Random, len: usize, of: fn(&mut Random) -> Part) -> Part {
    Part::List((0..len).map(|_| of(r)).collect())
}

/// Numbers in order, no two the same.
fn ascending(r: &mut Random, len: u64) -> Vec<Part> {
    (0..len)
        .map(|at| Part::Number(100 * at + r.below(100)))
        .collect()
}

fn map(r: &mut Random, keys: Vec<Part>) -> Part {
    Part::Map(keys.into_iter().map(|key| (key, mixed(r))).collect())
}

/// Texts in order, no two the same.
fn keys(r: &mut Random, len: u64) -> Vec<Part> {
    (0..len)
        .map(|at| text(&format!("key {at} {:04}", r.below(10_000))))
        .collect()
}

/// A variant with this for content.
fn variant(name: &str, content: Part) -> Part {
    Part::Map(vec![(text(name), content)])
}

/// What has no names of fields, by the export that reads it.
const LEAVES: [(&str, &str, Spelling); 27] = [
    ("numbers of 8 bits", "u8", |r, _| Part::Number(r.below(256))),
    ("numbers of 32 bits", "u32", |r, _| mixed(r)),
    ("numbers with a sign", "i64", |r, _| signed(r, 17)),
    ("floats", "f64", |r, _| float(r)),
    ("truths", "bool", |r, _| truth(r)),
    ("characters", "char", |_, _| text("x")),
    ("nil", "nil", |_, _| Part::Nil),
    ("texts", "text", |r, _| words(r)),
    ("bytes of twenty", "bytebuf", |r, _| bytes(r, 20)),
    ("options of numbers", "option", |r, _| either(r, mixed)),
    ("options of texts", "opttext", |r, _| either(r, words)),
    ("lists of no number", "list", |_, _| Part::List(vec![])),
    ("lists of one number", "list", |r, _| several(r, 1, mixed)),
    ("lists of three numbers", "list", |r, _| {
        several(r, 3, mixed)
    }),
    ("lists of ten numbers", "list", |r, _| several(r, 10, mixed)),
    ("lists of three texts", "texts", |r, _| several(r, 3, words)),
    ("vectors of ten bytes", "bytes", |r, _| {
        several(r, 10, |r| Part::Number(r.below(128)))
    }),
    ("arrays of four numbers", "array", |r, _| {
        several(r, 4, mixed)
    }),
    ("pairs of a number and a truth", "pair", |r, _| {
        Part::List(vec![mixed(r), truth(r)])
    }),
    ("triples of numbers", "triple", |r, _| several(r, 3, mixed)),
    ("pairs of a text and a number", "textnum", |r, _| {
        Part::List(vec![words(r), mixed(r)])
    }),
    ("maps of no number", "map", |_, _| Part::Map(vec![])),
    ("maps of three numbers", "map", |r, _| {
        let keys = ascending(r, 3);
        map(r, keys)
    }),
    ("maps from three texts", "tmap", |r, _| {
        let keys = keys(r, 3);
        map(r, keys)
    }),
    ("sets of three numbers", "set", |r, _| {
        Part::List(ascending(r, 3))
    }),
    ("queues of three numbers", "queue", |r, _| {
        several(r, 3, mixed)
    }),
    ("boxed numbers", "boxed", |r, _| mixed(r)),
];

fn point(r: &mut Random, form: Form) -> Part {
    let values = vec![signed(r, 10), signed(r, 10)];
    structure(form, &["x", "y"], values)
}

fn five(r: &mut Random) -> Vec<Part> {
    let note = either(r, |r| Part::Number(r.below(1 << 16)));
    let age = Part::Number(r.below(128));
    vec![mixed(r), words(r), age, signed(r, 17), note]
}

fn nine(r: &mut Random) -> Vec<Part> {
    let (chip, mother) = (either(r, mixed), either(r, mixed));
    let born = Part::Number(r.below(1 << 16));
    let ends = [Part::Nil, Part::Number(9), Part::Negative(-3), truth(r)];
    let begins = [mixed(r), words(r), born, chip, mother];
    begins.into_iter().chain(ends).collect()
}

fn outer(r: &mut Random, form: Form) -> Part {
    let values = vec![point(r, form), words(r), several(r, 2, mixed)];
    structure(form, &["at", "label", "sizes"], values)
}

fn record(r: &mut Random, form: Form) -> Part {
    let tags = several(r, 2, words);
    let values = vec![mixed(r), words(r), tags, float(r), truth(r)];
    structure(form, &["id", "name", "tags", "score", "active"], values)
}

fn tree(r: &mut Random, form: Form) -> Part {
    let keys = keys(r, 2);
    let values = vec![map(r, keys), mixed(r)];
    structure(form, &["names", "size"], values)
}

fn shape(r: &mut Random, form: Form) -> Part {
    match r.below(4) {
        0 => text("Empty"),
        1 => variant("New", mixed(r)),
        2 => variant("Two", several(r, 2, mixed)),
        _ => {
            let values = vec![mixed(r), mixed(r)];
            variant("Named", structure(form, &["a", "b"], values))
        }
    }
}

fn request(r: &mut Random, form: Form) -> Part {
    match r.below(4) {
        0 => variant("Get", structure(form, &["key"], vec![words(r)])),
        1 => {
            let values = vec![words(r), bytes(r, 10)];
            variant("Put", structure(form, &["key", "value"], values))
        }
        2 => variant("Delete", words(r)),
        _ => text("Ping"),
    }
}

/// Structs and enums, by the export that reads them.
const STRUCTS: [(&str, &str, Spelling); 20] = [
    ("structs without fields", "unit", |_, _| Part::Nil),
    ("newtypes", "id", |r, _| mixed(r)),
    ("tuple structs", "tup", |r, _| {
        Part::List(vec![mixed(r), words(r)])
    }),
    ("a number and a truth", "flag", |r, form| {
        let values = vec![mixed(r), truth(r)];
        structure(form, &["id", "on"], values)
    }),
    ("two numbers with a sign", "point", point),
    ("three floats", "vec3", |r, form| {
        let values = vec![float(r), float(r), float(r)];
        structure(form, &["x", "y", "z"], values)
    }),
    ("one option", "maybe", |r, form| {
        let value = either(r, mixed);
        structure(form, &["value"], vec![value])
    }),
    ("five fields", "five", |r, form| {
        let values = five(r);
        structure(form, &["id", "name", "age", "score", "note"], values)
    }),
    ("eight numbers", "eight", |r, form| {
        let values = (0..8).map(|_| mixed(r)).collect();
        structure(form, EIGHT, values)
    }),
    ("nine fields", "nine", |r, form| {
        let values = nine(r);
        structure(form, NINE, values)
    }),
    ("a struct, a text and a list", "outer", outer),
    ("a text and a number", "counted", |r, form| {
        let values = vec![words(r), mixed(r)];
        structure(form, &["key", "count"], values)
    }),
    ("a record with two tags", "record", record),
    ("a map and a number", "tree", tree),
    ("variants without content", "color", |r, _| {
        text(["Red", "Green", "Blue"][r.below(3) as usize])
    }),
    ("variants of a number or a text", "either", |r, _| {
        match r.below(2) {
            0 => variant("Number", mixed(r)),
            _ => variant("Word", words(r)),
        }
    }),
    ("variants of each kind", "shape", shape),
    ("newtype variants", "newt", |r, _| {
        let name = ["First", "Second"][r.below(2) as usize];
        variant(name, mixed(r))
    }),
    ("struct variants", "struv", |r, form| {
        let values = vec![mixed(r), mixed(r)];
        match r.below(2) {
            0 => variant("Left", structure(form, &["a", "b"], values)),
            _ => variant("Right", structure(form, &["c", "d"], values)),
        }
    }),
    ("what a cache is asked", "request", request),
];

/// A load of a list, by a call.
fn load(name: String, call: String, items: &[Part], answer: Answer) -> Load<Calls> {
    call_over(name, call, items.len(), spelled(items), answer)
}

/// The loads of a kind: it is read, and written, by itself or by names.
fn both(loads: &mut Vec<Load<Calls>>, name: &str, kind: &str, of: Spelling, form: Form) {
    let random = &mut Random::new();
    let items: Vec<Part> = (0..COUNT).map(|_| of(random, form)).collect();
    let (by, verb) = match form {
        Map => (", by names", "named"),
        _ => ("", "write"),
    };
    let read = format!("many_read_{kind}");
    let count = Answer::Sum(COUNT as u64);
    loads.push(load(format!("read, {name}{by}"), read, &items, count));
    let write = format!("many_{verb}_{kind}");
    let written = Answer::Bytes(spelled(&items).len());
    loads.push(load(format!("write, {name}{by}"), write, &items, written));
}

/// Runs what the arguments name.
pub fn main(calls: &Calls) {
    let mut loads = Vec::new();
    for (name, kind, of) in LEAVES.into_iter().chain(STRUCTS) {
        both(&mut loads, name, kind, of, List);
    }
    for (name, kind, of) in STRUCTS {
        both(&mut loads, name, kind, of, Map);
    }
    measure::main(&loads, RUNS, calls);
}
