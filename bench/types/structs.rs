//! Structs and an enum of the loads, as the original derives them.

use serde::Deserialize;

#[derive(Deserialize)]
#[expect(dead_code)]
pub struct Two {
    id: u32,
    on: bool,
}

#[derive(Deserialize)]
#[expect(dead_code)]
pub struct Five {
    id: u32,
    name: String,
    age: u8,
    score: i64,
    note: Option<u16>,
}

#[derive(Deserialize)]
#[expect(dead_code)]
pub struct EightFields {
    alpha: u32,
    beta: u32,
    gamma: u32,
    delta: u32,
    epsilon: u32,
    zeta: u32,
    eta: u32,
    theta: u32,
}

#[derive(Deserialize)]
#[expect(dead_code)]
pub struct Twelve {
    january: u32,
    february: u32,
    march: u32,
    april: u32,
    may: u32,
    june: u32,
    july: u32,
    august: u32,
    september: u32,
    october: u32,
    november: u32,
    december: u32,
}

#[derive(Deserialize)]
#[expect(dead_code)]
pub enum Shape {
    Empty,
    New(u32),
    Tup(u32, u32),
    Str { a: u32, b: u32 },
}
