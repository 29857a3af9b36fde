//! Structs and enums of each kind.
mod derived;

/// No field.
#[derive(Drop)]
pub struct Nothing;

/// A number and a truth.
#[derive(Drop)]
pub struct Two {
    pub id: u32,
    pub on: bool,
}

/// Five fields of four types.
#[derive(Drop)]
pub struct Five {
    pub id: u32,
    pub name: String,
    pub age: u8,
    pub score: i64,
    pub note: Option<u16>,
}

/// Eight numbers.
#[derive(Drop)]
pub struct EightFields {
    pub alpha: u32,
    pub beta: u32,
    pub gamma: u32,
    pub delta: u32,
    pub epsilon: u32,
    pub zeta: u32,
    pub eta: u32,
    pub theta: u32,
}

/// Twelve numbers.
#[derive(Drop)]
pub struct Twelve {
    pub january: u32,
    pub february: u32,
    pub march: u32,
    pub april: u32,
    pub may: u32,
    pub june: u32,
    pub july: u32,
    pub august: u32,
    pub september: u32,
    pub october: u32,
    pub november: u32,
    pub december: u32,
}

/// A variant of each kind.
#[derive(Drop)]
pub enum Shape {
    Empty,
    New(u32),
    Tup(u32, u32),
    Str { a: u32, b: u32 },
}
