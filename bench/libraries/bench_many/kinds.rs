//! Structs and enums.
mod derived;

use rmp_wire::{ByteBuf, F64Bits};
use std::collections::BTreeMap;

/// No field.
#[derive(Drop)]
pub struct Unit;

/// A number of its own type.
#[derive(Drop)]
pub struct Id(pub u32);

/// A number and a text without names.
#[derive(Drop)]
pub struct Tup(pub u32, pub String);

/// A number and a truth.
#[derive(Drop)]
pub struct Flag {
    pub id: u32,
    pub on: bool,
}

/// Two numbers with a sign.
#[derive(Drop)]
pub struct Point {
    pub x: i32,
    pub y: i32,
}

/// Three floats.
#[derive(Drop)]
pub struct Vec3 {
    pub x: F64Bits,
    pub y: F64Bits,
    pub z: F64Bits,
}

/// A number that may be nil.
#[derive(Drop)]
pub struct Maybe {
    pub value: Option<u32>,
}

/// Five fields of five types.
#[derive(Drop)]
pub struct Five {
    pub id: u32,
    pub name: String,
    pub age: u8,
    pub score: i64,
    pub note: Option<u16>,
}

/// Eight numbers.
#[derive(Drop)]
pub struct Eight {
    pub alpha: u32,
    pub beta: u32,
    pub gamma: u32,
    pub delta: u32,
    pub epsilon: u32,
    pub zeta: u32,
    pub eta: u32,
    pub theta: u32,
}

/// Nine fields of seven types.
#[derive(Drop)]
pub struct Nine {
    pub number: u64,
    pub name: String,
    pub born: u16,
    pub chip: Option<u64>,
    pub mother: Option<u64>,
    pub father: Option<u64>,
    pub weight: u8,
    pub height: i8,
    pub vaccinated: bool,
}

/// A struct, a text and a list.
#[derive(Drop)]
pub struct Outer {
    pub at: Point,
    pub label: String,
    pub sizes: Vec<u32>,
}

/// A text and a number.
#[derive(Drop)]
pub struct Counted {
    pub key: String,
    pub count: u32,
}

/// What a file of records has.
#[derive(Drop)]
pub struct Record {
    pub id: u64,
    pub name: String,
    pub tags: Vec<String>,
    pub score: F64Bits,
    pub active: bool,
}

/// A map and a number.
#[derive(Drop)]
pub struct Tree {
    pub names: BTreeMap<String, u32>,
    pub size: u32,
}

/// Variants without content.
#[derive(Drop)]
pub enum Color {
    Red,
    Green,
    Blue,
}

/// A number or a text.
#[derive(Drop)]
pub enum Either {
    Number(u32),
    Word(String),
}

/// A variant of each kind.
#[derive(Drop)]
pub enum Shape {
    Empty,
    New(u32),
    Two(u32, u32),
    Named { a: u32, b: u32 },
}

/// A number either way.
#[derive(Drop)]
pub enum Newt {
    First(u32),
    Second(u32),
}

/// Two numbers with names, either way.
#[derive(Drop)]
pub enum Struv {
    Left { a: u32, b: u32 },
    Right { c: u32, d: u32 },
}

/// What a cache is asked.
#[derive(Drop)]
pub enum Request {
    Get { key: String },
    Put { key: String, value: ByteBuf },
    Delete(String),
    Ping,
}
