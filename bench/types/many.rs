//! Structs and enums of the program of many types, as the original derives them.

use serde::{Deserialize, Serialize};
use serde_bytes::ByteBuf;
use std::collections::BTreeMap;

#[derive(Deserialize, Serialize)]
pub struct Unit;

#[derive(Deserialize, Serialize)]
pub struct Id(u32);

#[derive(Deserialize, Serialize)]
pub struct Tup(u32, String);

#[derive(Deserialize, Serialize)]
pub struct Flag {
    id: u32,
    on: bool,
}

#[derive(Deserialize, Serialize)]
pub struct Point {
    x: i32,
    y: i32,
}

#[derive(Deserialize, Serialize)]
pub struct Vec3 {
    x: f64,
    y: f64,
    z: f64,
}

#[derive(Deserialize, Serialize)]
pub struct Maybe {
    value: Option<u32>,
}

#[derive(Deserialize, Serialize)]
pub struct Five {
    id: u32,
    name: String,
    age: u8,
    score: i64,
    note: Option<u16>,
}

#[derive(Deserialize, Serialize)]
pub struct Eight {
    alpha: u32,
    beta: u32,
    gamma: u32,
    delta: u32,
    epsilon: u32,
    zeta: u32,
    eta: u32,
    theta: u32,
}

#[derive(Deserialize, Serialize)]
pub struct Nine {
    number: u64,
    name: String,
    born: u16,
    chip: Option<u64>,
    mother: Option<u64>,
    father: Option<u64>,
    weight: u8,
    height: i8,
    vaccinated: bool,
}

#[derive(Deserialize, Serialize)]
pub struct Outer {
    at: Point,
    label: String,
    sizes: Vec<u32>,
}

#[derive(Deserialize, Serialize)]
pub struct Counted {
    key: String,
    count: u32,
}

#[derive(Deserialize, Serialize)]
pub struct Record {
    id: u64,
    name: String,
    tags: Vec<String>,
    score: f64,
    active: bool,
}

#[derive(Deserialize, Serialize)]
pub struct Tree {
    names: BTreeMap<String, u32>,
    size: u32,
}

#[derive(Deserialize, Serialize)]
pub enum Color {
    Red,
    Green,
    Blue,
}

#[derive(Deserialize, Serialize)]
pub enum Either {
    Number(u32),
    Word(String),
}

#[derive(Deserialize, Serialize)]
pub enum Shape {
    Empty,
    New(u32),
    Two(u32, u32),
    Named { a: u32, b: u32 },
}

#[derive(Deserialize, Serialize)]
pub enum Newt {
    First(u32),
    Second(u32),
}

#[derive(Deserialize, Serialize)]
pub enum Struv {
    Left { a: u32, b: u32 },
    Right { c: u32, d: u32 },
}

#[derive(Deserialize, Serialize)]
pub enum Request {
    Get { key: String },
    Put { key: String, value: ByteBuf },
    Delete(String),
    Ping,
}
