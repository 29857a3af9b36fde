//! A record of ten fields.
use rmp_wire::F64Bits;
use std::collections::BTreeMap;

mod derived;

#[derive(Drop)]
pub enum Level {
    Debug,
    Info,
    Warn,
}

#[derive(Drop)]
pub struct Origin {
    pub host: String,
    pub pid: u32,
}

#[derive(Drop)]
pub enum Event {
    Started,
    Moved(i32, i32),
}

#[derive(Drop)]
pub struct Record {
    pub seq: u64,
    pub level: Level,
    pub origin: Origin,
    pub event: Event,
    pub tags: Vec<String>,
    pub load: F64Bits,
    pub attrs: BTreeMap<String, i8>,
    pub letter: char,
    pub pair: (u8, u8),
    pub note: Option<String>,
}
