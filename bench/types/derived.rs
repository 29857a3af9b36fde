//! A struct and an enum of the crate `test_derived`, as the original derives them.

use serde::{Deserialize, Serialize};

#[derive(Deserialize, Serialize)]
pub struct Dog {
    name: String,
    age: u16,
}

#[derive(Deserialize, Serialize)]
pub enum Four {
    Unit,
    New(u8),
    Tup(u8, u16),
    Str { a: u8, b: String },
}
