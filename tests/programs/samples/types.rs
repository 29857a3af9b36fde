//! The structs and enums of the samples that `tools/derive.py` derives, and which no other crate has.
mod derived;

use rmp_serde::wire::{ByteBuf, Ext, F64Bits};
use rmp_serde::{Raw, Value};
use std::collections::{BTreeMap, BTreeSet};
use test_derived::{Dog, Four, Unit};

/// Two numbers.
#[derive(Drop)]
pub struct TwoU8 {
    pub a: u8,
    pub b: u8,
}

/// A number after a name, which isn't packed as a byte.
#[derive(Drop)]
pub struct NewU8(pub u8);

/// A pointer to a number that may be missing.
#[derive(Drop)]
pub struct OptBox {
    pub v: Box<Option<u8>>,
}

/// A number that may be missing, after a name.
#[derive(Drop)]
pub struct NewOpt(pub Option<u8>);

/// Nothing, after a name.
#[derive(Drop)]
pub struct NewUnit(pub ());

/// Numbers, after a name.
#[derive(Drop)]
pub struct NewVec(pub Vec<u8>);

/// An extension, after a name.
#[derive(Drop)]
pub struct NewExt(pub Ext);

/// A name after a name.
#[derive(Drop)]
pub struct NewNew(pub NewOpt);

/// Fields of many kinds.
#[derive(Drop)]
pub struct Mixed {
    pub u: Unit,
    pub x: Ext,
    pub o: Option<Four>,
    pub m: BTreeMap<u8, Unit>,
    pub r: Raw,
    pub q: (),
    pub b: ByteBuf,
    pub w: Value,
}

/// A struct in another, and an enum.
#[derive(Drop)]
pub struct Inner {
    pub dog: Dog,
    pub e: Four,
    pub n: u8,
}

/// Two names that are keys.
#[derive(Drop, PartialEq, Eq, PartialOrd, Ord)]
pub enum TwoKey {
    First,
    Second,
}

/// Variants of many kinds.
#[derive(Drop)]
pub enum EMix {
    X(Ext),
    O(Option<Four>),
    V(Value),
    D(Dog),
    E(Four),
    M { e: Four, o: Option<Four> },
    T(Option<u8>, Unit),
}

/// Fields whose names are in lowercase.
// derive: rename_all = "lowercase"
#[derive(Drop)]
pub struct ReLower {
    pub first_name: u8,
    pub x: Option<u8>,
    pub a_b2_c: bool,
}

/// Fields whose names are in UPPERCASE.
// derive: rename_all = "UPPERCASE"
#[derive(Drop)]
pub struct ReUpper {
    pub first_name: u8,
    pub x: Option<u8>,
    pub a_b2_c: bool,
}

/// Fields whose names are in PascalCase.
// derive: rename_all = "PascalCase"
#[derive(Drop)]
pub struct RePascal {
    pub first_name: u8,
    pub x: Option<u8>,
    pub a_b2_c: bool,
}

/// Fields whose names are in camelCase.
// derive: rename_all = "camelCase"
#[derive(Drop)]
pub struct ReCamel {
    pub first_name: u8,
    pub x: Option<u8>,
    pub a_b2_c: bool,
}

/// Fields whose names are in snake_case.
// derive: rename_all = "snake_case"
#[derive(Drop)]
pub struct ReSnake {
    pub first_name: u8,
    pub x: Option<u8>,
    pub a_b2_c: bool,
}

/// Fields whose names are in SCREAMING_SNAKE_CASE.
// derive: rename_all = "SCREAMING_SNAKE_CASE"
#[derive(Drop)]
pub struct ReScream {
    pub first_name: u8,
    pub x: Option<u8>,
    pub a_b2_c: bool,
}

/// Fields whose names are in kebab-case.
// derive: rename_all = "kebab-case"
#[derive(Drop)]
pub struct ReKebab {
    pub first_name: u8,
    pub x: Option<u8>,
    pub a_b2_c: bool,
}

/// Fields whose names are in SCREAMING-KEBAB-CASE.
// derive: rename_all = "SCREAMING-KEBAB-CASE"
#[derive(Drop)]
pub struct ReScreamKebab {
    pub first_name: u8,
    pub x: Option<u8>,
    pub a_b2_c: bool,
}

/// Variants whose names are in lowercase.
// derive: rename_all = "lowercase"
#[derive(Drop)]
pub enum EnLower {
    FirstOne,
    Second2(u8),
    HTTPThird { inner_a: u8 },
    Fo(u8, bool),
}

/// Variants whose names are in UPPERCASE.
// derive: rename_all = "UPPERCASE"
#[derive(Drop)]
pub enum EnUpper {
    FirstOne,
    Second2(u8),
    HTTPThird { inner_a: u8 },
    Fo(u8, bool),
}

/// Variants whose names are in PascalCase.
// derive: rename_all = "PascalCase"
#[derive(Drop)]
pub enum EnPascal {
    FirstOne,
    Second2(u8),
    HTTPThird { inner_a: u8 },
    Fo(u8, bool),
}

/// Variants whose names are in camelCase.
// derive: rename_all = "camelCase"
#[derive(Drop)]
pub enum EnCamel {
    FirstOne,
    Second2(u8),
    HTTPThird { inner_a: u8 },
    Fo(u8, bool),
}

/// Variants whose names are in snake_case.
// derive: rename_all = "snake_case"
#[derive(Drop)]
pub enum EnSnake {
    FirstOne,
    Second2(u8),
    HTTPThird { inner_a: u8 },
    Fo(u8, bool),
}

/// Variants whose names are in SCREAMING_SNAKE_CASE.
// derive: rename_all = "SCREAMING_SNAKE_CASE"
#[derive(Drop)]
pub enum EnScream {
    FirstOne,
    Second2(u8),
    HTTPThird { inner_a: u8 },
    Fo(u8, bool),
}

/// Variants whose names are in kebab-case.
// derive: rename_all = "kebab-case"
#[derive(Drop)]
pub enum EnKebab {
    FirstOne,
    Second2(u8),
    HTTPThird { inner_a: u8 },
    Fo(u8, bool),
}

/// Variants whose names are in SCREAMING-KEBAB-CASE.
// derive: rename_all = "SCREAMING-KEBAB-CASE"
#[derive(Drop)]
pub enum EnScreamKebab {
    FirstOne,
    Second2(u8),
    HTTPThird { inner_a: u8 },
    Fo(u8, bool),
}

/// Fields with names of their own.
#[derive(Drop)]
pub struct ReFields {
    // derive: rename = "type"
    pub kind: String,
    // derive: rename = "@id"
    pub id: u64,
    pub plain: Option<u8>,
}

/// A rule, and a field with a name of its own.
// derive: rename_all = "camelCase"
#[derive(Drop)]
pub struct ReOne {
    pub one_two: u8,
    // derive: rename = "two_THREE"
    pub two_three: u8,
}

/// Variants with names of their own.
#[derive(Drop)]
pub enum EnNamed {
    // derive: rename = "one"
    One,
    // derive: rename = "two words"
    Two(u8, u16),
    // derive: rename = "3", rename_all = "kebab-case"
    Three { a_b: u8, c: u8 },
    Four(bool),
}

/// Variants and their fields by rules, and a variant's own rule.
// derive: rename_all = "snake_case", rename_all_fields = "camelCase"
#[derive(Drop)]
pub enum EnFields {
    BigOne { first_one: u8 },
    // derive: rename_all = "SCREAMING_SNAKE_CASE"
    LargeTwo { first_one: u8, b: u8 },
    HugeThree,
}

/// A renamed type in another.
// derive: rename_all = "UPPERCASE"
#[derive(Drop)]
pub struct ReOuter {
    pub inner: ReCamel,
    pub choice: EnKebab,
    // derive: rename = "rest"
    pub many: Vec<ReOne>,
}

/// Where a value starts that a map doesn't have.
const START: (u8, bool) = (7, true);

/// Some fields have a default.
#[derive(Drop)]
pub struct DefSome {
    pub host: String,
    // derive: default = 8080
    pub port: u16,
    // derive: default = -3
    pub tries: i32,
    // derive: default = true
    pub open: bool,
    // derive: default, rename = "all"
    pub tags: Vec<u8>,
    // derive: default
    pub shift: i8,
    // derive: default = 'x'
    pub sign: char,
    pub note: Option<u8>,
}

/// Every field has one.
#[derive(Drop)]
pub struct DefAll {
    // derive: default
    pub a: u8,
    // derive: default
    pub b: String,
    // derive: default = START
    pub c: (u8, bool),
    // derive: default
    pub d: BTreeMap<u8, u8>,
    // derive: default
    pub e: BTreeSet<u8>,
}

/// A variant that is a default.
#[derive(Drop)]
pub enum Shade {
    Light,
    Dark,
}

/// Texts, options, arrays, tuples, floats and variants are defaults.
#[derive(Drop)]
pub struct DefText {
    // derive: default = "localhost"
    pub host: String,
    // derive: default = Some(3)
    pub tries: Option<u8>,
    // derive: default = [127, 0, 0, 1]
    pub address: [u8; 4],
    // derive: default = (80, -1)
    pub ports: (u16, i32),
    // derive: default = 0.5
    pub load: F64Bits,
    // derive: default = Shade::Dark
    pub shade: Shade,
}

/// Some fields are neither written nor read.
#[derive(Drop)]
pub struct Skips {
    // derive: skip
    pub a: u8,
    pub b: u8,
    // derive: skip, default = 3
    pub c: u16,
    // derive: skip
    pub d: Vec<u8>,
    // derive: default = 3
    pub e: u16,
}

/// The only field has one.
#[derive(Drop)]
pub struct DefOne {
    // derive: default = 8080
    pub n: u16,
}
