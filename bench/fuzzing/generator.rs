//! Messages in any widths, most of them whole lists of values of some type, and then spoiled or not.

use crate::model::{BYTES, EXTENSIONS, LISTS, MAPS, TEXTS, big_endian, spelled_length, spelled_number};

/// Numbers from a seed (xorshift).
pub struct Random(u64);

impl Random {
    pub fn new(seed: u64) -> Random {
        Random((seed + 1).wrapping_mul(0x9e37_79b9_7f4a_7c15) | 1)
    }

    fn next(&mut self) -> u64 {
        self.0 ^= self.0 << 13;
        self.0 ^= self.0 >> 7;
        self.0 ^= self.0 << 17;
        self.0.wrapping_mul(0x2545_f491_4f6c_dd1d) >> 8
    }

    /// One below that.
    fn below(&mut self, most: u64) -> u64 {
        self.next() % most
    }

    fn one_in(&mut self, n: u64) -> bool {
        self.below(n) == 0
    }

    fn one_of<'a, T: ?Sized>(&mut self, items: &[&'a T]) -> &'a T {
        items[self.below(items.len() as u64) as usize]
    }

    fn byte(&mut self) -> u8 {
        self.next() as u8
    }

    fn bytes(&mut self, n: u64) -> Vec<u8> {
        (0..n).map(|_| self.byte()).collect()
    }
}

/// A message that is being spelled.
struct Spelling<'a> {
    random: &'a mut Random,
    out: Vec<u8>,
}

/// How many kinds of elements there are.
const KINDS: u64 = 24;

const NAMES: &[&str] = &[
    "id", "on", "name", "age", "score", "note", "alpha", "beta", "gamma", "delta", "epsilon", "zeta", "eta", "theta", "a", "b", "Empty",
    "New", "Tup", "Str", "january", "december", "", "é", "\u{1f600}",
];

impl Spelling<'_> {
    /// A length, in the shortest form or in one that is longer.
    fn length(&mut self, short: Option<(u8, u64)>, long: &[(u8, usize)], n: u64) {
        if self.random.one_in(4) {
            let wide: Vec<_> = long.iter().filter(|(_, width)| *width == 4 || n >> (8 * width) == 0).collect();
            let (first, width) = *self.random.one_of(&wide);
            self.out.push(first);
            self.out.extend(big_endian(n, width));
        } else {
            self.out.extend(spelled_length(short, long, n));
        }
    }

    fn list(&mut self, n: u64) {
        self.length(Some((0x90, 16)), LISTS, n);
    }

    fn map(&mut self, n: u64) {
        self.length(Some((0x80, 16)), MAPS, n);
    }

    fn number(&mut self) {
        let n = self.random.next() >> self.random.below(56);
        let z = if self.random.one_in(3) { -i128::from(n) } else { i128::from(n) };
        let wide = 1usize << self.random.below(4);
        let (least, most) = (-(1i128 << (8 * wide - 1)), 1i128 << (8 * wide - 1));
        if self.random.one_in(3) && (least..most).contains(&z) {
            self.out.push(0xd0 + wide.trailing_zeros() as u8);
            self.out.extend(big_endian(z as u64, wide));
        } else if self.random.one_in(3) && (0..2 * most).contains(&z) {
            self.out.push(0xcc + wide.trailing_zeros() as u8);
            self.out.extend(big_endian(z as u64, wide));
        } else {
            self.out.extend(spelled_number(z));
        }
    }

    fn name(&mut self) {
        let name = self.random.one_of(NAMES);
        if self.random.one_in(6) {
            self.length(None, BYTES, name.len() as u64);
        } else {
            self.length(Some((0xa0, 32)), TEXTS, name.len() as u64);
        }
        self.out.extend(name.as_bytes());
    }

    fn text(&mut self) {
        let n = if self.random.one_in(8) { self.random.below(300) } else { self.random.below(8) };
        let text: Vec<u8> = if self.random.one_in(12) {
            self.random.bytes(n)
        } else {
            let of = if self.random.one_in(3) { 0x1_0000 } else { 0x80 };
            let text: String = (0..n).filter_map(|_| char::from_u32(self.random.below(of) as u32)).collect();
            text.into_bytes()
        };
        self.length(Some((0xa0, 32)), TEXTS, text.len() as u64);
        self.out.extend(text);
    }

    fn content(&mut self) {
        let n = match self.random.below(8) {
            0 => self.random.below(400),
            1 => 16,
            _ => self.random.below(6),
        };
        let content = self.random.bytes(n);
        self.length(None, BYTES, n);
        self.out.extend(content);
    }

    fn extension(&mut self) {
        let n = self.random.below(20);
        if matches!(n, 1 | 2 | 4 | 8 | 16) && !self.random.one_in(4) {
            self.out.push(0xd4 + n.trailing_zeros() as u8);
        } else {
            self.length(None, EXTENSIONS, n);
        }
        let typed = self.random.bytes(n + 1);
        self.out.extend(typed);
    }

    /// A leaf of a kind.
    fn leaf(&mut self, kind: u64) {
        match kind {
            0 => self.out.push(0xc0),
            1 => self.out.push(0xc2 + self.random.below(2) as u8),
            2 => {
                let wide = self.random.one_in(2);
                self.out.push(if wide { 0xcb } else { 0xca });
                let bits = self.random.bytes(if wide { 8 } else { 4 });
                self.out.extend(bits);
            }
            3 => self.text(),
            4 => self.name(),
            5 => self.content(),
            6 => self.extension(),
            _ => self.number(),
        }
    }

    /// A message that nests a little.
    fn any(&mut self, deep: u64) {
        let kind = self.random.below(if deep == 0 { 10 } else { 14 });
        let n = self.random.below(5);
        match kind {
            0..10 => self.leaf(kind),
            10 | 11 => {
                self.list(n);
                (0..n).for_each(|_| self.any(deep - 1));
            }
            _ => {
                self.map(n);
                (0..2 * n).for_each(|_| self.any(deep - 1));
            }
        }
    }

    /// Fields with names, as a list or as a map of them.
    fn fields(&mut self, names: &[&str]) {
        let n = names.len() as u64;
        if self.random.one_in(2) {
            self.list(n);
            (0..n).for_each(|_| self.number());
            return;
        }
        self.map(n);
        let turned = self.random.below(n) as usize;
        for name in names[turned..].iter().chain(&names[..turned]) {
            self.length(Some((0xa0, 32)), TEXTS, name.len() as u64);
            self.out.extend(name.as_bytes());
            self.number();
        }
    }

    fn variant(&mut self) {
        let name = self.random.one_of(&["Empty", "New", "Tup", "Str"]);
        if !self.random.one_in(4) {
            self.map(1);
        }
        self.length(Some((0xa0, 32)), TEXTS, name.len() as u64);
        self.out.extend(name.as_bytes());
        match self.random.below(4) {
            0 => self.number(),
            1 => self.out.push(0xc0),
            _ => self.fields(&["a", "b"]),
        }
    }

    /// An element of lists of one kind.
    fn element(&mut self, kind: u64) {
        match kind {
            0..10 => self.leaf(kind),
            10 => self.fields(&["id", "on"]),
            11 => self.fields(&NAMES[6..14]),
            12 => self.variant(),
            13 => {
                let n = self.random.below(4);
                self.map(n);
                for _ in 0..n {
                    self.number();
                    self.number();
                }
            }
            14 => {
                let n = self.random.below(4);
                self.map(n);
                for _ in 0..n {
                    self.text();
                    self.number();
                }
            }
            15 => self.any(3),
            _ => self.typed(kind),
        }
    }

    /// A number that mostly fits a byte.
    fn small(&mut self) {
        match self.random.below(12) {
            0 => self.number(),
            1 => self.out.push(0xc0),
            2 => self.out.extend([0xcc, self.random.byte()]),
            3 => self.out.extend([0xd0, self.random.byte()]),
            _ => self.out.push(self.random.below(128) as u8),
        }
    }

    /// Small numbers as a list, or as bytes.
    fn smalls(&mut self, n: u64) {
        if self.random.one_in(3) {
            let content = self.random.bytes(n);
            self.length(None, BYTES, n);
            self.out.extend(content);
        } else {
            self.list(n);
            (0..n).for_each(|_| self.small());
        }
    }

    /// A name of a field or of a variant, or its place.
    fn name_or_place(&mut self, names: &[&str]) {
        let place = self.random.below(names.len() as u64 + 1);
        match self.random.below(8) {
            0 => self.out.push(place as u8),
            1 => self.out.extend([0xcc, place as u8]),
            2 => self.out.extend([0xd0, place as u8]),
            3 => self.name(),
            _ => {
                let name = self.random.one_of(names);
                self.length(Some((0xa0, 32)), TEXTS, name.len() as u64);
                self.out.extend(name.as_bytes());
            }
        }
    }

    /// A struct of a text and a number, or something like it.
    fn dog(&mut self) {
        if self.random.one_in(2) {
            self.list(2);
            self.text();
            self.number();
            return;
        }
        let n = if self.random.one_in(4) { self.random.below(4) } else { 2 };
        let first = self.random.below(2);
        self.map(n);
        for at in 0..n {
            if self.random.one_in(6) {
                self.name_or_place(&["name", "age"]);
            } else {
                let name = ["name", "age"][((first + at) % 2) as usize];
                self.length(Some((0xa0, 32)), TEXTS, name.len() as u64);
                self.out.extend(name.as_bytes());
            }
            let is_text = (first + at) % 2 == 0;
            if is_text { self.text() } else { self.small() }
        }
    }

    /// A variant with or without content.
    fn other_variant(&mut self) {
        if self.random.one_in(2) {
            let of_one = self.random.one_in(8);
            if of_one { self.list(1) } else { self.map(1) }
        }
        self.name_or_place(&["Unit", "New", "Tup", "Str"]);
        match self.random.below(8) {
            0 | 1 => self.out.push(0xc0),
            2 => self.small(),
            3 => self.smalls(2),
            4 => self.dog(),
            5 => self.fields(&["a", "b"]),
            6 => {
                self.list(2);
                self.small();
                self.text();
            }
            _ => {}
        }
    }

    /// An element of the types that have a shape of their own.
    fn typed(&mut self, kind: u64) {
        match kind {
            16 => self.dog(),
            17 => self.other_variant(),
            18 => {
                self.list(5);
                self.small();
                self.small();
                self.leaf(1);
                self.name();
                self.text();
            }
            19 => {
                let n = self.random.below(6);
                self.smalls(n);
            }
            20 => {
                let content = self.random.bytes(16);
                self.length(None, BYTES, 16);
                self.out.extend(content);
            }
            21 => {
                let n = self.random.below(2);
                self.list(n);
            }
            22 => {
                self.map(1);
                self.name_or_place(&["v"]);
                self.small();
            }
            _ => {
                self.list(2);
                self.small();
                self.text();
            }
        }
    }

    fn deep(&mut self) {
        let n = 1018 + self.random.below(10);
        for _ in 0..n {
            if self.random.one_in(2) {
                self.list(1);
            } else {
                self.map(1);
                self.out.push(0);
            }
        }
        let kind = self.random.below(8);
        self.leaf(kind);
    }
}

/// Does something to bytes.
fn spoil(random: &mut Random, bytes: &mut Vec<u8>) {
    const FIRST: &[u8] = &[0xc1, 0xc4, 0xc6, 0xc7, 0xc9, 0xcb, 0xcf, 0xd3, 0xd8, 0xd9, 0xdb, 0xdc, 0xdd, 0xdf, 0xff, 0x9f, 0x8f, 0xbf];
    let at = random.below(bytes.len() as u64 + 1) as usize;
    let other = if random.one_in(2) { random.byte() } else { FIRST[random.below(FIRST.len() as u64) as usize] };
    match random.below(5) {
        0 => bytes.truncate(at),
        1 => bytes.insert(at, other),
        2 => bytes.push(other),
        _ if at < bytes.len() => {
            if random.one_in(4) {
                bytes.remove(at);
            } else {
                bytes[at] = other;
            }
        }
        _ => {}
    }
}

/// The next input.
pub fn input(random: &mut Random) -> Vec<u8> {
    if random.one_in(50) {
        let n = random.below(40);
        return random.bytes(n);
    }
    let mut spelling = Spelling { random, out: Vec::new() };
    match spelling.random.below(200) {
        0 => spelling.deep(),
        1..60 => spelling.any(4),
        60..110 => {
            let kind = spelling.random.below(KINDS);
            spelling.element(kind);
        }
        _ => {
            let n = if spelling.random.one_in(10) { spelling.random.below(40) } else { spelling.random.below(5) };
            let kind = spelling.random.below(KINDS);
            spelling.list(n);
            (0..n).for_each(|_| spelling.element(kind));
        }
    }
    let mut bytes = spelling.out;
    while random.one_in(2) {
        spoil(random, &mut bytes);
    }
    bytes
}
