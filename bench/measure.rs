//! How a program runs loads, and what loads are made of. All sets of loads are measured by this one file.

use std::env;
use std::hint::black_box;
use std::process::exit;
use std::time::Instant;

/// What a load must answer.
pub enum Answer {
    /// This, however many rounds there are: the bytes of the last one.
    Bytes(usize),
    /// This of each round: the sum over all of them, modulo 2 ^ 64.
    Sum(u64),
}

/// A load: some work, and what it must answer. `C` has the calls that are measured.
pub struct Load<C> {
    pub name: &'static str,
    /// How many elements one round has: what a line of the table is about.
    pub count: usize,
    /// Goes this many times over its input.
    pub work: Box<dyn Fn(&C, u32) -> u64>,
    pub answer: Answer,
}

/// A load over an input, by one of the calls.
pub fn load<C, T: 'static, A: TryInto<u64>>(
    name: &'static str,
    count: usize,
    call: fn(&C) -> fn(&[T], u32) -> A,
    input: Vec<T>,
    answer: Answer,
) -> Load<C>
where
    C: 'static,
    A: 'static,
{
    Load {
        name,
        count,
        work: Box::new(move |calls, reps| {
            let said = call(calls)(black_box(&input), reps);
            said.try_into().ok().expect("a number of 64 bits")
        }),
        answer,
    }
}

/// How often one timed run goes over its load, beside once, and how many runs there are, of which the best count.
#[derive(Clone, Copy)]
pub struct Runs {
    pub reps: u32,
    pub runs: u32,
}

impl<C> Load<C> {
    /// Runs the load, and stops the program where the answer is wrong.
    fn run(&self, calls: &C, reps: u32) {
        let said = (self.work)(calls, reps);
        let wanted = match self.answer {
            Answer::Bytes(n) => n as u64,
            Answer::Sum(n) => n.wrapping_mul(reps.into()),
        };
        if said != wanted {
            eprintln!("{}: the answer is {said} in place of {wanted}", self.name);
            exit(1);
        }
    }

    fn seconds(&self, calls: &C, reps: u32) -> f64 {
        let start = Instant::now();
        self.run(calls, reps);
        start.elapsed().as_secs_f64()
    }

    /// Nanoseconds for one element, from the best runs with some rounds more and with one, so that making the value
    /// doesn't count.
    fn time(&self, calls: &C, Runs { reps, runs }: Runs) -> f64 {
        let (mut few, mut many) = (f64::INFINITY, f64::INFINITY);
        for _ in 0..runs {
            few = few.min(self.seconds(calls, 1));
            many = many.min(self.seconds(calls, 1 + reps));
        }
        (many - few) * 1e9 / (f64::from(reps) * self.count as f64)
    }
}

/// Numbers that look random and are the same each time (Marsaglia's xorshift).
pub struct Random(u64);

impl Random {
    pub fn new() -> Random {
        Random(0x9e37_79b9_7f4a_7c15)
    }

    pub fn next(&mut self) -> u64 {
        self.0 ^= self.0 << 13;
        self.0 ^= self.0 >> 7;
        self.0 ^= self.0 << 17;
        self.0
    }

    /// A number below `n`.
    pub fn below(&mut self, n: u64) -> u64 {
        (self.next() >> 32) % n
    }

    /// So many numbers, each of the width that is picked by a number of 32 bits.
    pub fn numbers(&mut self, count: usize, pick: fn(u64) -> u64) -> Vec<u64> {
        let number = |_| {
            let width = pick(self.next() >> 32);
            number_of_width(width, self.next())
        };
        (0..count).map(number).collect()
    }
}

/// A number below 2 ^ 7, or of 8, 16, 32 or 64 bits with the highest one set: the five spellings.
pub fn number_of_width(width: u64, random: u64) -> u64 {
    match width {
        0 => random % 0x80,
        1 => random >> 56 | 0x80,
        2 => random >> 48 | 0x8000,
        3 => random >> 32 | 0x8000_0000,
        _ => random | 1 << 63,
    }
}

/// The shortest spelling of a number, from the MessagePack specification's table.
pub fn number(out: &mut Vec<u8>, n: u64) {
    let bytes = n.to_be_bytes();
    match n {
        0..=0x7f => out.push(n as u8),
        0x80..=0xff => out.extend([0xcc, bytes[7]]),
        0x100..=0xffff => out.extend([0xcd, bytes[6], bytes[7]]),
        0x1_0000..=0xffff_ffff => {
            out.push(0xce);
            out.extend(&bytes[4..]);
        }
        _ => {
            out.push(0xcf);
            out.extend(bytes);
        }
    }
}

/// Runs what the arguments name: `names`, one a line; `counts`, how many elements each load has; `time`, nanoseconds for one
/// element of each load in that order; or `load NAME REPS`, one load REPS times and nothing else, for a count of
/// instructions.
pub fn main<C>(loads: &[Load<C>], runs: Runs, calls: &C) {
    let arguments: Vec<String> = env::args().skip(1).collect();
    let words: Vec<&str> = arguments.iter().map(String::as_str).collect();
    match words[..] {
        ["names"] => loads.iter().for_each(|load| println!("{}", load.name)),
        ["counts"] => loads.iter().for_each(|load| println!("{}", load.count)),
        ["time"] => loads
            .iter()
            .for_each(|load| println!("{:.3}", load.time(calls, runs))),
        ["load", name, reps] => {
            let Some(load) = loads.iter().find(|load| load.name == name) else {
                eprintln!("no load is named {name}");
                exit(2);
            };
            load.run(calls, reps.parse().expect("a number of rounds"));
        }
        _ => {
            eprintln!("usage: names | counts | time | load NAME REPS");
            exit(2);
        }
    }
}
