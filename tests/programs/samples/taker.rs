//! What values are written into where it is no slice.
ghost use Rattle.std.specs.Prelude.{None, true};
ghost use Rattle.samples.specs.declared.taker.Taker.TheVariants as taker;

use faulty_io::Trickle;
use rmp_serde::wire::{Sink, SinkFault, ValueWriteError};

/// A vector, or a sink that takes a byte a put and may fail: one type, so that each type that is written is compiled for it once.
#[derive(Drop)]
pub enum Taker {
    Vector(Vec<u8>),
    Trickle(Trickle),
}

impl Taker {
    /// What was taken.
    pub fn bytes(&self) -> &[u8] {
        match self {
            Taker::Vector(bytes) => bytes.as_slice(),
            Taker::Trickle(trickle) => trickle.bytes.as_slice(),
        }
    }

    /// How many faults there were.
    pub fn faults(&self) -> u64 {
        match self {
            Taker::Vector(_) => 0,
            Taker::Trickle(trickle) => trickle.faults,
        }
    }
}

impl Sink for Taker {
    const TAKES_MEMORY: bool = true;

    ghost takes_memory = { true };

    ghost told = { λ _. None };

    ghost faults = { λ s. elim s [ taker.Vector _ ↦ 0 | taker.Trickle t ↦ t.faults ] };

    fn put(&mut self, piece: &[u8]) -> Result<usize, SinkFault> {
        match self {
            Taker::Vector(bytes) => bytes.put(piece),
            Taker::Trickle(trickle) => trickle.put(piece),
        }
    }

    fn put_all(&mut self, piece: &[u8]) -> Result<(), ValueWriteError> {
        match self {
            Taker::Vector(bytes) => bytes.put_all(piece),
            Taker::Trickle(trickle) => trickle.put_all(piece),
        }
    }
}
