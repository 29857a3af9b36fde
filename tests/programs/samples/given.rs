//! What bytes are read from where it is no slice.
ghost use Rattle.std.specs.Prelude.{None};
ghost use Rattle.samples.specs.declared.given.Given.TheVariants as given;

use faulty_io::Drip;
use rmp_serde::wire::Source;
use std::io::{self, Cursor};

/// A cursor, or a source that gives a byte a pull and may fail: one type, so that each type that is read is compiled for it once.
#[derive(Drop)]
pub enum Given<'a> {
    Cursor(Cursor<&'a [u8]>),
    Drip(Drip<'a>),
}

impl<'a> Given<'a> {
    /// How many of so many bytes were taken, and how many faults there were.
    pub fn taken(&self, bytes: usize) -> (u64, u64) {
        match self {
            Given::Cursor(cursor) => (cursor.position(), 0),
            Given::Drip(drip) => (bytes.saturating_sub(drip.rest.len()) as u64, drip.faults),
        }
    }
}

impl<'a> Source for Given<'a> {
    ghost ahead = { λ _. None };

    ghost faults = { λ s. elim s [ given.Cursor _ ↦ 0 | given.Drip d ↦ d.faults ] };

    fn pull(&mut self, buf: &mut [u8]) -> Result<usize, io::Error> {
        match self {
            Given::Cursor(cursor) => cursor.pull(buf),
            Given::Drip(drip) => drip.pull(buf),
        }
    }

    fn front(&self) -> &[u8] {
        match self {
            Given::Cursor(cursor) => cursor.front(),
            Given::Drip(drip) => drip.front(),
        }
    }

    fn skip(&mut self, len: usize) -> bool {
        match self {
            Given::Cursor(cursor) => cursor.skip(len),
            Given::Drip(drip) => drip.skip(len),
        }
    }
}
