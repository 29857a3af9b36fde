//! What is wrong with an answer, or why there is none.
use rmp_serde::{decode, encode};
use std::alloc::{AllocError, AllocFailed};
use std::io;
use thiserror::Error;

/// What is wrong with an answer, or why there is none.
#[derive(Clone, Copy, Debug, Error)]
pub enum Fault {
    #[error("a value was refused")]
    Write,
    /// The message that a `Value` is read from, or what was written, read strictly.
    #[error("a message was refused")]
    Read,
    #[error("what was written isn't written again")]
    Again,
    #[error("a reader or a cursor has another answer, or reads on")]
    Reader,
    #[error("a pull that fails has another answer")]
    Pull,
    #[error("a put that fails leaves something else")]
    Put,
    #[error("a strict read has another answer")]
    Strict,
    #[error("a line has no type and bytes in hex")]
    NoRow,
    #[error("a line has a type that isn't read")]
    NoType,
    #[error("input or output failed")]
    Io,
    #[error("out of memory")]
    Memory,
}

impl From<encode::Error> for Fault {
    fn from(e: encode::Error) -> Fault {
        match e {
            encode::Error::OutOfMemory => Fault::Memory,
            _ => Fault::Write,
        }
    }
}

impl From<decode::Error> for Fault {
    fn from(e: decode::Error) -> Fault {
        match e {
            decode::Error::OutOfMemory => Fault::Memory,
            _ => Fault::Read,
        }
    }
}

impl From<io::Error> for Fault {
    fn from(_e: io::Error) -> Fault {
        Fault::Io
    }
}

impl From<AllocError> for Fault {
    fn from(_e: AllocError) -> Fault {
        Fault::Memory
    }
}

impl<T: Drop> From<AllocFailed<T>> for Fault {
    fn from(_e: AllocFailed<T>) -> Fault {
        Fault::Memory
    }
}
