//! Why there is no answer.
use std::alloc::{AllocError, AllocFailed};
use std::{fmt, io};
use thiserror::Error;

/// Why there is no answer.
#[derive(Clone, Copy, Debug, Error)]
pub enum Fault {
    #[error("a line has no request and bytes in hex")]
    NoRow,
    #[error("input or output failed")]
    Io,
    #[error("out of memory")]
    Memory,
}

impl From<io::Error> for Fault {
    fn from(_e: io::Error) -> Fault {
        Fault::Io
    }
}

impl From<fmt::Error> for Fault {
    fn from(_e: fmt::Error) -> Fault {
        Fault::Memory
    }
}

impl From<AllocError> for Fault {
    fn from(_e: AllocError) -> Fault {
        Fault::Memory
    }
}

impl<T: Drop> From<AllocFailed<T>> for Fault {
    fn from(_e: AllocFailed<T>) -> Fault {
        Fault::Memory
    }
}
