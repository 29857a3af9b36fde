//! A row of the sample: a value, written in a setting.
use crate::fault::Fault;
use crate::form::Form;
use crate::puts::{each_put_failed, each_room_filled, put, put_into};
use crate::taker::Taker;
use rmp_serde::config::BytesMode;
use rmp_serde::encode::{Error, Serialize};
use rmp_serde::{Value, from_slice_strict, to_vec};
use std::alloc::{AllocError, Global};

/// A setting of a serializer: what the default one is wrapped in, and what it writes as bytes.
#[derive(Clone, Copy)]
pub enum Setting {
    Default,
    Named,
    NamedTuple,
    TupleNamed,
    Human,
    ForceIterables,
    ForceAll,
    NamedForceIterables,
    NamedForceAll,
}

impl Setting {
    // Its name in the sample.
    fn words(self) -> &'static str {
        match self {
            Setting::Default => "default",
            Setting::Named => "named",
            Setting::NamedTuple => "named,tuple",
            Setting::TupleNamed => "tuple,named",
            Setting::Human => "human",
            Setting::ForceIterables => "ForceIterables",
            Setting::ForceAll => "ForceAll",
            Setting::NamedForceIterables => "named,ForceIterables",
            Setting::NamedForceAll => "named,ForceAll",
        }
    }

    // What is written as bytes.
    fn bytes(self) -> BytesMode {
        match self {
            Setting::ForceIterables | Setting::NamedForceIterables => BytesMode::ForceIterables,
            Setting::ForceAll | Setting::NamedForceAll => BytesMode::ForceAll,
            _ => BytesMode::Normal,
        }
    }
}

// Reads what was written strictly, as a message of any kind, and writes that again: the same bytes.
fn read_again(alloc: Global, bytes: &[u8]) -> Result<(), Fault> {
    let message: Value = from_slice_strict(alloc, bytes)?;
    if to_vec(alloc, &message)?.as_slice() == bytes {
        Ok(())
    } else {
        Err(Fault::Again)
    }
}

// What a value is written as, and read from again. Each put that fails leaves a beginning of it.
fn tried(
    alloc: Global,
    mode: BytesMode,
    put: &dyn Fn(Taker, BytesMode) -> (Result<(), Error>, Taker),
) -> Result<Taker, Fault> {
    let (answer, sink) = put(Taker::Vector(Vec::new(alloc)), mode);
    answer?;
    read_again(alloc, sink.bytes())?;
    each_put_failed(alloc, mode, put, sink.bytes())?;
    Ok(sink)
}

/// The rows so far, one a line.
#[derive(Drop)]
pub struct Rows {
    text: String,
    alloc: Global,
}

impl Rows {
    pub fn new(alloc: Global) -> Rows {
        Rows {
            text: String::new(alloc),
            alloc,
        }
    }

    /// The lines.
    pub fn text(&self) -> &str {
        self.text.as_str()
    }

    /// Adds a row for each of the settings, which are of the form: a value of a type, both as the sample names them.
    pub fn add<F: Form, T: Serialize>(
        &mut self,
        kind: &str,
        shown: &str,
        settings: &[Setting],
        value: &T,
    ) -> Result<(), AllocError> {
        let alloc = self.alloc;
        self.add_each(
            kind,
            shown,
            settings,
            &|sink, mode| { put::<F, T>(alloc, sink, mode, value) },
        )
    }

    /// Writes a value in the default setting into slices that have too little room.
    pub fn fill<T: Serialize>(&mut self, value: &T) -> Result<(), AllocError> {
        let alloc = self.alloc;
        self.fill_each(to_vec(alloc, value), &|room| put_into(alloc, room, value))
    }

    // The rows of a value that can be put into a sink. Apart from that its type is of no account, so this is compiled once.
    fn add_each(
        &mut self,
        kind: &str,
        shown: &str,
        settings: &[Setting],
        put: &dyn Fn(Taker, BytesMode) -> (Result<(), Error>, Taker),
    ) -> Result<(), AllocError> {
        for setting in settings {
            write!(self.text, "{kind} | {shown} | {} | ", setting.words())?;
            match tried(self.alloc, setting.bytes(), put) {
                Ok(sink) => self.add_digits(sink.bytes())?,
                Err(fault) => writeln!(self.text, "{fault}")?,
            }
        }
        Ok(())
    }

    // Fills slices with what a value is written as.
    fn fill_each(
        &mut self,
        whole: Result<Vec<u8>, Error>,
        put_into: &dyn Fn(&mut [u8]) -> Result<(), Error>,
    ) -> Result<(), AllocError> {
        let filled = match whole {
            Ok(whole) => each_room_filled(self.alloc, put_into, whole.as_slice()),
            Err(e) => Err(Fault::from(e)),
        };
        match filled {
            Ok(()) => Ok(()),
            Err(fault) => writeln!(self.text, "{fault}"),
        }
    }

    fn add_digits(&mut self, bytes: &[u8]) -> Result<(), AllocError> {
        for byte in bytes {
            write!(self.text, "{byte:02x}")?;
        }
        self.text.push('\n')
    }
}
