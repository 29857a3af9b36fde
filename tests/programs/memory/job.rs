//! The jobs, and why one isn't done.
use crate::through::{Reading, Writing};
use std::alloc::{AllocError, AllocFailed};
use std::io;
use thiserror::Error;

/// Why a job wasn't begun, or what came of it couldn't be printed.
#[derive(Clone, Copy, Debug, Error)]
pub enum Fault {
    #[error("the input names no job")]
    NoJob,
    #[error("input or output failed")]
    Io,
    /// Memory was refused before the job began.
    #[error("out of memory")]
    Memory,
}

impl From<io::Error> for Fault {
    fn from(_e: io::Error) -> Fault {
        Fault::Io
    }
}

impl From<AllocError> for Fault {
    fn from(_e: AllocError) -> Fault {
        Fault::Memory
    }
}

impl<T: Drop> From<AllocFailed<T>> for Fault {
    fn from(_e: AllocFailed<T>) -> Fault {
        Fault::Memory
    }
}

/// The type that a message is read as.
#[derive(Clone, Copy)]
pub enum Kind {
    /// A message of any kind.
    Value,
    /// A text that isn't valid UTF-8.
    Raw,
    /// A list of texts, each of which may be missing.
    Options,
    /// Numbers of 128 bits, and of each sign.
    Wide,
    /// Lists of numbers in one another.
    Tree,
    /// A map from texts to texts.
    Texts,
    /// A struct of a text and a number, by their names.
    Dog,
    /// A struct of which two texts are missing, and are copied.
    Proxy,
    /// A message of any kind that has two parts.
    Pair,
    /// The struct in a map with a name that it doesn't have.
    Among,
    /// A queue of texts.
    Queue,
    /// A set of texts.
    Set,
    /// A set of forty numbers.
    LargeSet,
    /// Two texts.
    Array,
    /// Numbers under pointers, under a pointer.
    Boxes,
    /// Bytes, an extension, and a text that may be no UTF-8.
    Buffers,
    /// Variants of an enum, one of which has fields.
    Variants,
    /// Structs in one another, by their names.
    Rose,
    /// Lists of lists in one another.
    Lists,
}

impl Kind {
    // The type that a word names.
    fn named(name: &str) -> Option<Kind> {
        match name {
            "value" => Some(Kind::Value),
            "raw" => Some(Kind::Raw),
            "options" => Some(Kind::Options),
            "wide" => Some(Kind::Wide),
            "tree" => Some(Kind::Tree),
            "texts" => Some(Kind::Texts),
            "dog" => Some(Kind::Dog),
            "proxy" => Some(Kind::Proxy),
            "pair" => Some(Kind::Pair),
            "among" => Some(Kind::Among),
            "queue" => Some(Kind::Queue),
            "set" => Some(Kind::Set),
            "large-set" => Some(Kind::LargeSet),
            "array" => Some(Kind::Array),
            "boxes" => Some(Kind::Boxes),
            "buffers" => Some(Kind::Buffers),
            "variants" => Some(Kind::Variants),
            "rose" => Some(Kind::Rose),
            "lists" => Some(Kind::Lists),
            _ => None,
        }
    }
}

/// What is written that takes memory until it ends, into a vector.
#[derive(Clone, Copy)]
pub enum Kept {
    /// A map of unknown length, with a struct among its values.
    Map,
    /// A pair of bytes and a number, where bytes are made of all that may be bytes.
    Pair,
    /// The same in a list of unknown length.
    List,
}

impl Kept {
    // What a word names.
    fn named(name: &str) -> Option<Kept> {
        match name {
            "write-map" => Some(Kept::Map),
            "write-pair" => Some(Kept::Pair),
            "write-list" => Some(Kept::List),
            _ => None,
        }
    }
}

/// What is to be done, for which nothing has to be made before.
#[derive(Clone, Copy)]
pub enum Task {
    /// A list of maps from texts to lists is read.
    Read,
    /// A list is read that claims 2 ^ 32 - 1 elements and has none.
    ReadClaim,
    /// Lists and maps in one another are passed over.
    Skip,
    /// An empty list is passed over.
    SkipEmpty,
    /// Lists in one another are checked.
    Check,
    /// A value is made, copied, and turned into another type and back.
    Make,
    /// A message is read as a value of the type, and the value is written.
    Again(Kind),
    /// Something is written that takes memory until it ends.
    WriteKept(Kept),
    /// Something is read through a reader.
    ReadThrough(Reading),
    /// Lines are gone through as `mpcanon` does, which checks them, or not.
    Lines(bool),
}

impl Task {
    // The task that a word names.
    fn named(name: &str) -> Option<Task> {
        match name {
            "read" => Some(Task::Read),
            "read-claim" => Some(Task::ReadClaim),
            "skip" => Some(Task::Skip),
            "skip-empty" => Some(Task::SkipEmpty),
            "check" => Some(Task::Check),
            "make" => Some(Task::Make),
            "run-lines" => Some(Task::Lines(false)),
            "check-lines" => Some(Task::Lines(true)),
            _ => Task::with_type(name),
        }
    }

    // The task that a word names together with what is read or written.
    fn with_type(name: &str) -> Option<Task> {
        if let Some(kind) = Kind::named(name) {
            return Some(Task::Again(kind));
        }
        if let Some(kept) = Kept::named(name) {
            return Some(Task::WriteKept(kept));
        }
        Reading::named(name).map(Task::ReadThrough)
    }
}

/// What is to be done.
#[derive(Clone, Copy)]
pub enum Job {
    /// A list of maps of lists and texts is written.
    Write,
    /// Lists and maps of unknown length, in one another, are written, and bytes are made of what may be bytes.
    WriteUnknown,
    /// Something is put into another sink.
    Put(Writing),
    /// A task by itself.
    Alone(Task),
}

impl Job {
    /// The job that a line names, and the number after it.
    pub fn from_line(line: &[u8]) -> Result<(Job, u32), Fault> {
        let Ok(line) = str::from_utf8(line) else {
            return Err(Fault::NoJob);
        };
        let Some((name, count)) = line.trim().split_once(' ') else {
            return Err(Fault::NoJob);
        };
        let Ok(count) = count.parse::<u32>() else {
            return Err(Fault::NoJob);
        };
        match Job::named(name) {
            Some(job) => Ok((job, count)),
            None => Err(Fault::NoJob),
        }
    }

    // The job that a word names.
    fn named(name: &str) -> Option<Job> {
        match name {
            "write" => Some(Job::Write),
            "write-unknown" => Some(Job::WriteUnknown),
            _ => Writing::named(name)
                .map(Job::Put)
                .or_else(|| Task::named(name).map(Job::Alone)),
        }
    }
}
