//! Two versions of a record in one file: each version of the program reads what the other wrote.
//!
//! `First` is a place and a level. `Second` has them in another order, and a note that may be missing.
#![tactic(auto)]

use rmp_serde::Deserializer;
use rmp_serde::encode::to_vec_named;
use std::alloc::Global;
use std::io::ErrorKind;
use std::{fs, io};
use test_derived::{First, Second};

// The error of a record that can't be written or read.
fn invalid<E: Drop>(_: E) -> io::Error {
    ErrorKind::InvalidData.into()
}

// Writes records of the older program, and then one of the newer.
fn write(rt: &HostRuntime, alloc: Global) -> io::Result<()> {
    let older = First {
        place: String::from_str(alloc, "weir")?,
        level: 310,
    };
    let newer = Second {
        level: 295,
        note: Some(String::from_str(alloc, "ice")?),
        place: String::from_str(alloc, "bridge")?,
    };
    let mut log = to_vec_named(alloc, &older).map_err(invalid)?;
    log.extend_from_slice(to_vec_named(alloc, &newer).map_err(invalid)?.as_slice())?;
    fs::write(rt, "levels", log.as_slice())
}

fn main(rt: HostRuntime) -> io::Result<()> {
    let alloc = rt.alloc();
    write(&rt, alloc)?;
    let log = fs::read(&rt, "levels")?;
    let mut de = Deserializer::from_read_ref(alloc, log.as_slice());
    while let Some(record) = de.next::<First>().map_err(invalid)? {
        println!(rt; "first: {} {}", record.place, record.level)?;
    }
    let mut de = Deserializer::from_read_ref(alloc, log.as_slice());
    while let Some(record) = de.next::<Second>().map_err(invalid)? {
        let note = match &record.note {
            Some(note) => note.as_str(),
            None => "no note",
        };
        println!(rt; "second: {} {}, {}", record.place, record.level, note)?;
    }
    fs::remove_file(&rt, "levels")
}
