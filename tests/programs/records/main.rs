//! Keeps a log of records in the file `log`: appends some, loses the end of the last, and goes on after the last whole one.
//!
//! Each time the file was read it prints its records, a line each, and how many bytes follow the last whole one.
#![tactic(auto)]

use example_records::{Records, replay};
use rmp_serde::Value;
use std::alloc::Global;
use std::io::ErrorKind;
use std::{fs, io};

// Appends a record with this encoding.
fn append(records: &mut Records, alloc: Global, message: &[u8]) -> io::Result<()> {
    let Ok(entry) = Value::from_slice(alloc, message) else {
        return Err(ErrorKind::InvalidData.into());
    };
    match records.append(alloc, &entry) {
        Ok(()) => Ok(()),
        Err(_) => Err(ErrorKind::OutOfMemory.into()),
    }
}

// Reads the records of the file, prints them, and returns them.
fn replay_file(rt: &HostRuntime) -> io::Result<Records> {
    let alloc = rt.alloc();
    let log = fs::read(rt, "log")?;
    let Ok((entries, rest)) = replay(alloc, log.as_slice()) else {
        return Err(ErrorKind::OutOfMemory.into());
    };
    let mut records = Records::new(alloc);
    for entry in &entries {
        println!(rt; "{entry:?}")?;
        if records.append(alloc, entry).is_err() {
            return Err(ErrorKind::OutOfMemory.into());
        }
    }
    println!(rt; "{} bytes of a cut record", rest.len())?;
    Ok(records)
}

fn main(rt: HostRuntime) -> io::Result<()> {
    let alloc = rt.alloc();
    let mut records = Records::new(alloc);
    append(&mut records, alloc, b"\x92\x2a\xa2it")?;
    append(&mut records, alloc, b"\xcd\x01\x2c")?;
    append(&mut records, alloc, b"\x92\x2b\xa3ten")?;
    let whole = records.as_slice();
    let cut = whole.get(..12).unwrap_or(whole);
    fs::write(&rt, "log", cut)?;
    let mut records = replay_file(&rt)?;
    append(&mut records, alloc, b"\xc3")?;
    fs::write(&rt, "log", records.as_slice())?;
    replay_file(&rt)?;
    fs::remove_file(&rt, "log")
}
