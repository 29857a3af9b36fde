//! Reads rows of what other implementations wrote, and says what it reads: `interop` reads a kind and a message in hex a line.
//!
//! Of a `float` it prints the bits of the double, of a `time` its seconds and nanoseconds, of a `record` those of its fields, and of what is
//! refused `refused`; then ` | ` and the message that this library writes of the value, in hex. The exit status is 0, or 1 where a line is no
//! row, or input or output failed.
#![tactic(auto)]

use rmp_serde::encode::{Serialize, to_vec_named};
use rmp_serde::{Float64, Timestamp, from_slice};
use std::alloc::Global;
use std::fmt::Write;
use std::io;
use std::io::{ErrorKind, Read};
use test_sent::Reading;

// The error of a line that is no row, and of what can't be written.
fn invalid<E: Drop>(_: E) -> io::Error {
    ErrorKind::InvalidData.into()
}

// Appends the message of a value, in hex.
fn tell<T: Serialize>(alloc: Global, value: &T, said: &mut String) -> io::Result<()> {
    let bytes = to_vec_named(alloc, value).map_err(invalid)?;
    write!(said, " | ").map_err(invalid)?;
    for byte in bytes.as_slice() {
        write!(said, "{byte:02x}").map_err(invalid)?;
    }
    Ok(())
}

// What a message is read as.
fn told(alloc: Global, kind: &str, message: &[u8]) -> io::Result<String> {
    let mut said = String::new(alloc);
    match kind {
        "float" => match from_slice::<Float64>(alloc, message) {
            Ok(float) => {
                write!(said, "{:016x}", float.bits).map_err(invalid)?;
                tell(alloc, &float, &mut said)?;
            }
            Err(_) => write!(said, "refused").map_err(invalid)?,
        },
        "time" => match from_slice::<Timestamp>(alloc, message) {
            Ok(time) => {
                write!(said, "{} {}", time.seconds, time.nanoseconds).map_err(invalid)?;
                tell(alloc, &time, &mut said)?;
            }
            Err(_) => write!(said, "refused").map_err(invalid)?,
        },
        _ => match from_slice::<Reading>(alloc, message) {
            Ok(it) => {
                let (at, bits) = (it.at, it.load.bits);
                write!(
                    said,
                    "{} {bits:016x} {} {}",
                    it.name, at.seconds, at.nanoseconds
                )
                .map_err(invalid)?;
                tell(alloc, &it, &mut said)?;
            }
            Err(_) => write!(said, "refused").map_err(invalid)?,
        },
    }
    Ok(said)
}

fn main(rt: HostRuntime) -> io::Result<()> {
    let alloc = rt.alloc();
    let mut input = Vec::new(alloc);
    rt.reader().read_to_end(&mut input)?;
    let Ok(rows) = str::from_utf8(input.as_slice()) else {
        return Err(ErrorKind::InvalidData.into());
    };
    for row in rows.lines() {
        let Some((kind, digits)) = row.split_once(' ') else {
            return Err(ErrorKind::InvalidData.into());
        };
        let message = hex::decode(alloc, digits).map_err(invalid)?;
        let said = told(alloc, kind, message.as_slice())?;
        println!(rt; "{said}")?;
    }
    Ok(())
}
