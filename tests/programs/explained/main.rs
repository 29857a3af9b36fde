//! Says where in a message a refusal is: `explained` reads lines of a request and bytes in hex.
//!
//! Of `read HEX` it prints the text of the error that `from_slice_explained` returns for a record, the name that it is about, the place
//! and the path of the refused part and the line, with ` | ` between, or `read`. Of `path HEX` it prints what `path_at` returns for each offset up to the end, after a space each: the
//! offset where the message begins, where the part begins, and the path, with `:` between, or `=` where that is as before. Of one of more than
//! 400 bytes it prints how many, and the last 40. The exit status is 0, or 1 where the input says
//! nothing that can be done, or input or output failed.
#![tactic(auto)]

mod fault;
mod record;

use fault::Fault;
use record::Record;
use rmp_serde::{from_slice_explained, path_at};
use std::alloc::Global;
use std::fmt::Write;
use std::io::Read;

// What a read of a record comes to.
fn read(alloc: Global, bytes: &[u8], said: &mut String) -> Result<(), Fault> {
    let refused = match from_slice_explained::<Record>(alloc, bytes) {
        Ok(_) => return Ok(write!(said, "read")?),
        Err(refused) => refused,
    };
    let name = refused.name().unwrap_or("");
    write!(said, "{} | {name}", refused.error())?;
    match refused.path() {
        Some(path) => write!(said, " | {} | {path}", path.place())?,
        None => write!(said, " | no path")?,
    }
    Ok(write!(said, " | {refused}")?)
}

// The part that each offset is in.
fn paths(alloc: Global, bytes: &[u8], said: &mut String) -> Result<(), Fault> {
    let mut before = String::new(alloc);
    for offset in 0..=bytes.len() {
        let path = path_at(alloc, bytes, offset)?;
        let here = format!(in alloc; "{}:{}:{path}", path.message(), path.place())?;
        if here.as_str() == before.as_str() {
            write!(said, " =")?;
        } else if here.len() > 400 {
            let last = here.as_str().get(here.len().saturating_sub(40)..);
            write!(said, " {}:{}", here.len(), last.unwrap_or(""))?;
        } else {
            write!(said, " {here}")?;
        }
        before = here;
    }
    Ok(())
}

fn main(rt: HostRuntime) -> Result<(), Fault> {
    let mut input = Vec::new(rt.alloc());
    rt.reader().read_to_end(&mut input)?;
    let Ok(text) = str::from_utf8(input.as_slice()) else {
        return Err(Fault::NoRow);
    };
    for line in text.lines() {
        let mut said = String::new(rt.alloc());
        let (request, digits) = line.split_once(' ').unwrap_or((line, ""));
        let Ok(bytes) = hex::decode(rt.alloc(), digits) else {
            return Err(Fault::NoRow);
        };
        match request {
            "read" => read(rt.alloc(), bytes.as_slice(), &mut said)?,
            "path" => paths(rt.alloc(), bytes.as_slice(), &mut said)?,
            _ => return Err(Fault::NoRow),
        }
        println!(rt; "{said}")?;
    }
    Ok(())
}
