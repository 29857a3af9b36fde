//! `samples` writes the values of the stored samples, each in its setting, and reads bytes as values of the types there.
//!
//! Standard input says what is done. Of `write` it prints a line for each value that it writes: its type, the value and the
//! setting as the sample names them, and the bytes in hex. After `read N` each line has a type, after which `@` and a number
//! may be, how deep values nest at most, and bytes in hex; it prints what they are read as, from a slice and from a reader,
//! which took so many bytes. Each of the first N pulls is failed in turn. Where one way to write or to read has another answer,
//! the line says so in place of the answer. The exit status is 0, or 1 where the input says nothing that can be done, or input
//! or output failed.
#![tactic(auto)]

mod answer;
mod by_hand;
mod fault;
mod form;
mod given;
mod ignored;
mod kinds;
mod puts;
mod row;
mod rows;
mod taker;
mod types;

use answer::{Answer, How, row};
use fault::Fault;
use row::Rows;
use std::alloc::Global;
use std::io::Read;

// The place of the type of a line, which most often is that of the line before.
fn place<'a>(kind: &'a str, last: &mut (&'a str, usize)) -> Result<usize, Fault> {
    if kind != last.0 {
        let Some(at) = kinds::place(kind) else {
            return Err(Fault::NoType);
        };
        *last = (kind, at);
    }
    Ok(last.1)
}

// Reads the bytes of a line as its type.
fn answered<'a>(
    alloc: Global,
    line: &'a str,
    pulls: usize,
    last: &mut (&'a str, usize),
) -> Result<Answer, Fault> {
    let Some((kind, digits)) = line.split_once(" | ") else {
        return Err(Fault::NoRow);
    };
    let Ok(bytes) = hex::decode(alloc, digits) else {
        return Err(Fault::NoRow);
    };
    let (kind, depth) = match kind.split_once('@') {
        Some((kind, depth)) => (kind, depth.parse::<usize>().ok()),
        None => (kind, None),
    };
    let kind = place(kind, last)?;
    row(alloc, bytes.as_slice(), How { kind, depth, pulls })
}

fn main(rt: HostRuntime) -> Result<(), Fault> {
    let mut input = Vec::new(rt.alloc());
    rt.reader().read_to_end(&mut input)?;
    let Ok(text) = str::from_utf8(input.as_slice()) else {
        return Err(Fault::NoRow);
    };
    let Some((first, lines)) = text.split_once('\n') else {
        return Err(Fault::NoRow);
    };
    if first == "write" {
        let mut rows = Rows::new(rt.alloc());
        rows::all(rt.alloc(), &mut rows)?;
        rt.print(rows.text())?;
        return Ok(());
    }
    let Some(Ok(pulls)) = first.strip_prefix("read ").map(|n| n.parse::<usize>()) else {
        return Err(Fault::NoRow);
    };
    let mut last = ("", 0);
    for line in lines.lines() {
        match answered(rt.alloc(), line, pulls, &mut last) {
            Ok(answer) => println!(rt; "{} | {}", answer.slice, answer.reader)?,
            Err(fault) => println!(rt; "{fault}")?,
        }
    }
    Ok(())
}
