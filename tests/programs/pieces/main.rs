//! Tells where messages end: `pieces` reads lines of bytes in hex, after which lists of sizes may be.
//!
//! Of a line it prints what `message_len` answers for each beginning of the bytes, a word each: the length, `-` where the message is cut, and
//! `!` where there is none. After each list of sizes, from whose front it begins again at its end, it prints the offset after each message that
//! a scanner ends, where the bytes come in pieces of these sizes, and then `-` or `!`, with the offset of the byte c1. The exit status is 0,
//! or 1 where the input says nothing that can be done, or input or output failed.
#![tactic(auto)]

mod fault;

use fault::Fault;
use rmp_serde::{Scan, Scanner, message_len};
use std::alloc::Global;
use std::fmt::Write;
use std::io::Read;

// How many bytes of a line each beginning of is asked for.
const MOST: usize = 300;

// What `message_len` answers for each beginning.
fn lengths(bytes: &[u8], said: &mut String) -> Result<(), Fault> {
    for n in 0..=bytes.len().min(MOST) {
        match message_len(&bytes[..n]) {
            Ok(Some(len)) => write!(said, " {len}")?,
            Ok(None) => write!(said, " -")?,
            Err(_) => write!(said, " !")?,
        }
    }
    Ok(())
}

// Where a scanner ends messages in a piece that begins at an offset, and whether it goes on.
fn scan_piece(
    scanner: &mut Scanner,
    piece: &[u8],
    start: usize,
    said: &mut String,
) -> Result<bool, Fault> {
    let mut at = 0;
    while at < piece.len() {
        match scanner.scan(&piece[at..]) {
            Ok(Scan::Whole { used }) => {
                at += used;
                write!(said, " {}", start + at)?;
            }
            Ok(Scan::More) => return Ok(true),
            Err(_) => {
                let reserved = scanner.reserved_at().unwrap_or(0);
                write!(said, " !{}", start + at + reserved)?;
                return Ok(false);
            }
        }
    }
    Ok(true)
}

// Where a scanner ends messages that come in pieces of these sizes.
fn scan(alloc: Global, bytes: &[u8], sizes: &str, said: &mut String) -> Result<(), Fault> {
    let mut each = Vec::new(alloc);
    for size in sizes.split(',') {
        let Ok(size) = size.parse::<usize>() else {
            return Err(Fault::NoRow);
        };
        each.push(size)?;
    }
    let mut scanner = Scanner::new();
    let mut start = 0;
    let mut turn = 0;
    while start < bytes.len() {
        let end = (start + each[turn % each.len()]).min(bytes.len());
        if !scan_piece(&mut scanner, &bytes[start..end], start, said)? {
            return Ok(());
        }
        start = end;
        turn += 1;
    }
    write!(said, " -")?;
    Ok(())
}

fn main(rt: HostRuntime) -> Result<(), Fault> {
    let mut input = Vec::new(rt.alloc());
    rt.reader().read_to_end(&mut input)?;
    let Ok(text) = str::from_utf8(input.as_slice()) else {
        return Err(Fault::NoRow);
    };
    for line in text.lines() {
        let mut said = String::new(rt.alloc());
        let (digits, sizes) = line.split_once(' ').unwrap_or((line, ""));
        let Ok(bytes) = hex::decode(rt.alloc(), digits) else {
            return Err(Fault::NoRow);
        };
        lengths(bytes.as_slice(), &mut said)?;
        for list in sizes.split_whitespace() {
            write!(&mut said, " |")?;
            scan(rt.alloc(), bytes.as_slice(), list, &mut said)?;
        }
        println!(rt; "{said}")?;
    }
    Ok(())
}
