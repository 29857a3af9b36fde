//! What a recursive type with a map of itself is written as and read from. The bytes are those of serde's derive.
use crate::recursive::{read, reads, reads_both, refused, writes};
use std::collections::BTreeMap;
use std::test::Fail;
use test_json::Dir;

const DIR: &[u8] =
    b"\x92\x01\x82\xa1a\x92\x02\x81\xa1x\x92\x03\x80\xa2\xc3\xa9\x92\xce\x00\x01\x11p\x80";

const DIR_NAMED: &[u8] =
    b"\x82\xa4size\x01\xa4dirs\x82\xa1a\x82\xa4size\x02\xa4dirs\x81\xa1x\x82\xa4size\x03\xa4dirs\x80\
    \xa2\xc3\xa9\x82\xa4size\xce\x00\x01\x11p\xa4dirs\x80";

#[test]
fn dirs_written(rt: HostRuntime) -> Result<(), Fail> {
    let last = Dir {
        size: 3,
        dirs: BTreeMap::new(rt.alloc()),
    };
    let mut inner = BTreeMap::new(rt.alloc());
    inner.insert('x', last)?;
    let bin = Dir {
        size: 70000,
        dirs: BTreeMap::new(rt.alloc()),
    };
    let mut dirs = BTreeMap::new(rt.alloc());
    dirs.insert('\u{e9}', bin)?;
    let a = Dir {
        size: 2,
        dirs: inner,
    };
    dirs.insert('a', a)?;
    let dir = Dir { size: 1, dirs };
    writes(&rt, rt.alloc(), &dir, false, DIR);
    writes(&rt, rt.alloc(), &dir, true, DIR_NAMED);
    Ok(())
}

#[test]
fn dirs_read(rt: HostRuntime) {
    reads_both::<Dir>(&rt, rt.alloc(), DIR, DIR_NAMED);
    reads::<Dir>(&rt, rt.alloc(), 7, DIR, false, DIR);
    refused::<Dir>(
        &rt,
        rt.alloc(),
        read(rt.alloc(), 6, DIR),
        "depth limit exceeded",
    );
    let turned = b"\x82\xa4dirs\x82\xa1b\x92\x01\x80\xa1a\x92\x02\x80\xa4size\x05";
    let want = b"\x92\x05\x82\xa1a\x92\x02\x80\xa1b\x92\x01\x80";
    reads::<Dir>(&rt, rt.alloc(), 1024, turned, false, want);
    let twice = b"\x92\x01\x82\xa1a\x92\x02\x80\xa1a\x92\x03\x80";
    let later = b"\x92\x01\x81\xa1a\x92\x03\x80";
    reads::<Dir>(&rt, rt.alloc(), 1024, twice, false, later);
    for (input, why) in [
        (b"\x92\x01\xc0".as_slice(), "invalid type"),
        (b"\x92\x01\x81\x05\x92\x01\x80", "invalid type"),
        (b"\x92\x01\x81\xa2de\x92\x01\x80", "invalid value"),
        (b"\x81\xa4size\x01", "missing field"),
        (b"\x92\x01\x90", "invalid type"),
    ] {
        refused::<Dir>(&rt, rt.alloc(), read(rt.alloc(), 1024, input), why);
    }
}
