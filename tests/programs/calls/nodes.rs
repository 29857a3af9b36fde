//! What recursive types that hold parts of other types, and themselves inside of others, are written as and read from. The bytes are those of
//! serde's derive.
use crate::recursive::{read, reads, reads_both, refused, writes};
use std::alloc::Global;
use std::collections::{BTreeMap, VecDeque};
use std::test::Fail;
use test_nodes::{Doc, Frame, Id, List, Width};

const FRAME: &[u8] =
    b"\x96\x01\x81\xa2Px\x05\xdc\x00\x10\x07\xcc\xc8\x07\x07\x07\x07\x07\x07\x07\x07\x07\x07\x07\x07\x07\x07\
    \x82\xa1a\xce\x00\x01\x11p\xa1b\x02\x81\xa2Px\x01\x91\
    \x96\xcd\x01,\x81\xa2Em\xa12\xdc\x00\x10\x00\x00\x00\x00\x00\x00\x00\x00\x00\x00\x00\x00\x00\x00\x00\x00\x80\xc0\x90";

const FRAME_NAMED: &[u8] =
    b"\x86\xa2id\x01\xa5width\x81\xa2Px\x05\xa4hash\xdc\x00\x10\x07\xcc\xc8\x07\x07\x07\x07\x07\x07\x07\x07\x07\x07\x07\x07\x07\x07\
    \xa6counts\x82\xa1a\xce\x00\x01\x11p\xa1b\x02\xa5least\x81\xa2Px\x01\xa6frames\x91\
    \x86\xa2id\xcd\x01,\xa5width\x81\xa2Em\xa12\xa4hash\xdc\x00\x10\x00\x00\x00\x00\x00\x00\x00\x00\x00\x00\x00\x00\x00\x00\x00\x00\
    \xa6counts\x80\xa5least\xc0\xa6frames\x90";

#[test]
fn frames_written(rt: HostRuntime) -> Result<(), Fail> {
    let inner = Frame {
        id: Id(300),
        width: Width::Em(String::from_str(rt.alloc(), "2")?),
        hash: [0; 16],
        counts: BTreeMap::new(rt.alloc()),
        least: None,
        frames: VecDeque::new(rt.alloc()),
    };
    let mut counts = BTreeMap::new(rt.alloc());
    counts.insert(String::from_str(rt.alloc(), "b")?, 2)?;
    counts.insert(String::from_str(rt.alloc(), "a")?, 70000)?;
    let mut frames = VecDeque::new(rt.alloc());
    frames.push_back(inner)?;
    let frame = Frame {
        id: Id(1),
        width: Width::Px(5),
        hash: [7, 200, 7, 7, 7, 7, 7, 7, 7, 7, 7, 7, 7, 7, 7, 7],
        counts,
        least: Some(Width::Px(1)),
        frames,
    };
    writes(&rt, rt.alloc(), &frame, false, FRAME);
    writes(&rt, rt.alloc(), &frame, true, FRAME_NAMED);
    Ok(())
}

#[test]
fn frames_read(rt: HostRuntime) {
    reads_both::<Frame>(&rt, rt.alloc(), FRAME, FRAME_NAMED);
    reads::<Frame>(&rt, rt.alloc(), 5, FRAME, false, FRAME);
    refused::<Frame>(
        &rt,
        rt.alloc(),
        read(rt.alloc(), 4, FRAME),
        "depth limit exceeded",
    );
    for (input, why) in [
        (b"\x80".as_slice(), "missing field"),
        (b"\x81\xa2id\xc0", "invalid type"),
        (b"\x81\xa5width\x81\xa2Pt\x05", "unknown variant"),
        (b"\x81\xa4hash\x91\x07", "invalid length"),
        (b"\x81\xa6counts\x81\x01\x01", "invalid type"),
        (b"\x82\xa2id\x01\xa2id\x01", "duplicate field"),
    ] {
        refused::<Frame>(&rt, rt.alloc(), read(rt.alloc(), 1024, input), why);
    }
}

const DOC: &[u8] =
    b"\x81\xa6Object\x92\x92\xa1z\x81\xa5Array\x92\xa4Null\x81\xa4Wide\x81\xa2Em\xa1x\x92\xa1a\x81\xa6Framed\x92\x09\x81\xa6Object\x90";

const DOC_NAMED: &[u8] =
    b"\x81\xa6Object\x92\x92\xa1z\x81\xa5Array\x92\xa4Null\x81\xa4Wide\x81\xa2Em\xa1x\
    \x92\xa1a\x81\xa6Framed\x82\xa2id\x09\xa3doc\x81\xa6Object\x90";

// The keys of an object stay in their order, also one that is there twice.
const TWICE: &[u8] = b"\x81\xa6Object\x92\x92\xa1b\xa4Null\x92\xa1b\x81\xa5Array\x90";

#[test]
fn docs_written(rt: HostRuntime) -> Result<(), Fail> {
    let wide = Doc::Wide(Width::Em(String::from_str(rt.alloc(), "x")?));
    let first = Doc::Array(vec![in rt.alloc(); Doc::Null, wide]?);
    let empty = Box::new(rt.alloc(), Doc::Object(Vec::new(rt.alloc())))?;
    let second = Doc::Framed {
        id: Id(9),
        doc: empty,
    };
    let mut pairs = Vec::new(rt.alloc());
    pairs.push((String::from_str(rt.alloc(), "z")?, first))?;
    pairs.push((String::from_str(rt.alloc(), "a")?, second))?;
    let doc = Doc::Object(pairs);
    writes(&rt, rt.alloc(), &doc, false, DOC);
    writes(&rt, rt.alloc(), &doc, true, DOC_NAMED);
    Ok(())
}

#[test]
fn docs_read(rt: HostRuntime) {
    reads_both::<Doc>(&rt, rt.alloc(), DOC, DOC_NAMED);
    reads::<Doc>(&rt, rt.alloc(), 8, DOC, false, DOC);
    refused::<Doc>(
        &rt,
        rt.alloc(),
        read(rt.alloc(), 7, DOC),
        "depth limit exceeded",
    );
    reads::<Doc>(&rt, rt.alloc(), 1024, TWICE, false, TWICE);
    for (input, why) in [
        (
            b"\x81\xa6Object\x81\xa1a\xa4Null".as_slice(),
            "invalid type",
        ),
        (b"\x81\xa6Object\x91\x91\xa1a", "invalid length"),
        (b"\x81\xa6Object\x91\x92\x01\xa4Null", "invalid type"),
        (b"\x81\xa6Framed\x81\xa2id\x01", "missing field"),
        (b"\xa6Unfold", "unknown variant"),
    ] {
        refused::<Doc>(&rt, rt.alloc(), read(rt.alloc(), 1024, input), why);
    }
}

// A list whose fields hold one other list, a list of one, and places of which the second holds one.
const LIST: &[u8] =
    b"\x94\x03\x94\x01\xc0\xc0\x90\x91\x94\x02\xc0\x90\x91\xc0\x93\xc0\x94\x01\xc0\xc0\x90\xc0";

const LIST_NAMED: &[u8] =
    b"\x84\xa5times\x03\xa4next\x84\xa5times\x01\xa4next\xc0\xa5below\xc0\xa6places\x90\
    \xa5below\x91\x84\xa5times\x02\xa4next\xc0\xa5below\x90\xa6places\x91\xc0\
    \xa6places\x93\xc0\x84\xa5times\x01\xa4next\xc0\xa5below\xc0\xa6places\x90\xc0";

fn empty(alloc: Global) -> List {
    List {
        times: 1,
        next: None,
        below: None,
        places: Vec::new(alloc),
    }
}

#[test]
fn lists_written(rt: HostRuntime) -> Result<(), Fail> {
    let mut inner = empty(rt.alloc());
    inner.times = 2;
    inner.below = Some(Vec::new(rt.alloc()));
    inner.places.push(None)?;
    let mut list = empty(rt.alloc());
    list.times = 3;
    list.next = Some(Box::new(rt.alloc(), empty(rt.alloc()))?);
    list.below = Some(vec![in rt.alloc(); inner]?);
    list.places.push(None)?;
    list.places
        .push(Some(Box::new(rt.alloc(), empty(rt.alloc()))?))?;
    list.places.push(None)?;
    writes(&rt, rt.alloc(), &list, false, LIST);
    writes(&rt, rt.alloc(), &list, true, LIST_NAMED);
    Ok(())
}

#[test]
fn lists_read(rt: HostRuntime) {
    reads_both::<List>(&rt, rt.alloc(), LIST, LIST_NAMED);
    reads::<List>(&rt, rt.alloc(), 5, LIST, false, LIST);
    refused::<List>(
        &rt,
        rt.alloc(),
        read(rt.alloc(), 4, LIST),
        "depth limit exceeded",
    );
    // what a map may leave out
    let short = b"\x81\xa6places\x90";
    reads::<List>(&rt, rt.alloc(), 1024, short, false, b"\x94\x01\xc0\xc0\x90");
}

#[test]
fn lists_refused(rt: HostRuntime) {
    for (input, why) in [
        (
            b"".as_slice(),
            "IO error while reading marker: unexpected end of file",
        ),
        (b"\x80", "missing field"),
        (b"\x93\x01\xc0\xc0", "invalid length"),
        (b"\x81\xa5times\xc0", "invalid type"),
        (b"\x81\xa5times\xce\x00\x01\x00\x00", "invalid value"),
        (b"\x82\xa5times\x01\xa5times\x01", "duplicate field"),
        (b"\x81\xa4next\xc3", "invalid type"),
        (b"\x81\xa5below\x91\xc0", "invalid type"),
        (b"\x81\xa6places\xc0", "invalid type"),
        (b"\x81\xa6places\x91\x91\x01", "invalid length"),
    ] {
        refused::<List>(&rt, rt.alloc(), read(rt.alloc(), 1024, input), why);
    }
}
